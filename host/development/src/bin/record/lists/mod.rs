//! The recorded lists.

mod accented;
mod deep;
mod drawn;
mod folded;
mod listed;
mod marked;
mod refused;
mod typed;

use crate::line::Line;
use bannelgo_development::calls::Call;
use bannelgo_development::expr::Grammar;
use bannelgo_development::numbering::{image_of, Numbering};

pub fn all() -> Vec<Line> {
    let parts: [fn() -> Vec<Line>; 21] = [
        marked::before_anything,
        marked::digits,
        marked::tempting,
        refused::refused_calls,
        refused::refused_images,
        refused::bad_lines,
        deep::brackets,
        deep::deep,
        typed::typed,
        folded::unit,
        folded::from_capital_z_to_small_a,
        folded::refused_images,
        accented::name,
        accented::typed_by_bytes,
        accented::unlawful,
        drawn::drawn,
        listed::digits,
        listed::refused,
        listed::rows_of_calls,
        listed::many,
        drawn::drawn_with_listings,
    ];
    parts.iter().flat_map(|part| part()).collect()
}

fn comment(words: &'static str) -> Line {
    Line::Comment(words)
}

fn image(image: &[u8]) -> Line {
    Line::Image(image.to_vec())
}

/// A buffer of `cap` bytes and just the table that it needs.
fn lend(rules: usize, cap: usize) -> Line {
    let words = rules * (cap + 1);
    Line::Lend { cap, words }
}

fn open(text: &[u8]) -> Line {
    Line::Open(text.to_vec())
}

fn edit(start: usize, end: usize, replacement: impl AsRef<[u8]>) -> Line {
    Line::Call(Call::Edit {
        start,
        end,
        replacement: replacement.as_ref().to_vec(),
    })
}

fn look(rule: usize, position: usize) -> Line {
    Line::Call(Call::LookUp { rule, position })
}

fn read() -> Line {
    Line::Call(Call::Read)
}

fn list(slots: usize) -> Line {
    Line::Call(Call::List { slots })
}

/// The first lines of a session over a grammar.
fn session(grammar: &Grammar, cap: usize, text: &[u8]) -> Vec<Line> {
    vec![
        image(&image_of(grammar, Numbering::Preorder)),
        lend(grammar.rules.len(), cap),
        open(text),
    ]
}
