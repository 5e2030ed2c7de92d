//! Where the typed line stopped matching while the slip stood in it.

use crate::keys::Key;
use crate::layout::{heading, mark_under, numbered};
use crate::typing::{Step, BACKSPACE};
use crate::Shown;
use std::io::Write;

pub fn show(out: &mut impl Write, keys: &[Key]) -> Shown {
    let step = slip(keys).expect("the typed line has a slip");
    let reached = step.read.reading.reached(&step.text);
    let text = String::from_utf8_lossy(&step.text);
    let line = text.lines().nth(reached.line - 1).unwrap_or("");
    let before: String = line.chars().take(reached.column - 1).collect();
    let there: String = line.chars().skip(reached.column - 1).take(1).collect();
    heading(out, "Where a typed line stopped matching")?;
    writeln!(
        out,
        "While a line is only unfinished, the reading stops behind its last byte. With\n\
         the slip in it, the reading stops at the slip:\n"
    )?;
    writeln!(out, "{}", numbered(reached.line, line))?;
    writeln!(out, "{}", mark_under(reached.column))?;
    writeln!(
        out,
        "\nThe reading stopped at {reached}: after \"{before}\" it cannot go on with \"{there}\"."
    )?;
    Ok(())
}

/// The key that is taken back.
fn slip(keys: &[Key]) -> Option<&Step> {
    let taken_back = keys
        .iter()
        .position(|key| key.step.stroke.key == BACKSPACE)?;
    let slip = keys.get(taken_back.checked_sub(1)?)?;
    Some(&slip.step)
}
