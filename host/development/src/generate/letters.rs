//! Grammars and texts over the letters a, b and c, in which many parts match the same bytes. One of four
//! letters is a capital.

use crate::expr::{Expr, Grammar};
use crate::rng::Rng;

const LETTERS: u8 = 3;

/// The bit in which a letter and its other case differ. A byte that is no letter has no other case.
pub const CASE: u8 = 0x20;

/// One of the letters.
pub fn letter(rng: &mut Rng) -> u8 {
    let first = if rng.one_in(4) { b'A' } else { b'a' };
    first + rng.below(usize::from(LETTERS)) as u8
}

/// So many letters, each drawn.
pub fn some_letters(rng: &mut Rng, count: usize) -> Vec<u8> {
    (0..count).map(|_| letter(rng)).collect()
}

/// Makes every range of bytes in a grammar a range between letters, with its fold bit if it has one.
pub fn to_letters(grammar: &mut Grammar) {
    grammar.change_leaves(|leaf| {
        if let Expr::Bytes(low, high) | Expr::Folded(low, high) = leaf {
            let (one, other) = (to_letter(*low), to_letter(*high));
            (*low, *high) = (one.min(other), one.max(other));
        }
    });
}

/// A capital stays one, and so does a small letter.
fn to_letter(byte: u8) -> u8 {
    let first = if byte & 0x60 == 0x40 { b'A' } else { b'a' };
    first + byte % LETTERS
}
