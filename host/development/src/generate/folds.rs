//! Ranges with the fold bit.

use super::letters::CASE;
use crate::expr::{Expr, Grammar};
use crate::rng::Rng;

/// A byte or a range with the fold bit; most begin or end at a letter or beside one.
pub fn some_folded(rng: &mut Rng) -> Expr {
    let (one, other) = (near_letters(rng), near_letters(rng));
    match rng.below(2) {
        0 => Expr::Folded(one, one),
        _ => Expr::Folded(one.min(other), one.max(other)),
    }
}

/// Any byte, or one from '@' to '[' or from '`' to '{'.
fn near_letters(rng: &mut Rng) -> u8 {
    let case = *rng.pick(&[0, CASE]);
    match rng.below(4) {
        0 => rng.byte(),
        _ => case | rng.between(usize::from(b'@'), usize::from(b'[')) as u8,
    }
}

/// Gives every second range of a grammar the fold bit, by draw.
pub fn fold_some(rng: &mut Rng, grammar: &mut Grammar) {
    grammar.change_leaves(|leaf| {
        if let (Expr::Bytes(low, high), true) = (&leaf, rng.one_in(2)) {
            *leaf = Expr::Folded(*low, *high);
        }
    });
}
