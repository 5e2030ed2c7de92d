//! Grammars with rules that examine nothing.

use crate::expr::{not, or_else, then, Expr, Grammar};
use crate::rng::Rng;

/// Puts calls of rules that examine nothing around some of the bytes, whose outcomes stay.
pub fn add_empty_rules(rng: &mut Rng, grammar: &mut Grammar) {
    let matches = grammar.rules.len() as u8;
    let (fails, matches_too) = (matches + 1, matches + 2);
    grammar.change_leaves(|leaf| surround(rng, leaf, matches, fails));
    grammar.rules.extend([
        Expr::Empty,
        not(Expr::Call(matches)),
        not(Expr::Call(fails)),
    ]);
    let start = &mut grammar.rules[usize::from(grammar.start)];
    let body = std::mem::replace(start, Expr::Empty);
    *start = then(Expr::Call(matches_too), body);
}

fn surround(rng: &mut Rng, expr: &mut Expr, matches: u8, fails: u8) {
    if let Expr::Empty | Expr::Call(_) = expr {
        return;
    }
    let byte = expr.clone();
    *expr = match rng.below(5) {
        0 => then(Expr::Call(matches), byte),
        1 => then(byte, Expr::Call(matches)),
        2 => or_else(Expr::Call(fails), byte),
        _ => byte,
    };
}
