//! Accepted grammars as big as an image allows, for the benchmark and the comparison tests.

use crate::expr::{byte, not, or_else, sequence, star, then, Expr, Grammar};

/// The number of nodes in each rule of `relay` and `blocks`.
pub const NODES_PER_RULE: usize = 16;

/// A chain of `rules` rules, at least 3, in which rule i calls rule i + 1 and has its outcomes.
///
/// The outcomes pass along the chain one after the other: f first; it gives rule 0 outcome 0, and
/// by that the last rule outcome 1; when 1 reaches rule 0 it gives f there, and by that the last
/// rule outcome 0, which passes along the chain too. Where a round carries an outcome from one rule
/// to the rule before it, about 3 × `rules` rounds are needed.
pub fn relay(rules: usize) -> Grammar {
    let last = rules - 1;
    let bodies = (0..rules).map(|rule| match rule {
        0 => not(Expr::Call(1)),
        _ if rule == last => last_of_relay(),
        _ => Expr::Call(rule as u8 + 1),
    });
    Grammar {
        start: 0,
        rules: bodies.map(padded).collect(),
    }
}

/// Has f; has 1 if rule 0 has 0 or 1; has 0 if rule 0 has f. It calls rule 0 only behind any.
fn last_of_relay() -> Expr {
    let one = then(Expr::Any, Expr::Call(0));
    let zero = not(not(then(Expr::Any, not(Expr::Call(0)))));
    or_else(one, zero)
}

/// Puts neutral nodes around an expression, which keeps its outcomes, until it has 16 nodes.
fn padded(mut expr: Expr) -> Expr {
    let mut missing = NODES_PER_RULE - expr.nodes();
    while missing > 0 {
        (expr, missing) = match missing % 4 {
            1 | 3 => (or_else(expr, not(Expr::Empty)), missing - 3),
            2 => (then(expr, Expr::Empty), missing - 2),
            _ => (then(Expr::Empty, expr), missing - 2),
        };
    }
    expr
}

/// 64 rules of 16 nodes, with sequences, choices, stars and calls of near and far rules.
pub fn blocks() -> Grammar {
    let call = |rule: usize| Expr::Call((rule % 64) as u8);
    let bodies = (0..64).map(|rule: usize| {
        let low = rule as u8;
        let item = or_else(
            Expr::Bytes(low, low + 64),
            then(byte(low + 65), call(rule * 7 + 3)),
        );
        let tail = or_else(
            then(byte(low + 66), call(rule * 5 + 1)),
            then(call(rule + 1), Expr::Bytes(low, low + 9)),
        );
        sequence([Expr::Bytes(low, low + 1), star(item), tail])
    });
    Grammar {
        start: 0,
        rules: bodies.collect(),
    }
}
