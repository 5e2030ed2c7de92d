//! A small change in a grammar, which may or may not change its number.

use super::some_bytes;
use crate::expr::{Expr, Grammar};
use crate::rng::Rng;

/// Changes one node, chosen at random. The number of nodes stays.
pub fn change_one_node(rng: &mut Rng, grammar: &mut Grammar) {
    let rules = grammar.rules.len();
    let body = &mut grammar.rules[rng.below(rules)];
    let place = rng.below(body.nodes());
    let node = node_at(body, place);
    let old = std::mem::replace(node, Expr::Empty);
    *node = changed(rng, old, rules);
}

/// The node at a place of the tree, counted in preorder from 0.
fn node_at(expr: &mut Expr, place: usize) -> &mut Expr {
    if place == 0 {
        return expr;
    }
    match expr {
        Expr::Star(a) | Expr::Not(a) => node_at(a, place - 1),
        Expr::Then(a, b) | Expr::Else(a, b) => {
            let before_b = 1 + a.nodes();
            if place < before_b {
                node_at(a, place - 1)
            } else {
                node_at(b, place - before_b)
            }
        }
        _ => unreachable!("a leaf has one place"),
    }
}

fn changed(rng: &mut Rng, old: Expr, rules: usize) -> Expr {
    let swap = rng.one_in(2);
    match old {
        Expr::Then(a, b) if swap => Expr::Then(b, a),
        Expr::Else(a, b) if swap => Expr::Else(b, a),
        Expr::Then(a, b) => Expr::Else(a, b),
        Expr::Else(a, b) => Expr::Then(a, b),
        Expr::Star(a) => Expr::Not(a),
        Expr::Not(a) => Expr::Star(a),
        _ => match rng.below(3) {
            0 => Expr::Empty,
            1 => some_bytes(rng),
            _ => Expr::Call(rng.below(rules) as u8),
        },
    }
}
