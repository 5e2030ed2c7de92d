//! Grammars without any care for the questions 6 and 7.

use super::{shares, some_bytes};
use crate::expr::{not, or_else, star, then, Expr, Grammar};
use crate::rng::Rng;

/// How often each kind is chosen, as parts of the sum.
pub struct Taste {
    /// Empty, bytes, call.
    leaves: [usize; 3],
    /// Then, else, star, not.
    inner: [usize; 4],
}

/// Even; without stars; many calls; many bytes; many nots; few ways to match nothing long.
pub const TASTES: [Taste; 6] = [
    Taste {
        leaves: [1, 2, 2],
        inner: [2, 2, 1, 1],
    },
    Taste {
        leaves: [1, 3, 2],
        inner: [3, 3, 0, 1],
    },
    Taste {
        leaves: [1, 1, 6],
        inner: [3, 3, 1, 1],
    },
    Taste {
        leaves: [1, 12, 1],
        inner: [6, 4, 1, 0],
    },
    Taste {
        leaves: [1, 2, 2],
        inner: [1, 1, 0, 5],
    },
    Taste {
        leaves: [0, 8, 1],
        inner: [8, 4, 0, 0],
    },
];

/// Any grammar with exactly this many rules and nodes.
pub fn wild(rng: &mut Rng, rules: usize, nodes: usize, taste: &Taste) -> Grammar {
    let shares = shares(rng, rules, nodes);
    let bodies = shares.iter().map(|&share| tree(rng, share, rules, taste));
    let bodies = bodies.collect();
    Grammar {
        start: rng.below(rules) as u8,
        rules: bodies,
    }
}

/// A place in `weights`, each as often as its weight says.
fn weighted(rng: &mut Rng, weights: &[usize]) -> usize {
    let mut left = rng.below(weights.iter().sum());
    for (place, &weight) in weights.iter().enumerate() {
        if left < weight {
            return place;
        }
        left -= weight;
    }
    unreachable!("the draw is below the sum of the weights")
}

fn tree(rng: &mut Rng, nodes: usize, rules: usize, taste: &Taste) -> Expr {
    if nodes == 1 {
        return match weighted(rng, &taste.leaves) {
            0 => Expr::Empty,
            1 => some_bytes(rng),
            _ => Expr::Call(rng.below(rules) as u8),
        };
    }
    let chosen = weighted(rng, &taste.inner);
    if nodes == 2 || chosen >= 2 {
        let body = tree(rng, nodes - 1, rules, taste);
        return if chosen == 2 { star(body) } else { not(body) };
    }
    let left = rng.between(1, nodes - 2);
    let a = tree(rng, left, rules, taste);
    let b = tree(rng, nodes - 1 - left, rules, taste);
    if chosen == 0 {
        then(a, b)
    } else {
        or_else(a, b)
    }
}
