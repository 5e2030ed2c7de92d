//! Grammars that pass the questions 6 and 7 by the way they are made.
//!
//! Each rule has a rank, and some rules never match nothing long. A call at the head of a body, where
//! nothing need be consumed before it, is of a rule of higher rank. After a part that consumes, any
//! rule may be called. The body of a star never matches nothing long.

use super::{shares, some_bytes};
use crate::expr::{not, or_else, star, then, Expr, Grammar};
use crate::rng::Rng;

/// A grammar with exactly this many rules and nodes that the image check accepts.
pub fn guarded(rng: &mut Rng, rules: usize, nodes: usize) -> Grammar {
    let mut rank: Vec<usize> = (0..rules).collect();
    for place in (1..rules).rev() {
        rank.swap(place, rng.below(place + 1));
    }
    let consuming: Vec<bool> = (0..rules).map(|_| rng.one_in(2)).collect();
    let shares = shares(rng, rules, nodes);
    let mut bodies = vec![];
    for (rule, &share) in shares.iter().enumerate() {
        let mut writer = Writer {
            rng,
            rank: &rank,
            consuming: &consuming,
            rule,
        };
        bodies.push(if consuming[rule] {
            writer.consuming(share, true)
        } else {
            writer.free(share, true)
        });
    }
    Grammar {
        start: rng.below(rules) as u8,
        rules: bodies,
    }
}

/// Makes the rule with the most nodes the start rule; many of the others are a single leaf.
pub fn start_with_the_biggest(grammar: &mut Grammar) {
    let rules = 0..grammar.rules.len();
    let biggest = rules.max_by_key(|&rule| grammar.rules[rule].nodes());
    grammar.start = biggest.expect("a grammar has a rule") as u8;
}

/// Writes the body of one rule.
struct Writer<'a> {
    rng: &'a mut Rng,
    rank: &'a [usize],
    consuming: &'a [bool],
    rule: usize,
}

impl Writer<'_> {
    /// A call that is allowed here, or bytes where no drawn rule is.
    fn call(&mut self, head: bool, must_consume: bool) -> Expr {
        for _ in 0..4 {
            let rule = self.rng.below(self.rank.len());
            let above = self.rank[rule] > self.rank[self.rule];
            if (above || !head) && (self.consuming[rule] || !must_consume) {
                return Expr::Call(rule as u8);
            }
        }
        some_bytes(self.rng)
    }

    /// Any expression.
    fn free(&mut self, nodes: usize, head: bool) -> Expr {
        match nodes {
            1 => self.free_leaf(head),
            2 if self.rng.one_in(2) => star(self.consuming(1, head)),
            2 => not(self.free(1, head)),
            _ => self.free_inner(nodes, head),
        }
    }

    fn free_leaf(&mut self, head: bool) -> Expr {
        match self.rng.below(5) {
            0 => Expr::Empty,
            1 | 2 => some_bytes(self.rng),
            _ => self.call(head, false),
        }
    }

    fn free_inner(&mut self, nodes: usize, head: bool) -> Expr {
        let left = self.rng.between(1, nodes - 2);
        let right = nodes - 1 - left;
        match self.rng.below(8) {
            0 | 1 => then(self.consuming(left, head), self.free(right, false)),
            2 | 3 => then(self.free(left, head), self.free(right, head)),
            4 | 5 => or_else(self.free(left, head), self.free(right, head)),
            6 => star(self.consuming(nodes - 1, head)),
            _ => not(self.free(nodes - 1, head)),
        }
    }

    /// An expression that lacks outcome 0. With 2 nodes it is one that only fails.
    fn consuming(&mut self, nodes: usize, head: bool) -> Expr {
        match nodes {
            1 if self.rng.one_in(2) => some_bytes(self.rng),
            1 => self.call(head, true),
            2 => not(Expr::Empty),
            _ => self.consuming_inner(nodes, head),
        }
    }

    fn consuming_inner(&mut self, nodes: usize, head: bool) -> Expr {
        let left = self.rng.between(1, nodes - 2);
        let right = nodes - 1 - left;
        match self.rng.below(3) {
            0 => then(self.consuming(left, head), self.free(right, false)),
            1 => then(self.free(left, head), self.consuming(right, head)),
            _ => or_else(self.consuming(left, head), self.consuming(right, head)),
        }
    }
}
