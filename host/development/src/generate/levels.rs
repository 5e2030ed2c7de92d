//! Grammars that reach a stated nesting by one kind of level: choices, or calls.

use crate::expr::{byte, or_else, then, Expr, Grammar};
use Expr::{Call, Empty, Folded};

/// Rules from rule 1 on. Rule 1's nesting at k brackets is `each` × (k + 1).
pub struct Levels {
    rules: Vec<Expr>,
    each: usize,
}

impl Levels {
    /// Rule 1 = ("(" then rule 1) else empty, under so many choices in all.
    pub fn of_choices(choices: usize) -> Levels {
        let under_one = or_else(then(byte(b'('), Call(1)), Empty);
        let rule_1 = (1..choices).fold(under_one, |inner, _| or_else(inner, Empty));
        Levels {
            rules: vec![rule_1],
            each: choices + 2,
        }
    }

    /// So many rules, each a call of the next, and then ("(" then rule 1) else empty; the bracket has the
    /// fold bit.
    pub fn of_calls(calls: u8) -> Levels {
        let last = or_else(then(Folded(b'(', b'('), Call(1)), Empty);
        let rules = (0..calls).map(|call| Call(call + 2)).chain([last]);
        Levels {
            rules: rules.collect(),
            each: usize::from(calls) + 3,
        }
    }

    /// These rules with a rule 0 that calls rule 1, and the number of brackets with that nesting, which is
    /// above `each`.
    pub fn with_nesting(&self, nesting: usize) -> (Grammar, usize) {
        let levels = (nesting - 1) / self.each;
        let rest = nesting - levels * self.each;
        let rule_0 = (1..rest).fold(Call(1), |inner, _| then(Empty, inner));
        let rules = [&[rule_0], self.rules.as_slice()].concat();
        (Grammar { start: 0, rules }, levels - 1)
    }
}
