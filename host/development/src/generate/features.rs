//! What a request has added to the leaves of a grammar, and grammars without it.

use crate::expr::{Expr, Grammar};

#[derive(Clone, Copy, Debug, PartialEq, Eq)]
pub enum Feature {
    /// a range with the fold bit takes either case. Without it the range is a plain one.
    FoldBits,
    /// any takes a character of up to 4 bytes. Without it any takes one byte.
    Characters,
}

impl Feature {
    pub const ALL: [Feature; 2] = [Feature::FoldBits, Feature::Characters];

    /// Whether it can make a difference in a text: over ASCII any takes one byte.
    pub fn matters_in(self, text: &[u8]) -> bool {
        self == Feature::FoldBits || !text.is_ascii()
    }

    /// The grammar without it; nothing where it has no such leaf.
    pub fn taken_from(self, grammar: &Grammar) -> Option<Grammar> {
        let mut plain = grammar.clone();
        plain.change_leaves(|leaf| match (self, &leaf) {
            (Feature::FoldBits, Expr::Folded(low, high)) => *leaf = Expr::Bytes(*low, *high),
            (Feature::Characters, Expr::Any) => *leaf = Expr::Bytes(0, 255),
            _ => {}
        });
        (plain != *grammar).then_some(plain)
    }
}
