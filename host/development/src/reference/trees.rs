//! One tree per rule. Children have higher numbers than parents, so each tree is finite; each node
//! occurs once, so the trees together have as many nodes as the image.

use super::words::{NodeWord, Words};
use crate::expr::{not, or_else, star, then, Expr};

pub fn grow(words: &Words) -> Vec<Expr> {
    let trees = words.roots.iter().map(|&root| tree(words, root));
    trees.collect()
}

pub fn tree(words: &Words, number: usize) -> Expr {
    match words.nodes[number] {
        NodeWord::Empty => Expr::Empty,
        NodeWord::Any => Expr::Any,
        NodeWord::Bytes(low, high) => Expr::Bytes(low, high),
        NodeWord::Folded(low, high) => Expr::Folded(low, high),
        NodeWord::Then(a, b) => then(tree(words, a), tree(words, b)),
        NodeWord::Else(a, b) => or_else(tree(words, a), tree(words, b)),
        NodeWord::Star(a) => star(tree(words, a)),
        NodeWord::Not(a) => not(tree(words, a)),
        NodeWord::Call(rule) => Expr::Call(rule),
    }
}
