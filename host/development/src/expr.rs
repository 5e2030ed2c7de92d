//! Parsing expressions as trees, and grammars as lists of them.

use std::fmt;

/// One expression. The variants are the paper's kinds 0 to 7, in that order; kind 2 has two.
#[derive(Clone, Debug, PartialEq, Eq)]
pub enum Expr {
    Empty,
    /// One character of 1 to 4 bytes, or a byte that begins none.
    Any,
    /// A byte from the first to the second, both included.
    Bytes(u8, u8),
    /// The same with the fold bit: a byte that is one of these, or whose other ASCII case is.
    Folded(u8, u8),
    Then(Box<Expr>, Box<Expr>),
    Else(Box<Expr>, Box<Expr>),
    Star(Box<Expr>),
    Not(Box<Expr>),
    /// A call of the rule with this number.
    Call(u8),
}

/// A grammar: the number of the start rule, and each rule's body.
#[derive(Clone, Debug, PartialEq, Eq)]
pub struct Grammar {
    pub start: u8,
    pub rules: Vec<Expr>,
}

pub fn byte(value: u8) -> Expr {
    Expr::Bytes(value, value)
}

pub fn then(a: Expr, b: Expr) -> Expr {
    Expr::Then(Box::new(a), Box::new(b))
}

pub fn or_else(a: Expr, b: Expr) -> Expr {
    Expr::Else(Box::new(a), Box::new(b))
}

pub fn star(a: Expr) -> Expr {
    Expr::Star(Box::new(a))
}

pub fn not(a: Expr) -> Expr {
    Expr::Not(Box::new(a))
}

/// The parts one after the other, nested to the right; no part at all is empty.
pub fn sequence<const N: usize>(parts: [Expr; N]) -> Expr {
    let joined = parts
        .into_iter()
        .rev()
        .reduce(|rest, part| then(part, rest));
    joined.unwrap_or(Expr::Empty)
}

/// The first part that matches, nested to the right; no part at all is empty.
pub fn choice<const N: usize>(parts: [Expr; N]) -> Expr {
    let joined = parts
        .into_iter()
        .rev()
        .reduce(|rest, part| or_else(part, rest));
    joined.unwrap_or(Expr::Empty)
}

impl Expr {
    pub fn children(&self) -> Vec<&Expr> {
        match self {
            Expr::Empty | Expr::Any | Expr::Bytes(..) | Expr::Folded(..) | Expr::Call(_) => {
                vec![]
            }
            Expr::Star(a) | Expr::Not(a) => vec![a],
            Expr::Then(a, b) | Expr::Else(a, b) => vec![a, b],
        }
    }

    /// Gives each leaf of the tree to `change`.
    fn change_leaves(&mut self, change: &mut impl FnMut(&mut Expr)) {
        match self {
            Expr::Star(a) | Expr::Not(a) => a.change_leaves(change),
            Expr::Then(a, b) | Expr::Else(a, b) => {
                a.change_leaves(change);
                b.change_leaves(change);
            }
            Expr::Empty | Expr::Any | Expr::Bytes(..) | Expr::Folded(..) | Expr::Call(_) => {
                change(self)
            }
        }
    }

    /// The number of nodes that this tree takes in an image.
    pub fn nodes(&self) -> usize {
        1 + self.children().into_iter().map(Expr::nodes).sum::<usize>()
    }
}

impl Grammar {
    pub fn nodes(&self) -> usize {
        self.rules.iter().map(Expr::nodes).sum()
    }

    /// Gives each leaf of each rule to `change`.
    pub fn change_leaves(&mut self, mut change: impl FnMut(&mut Expr)) {
        for body in &mut self.rules {
            body.change_leaves(&mut change);
        }
    }
}

impl fmt::Display for Expr {
    fn fmt(&self, out: &mut fmt::Formatter<'_>) -> fmt::Result {
        match self {
            Expr::Empty => write!(out, "empty"),
            Expr::Any => write!(out, "any"),
            Expr::Bytes(a, b) if a == b => write!(out, "0x{a:02X}"),
            Expr::Bytes(a, b) => write!(out, "0x{a:02X} to 0x{b:02X}"),
            Expr::Folded(a, b) => write!(out, "{} in either case", Expr::Bytes(*a, *b)),
            Expr::Then(a, b) => write!(out, "{} then {}", Operand(a), Operand(b)),
            Expr::Else(a, b) => write!(out, "{} else {}", Operand(a), Operand(b)),
            Expr::Star(a) => write!(out, "{} zero or more times", Operand(a)),
            Expr::Not(a) => write!(out, "not {}", Operand(a)),
            Expr::Call(rule) => write!(out, "rule {rule}"),
        }
    }
}

/// An expression inside another one: in brackets unless it is a leaf.
struct Operand<'a>(&'a Expr);

impl fmt::Display for Operand<'_> {
    fn fmt(&self, out: &mut fmt::Formatter<'_>) -> fmt::Result {
        if self.0.children().is_empty() {
            write!(out, "{}", self.0)
        } else {
            write!(out, "({})", self.0)
        }
    }
}
