//! A packrat parser that reads a whole text each time: what the benchmark measures a key against.
//!
//! It takes its grammar at run time, as a plain tree of nodes. Where each rule ended at each position
//! is kept in one vector, which is cleared for each text and used again for the next.

use crate::expr::{Expr, Grammar};
use crate::reference::bytes::{between, between_in_either_case};
use crate::reference::characters::any_at;

pub struct Packrat<'g> {
    grammar: &'g Grammar,
    memo: Vec<u32>,
}

/// What the memo says of a rule at a position; a greater number is the end of the match + 2.
const UNKNOWN: u32 = 0;
const FAILED: u32 = 1;
const MATCHED: u32 = 2;

impl<'g> Packrat<'g> {
    pub fn new(grammar: &'g Grammar) -> Packrat<'g> {
        let memo = vec![];
        Packrat { grammar, memo }
    }

    /// The length that the start rule matches at position 0; nothing where it fails.
    pub fn read(&mut self, text: &[u8]) -> Option<usize> {
        let rules = &self.grammar.rules;
        self.memo.clear();
        self.memo.resize(rules.len() * (text.len() + 1), UNKNOWN);
        let mut parser = Parser {
            rules,
            text,
            memo: &mut self.memo,
        };
        parser.call(self.grammar.start, 0)
    }
}

struct Parser<'a> {
    rules: &'a [Expr],
    text: &'a [u8],
    memo: &'a mut [u32],
}

impl Parser<'_> {
    /// The end of the rule's match at a position.
    fn call(&mut self, rule: u8, at: usize) -> Option<usize> {
        let slot = at * self.rules.len() + usize::from(rule);
        match self.memo[slot] {
            UNKNOWN => {
                let rules = self.rules;
                let end = self.parse(&rules[usize::from(rule)], at);
                self.memo[slot] = end.map_or(FAILED, |end| end as u32 + MATCHED);
                end
            }
            FAILED => None,
            end => Some((end - MATCHED) as usize),
        }
    }

    fn parse(&mut self, expr: &Expr, at: usize) -> Option<usize> {
        match expr {
            Expr::Empty => Some(at),
            Expr::Any => any_at(self.text, at).length.map(|length| at + length),
            Expr::Bytes(low, high) => match self.text.get(at) {
                Some(byte) if between(*byte, *low, *high) => Some(at + 1),
                _ => None,
            },
            Expr::Folded(low, high) => match self.text.get(at) {
                Some(byte) if between_in_either_case(*byte, *low, *high) => Some(at + 1),
                _ => None,
            },
            Expr::Then(a, b) => {
                let end = self.parse(a, at)?;
                self.parse(b, end)
            }
            Expr::Else(a, b) => self.parse(a, at).or_else(|| self.parse(b, at)),
            Expr::Star(a) => {
                let mut end = at;
                while let Some(next) = self.parse(a, end) {
                    end = next;
                }
                Some(end)
            }
            Expr::Not(a) => match self.parse(a, at) {
                Some(_) => None,
                None => Some(at),
            },
            Expr::Call(rule) => self.call(*rule, at),
        }
    }
}
