//! A plain recursive reading without records, by the paper's sentences.
//!
//! The benchmark measures the proved library against it.

use super::bytes::{between, between_in_either_case};
use super::evaluation::{Evaluation, Rounds};
use super::reading::{LONGEST_TEXT, MOST_NESTING};
use super::Number;
use crate::expr::{Expr, Grammar};
use bannelgo::Reading;

/// Reads `text` by an accepted grammar: a reading, or 8 or 14.
pub fn read(grammar: &Grammar, text: &[u8]) -> Result<Reading, Number> {
    if text.len() > LONGEST_TEXT {
        return Err(8);
    }
    let reader = Reader {
        rules: &grammar.rules,
        text,
    };
    let body = &grammar.rules[usize::from(grammar.start)];
    let Some(found) = reader.evaluate(body, 0, MOST_NESTING) else {
        return Err(14);
    };
    Ok(found.reading(text.len()))
}

struct Reader<'a> {
    rules: &'a [Expr],
    text: &'a [u8],
}

impl Reader<'_> {
    /// Evaluates an expression at a position; nothing where its nesting is above `allowance`.
    fn evaluate(&self, expr: &Expr, at: usize, allowance: usize) -> Option<Evaluation> {
        let inside = allowance.checked_sub(1)?;
        Some(match expr {
            Expr::Empty => Evaluation::EMPTY,
            Expr::Any => Evaluation::of_any(self.text, at),
            Expr::Bytes(low, high) => {
                Evaluation::of_byte(self.text, at, |byte| between(byte, *low, *high))
            }
            Expr::Folded(low, high) => Evaluation::of_byte(self.text, at, |byte| {
                between_in_either_case(byte, *low, *high)
            }),
            Expr::Then(a, b) => match self.evaluate(a, at, inside)? {
                a if a.matched => a.then(self.evaluate(b, at + a.length, inside)?),
                a => a.around(),
            },
            Expr::Else(a, b) => match self.evaluate(a, at, inside)? {
                a if a.matched => a.around(),
                a => a.or_else(self.evaluate(b, at, inside)?),
            },
            Expr::Star(a) => self.star(a, at, inside)?,
            Expr::Not(a) => self.evaluate(a, at, inside)?.not(),
            Expr::Call(rule) => {
                let body = &self.rules[usize::from(*rule)];
                self.evaluate(body, at, inside)?.around()
            }
        })
    }

    fn star(&self, a: &Expr, at: usize, inside: usize) -> Option<Evaluation> {
        let mut rounds = Rounds::default();
        loop {
            let round = self.evaluate(a, at + rounds.length, inside)?;
            if let Some(star) = rounds.add(round) {
                return Some(star);
            }
        }
    }
}
