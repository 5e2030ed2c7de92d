//! The rows of a text: "the calls that made the match, parents first, left to right".
//!
//! The recogniser says what each pair gave. The body of each row is then gone through once more, and
//! no rule that it calls is entered: matched calls are noted, and taken back where something around
//! them fails. A stack has the calls whose rows are still to come.

use super::bytes::{between, between_in_either_case};
use super::characters::any_at;
use super::machine::{evaluate_pair, Found, Pair};
use super::pair_map::PairMap;
use crate::expr::{Expr, Grammar};
use bannelgo::Row;

/// The rows of a text; nothing where there are more than `most`. `kept` is as in `evaluate_pair`.
pub fn rows(
    grammar: &Grammar,
    text: &[u8],
    kept: &mut PairMap<Found>,
    most: usize,
) -> Option<Vec<Row>> {
    let first = (grammar.start, 0);
    let found = evaluate_pair(grammar, text, kept, first);
    let mut rows = vec![];
    let mut waiting = vec![];
    waiting.extend(found.end.map(|end| (first, end, 0)));
    while let Some(((rule, start), end, depth)) = waiting.pop() {
        if rows.len() == most {
            return None;
        }
        let length = end - start;
        rows.push(Row {
            rule: usize::from(rule),
            depth,
            start,
            length,
        });
        let calls = calls_of(grammar, text, kept, (rule, start));
        let inside = calls.into_iter().rev();
        waiting.extend(inside.map(|(pair, end)| (pair, end, depth + 1)));
    }
    Some(rows)
}

/// The calls that made the match of a pair's body, with the place where each ends.
fn calls_of(
    grammar: &Grammar,
    text: &[u8],
    kept: &PairMap<Found>,
    (rule, position): Pair,
) -> Vec<(Pair, usize)> {
    let mut body = Body {
        text,
        kept,
        noted: vec![],
    };
    body.end_of(&grammar.rules[usize::from(rule)], position);
    body.noted
}

struct Body<'a> {
    text: &'a [u8],
    kept: &'a PairMap<Found>,
    noted: Vec<(Pair, usize)>,
}

impl Body<'_> {
    /// Where the expression's match ends, with its calls noted; nothing where it fails.
    fn end_of(&mut self, expr: &Expr, at: usize) -> Option<usize> {
        let before = self.noted.len();
        let end = match expr {
            Expr::Empty => Some(at),
            Expr::Any => any_at(self.text, at).length.map(|length| at + length),
            Expr::Bytes(low, high) => self.end_of_byte(at, |byte| between(byte, *low, *high)),
            Expr::Folded(low, high) => {
                self.end_of_byte(at, |byte| between_in_either_case(byte, *low, *high))
            }
            Expr::Then(a, b) => {
                let end_of_a = self.end_of(a, at);
                end_of_a.and_then(|next| self.end_of(b, next))
            }
            Expr::Else(a, b) => {
                let end_of_a = self.end_of(a, at);
                end_of_a.or_else(|| self.end_of(b, at))
            }
            Expr::Star(a) => Some(self.end_of_rounds(a, at)),
            Expr::Not(a) => match self.end_of(a, at) {
                Some(_) => None,
                None => Some(at),
            },
            Expr::Call(rule) => {
                let pair = (*rule, at);
                let end = self.kept[&pair].end;
                self.noted.extend(end.map(|end| (pair, end)));
                end
            }
        };
        // "Calls under a not, in a failed choice or in a failed round give no row." What stands under
        // a not has failed itself, or the not fails.
        if end.is_none() {
            self.noted.truncate(before);
        }
        end
    }

    fn end_of_byte(&self, at: usize, fits: impl Fn(u8) -> bool) -> Option<usize> {
        let byte = *self.text.get(at)?;
        fits(byte).then_some(at + 1)
    }

    fn end_of_rounds(&mut self, a: &Expr, at: usize) -> usize {
        let mut last = at;
        while let Some(end) = self.end_of(a, last) {
            last = end;
        }
        last
    }
}

/// "A row is 64 bits: rule 8, zero 8, depth 16 (rows of the calls around it), start 16, length 16."
pub fn word(row: &Row) -> u64 {
    let rule_and_zero = row.rule << 8;
    let quarters = [rule_and_zero, row.depth, row.start, row.length];
    quarters.into_iter().fold(0, |word, quarter| {
        let quarter = u16::try_from(quarter).expect("a field fits its width");
        word << 16 | u64::from(quarter)
    })
}
