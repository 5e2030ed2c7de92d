//! A plain reading from what the machine found: questions 8 and 14, and whole, part or nothing.

use super::machine::{evaluate_start, Found};
use super::Number;
use crate::expr::Grammar;
use bannelgo::{Outcome, Reading};

/// The longest text that is read. Question 8 of a plain reading.
pub const LONGEST_TEXT: usize = 65_535;

/// The greatest nesting that is answered. Question 14.
pub const MOST_NESTING: usize = 4_096;

/// Reads `text` by an accepted grammar: a reading, or 8 or 14.
///
/// Nothing where a reading without records makes more than `most_work` evaluations.
pub fn read(grammar: &Grammar, text: &[u8], most_work: u64) -> Option<Result<Reading, Number>> {
    if text.len() > LONGEST_TEXT {
        return Some(Err(8));
    }
    let found = evaluate_start(grammar, text, most_work)?;
    if found.nesting > MOST_NESTING {
        return Some(Err(14));
    }
    Some(Ok(of_start(&found, text.len())))
}

/// The reading that the start pair's evaluation on a text of `n` bytes is.
pub fn of_start(found: &Found, n: usize) -> Reading {
    // The start pair begins at position 0, so that positions are lengths.
    Reading {
        outcome: match found.end {
            None => Outcome::Nothing,
            Some(end) if end < n => Outcome::Part,
            Some(_) => Outcome::Whole,
        },
        length: found.end.unwrap_or(0),
        examined: found.reach,
        nesting: found.nesting,
    }
}
