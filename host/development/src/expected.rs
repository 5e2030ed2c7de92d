//! Readings and rows as a test writes them down: four fields each.

use bannelgo::{Outcome, Reading, Row};

/// Outcome, length, examined, nesting.
pub type ReadingFields = (Outcome, usize, usize, usize);

/// Rule, depth, start, length.
pub type RowFields = (usize, usize, usize, usize);

pub fn reading((outcome, length, examined, nesting): ReadingFields) -> Reading {
    Reading {
        outcome,
        length,
        examined,
        nesting,
    }
}

pub fn row((rule, depth, start, length): RowFields) -> Row {
    Row {
        rule,
        depth,
        start,
        length,
    }
}
