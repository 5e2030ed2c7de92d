//! The calls that made a match: as a list of rows, and as a tree.

mod call;
mod shown;
mod tree;

pub use call::{Call, Children};
pub use shown::DownTo;
pub use tree::Tree;

use crate::reading::SheetReading;
use std::ops::Range;

/// A call that made the match.
#[derive(Clone, Copy, Debug, PartialEq, Eq, Hash)]
pub struct Row {
    /// The rule that was called, by its number.
    pub rule: usize,
    /// The number of calls around it.
    pub depth: usize,
    /// Where its match begins.
    pub start: usize,
    /// The length of its match in bytes.
    pub length: usize,
}

/// What a listing answers.
#[derive(Clone, Debug, PartialEq, Eq)]
pub struct Listing {
    /// The reading that it begins with.
    pub read: SheetReading,
    /// Parents first, left to right; none where the text did not match.
    pub rows: Vec<Row>,
}

impl Row {
    /// The row in a slot's word: rule 8 bits, zero 8, depth 16, start 16, length 16.
    ///
    /// ```
    /// let row = bannelgo::Row::from_word(0x0100_0001_0001_0001);
    /// assert_eq!((row.rule, row.depth), (1, 1));
    /// assert_eq!(row.range(), 1..2);
    /// ```
    pub fn from_word(word: u64) -> Row {
        let field = |lowest: u32| (word >> lowest & 0xFFFF) as usize;
        Row {
            rule: (word >> 56) as usize,
            depth: field(32),
            start: field(16),
            length: field(0),
        }
    }

    /// The bytes that it matched.
    pub fn range(&self) -> Range<usize> {
        self.start..self.start.saturating_add(self.length)
    }
}
