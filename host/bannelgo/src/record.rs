//! A record: what a rule gave at a position.

use crate::raw::answers::bits;

/// What a rule gave at a position when it was last evaluated there.
///
/// It stands through every edit that lies behind all bytes it examined, or before its position; in the
/// second case it moves along with the text.
#[derive(Clone, Copy, Debug, PartialEq, Eq, Hash)]
pub struct Record {
    /// Whether the rule matched.
    pub matched: bool,
    /// The length of the match in bytes; 0 where the rule failed.
    pub length: usize,
    /// How many bytes from the position on were looked at, the text's end counted as one.
    pub examined: usize,
    /// How many evaluations lay inside each other, this one included.
    pub nesting: usize,
}

impl Record {
    /// The record that a word of the table holds; nothing where bit 63 is not set.
    ///
    /// Matched is in bit 62, nesting in bits 45 to 33, examined in bits 32 to 16, length in bits 15
    /// to 0.
    ///
    /// ```
    /// let record = bannelgo::Record::from_word(0xC000_0008_0003_0002).unwrap();
    /// assert!(record.matched);
    /// assert_eq!((record.length, record.examined, record.nesting), (2, 3, 4));
    /// assert_eq!(bannelgo::Record::from_word(0), None);
    /// ```
    pub fn from_word(word: u64) -> Option<Record> {
        (bits(word, 63, 63) == 1).then(|| Record {
            matched: bits(word, 62, 62) == 1,
            length: bits(word, 15, 0),
            examined: bits(word, 32, 16),
            nesting: bits(word, 45, 33),
        })
    }
}
