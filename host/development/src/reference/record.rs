//! The word of a record, its fields, and question 12.
//!
//! "A record is a 64-bit word: held 1, matched 1, zero 16, nesting 13, examined 17, length 16."

use super::machine::Found;
use super::reading::MOST_NESTING;

/// The widths of the fields, the most significant first.
const WIDTHS: [u32; 6] = [1, 1, 16, 13, 17, 16];

/// The fields of a word, whatever it says.
#[derive(Clone, Copy, Debug, PartialEq, Eq)]
pub struct Fields {
    pub held: bool,
    pub matched: bool,
    pub zero: usize,
    pub nesting: usize,
    pub examined: usize,
    pub length: usize,
}

impl Fields {
    pub fn of_word(word: u64) -> Fields {
        let mut rest = word;
        let [held, matched, zero, nesting, examined, length] = WIDTHS.map(|width| {
            let field = rest.rotate_left(width) & ((1 << width) - 1);
            rest <<= width;
            field as usize
        });
        Fields {
            held: held == 1,
            matched: matched == 1,
            zero,
            nesting,
            examined,
            length,
        }
    }

    /// The word with these fields; each is cut to its width.
    pub fn word(self) -> u64 {
        let values = [
            usize::from(self.held),
            usize::from(self.matched),
            self.zero,
            self.nesting,
            self.examined,
            self.length,
        ];
        let fields = WIDTHS.iter().zip(values);
        fields.fold(0, |word, (width, value)| {
            word << width | (value as u64 & ((1 << width) - 1))
        })
    }

    /// Question 12 of a record met: "nesting 1 to 4,096, length ≤ examined, position + length ≤ n,
    /// position + examined ≤ n + 1, failure with length 0, zero bits".
    pub fn possible(self, position: usize, n: usize) -> bool {
        (1..=MOST_NESTING).contains(&self.nesting)
            && self.length <= self.examined
            && position + self.length <= n
            && position + self.examined <= n + 1
            && (self.matched || self.length == 0)
            && self.zero == 0
    }
}

/// The true word of a pair at a position: what its evaluation found there.
pub fn true_word(found: &Found, position: usize) -> u64 {
    let fields = Fields {
        held: true,
        matched: found.end.is_some(),
        zero: 0,
        nesting: found.nesting,
        examined: found.reach - position,
        length: found.end.map_or(0, |end| end - position),
    };
    fields.word()
}
