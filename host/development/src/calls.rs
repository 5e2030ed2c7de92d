//! The calls over an open sheet and what they answer, as data.

use bannelgo::raw::Fields;
use bannelgo::{Edited, Grammar, Listing, Refusal, Sheet, SheetReading};
use std::fmt;

/// A call with what it itself brings.
#[derive(Clone, Debug, PartialEq, Eq)]
pub enum Call {
    /// Bytes `start` to `end` − 1 give way to the replacement.
    Edit {
        start: usize,
        end: usize,
        replacement: Vec<u8>,
    },
    Read,
    LookUp {
        rule: usize,
        position: usize,
    },
    /// A reading, then the rows in so many lent slots.
    List {
        slots: usize,
    },
}

/// What a call answers where it is not refused.
#[derive(Clone, Debug, PartialEq, Eq)]
pub enum Answer {
    Edited(Edited),
    Reading(SheetReading),
    /// The word of the slot that was looked up.
    Word(u64),
    Listing(Listing),
}

impl fmt::Display for Call {
    fn fmt(&self, out: &mut fmt::Formatter<'_>) -> fmt::Result {
        match self {
            Call::Edit {
                start,
                end,
                replacement,
            } => {
                let replacement = replacement.escape_ascii();
                write!(out, "edit ({start}, {end}, \"{replacement}\")")
            }
            Call::Read => write!(out, "read"),
            Call::LookUp { rule, position } => write!(out, "look up ({rule}, {position})"),
            Call::List { slots } => write!(out, "list in {slots} slots"),
        }
    }
}

/// Opens a sheet by the grammar in an image; a refusal is one of 1 to 8.
pub fn open_image(image: &[u8], text: &[u8], cap: usize) -> Result<Sheet, Refusal> {
    Sheet::open(&Grammar::from_image(image)?, text, cap)
}

/// Makes any of these calls; where it is refused, its number.
pub fn ask(sheet: &mut Sheet, call: &Call) -> Result<Answer, u64> {
    let answer = match call {
        Call::Edit {
            start,
            end,
            replacement,
        } => sheet.edit(*start..*end, replacement).map(Answer::Edited),
        Call::Read => sheet.read().map(Answer::Reading),
        Call::LookUp { rule, position } => sheet.word(*rule, *position).map(Answer::Word),
        Call::List { slots } => sheet.list(*slots).map(Answer::Listing),
    };
    answer.map_err(|refusal| number_of(&refusal))
}

/// The number of a refusal. What the proved library never answers is above every number.
pub fn number_of(refusal: &Refusal) -> u64 {
    refusal.number().map_or(u64::MAX, u64::from)
}

impl Answer {
    /// The numbers that stand for it.
    pub fn fields(&self) -> Fields {
        match self {
            Answer::Edited(edited) => Fields::of_edit(*edited),
            Answer::Reading(read) => Fields::of_reading(*read),
            Answer::Word(word) => Fields::of_word(*word),
            Answer::Listing(listing) => Fields::of_listing(listing.read, listing.rows.len()),
        }
    }
}

impl fmt::Display for Answer {
    fn fmt(&self, out: &mut fmt::Formatter<'_>) -> fmt::Result {
        match self {
            Answer::Edited(edited) => write!(out, "{edited}"),
            Answer::Reading(read) => write!(out, "{read}"),
            Answer::Word(word) => write!(out, "word {word:#018x}"),
            Answer::Listing(Listing { read, rows }) => write!(out, "{read}, {} rows", rows.len()),
        }
    }
}
