//! The fields that stand for an answer, and the answer that fields stand for.

use super::Fields;
use crate::reading::{Edited, Outcome, Reading, SheetReading};

/// What is no answer.
#[derive(Clone, Debug, PartialEq, Eq)]
pub enum Unanswered {
    /// The number of the first question that the call fails.
    Number(u8),
    /// What stands for no answer. Only a library other than the proved one gives it.
    Unknown(Vec<u64>),
}

impl Fields {
    /// A refusal.
    pub fn of_number(number: u64) -> Fields {
        Fields {
            number,
            ..Fields::default()
        }
    }

    /// An opening that leaves a text of this length.
    pub fn of_open(length: usize) -> Fields {
        Fields {
            length: length as u64,
            ..Fields::default()
        }
    }

    /// An edit.
    pub fn of_edit(edited: Edited) -> Fields {
        Fields {
            length: edited.length as u64,
            value: edited.standing as u64,
            ..Fields::default()
        }
    }

    /// A reading.
    pub fn of_reading(read: SheetReading) -> Fields {
        let SheetReading {
            reading,
            evaluations,
        } = read;
        Fields {
            outcome: match reading.outcome {
                Outcome::Nothing => 0,
                Outcome::Part => 1,
                Outcome::Whole => 2,
            },
            length: reading.length as u64,
            examined: reading.examined as u64,
            nesting: reading.nesting as u64,
            evaluations: evaluations as u64,
            ..Fields::default()
        }
    }

    /// A look-up of this word.
    pub fn of_word(word: u64) -> Fields {
        Fields {
            value: word,
            ..Fields::default()
        }
    }

    /// A listing of so many rows.
    pub fn of_listing(read: SheetReading, rows: usize) -> Fields {
        Fields {
            value: rows as u64,
            ..Fields::of_reading(read)
        }
    }

    /// The length that an opening answers.
    pub fn opened(self) -> Result<usize, Unanswered> {
        let length = self.length as usize;
        self.if_coded(length, Fields::of_open(length))
    }

    /// What an edit answers.
    pub fn edited(self) -> Result<Edited, Unanswered> {
        let edited = Edited {
            length: self.length as usize,
            standing: self.value as usize,
        };
        self.if_coded(edited, Fields::of_edit(edited))
    }

    /// What a reading answers.
    pub fn read(self) -> Result<SheetReading, Unanswered> {
        let read = self.reading();
        self.if_coded(read, Fields::of_reading(read))
    }

    /// The word that a look-up answers.
    pub fn word(self) -> Result<u64, Unanswered> {
        self.if_coded(self.value, Fields::of_word(self.value))
    }

    /// What a listing in so many slots answers: the reading and the number of rows.
    pub fn listed(self, slots: usize) -> Result<(SheetReading, usize), Unanswered> {
        let (read, rows) = (self.reading(), self.value as usize);
        if self.number == 0 && rows > slots {
            return Err(self.unknown());
        }
        self.if_coded((read, rows), Fields::of_listing(read, rows))
    }

    fn reading(self) -> SheetReading {
        SheetReading {
            reading: Reading {
                outcome: match self.outcome {
                    0 => Outcome::Nothing,
                    1 => Outcome::Part,
                    _ => Outcome::Whole,
                },
                length: self.length as usize,
                examined: self.examined as usize,
                nesting: self.nesting as usize,
            },
            evaluations: self.evaluations as usize,
        }
    }

    /// The answer where these are its fields, else the refusal that they are.
    fn if_coded<T>(self, answer: T, coded: Fields) -> Result<T, Unanswered> {
        if self == coded {
            return Ok(answer);
        }
        match self.number {
            1..=12 | 14 | 15 if self == Fields::of_number(self.number) => {
                Err(Unanswered::Number(self.number as u8))
            }
            _ => Err(self.unknown()),
        }
    }

    fn unknown(self) -> Unanswered {
        Unanswered::Unknown(vec![
            self.number,
            self.outcome,
            self.length,
            self.examined,
            self.nesting,
            self.evaluations,
            self.value,
        ])
    }
}

impl Reading {
    /// The plain reading that a word of the library stands for, where the text has `n` bytes.
    ///
    /// A word without bit 63 is the number of a question. The others have matched in bit 62, zero
    /// in bits 61 to 46, nesting in 45 to 33, examined in 32 to 16 and length in 15 to 0.
    #[doc(hidden)]
    pub fn from_word(word: u64, n: usize) -> Result<Reading, Unanswered> {
        if bits(word, 63, 63) == 0 {
            return Err(match word {
                1..=8 | 14 => Unanswered::Number(word as u8),
                _ => Unanswered::Unknown(vec![word]),
            });
        }
        let length = bits(word, 15, 0);
        let outcome = match bits(word, 62, 62) {
            0 if length == 0 => Some(Outcome::Nothing),
            1 if length == n => Some(Outcome::Whole),
            1 if length < n => Some(Outcome::Part),
            _ => None,
        };
        match outcome {
            Some(outcome) if bits(word, 61, 46) == 0 => Ok(Reading {
                outcome,
                length,
                examined: bits(word, 32, 16),
                nesting: bits(word, 45, 33),
            }),
            _ => Err(Unanswered::Unknown(vec![word])),
        }
    }
}

/// The bits from `highest` to `lowest`, both included, as a number.
pub(crate) fn bits(word: u64, highest: u32, lowest: u32) -> usize {
    (word << (63 - highest) >> (63 - highest + lowest)) as usize
}
