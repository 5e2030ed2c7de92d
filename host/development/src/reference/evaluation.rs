//! An evaluation and the ways to combine evaluations, by the paper's sentences one after the other.

use super::characters::{any_at, Looked};
use bannelgo::{Outcome, Reading};

/// "An evaluation has an outcome, a length, an examined length and a nesting."
#[derive(Clone, Copy, Debug, PartialEq, Eq)]
pub struct Evaluation {
    pub matched: bool,
    pub length: usize,
    pub examined: usize,
    pub nesting: usize,
}

impl Evaluation {
    /// "Empty: length 0, examined 0."
    pub const EMPTY: Evaluation = Evaluation {
        matched: true,
        length: 0,
        examined: 0,
        nesting: 1,
    };

    /// Kind 1: one character, or a byte alone.
    pub fn of_any(text: &[u8], at: usize) -> Evaluation {
        let Looked { length, examined } = any_at(text, at);
        Evaluation {
            matched: length.is_some(),
            length: length.unwrap_or(0),
            examined,
            nesting: 1,
        }
    }

    /// Kind 2: "examined 1, also at the end, where they fail; a match has length 1".
    pub fn of_byte(text: &[u8], at: usize, fits: impl Fn(u8) -> bool) -> Evaluation {
        let matched = at < text.len() && fits(text[at]);
        Evaluation {
            matched,
            length: usize::from(matched),
            examined: 1,
            nesting: 1,
        }
    }

    /// The evaluation around this one, which takes over all but the nesting: a call of a body, a
    /// then whose A fails, an else whose A matches.
    pub fn around(self) -> Evaluation {
        Evaluation {
            nesting: 1 + self.nesting,
            ..self
        }
    }

    /// A matches: "the larger of A's examined and A's length + B's examined; lengths add".
    pub fn then(self, b: Evaluation) -> Evaluation {
        Evaluation {
            matched: b.matched,
            length: if b.matched { self.length + b.length } else { 0 },
            examined: self.examined.max(self.length + b.examined),
            nesting: 1 + self.nesting.max(b.nesting),
        }
    }

    /// A fails: "B's outcome and length, examined the larger of both".
    pub fn or_else(self, b: Evaluation) -> Evaluation {
        Evaluation {
            matched: b.matched,
            length: b.length,
            examined: self.examined.max(b.examined),
            nesting: 1 + self.nesting.max(b.nesting),
        }
    }

    /// "Not: length 0, A's examined."
    pub fn not(self) -> Evaluation {
        Evaluation {
            matched: !self.matched,
            length: 0,
            examined: self.examined,
            nesting: 1 + self.nesting,
        }
    }

    /// The reading of a text of `n` bytes whose start pair has this evaluation.
    pub fn reading(self, n: usize) -> Reading {
        Reading {
            outcome: match self.matched {
                true if self.length == n => Outcome::Whole,
                true => Outcome::Part,
                false => Outcome::Nothing,
            },
            length: self.length,
            examined: self.examined,
            nesting: self.nesting,
        }
    }
}

/// The rounds of a star so far: "rounds until one fails; lengths add; examined is the largest of
/// (start of round − start of star + the round's examined), the failing round included".
#[derive(Default)]
pub struct Rounds {
    pub length: usize,
    examined: usize,
    nesting: usize,
}

impl Rounds {
    /// Adds a round. The star's evaluation where the round fails.
    pub fn add(&mut self, round: Evaluation) -> Option<Evaluation> {
        self.examined = self.examined.max(self.length + round.examined);
        self.nesting = self.nesting.max(round.nesting);
        self.length += round.length;
        (!round.matched).then_some(Evaluation {
            matched: true,
            length: self.length,
            examined: self.examined,
            nesting: 1 + self.nesting,
        })
    }
}
