//! What calls answer.

use crate::place::Place;
use std::fmt;

/// How much of the text a reading matched.
///
/// ```
/// use bannelgo::grammar::{plus, range, Grammar};
/// use bannelgo::Outcome;
///
/// let grammar = Grammar::builder().rule("Number", plus(range(b'0', b'9'))).build()?;
/// assert_eq!(grammar.read("12")?.outcome, Outcome::Whole);
/// assert_eq!(grammar.read("12a")?.outcome, Outcome::Part);
/// assert_eq!(grammar.read("a")?.outcome, Outcome::Nothing);
/// # Ok::<(), Box<dyn std::error::Error>>(())
/// ```
#[derive(Clone, Copy, Debug, PartialEq, Eq, Hash)]
pub enum Outcome {
    /// Matched, and the length is the text's.
    Whole,
    /// Matched, and the length is shorter.
    Part,
    /// Not matched.
    Nothing,
}

/// What a reading found: the start rule's evaluation at the text's first byte.
#[derive(Clone, Copy, Debug, PartialEq, Eq, Hash)]
pub struct Reading {
    /// How much of the text matched.
    pub outcome: Outcome,
    /// The length of the match in bytes; 0 where nothing matched.
    pub length: usize,
    /// How many bytes from the first one on were looked at; one more than the text has where its end
    /// was looked at.
    pub examined: usize,
    /// How many evaluations lay inside each other.
    pub nesting: usize,
}

/// What a sheet's reading answers.
#[derive(Clone, Copy, Debug, PartialEq, Eq, Hash)]
pub struct SheetReading {
    /// What was found, the same as without records.
    pub reading: Reading,
    /// The number of pairs, a rule at a position, that had no record and were evaluated.
    pub evaluations: usize,
}

/// What an edit answers.
///
/// ```
/// # use bannelgo::grammar::{call, plus, range, Grammar};
/// # let grammar = Grammar::builder()
/// #     .rule("Number", plus(call("Digit")))
/// #     .rule("Digit", range(b'0', b'9'))
/// #     .build()?;
/// let mut sheet = bannelgo::Sheet::open(&grammar, "12", 8)?;
/// sheet.read()?; // records of Number at 0, and of Digit at 0, 1 and 2
/// let edited = sheet.edit(2..2, "3")?;
/// assert_eq!(edited.to_string(), "length 3, 3 stand"); // Digit at 0 and 1, and the one at 2 moved to 3
/// # Ok::<(), Box<dyn std::error::Error>>(())
/// ```
#[derive(Clone, Copy, Debug, PartialEq, Eq, Hash)]
pub struct Edited {
    /// The new length of the text in bytes.
    pub length: usize,
    /// The number of pairs that stand: whose record is kept.
    pub standing: usize,
}

impl Reading {
    /// Whether the whole text matched.
    pub fn is_whole(&self) -> bool {
        self.outcome == Outcome::Whole
    }

    /// The last place that the reading looked at, as line and column of the text that was read.
    ///
    /// Where a text does not match as a whole, this is how far it could be followed. It can lie behind
    /// the mistake: where the grammar looks far ahead, by `and` or `not`, where a part is tried and given
    /// up, such as one whose closing quote is missing, and where `any` looked for the rest of a character
    /// that breaks off.
    ///
    /// ```
    /// use bannelgo::grammar::{any, literal, not, sequence, star, Grammar};
    ///
    /// let line = sequence([literal("red"), literal("\n")]);
    /// let grammar = Grammar::builder()
    ///     .rule("Lines", sequence([star(line), not(any())]))
    ///     .build()?;
    /// let text = "red\nrod\n";
    /// let reading = grammar.read(text)?;
    /// assert!(!reading.is_whole());
    /// assert_eq!(reading.reached(text).to_string(), "line 2, column 2");
    /// # Ok::<(), Box<dyn std::error::Error>>(())
    /// ```
    pub fn reached(&self, text: impl AsRef<[u8]>) -> Place {
        Place::of(text.as_ref(), self.examined.saturating_sub(1))
    }

    /// Whether the reading looked at the end of the text that was read.
    ///
    /// Where it did not, length, examined and nesting stay the same whatever is typed behind the text. So
    /// a text that does not match as a whole is then wrong, and not only unfinished; one that does match
    /// as a whole matches only in part once more is typed behind it.
    ///
    /// ```
    /// # use bannelgo::grammar::{literal, Grammar};
    /// let grammar = Grammar::builder().rule("Red", literal("red")).build()?;
    /// assert!(grammar.read("re")?.saw_end("re")); // unfinished
    /// assert!(!grammar.read("ro")?.saw_end("ro")); // wrong
    /// assert!(!grammar.read("red")?.saw_end("red")); // whole, and only a part of "redx"
    /// # Ok::<(), Box<dyn std::error::Error>>(())
    /// ```
    pub fn saw_end(&self, text: impl AsRef<[u8]>) -> bool {
        self.examined > text.as_ref().len()
    }
}

impl SheetReading {
    /// Whether the whole text matched.
    pub fn is_whole(&self) -> bool {
        self.reading.is_whole()
    }

    /// The last place that the reading looked at, as [`Reading::reached`] says it.
    pub fn reached(&self, text: impl AsRef<[u8]>) -> Place {
        self.reading.reached(text)
    }

    /// Whether the reading looked at the text's end, as [`Reading::saw_end`] says it.
    pub fn saw_end(&self, text: impl AsRef<[u8]>) -> bool {
        self.reading.saw_end(text)
    }
}

impl fmt::Display for Outcome {
    fn fmt(&self, out: &mut fmt::Formatter<'_>) -> fmt::Result {
        out.pad(match self {
            Outcome::Whole => "whole",
            Outcome::Part => "part",
            Outcome::Nothing => "none",
        })
    }
}

impl fmt::Display for Reading {
    fn fmt(&self, out: &mut fmt::Formatter<'_>) -> fmt::Result {
        let Reading {
            outcome,
            length,
            examined,
            nesting,
        } = self;
        write!(
            out,
            "{outcome}, length {length}, examined {examined}, nesting {nesting}"
        )
    }
}

impl fmt::Display for SheetReading {
    fn fmt(&self, out: &mut fmt::Formatter<'_>) -> fmt::Result {
        write!(out, "{}, evaluations {}", self.reading, self.evaluations)
    }
}

impl fmt::Display for Edited {
    fn fmt(&self, out: &mut fmt::Formatter<'_>) -> fmt::Result {
        write!(out, "length {}, {} stand", self.length, self.standing)
    }
}
