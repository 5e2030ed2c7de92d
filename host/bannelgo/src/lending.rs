//! The sheet's calls over buffers of your own. The library keeps nothing between two calls.
//!
//! Lent are the image, a text buffer, the text's length `n` and a table of at least [`table_words`]
//! words. [`open`] fills buffer and table; later calls are lent the same image, buffer and table, and as
//! `n` the length that [`open`] or the last answered [`edit`] gave. Nobody else writes to them in
//! between. Every loan has an answer, a [`Refusal`] where it is a wrong one.
//!
//! ```
//! use bannelgo::grammar::{range, Grammar};
//! use bannelgo::lending;
//!
//! let grammar = Grammar::builder().rule("Digit", range(b'0', b'9')).build()?;
//! let image = grammar.image();
//! let mut buffer = [0; 8];
//! let mut table = vec![0; lending::table_words(image, buffer.len())];
//! let n = lending::open(image, b"7", &mut buffer, &mut table)?;
//! let read = lending::read(image, &buffer, n, &mut table)?;
//! assert!(read.is_whole());
//!
//! let mut short = vec![0; 3];
//! let refusal = lending::open(image, b"7", &mut buffer, &mut short).unwrap_err();
//! assert_eq!(refusal.to_string(), "the table has 3 words, and 9 are needed");
//! # Ok::<(), Box<dyn std::error::Error>>(())
//! ```

use crate::image::{refused_image, Header};
use crate::raw::{self, Unanswered};
use crate::reading::{Edited, SheetReading};
use crate::refusal::{LoanFault, Refusal};
use crate::MOST_BYTES;
use std::ops::Range;

/// The words of the table for an image and a text buffer of `cap` bytes: rules × (cap + 1).
///
/// More words may be lent; those behind the table are not touched.
///
/// ```
/// # use bannelgo::grammar::{call, plus, range, Grammar};
/// # let grammar = Grammar::builder()
/// #     .rule("Number", plus(call("Digit")))
/// #     .rule("Digit", range(b'0', b'9'))
/// #     .build()?;
/// let words = bannelgo::lending::table_words(grammar.image(), 1_000);
/// assert_eq!(words, 2 * 1_001); // two rules; one position more than bytes
/// # Ok::<(), Box<dyn std::error::Error>>(())
/// ```
pub fn table_words(image: &[u8], cap: usize) -> usize {
    let rules = Header::of(image).map_or(0, |header| header.rules);
    rules.saturating_mul(cap.saturating_add(1))
}

/// Opens a text: it is copied to the buffer, whose rest becomes 0, and so does the table. Answers the
/// text's length; a refusal is one of 1 to 8.
pub fn open(
    image: &[u8],
    text: &[u8],
    buffer: &mut [u8],
    table: &mut [u64],
) -> Result<usize, Refusal> {
    let loan = Loan::of(image, buffer, text.len(), table);
    let answer = raw::open(image, text, buffer, table);
    answer.opened().map_err(|other| loan.refused(other))
}

/// These bytes of the text give way to `replacement`. A refusal is one of 1 to 10 and changes nothing.
///
/// ```
/// # use bannelgo::grammar::{call, plus, range, Grammar};
/// # let grammar = Grammar::builder()
/// #     .rule("Number", plus(call("Digit")))
/// #     .rule("Digit", range(b'0', b'9'))
/// #     .build()?;
/// # use bannelgo::lending;
/// # let image = grammar.image();
/// # let mut buffer = [0; 8];
/// # let mut table = vec![0; lending::table_words(image, buffer.len())];
/// let n = lending::open(image, b"12", &mut buffer, &mut table)?;
/// let n = lending::edit(image, &mut buffer, n, &mut table, 0..1, b"34")?.length;
/// assert_eq!(&buffer[..n], b"342");
/// # Ok::<(), Box<dyn std::error::Error>>(())
/// ```
pub fn edit(
    image: &[u8],
    buffer: &mut [u8],
    n: usize,
    table: &mut [u64],
    bytes: Range<usize>,
    replacement: &[u8],
) -> Result<Edited, Refusal> {
    let loan = Loan::of(image, buffer, n, table);
    let Range { start, end } = bytes;
    let answer = raw::edit(image, buffer, n, table, bytes, replacement);
    answer.edited().map_err(|other| match other {
        Unanswered::Number(9) => Refusal::EditRange {
            start,
            end,
            length: n,
        },
        Unanswered::Number(10) => Refusal::EditRoom {
            removed: end.saturating_sub(start),
            inserted: replacement.len(),
            length: n,
            cap: loan.cap,
        },
        other => loan.refused(other),
    })
}

/// Reads the first `n` bytes of the buffer; the table gains a record of each pair that is evaluated. A
/// refusal is one of 1 to 8, or 12 or 14, which make the table 0.
///
/// A thread's stack of 2 MiB is enough for it, also near the limit of 14.
pub fn read(
    image: &[u8],
    buffer: &[u8],
    n: usize,
    table: &mut [u64],
) -> Result<SheetReading, Refusal> {
    let loan = Loan::of(image, buffer, n, table);
    let answer = raw::read(image, buffer, n, table);
    answer.read().map_err(|other| loan.refused(other))
}

/// The table's word of a rule at a position, which [`Record::from_word`](crate::Record::from_word)
/// takes apart. A refusal is one of 1 to 8, or 11.
///
/// ```
/// # use bannelgo::grammar::{call, plus, range, Grammar};
/// # let grammar = Grammar::builder()
/// #     .rule("Number", plus(call("Digit")))
/// #     .rule("Digit", range(b'0', b'9'))
/// #     .build()?;
/// # use bannelgo::lending;
/// # let image = grammar.image();
/// # let mut buffer = [0; 8];
/// # let mut table = vec![0; lending::table_words(image, buffer.len())];
/// use bannelgo::Record;
///
/// let n = lending::open(image, b"12", &mut buffer, &mut table)?;
/// lending::read(image, &buffer, n, &mut table)?;
/// let word = lending::look_up(image, &buffer, n, &table, 1, 2)?; // Digit at the end
/// let record = Record::from_word(word).expect("it was tried there");
/// assert!(!record.matched);
/// # Ok::<(), Box<dyn std::error::Error>>(())
/// ```
pub fn look_up(
    image: &[u8],
    buffer: &[u8],
    n: usize,
    table: &[u64],
    rule: usize,
    position: usize,
) -> Result<u64, Refusal> {
    let loan = Loan::of(image, buffer, n, table);
    let answer = raw::look_up(image, buffer, n, table, rule, position);
    answer.word().map_err(|other| match other {
        Unanswered::Number(11) => Refusal::Pair {
            rule,
            position,
            rules: Header::of(image).map_or(0, |header| header.rules),
            length: n,
        },
        other => loan.refused(other),
    })
}

/// Reads as [`read`] does and writes a word for each row to the front of `slots`, which
/// [`Row::from_word`](crate::Row::from_word) takes apart. Answers the reading and the number of rows.
/// Refusals are those of [`read`], and 15 where there are more rows than slots. A refusal leaves the
/// slots as they are; after 15 the records of the reading are kept.
///
/// ```
/// # use bannelgo::grammar::{call, plus, range, Grammar};
/// # let grammar = Grammar::builder()
/// #     .rule("Number", plus(call("Digit")))
/// #     .rule("Digit", range(b'0', b'9'))
/// #     .build()?;
/// # use bannelgo::lending;
/// # let image = grammar.image();
/// # let mut buffer = [0; 8];
/// # let mut table = vec![0; lending::table_words(image, buffer.len())];
/// use bannelgo::Row;
///
/// let n = lending::open(image, b"12", &mut buffer, &mut table)?;
/// let mut slots = [0; 10];
/// let (read, rows) = lending::list(image, &buffer, n, &mut table, &mut slots)?;
/// assert!(read.is_whole());
/// assert_eq!(rows, 3);
/// assert_eq!(Row::from_word(slots[2]).range(), 1..2);
/// # Ok::<(), Box<dyn std::error::Error>>(())
/// ```
pub fn list(
    image: &[u8],
    buffer: &[u8],
    n: usize,
    table: &mut [u64],
    slots: &mut [u64],
) -> Result<(SheetReading, usize), Refusal> {
    let loan = Loan::of(image, buffer, n, table);
    let answer = raw::list(image, buffer, n, table, slots);
    answer.listed(slots.len()).map_err(|other| match other {
        Unanswered::Number(15) => Refusal::Rows { slots: slots.len() },
        other => loan.refused(other),
    })
}

/// What is lent to a call, to say what was wrong with it.
struct Loan<'a> {
    image: &'a [u8],
    cap: usize,
    length: usize,
    words: usize,
}

impl Loan<'_> {
    fn of<'a>(image: &'a [u8], buffer: &[u8], length: usize, table: &[u64]) -> Loan<'a> {
        Loan {
            image,
            cap: buffer.len(),
            length,
            words: table.len(),
        }
    }

    fn refused(&self, unanswered: Unanswered) -> Refusal {
        match unanswered {
            Unanswered::Number(number @ 1..=7) => refused_image(number, self.image),
            Unanswered::Number(8) => Refusal::Loan(self.fault()),
            Unanswered::Number(12) => Refusal::Records,
            Unanswered::Number(14) => Refusal::Nesting,
            other => Refusal::unknown(other),
        }
    }

    fn fault(&self) -> LoanFault {
        let Loan {
            image,
            cap,
            length,
            words,
        } = *self;
        if cap > MOST_BYTES {
            LoanFault::Cap { cap }
        } else if length > cap {
            LoanFault::Text { length, most: cap }
        } else {
            let needed = table_words(image, cap);
            LoanFault::Table { words, needed }
        }
    }
}
