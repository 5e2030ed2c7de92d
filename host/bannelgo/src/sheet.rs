//! An open sheet that owns its buffers.

use crate::grammar::Grammar;
use crate::lending;
use crate::reading::{Edited, SheetReading};
use crate::record::Record;
use crate::refusal::Refusal;
use crate::rows::{Listing, Row, Tree};
use crate::MOST_BYTES;
use std::fmt;
use std::ops::{Bound, Range, RangeBounds};

/// A text that is being typed, with its records and the grammar that it is read by.
///
/// ```
/// use bannelgo::grammar::{call, range, sequence, star, Grammar};
/// use bannelgo::Sheet;
///
/// let grammar = Grammar::builder()
///     .rule("Number", sequence([call("Digit"), star(call("Digit"))]))
///     .rule("Digit", range(b'0', b'9'))
///     .build()?;
/// let mut sheet = Sheet::open(&grammar, "12", 16)?;
/// assert_eq!(sheet.read()?.evaluations, 4);
/// sheet.edit(0..0, "7")?; // typed in front
/// assert_eq!(sheet.read()?.evaluations, 2);
/// assert_eq!(sheet.text(), b"712");
/// # Ok::<(), Box<dyn std::error::Error>>(())
/// ```
#[derive(Clone)]
pub struct Sheet {
    grammar: Grammar,
    buffer: Vec<u8>,
    length: usize,
    table: Vec<u64>,
}

/// The most rows that a listing of a [`Sheet`] gives. A listing with more slots of its own is
/// [`lending::list`].
///
/// A [`Tree`] takes 64 bytes for each row, with the most rows 1 GiB; a [`Listing`] takes 32, and 8 more
/// for each slot while it is made. For a lower limit [`Sheet::list`] is told the most rows, and
/// [`Tree::new`] makes a tree of them.
pub const MOST_ROWS: usize = 1 << 24;

/// The slots that a listing begins with where it grows them by itself.
const FIRST_SLOTS: usize = 1 << 10;

impl Sheet {
    /// Opens a text with room for so many bytes, at most [`MOST_BYTES`]. A refusal has number 8.
    ///
    /// ```
    /// # use bannelgo::grammar::{any, star, Grammar};
    /// # let grammar = Grammar::builder().rule("Text", star(any())).build()?;
    /// use bannelgo::Sheet;
    ///
    /// let sheet = Sheet::open(&grammar, "", 100)?; // to be typed
    /// assert_eq!((sheet.text(), sheet.cap()), (&b""[..], 100));
    ///
    /// let refusal = Sheet::open(&grammar, "seven", 4).unwrap_err();
    /// assert_eq!(refusal.to_string(), "the text has 5 bytes, and there is room for 4");
    /// # Ok::<(), Box<dyn std::error::Error>>(())
    /// ```
    pub fn open(grammar: &Grammar, text: impl AsRef<[u8]>, cap: usize) -> Result<Sheet, Refusal> {
        let image = grammar.image();
        // One byte more than there may be is enough for the library to refuse it.
        let lent = cap.min(MOST_BYTES + 1);
        let mut buffer = vec![0; lent];
        let mut table = vec![0; lending::table_words(image, lent)];
        let opened = lending::open(image, text.as_ref(), &mut buffer, &mut table);
        let length = opened.map_err(|refusal| with_cap(refusal, cap))?;
        Ok(Sheet {
            grammar: grammar.clone(),
            buffer,
            length,
            table,
        })
    }

    /// These bytes give way to `replacement`. A refusal has number 9 or 10 and changes nothing.
    ///
    /// Typing at a cursor is `edit(cursor..cursor, key)`, and a backspace takes the letter before it:
    /// `edit(cursor - letter.len_utf8()..cursor, "")`. A letter with an accent has two bytes or more. It can
    /// be typed, changed and deleted byte by byte too: while it is incomplete, [`any`](crate::grammar::any)
    /// takes its bytes one by one.
    ///
    /// ```
    /// # use bannelgo::grammar::{any, star, Grammar};
    /// # let grammar = Grammar::builder().rule("Text", star(any())).build()?;
    /// let mut sheet = bannelgo::Sheet::open(&grammar, "gap", 8)?;
    /// sheet.edit(3..3, "s")?; // typed at the end
    /// sheet.edit(0..1, "m")?; // one letter in the place of another
    /// assert_eq!(sheet.text(), b"maps");
    /// sheet.edit(1.., "")?; // all but one letter is deleted
    /// assert_eq!(sheet.text(), b"m");
    /// sheet.edit(1..1, "ü")?;
    /// sheet.edit(3 - 'ü'.len_utf8()..3, "")?; // a backspace behind it
    /// assert_eq!(sheet.text(), b"m");
    ///
    /// assert!(sheet.edit(1..1, "12345678").is_err()); // there is room for 8
    /// assert_eq!(sheet.text(), b"m");
    /// # Ok::<(), Box<dyn std::error::Error>>(())
    /// ```
    pub fn edit(
        &mut self,
        bytes: impl RangeBounds<usize>,
        replacement: impl AsRef<[u8]>,
    ) -> Result<Edited, Refusal> {
        let bytes = range_of(&bytes, self.length);
        let edited = lending::edit(
            self.grammar.image(),
            &mut self.buffer,
            self.length,
            &mut self.table,
            bytes,
            replacement.as_ref(),
        )?;
        self.length = edited.length;
        Ok(edited)
    }

    /// Reads the text by the grammar's start rule. A refusal has number 14.
    ///
    /// Each rule is evaluated at most once at each position. The parts of its body have no records: where
    /// a star looks through the rest of the text from each position, as one under a `not` can, the time
    /// grows with the square of the text's length.
    ///
    /// A thread's stack of 2 MiB is enough for it, also near the limit of 14.
    ///
    /// ```
    /// # use bannelgo::grammar::{call, plus, range, Grammar};
    /// # let grammar = Grammar::builder()
    /// #     .rule("Number", plus(call("Digit")))
    /// #     .rule("Digit", range(b'0', b'9'))
    /// #     .build()?;
    /// let mut sheet = bannelgo::Sheet::open(&grammar, "12a", 8)?;
    /// let read = sheet.read()?;
    /// assert_eq!(read.to_string(), "part, length 2, examined 3, nesting 4, evaluations 4");
    /// assert_eq!(read.reached(sheet.text()).to_string(), "line 1, column 3");
    /// assert_eq!(sheet.read()?.evaluations, 0); // nothing was changed
    /// # Ok::<(), Box<dyn std::error::Error>>(())
    /// ```
    pub fn read(&mut self) -> Result<SheetReading, Refusal> {
        lending::read(
            self.grammar.image(),
            &self.buffer,
            self.length,
            &mut self.table,
        )
    }

    /// The record of a rule at a position; nothing where none is held. A refusal has number 11.
    ///
    /// ```
    /// # use bannelgo::grammar::{range, Grammar};
    /// # let grammar = Grammar::builder().rule("Digit", range(b'0', b'9')).build()?;
    /// let mut sheet = bannelgo::Sheet::open(&grammar, "7", 7)?;
    /// assert_eq!(sheet.look_up(0, 0)?, None);
    /// sheet.read()?;
    /// let record = sheet.look_up(0, 0)?.expect("the start rule was read here");
    /// assert_eq!(record.length, 1);
    /// # Ok::<(), Box<dyn std::error::Error>>(())
    /// ```
    pub fn look_up(&self, rule: usize, position: usize) -> Result<Option<Record>, Refusal> {
        self.word(rule, position).map(Record::from_word)
    }

    /// The word behind [`look_up`](Sheet::look_up), 0 where no record is held.
    #[doc(hidden)]
    pub fn word(&self, rule: usize, position: usize) -> Result<u64, Refusal> {
        lending::look_up(
            self.grammar.image(),
            &self.buffer,
            self.length,
            &self.table,
            rule,
            position,
        )
    }

    /// Reads the text and lists the calls that made the match, if there are at most `most` of them, and
    /// at most [`MOST_ROWS`]. A refusal has number 14, or 15 where there are more; after 15 the records
    /// of the reading are kept.
    ///
    /// Slots for the rows are lent as they are needed: a great `most` takes no memory by itself.
    ///
    /// ```
    /// # use bannelgo::grammar::{call, plus, range, Grammar};
    /// # let grammar = Grammar::builder()
    /// #     .rule("Number", plus(call("Digit")))
    /// #     .rule("Digit", range(b'0', b'9'))
    /// #     .build()?;
    /// let mut sheet = bannelgo::Sheet::open(&grammar, "12", 8)?;
    /// let listing = sheet.list(100)?;
    /// let rows: Vec<_> = listing.rows.iter().map(|row| (row.rule, row.depth, row.range())).collect();
    /// assert_eq!(rows, [(0, 0, 0..2), (1, 1, 0..1), (1, 1, 1..2)]);
    ///
    /// let refusal = sheet.list(2).unwrap_err();
    /// assert_eq!(refusal.to_string(), "the match has more than 2 rows");
    /// # Ok::<(), Box<dyn std::error::Error>>(())
    /// ```
    pub fn list(&mut self, most: usize) -> Result<Listing, Refusal> {
        let most = most.min(MOST_ROWS);
        if most <= FIRST_SLOTS {
            return self.list_in(most);
        }
        // A listing that is refused with 15 keeps its records: the first reading has counted them.
        let read = self.read()?;
        let mut slots = FIRST_SLOTS;
        loop {
            match self.list_in(slots) {
                Err(Refusal::Rows { .. }) if slots < most => slots = most.min(4 * slots),
                listing => return listing.map(|Listing { rows, .. }| Listing { read, rows }),
            }
        }
    }

    /// Reads the text and gives the calls that made the match as a tree. A refusal has number 14, or 15
    /// where there are more than [`MOST_ROWS`].
    ///
    /// ```
    /// # use bannelgo::grammar::{call, range, sequence, star, Grammar};
    /// # let grammar = Grammar::builder()
    /// #     .rule("Number", sequence([call("Digit"), star(call("Digit"))]))
    /// #     .rule("Digit", range(b'0', b'9'))
    /// #     .build()?;
    /// let mut sheet = bannelgo::Sheet::open(&grammar, "12", 2)?;
    /// let tree = sheet.tree()?;
    /// let number = tree.root().expect("the text matched");
    /// let digits: Vec<&[u8]> = number.children().map(|digit| digit.text()).collect();
    /// assert_eq!(digits, [b"1", b"2"]);
    /// # Ok::<(), Box<dyn std::error::Error>>(())
    /// ```
    pub fn tree(&mut self) -> Result<Tree, Refusal> {
        let Listing { read, rows } = self.list(MOST_ROWS)?;
        Ok(Tree::new(&self.grammar, self.text(), read, rows))
    }

    /// One listing in so many slots.
    fn list_in(&mut self, slots: usize) -> Result<Listing, Refusal> {
        let mut words = vec![0; slots];
        let (read, rows) = lending::list(
            self.grammar.image(),
            &self.buffer,
            self.length,
            &mut self.table,
            &mut words,
        )?;
        let rows = words[..rows].iter().map(|&word| Row::from_word(word));
        Ok(Listing {
            read,
            rows: rows.collect(),
        })
    }

    /// The text.
    pub fn text(&self) -> &[u8] {
        &self.buffer[..self.length]
    }

    /// The length of the text in bytes.
    pub fn len(&self) -> usize {
        self.length
    }

    /// Whether the text has no byte.
    pub fn is_empty(&self) -> bool {
        self.length == 0
    }

    /// The room for text in bytes.
    pub fn cap(&self) -> usize {
        self.buffer.len()
    }

    /// The grammar that the text is read by.
    pub fn grammar(&self) -> &Grammar {
        &self.grammar
    }
}

/// The bytes from the first one on to the one behind the last, in a text of so many bytes.
fn range_of(bytes: &impl RangeBounds<usize>, length: usize) -> Range<usize> {
    let start = match bytes.start_bound() {
        Bound::Included(&first) => first,
        Bound::Excluded(&before) => before.saturating_add(1),
        Bound::Unbounded => 0,
    };
    let end = match bytes.end_bound() {
        Bound::Included(&last) => last.saturating_add(1),
        Bound::Excluded(&behind) => behind,
        Bound::Unbounded => length,
    };
    start..end
}

/// The refusal of an opening, with the room that was asked for.
fn with_cap(refusal: Refusal, asked: usize) -> Refusal {
    use crate::LoanFault::Cap;
    match refusal {
        Refusal::Loan(Cap { .. }) => Refusal::Loan(Cap { cap: asked }),
        other => other,
    }
}

impl fmt::Debug for Sheet {
    fn fmt(&self, out: &mut fmt::Formatter<'_>) -> fmt::Result {
        let held = self.table.iter().filter(|&&word| word >> 63 == 1);
        out.debug_struct("Sheet")
            .field("grammar", &self.grammar)
            .field("text", &String::from_utf8_lossy(self.text()))
            .field("cap", &self.cap())
            .field("held", &held.count())
            .finish()
    }
}
