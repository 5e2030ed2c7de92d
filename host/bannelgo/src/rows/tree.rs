//! The rows of a listing as a tree.

use super::{Call, DownTo, Row};
use crate::grammar::Grammar;
use crate::place::Place;
use crate::reading::SheetReading;

/// The calls that made a match, with the text and the rule names: what [`Sheet::tree`] gives.
///
/// It keeps a copy of the text, so the sheet can be edited while a tree of it is looked at. Printed, it
/// has a line for each call: the rule, the bytes and the text that it matched, of a longer one the first
/// 32 characters. Where the text does not match as a whole, a last line says how far it was read.
///
/// ```
/// # use bannelgo::grammar::{call, plus, range, Grammar};
/// # let grammar = Grammar::builder()
/// #     .rule("Number", plus(call("Digit")))
/// #     .rule("Digit", range(b'0', b'9'))
/// #     .build()?;
/// let mut sheet = bannelgo::Sheet::open(&grammar, "12", 8)?;
/// let tree = sheet.tree()?;
/// let printed = r#"
/// Number 0..2 "12"
///   Digit 0..1 "1"
///   Digit 1..2 "2"
/// "#;
/// assert_eq!(tree.to_string(), printed.trim_start());
/// # Ok::<(), Box<dyn std::error::Error>>(())
/// ```
///
/// [`Sheet::tree`]: crate::Sheet::tree
#[derive(Clone, Debug)]
pub struct Tree {
    pub(super) grammar: Grammar,
    pub(super) text: Vec<u8>,
    reading: SheetReading,
    pub(super) rows: Vec<Row>,
    /// For each row where it stands in the tree.
    pub(super) links: Vec<Link>,
}

#[derive(Clone, Copy, Debug)]
pub(super) struct Link {
    pub(super) parent: Option<usize>,
    /// The place of the first row that is not below it.
    pub(super) behind: usize,
    /// How many rows are around it. A row of a listing has this as its depth.
    pub(super) level: usize,
}

impl Tree {
    /// The tree of rows that stand parents first, left to right, as a listing gives them; for a host that
    /// calls [`lending::list`](crate::lending::list). [`Sheet::tree`](crate::Sheet::tree) makes the same.
    ///
    /// ```
    /// # use bannelgo::grammar::{range, Grammar};
    /// # use bannelgo::{lending, Row, Tree};
    /// # let grammar = Grammar::builder().rule("Digit", range(b'0', b'9')).build()?;
    /// # let (image, mut buffer, mut slots) = (grammar.image(), [0; 8], [0; 9]);
    /// # let mut table = vec![0; lending::table_words(image, 8)];
    /// # let n = lending::open(image, b"7", &mut buffer, &mut table)?;
    /// let (reading, rows) = lending::list(image, &buffer, n, &mut table, &mut slots)?;
    /// let rows = slots[..rows].iter().map(|&word| Row::from_word(word));
    /// let tree = Tree::new(&grammar, &buffer[..n], reading, rows.collect());
    /// assert_eq!(tree.to_string(), "Digit 0..1 \"7\"\n");
    /// # Ok::<(), Box<dyn std::error::Error>>(())
    /// ```
    pub fn new(grammar: &Grammar, text: &[u8], reading: SheetReading, rows: Vec<Row>) -> Tree {
        Tree {
            grammar: grammar.clone(),
            text: text.to_vec(),
            reading,
            links: links(&rows),
            rows,
        }
    }

    /// The call of the start rule; nothing where the text did not match.
    pub fn root(&self) -> Option<Call<'_>> {
        self.call(0)
    }

    /// All calls: parents first, left to right.
    ///
    /// ```
    /// # use bannelgo::grammar::{call, plus, range, Grammar};
    /// # let grammar = Grammar::builder()
    /// #     .rule("Number", plus(call("Digit")))
    /// #     .rule("Digit", range(b'0', b'9'))
    /// #     .build()?;
    /// let tree = bannelgo::Sheet::open(&grammar, "12", 8)?.tree()?;
    /// let digits = tree.calls().filter(|call| call.name() == "Digit");
    /// assert_eq!(digits.count(), 2);
    /// # Ok::<(), Box<dyn std::error::Error>>(())
    /// ```
    pub fn calls(&self) -> impl Iterator<Item = Call<'_>> {
        (0..self.rows.len()).filter_map(|place| self.call(place))
    }

    /// The number of calls.
    pub fn len(&self) -> usize {
        self.rows.len()
    }

    /// Whether the text did not match.
    pub fn is_empty(&self) -> bool {
        self.rows.is_empty()
    }

    /// The reading that the tree was made with.
    pub fn reading(&self) -> SheetReading {
        self.reading
    }

    /// The text that was read.
    pub fn text(&self) -> &[u8] {
        &self.text
    }

    /// The last place that the reading looked at: how far a text that does not match as a whole could be
    /// followed.
    ///
    /// ```
    /// # use bannelgo::grammar::{call, plus, range, Grammar};
    /// # let grammar = Grammar::builder()
    /// #     .rule("Number", plus(call("Digit")))
    /// #     .rule("Digit", range(b'0', b'9'))
    /// #     .build()?;
    /// let tree = bannelgo::Sheet::open(&grammar, "x2", 8)?.tree()?;
    /// assert!(tree.is_empty());
    /// assert_eq!(tree.reached().to_string(), "line 1, column 1");
    /// # Ok::<(), Box<dyn std::error::Error>>(())
    /// ```
    pub fn reached(&self) -> Place {
        self.reading.reached(&self.text)
    }

    /// The innermost call that matched the byte at a position, if there is one.
    ///
    /// ```
    /// # use bannelgo::grammar::{call, range, sequence, star, Grammar};
    /// # let grammar = Grammar::builder()
    /// #     .rule("Number", sequence([call("Digit"), star(call("Digit"))]))
    /// #     .rule("Digit", range(b'0', b'9'))
    /// #     .build()?;
    /// let tree = bannelgo::Sheet::open(&grammar, "12", 2)?.tree()?;
    /// let digit = tree.at(1).expect("byte 1 was matched");
    /// assert_eq!(digit.to_string(), r#"Digit 1..2 "2""#);
    /// assert_eq!(digit.parent().map(|number| number.name()), Some("Number"));
    /// # Ok::<(), Box<dyn std::error::Error>>(())
    /// ```
    pub fn at(&self, position: usize) -> Option<Call<'_>> {
        let covers = |call: &Call<'_>| call.range().contains(&position);
        let mut found = self.root().filter(covers)?;
        while let Some(inner) = found.children().find(covers) {
            found = inner;
        }
        Some(found)
    }

    /// The tree printed down to a depth. Behind its calls a line has the number of those below that
    /// depth, where there are any; the line that says how far a part was read comes last.
    ///
    /// ```
    /// # use bannelgo::grammar::{call, plus, range, Grammar};
    /// # let grammar = Grammar::builder()
    /// #     .rule("Number", plus(call("Digit")))
    /// #     .rule("Digit", range(b'0', b'9'))
    /// #     .build()?;
    /// let tree = bannelgo::Sheet::open(&grammar, "12", 8)?.tree()?;
    /// assert_eq!(tree.down_to(0).to_string(), "Number 0..2 \"12\"\nand 2 deeper\n");
    /// # Ok::<(), Box<dyn std::error::Error>>(())
    /// ```
    pub fn down_to(&self, depth: usize) -> DownTo<'_> {
        DownTo { tree: self, depth }
    }

    pub(super) fn call(&self, place: usize) -> Option<Call<'_>> {
        (place < self.rows.len()).then_some(Call { tree: self, place })
    }
}

/// The links of rows that stand parents first, left to right.
fn links(rows: &[Row]) -> Vec<Link> {
    let mut links: Vec<Link> = Vec::with_capacity(rows.len());
    let mut open: Vec<usize> = vec![];
    for (place, row) in rows.iter().enumerate() {
        while open.len() > row.depth {
            if let Some(done) = open.pop() {
                links[done].behind = place;
            }
        }
        links.push(Link {
            parent: open.last().copied(),
            behind: rows.len(),
            level: open.len(),
        });
        open.push(place);
    }
    links
}
