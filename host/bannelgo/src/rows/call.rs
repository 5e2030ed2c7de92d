//! A call in a tree.

use super::{Row, Tree};
use std::fmt;
use std::ops::Range;

/// A call that made the match, in its [`Tree`].
///
/// ```
/// use bannelgo::grammar::{call, literal, plus, range, sequence, star, Grammar};
/// use bannelgo::{Call, Sheet};
///
/// /// The value of a call of Sum or Number; nothing where a number is too great.
/// fn value(call: Call<'_>) -> Option<u64> {
///     match call.name() {
///         "Sum" => call.children().map(value).sum(),
///         _ => std::str::from_utf8(call.text()).ok()?.parse().ok(),
///     }
/// }
///
/// let more = sequence([literal("+"), call("Number")]);
/// let grammar = Grammar::builder()
///     .rule("Sum", sequence([call("Number"), star(more)]))
///     .rule("Number", plus(range(b'0', b'9')))
///     .build()?;
/// let tree = Sheet::open(&grammar, "4+8+30", 20)?.tree()?;
/// assert_eq!(tree.root().and_then(value), Some(42));
/// # Ok::<(), Box<dyn std::error::Error>>(())
/// ```
#[derive(Clone, Copy)]
pub struct Call<'t> {
    pub(super) tree: &'t Tree,
    pub(super) place: usize,
}

impl<'t> Call<'t> {
    /// Rule, depth, start and length.
    pub fn row(&self) -> Row {
        self.tree.rows[self.place]
    }

    /// The number of the rule that was called.
    pub fn rule(&self) -> usize {
        self.row().rule
    }

    /// The name of the rule that was called.
    pub fn name(&self) -> &'t str {
        self.tree.grammar.name(self.rule()).unwrap_or("")
    }

    /// The number of calls around it.
    pub fn depth(&self) -> usize {
        self.tree.links[self.place].level
    }

    /// The bytes that it matched.
    pub fn range(&self) -> Range<usize> {
        self.row().range()
    }

    /// The text that it matched.
    pub fn text(&self) -> &'t [u8] {
        self.tree.text.get(self.range()).unwrap_or(&[])
    }

    /// The call that it was made in; nothing for the start rule's.
    pub fn parent(&self) -> Option<Call<'t>> {
        let parent = self.tree.links[self.place].parent?;
        self.tree.call(parent)
    }

    /// The calls that were made in it, left to right.
    pub fn children(&self) -> Children<'t> {
        Children {
            tree: self.tree,
            next: self.place + 1,
            behind: self.tree.links[self.place].behind,
        }
    }
}

/// The calls made in a call, left to right: what [`Call::children`] gives.
#[derive(Clone)]
pub struct Children<'t> {
    tree: &'t Tree,
    next: usize,
    behind: usize,
}

impl<'t> Iterator for Children<'t> {
    type Item = Call<'t>;

    fn next(&mut self) -> Option<Call<'t>> {
        let place = self.next;
        if place >= self.behind {
            return None;
        }
        self.next = self.tree.links[place].behind;
        self.tree.call(place)
    }
}

/// The same call of the same tree.
impl PartialEq for Call<'_> {
    fn eq(&self, other: &Self) -> bool {
        std::ptr::eq(self.tree, other.tree) && self.place == other.place
    }
}

impl Eq for Call<'_> {}

impl fmt::Debug for Call<'_> {
    fn fmt(&self, out: &mut fmt::Formatter<'_>) -> fmt::Result {
        write!(out, "Call({self})")
    }
}

impl fmt::Debug for Children<'_> {
    fn fmt(&self, out: &mut fmt::Formatter<'_>) -> fmt::Result {
        out.debug_list().entries(self.clone()).finish()
    }
}
