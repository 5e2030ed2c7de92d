//! A tree in print.

use super::{Call, Tree};
use crate::grammar::shown_name;
use std::fmt;

/// Of a longer text only so many characters are printed.
const MOST_SHOWN: usize = 32;

/// A tree printed down to a depth: what [`Tree::down_to`] gives.
#[derive(Clone, Copy, Debug)]
pub struct DownTo<'t> {
    pub(super) tree: &'t Tree,
    pub(super) depth: usize,
}

/// The rule's name, the bytes, and the beginning of the text that it matched.
impl fmt::Display for Call<'_> {
    fn fmt(&self, out: &mut fmt::Formatter<'_>) -> fmt::Result {
        let (name, range) = (shown_name(self.name()), self.range());
        let mut shown = characters(self.text());
        let text: String = shown.by_ref().take(MOST_SHOWN).collect();
        let more = if shown.next().is_some() { " .." } else { "" };
        write!(out, "{name} {range:?} \"{text}\"{more}")
    }
}

/// The characters of a text, escaped where they do not print; a byte that is in none as `\xFF`.
fn characters(text: &[u8]) -> impl Iterator<Item = String> + '_ {
    text.utf8_chunks().flat_map(|chunk| {
        let valid = chunk.valid().chars().map(|one| match one {
            '\'' => one.to_string(),
            _ => one.escape_debug().to_string(),
        });
        let invalid = chunk.invalid().iter();
        valid.chain(invalid.map(|byte| format!("\\x{byte:02X}")))
    })
}

impl fmt::Display for DownTo<'_> {
    fn fmt(&self, out: &mut fmt::Formatter<'_>) -> fmt::Result {
        let tree = self.tree;
        if tree.is_empty() {
            return writeln!(out, "no match; read as far as {}", tree.reached());
        }
        let shown = |call: &Call<'_>| call.depth() <= self.depth;
        for call in tree.calls().filter(shown) {
            writeln!(out, "{}{call}", "  ".repeat(call.depth()))?;
        }
        let deeper = tree.calls().filter(|call| !shown(call)).count();
        if deeper > 0 {
            writeln!(out, "and {deeper} deeper")?;
        }
        match tree.reading().is_whole() {
            true => Ok(()),
            false => writeln!(out, "only a part; read as far as {}", tree.reached()),
        }
    }
}

impl fmt::Display for Tree {
    fn fmt(&self, out: &mut fmt::Formatter<'_>) -> fmt::Result {
        write!(out, "{}", self.down_to(usize::MAX))
    }
}
