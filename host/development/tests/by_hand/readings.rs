//! Readings by the library, both readers of the reference and the packrat parser.

use bannelgo::Outcome::Nothing;
use bannelgo_development::expected::{reading, ReadingFields};
use bannelgo_development::expr::{Expr, Grammar};
use bannelgo_development::numbering::{image_of, Numbering};
use bannelgo_development::packrat::Packrat;
use bannelgo_development::reference::{self, recursive};

/// Asks all readers for a text by a grammar of one rule.
pub fn expect(rule: &Expr, text: &[u8], fields: ReadingFields) {
    let rules = vec![rule.clone()];
    let grammar = Grammar { start: 0, rules };
    let image = image_of(&grammar, Numbering::Preorder);
    let expected = reading(fields);
    let shown = text.escape_ascii();
    let read = bannelgo::plain_reading(&image, text);
    assert_eq!(read, Ok(expected), "ours, {rule}, {shown}");
    let machine = reference::read(&grammar, text, u64::MAX);
    assert_eq!(machine, Some(Ok(expected)), "machine, {rule}, {shown}");
    let recursive = recursive::read(&grammar, text);
    assert_eq!(recursive, Ok(expected), "recursive, {rule}, {shown}");
    let end = (expected.outcome != Nothing).then_some(expected.length);
    let packrat = Packrat::new(&grammar).read(text);
    assert_eq!(packrat, end, "packrat, {rule}, {shown}");
}
