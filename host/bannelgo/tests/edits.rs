//! The bytes that an edit takes out, by ranges of every kind.

use bannelgo::grammar::{any, star, Grammar};
use bannelgo::{Edited, Refusal, Sheet};
use std::ops::Bound::{Excluded, Included, Unbounded};
use std::ops::RangeBounds;

/// Edits the text "abcd".
fn edit(bytes: impl RangeBounds<usize>, replacement: &str) -> (Result<Edited, Refusal>, String) {
    let grammar = Grammar::builder().rule("Text", star(any())).build();
    let mut sheet = Sheet::open(&grammar.expect("accepted"), "abcd", 8).expect("opened");
    let edited = sheet.edit(bytes, replacement);
    (edited, String::from_utf8_lossy(sheet.text()).into_owned())
}

/// The text "abcd" after an edit that is answered.
fn after(bytes: impl RangeBounds<usize>, replacement: &str) -> String {
    let (edited, text) = edit(bytes, replacement);
    assert_eq!(edited.expect("answered").length, text.len());
    text
}

/// The edit is refused with 9, by these first and last bytes, and leaves the text.
fn refused(bytes: impl RangeBounds<usize>, start: usize, end: usize) {
    let (edited, text) = edit(bytes, "x");
    let length = 4;
    let refusal = Refusal::EditRange { start, end, length };
    assert_eq!(refusal.number(), Some(9));
    assert_eq!(edited, Err(refusal));
    assert_eq!(text, "abcd");
}

#[test]
fn ranges_of_every_kind() {
    assert_eq!(after(1..3, "x"), "axd");
    assert_eq!(after(1..=2, "x"), "axd");
    assert_eq!(after(..2, "x"), "xcd");
    assert_eq!(after(..=2, "x"), "xd");
    assert_eq!(after(2.., "x"), "abx");
    assert_eq!(after(.., "x"), "x");
    assert_eq!(after(4.., "x"), "abcdx");
    assert_eq!(after(0..=3, ""), "");
    assert_eq!(after((Excluded(0), Unbounded), "x"), "ax");
    assert_eq!(after((Excluded(0), Included(1)), "x"), "axcd");
    assert_eq!(after((Excluded(0), Excluded(3)), "x"), "axd");
    assert_eq!(after((Excluded(3), Unbounded), "x"), "abcdx");
    assert_eq!(after((Unbounded, Included(0)), "x"), "xbcd");
}

/// The byte behind the last one that there can be is not the first one.
#[test]
fn ranges_that_are_not_in_the_text() {
    refused(0..=4, 0, 5);
    refused(..=usize::MAX, 0, usize::MAX);
    refused(2..=usize::MAX, 2, usize::MAX);
    refused(5.., 5, 4);
    refused((Excluded(4), Unbounded), 5, 4);
    refused((Excluded(usize::MAX), Unbounded), usize::MAX, 4);
    refused((Excluded(usize::MAX), Included(0)), usize::MAX, 1);
    refused((Excluded(2), Excluded(2)), 3, 2);
}
