//! Every byte against every range, without the fold bit and with it: 256 bytes, 2 × 32,896 ranges.
//!
//! Which bytes a range matches is said here apart from the reference. Each byte stands in one of two texts where
//! the answer would be another one if it were judged otherwise.

use bannelgo::Outcome::{Nothing, Part, Whole};
use bannelgo::{plain_reading, Row, Sheet};
use bannelgo_development::calls::open_image;
use bannelgo_development::expected::{reading, row, ReadingFields};
use bannelgo_development::expr::{not, or_else, star, then, Expr, Grammar};
use bannelgo_development::numbering::{image_of, Numbering};
use bannelgo_development::reference::bytes::{between, between_in_either_case};
use Expr::{Any, Bytes, Call, Empty, Folded};

/// A range, the bytes that it matches and the others.
struct Range {
    expr: Expr,
    matched: Vec<u8>,
    others: Vec<u8>,
}

/// Gives `visit` each range that begins and ends with one of these bytes, without the fold bit and with it.
fn each_range(ends: &[u8], mut visit: impl FnMut(Range)) {
    let other_cases: Vec<Option<u8>> = (0..=255).map(other_case).collect();
    for &low in ends {
        for &high in ends.iter().filter(|&&high| low <= high) {
            let inside = |byte: u8| low <= byte && byte <= high;
            let inside_too = |byte: u8| other_cases[usize::from(byte)].is_some_and(inside);
            for (expr, folded) in [(Bytes(low, high), false), (Folded(low, high), true)] {
                let matches = |&byte: &u8| inside(byte) || folded && inside_too(byte);
                let (matched, others) = (0..=255).partition(matches);
                visit(Range {
                    expr,
                    matched,
                    others,
                });
            }
        }
    }
}

/// The byte that is another one, and the same where case is ignored.
fn other_case(byte: u8) -> Option<u8> {
    (0..=255).find(|&other| other != byte && byte.eq_ignore_ascii_case(&other))
}

fn every_byte() -> Vec<u8> {
    (0..=255).collect()
}

fn image(rules: Vec<Expr>) -> Vec<u8> {
    image_of(&Grammar { start: 0, rules }, Numbering::Preorder)
}

#[test]
fn the_reference_matches_what_is_said_here() {
    let mut ranges = 0;
    each_range(&every_byte(), |range| {
        let fits = |&byte: &u8| match range.expr {
            Folded(low, high) => between_in_either_case(byte, low, high),
            Bytes(low, high) => between(byte, low, high),
            _ => unreachable!("a range"),
        };
        let right = range.matched.iter().all(fits) && !range.others.iter().any(fits);
        assert!(right, "{}", range.expr);
        ranges += 1;
    });
    assert_eq!(ranges, 2 * 32_896);
}

/// A star takes the bytes that match, and a star over the opposite the others.
#[test]
fn stars_end_behind_what_a_range_matches() {
    each_range(&every_byte(), |range| {
        let Range {
            expr,
            matched,
            others,
        } = &range;
        let in_front = [&matched[..], others].concat();
        expect_rounds(star(expr.clone()), &in_front, matched.len(), 2);
        let behind = [&others[..], matched].concat();
        let opposite = star(then(not(expr.clone()), Any));
        expect_rounds(opposite, &behind, others.len(), 4);
    });
}

/// The plain reading of all bytes by a star matches the first so many.
fn expect_rounds(star: Expr, text: &[u8], length: usize, nesting: usize) {
    let outcome = if length == 256 { Whole } else { Part };
    let expected = reading((outcome, length, length + 1, nesting));
    let read = plain_reading(&image(vec![star.clone()]), text);
    assert_eq!(read, Ok(expected), "{star}");
}

/// Rule 0 = ((range then rule 1) else any)*, rule 1 = empty: the listing of a sheet has a row behind each
/// byte that matches.
#[test]
fn rows_stand_behind_what_a_range_matches() {
    each_range(&every_byte(), |Range { expr, matched, .. }| {
        let rounds = star(or_else(then(expr.clone(), Call(1)), Any));
        let image = image(vec![rounds, Empty]);
        let mut sheet = open_image(&image, &every_byte(), 256).expect("256 bytes fit");
        let listing = sheet.list(257).expect("257 rows fit");
        let behind = matched
            .iter()
            .map(|&byte| row((1, 1, usize::from(byte) + 1, 0)));
        let rows: Vec<Row> = [row((0, 0, 0, 256))].into_iter().chain(behind).collect();
        assert_eq!(listing.rows, rows, "{expr}");
        assert_eq!(listing.read.reading, reading((Whole, 256, 257, 5)));
        assert_eq!(listing.read.evaluations, 1 + matched.len());
    });
}

/// A range that is the start rule's body: examined 1 with each byte, and at the end, where it fails.
#[test]
fn ranges_alone() {
    // The borders of the letters, and bytes that differ from these in the bits 0x20, 0x40 and 0x80.
    let tables = [0x00, 0x20, 0x40, 0x60, 0x80, 0xC0, 0xE0];
    let ends = tables.map(|table| [0, 1, 26, 27].map(|column| table + column));
    each_range(ends.as_flattened(), |range| {
        let image = image(vec![range.expr]);
        let sheet = &mut open_image(&image, b"", 1).expect("no byte fits");
        expect_alone(sheet, &image, b"", (Nothing, 0, 1, 1));
        for byte in range.matched {
            expect_alone(sheet, &image, &[byte], (Whole, 1, 1, 1));
        }
        for byte in range.others {
            expect_alone(sheet, &image, &[byte], (Nothing, 0, 1, 1));
        }
    });
}

/// The plain reading of a text, and the listing of a sheet once it has this text.
fn expect_alone(sheet: &mut Sheet, image: &[u8], text: &[u8], fields: ReadingFields) {
    assert_eq!(plain_reading(image, text), Ok(reading(fields)), "{text:?}");
    let before = sheet.text().len();
    sheet.edit(0..before, text).expect("one byte fits");
    let listing = sheet.list(1).expect("one row fits");
    let rows = usize::from(fields.0 == Whole);
    assert_eq!(listing.read.reading, reading(fields), "{text:?}");
    assert_eq!((listing.read.evaluations, listing.rows.len()), (1, rows));
}
