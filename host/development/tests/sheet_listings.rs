//! Listings by the safe `Sheet`: the paper's M6, deep brackets, rows past counting, and rows in words.

use bannelgo::Outcome::{Nothing, Whole};
use bannelgo::{Listing, Refusal, Row, Sheet};
use bannelgo_development::calls::open_image;
use bannelgo_development::expected::row;
use bannelgo_development::expr::{byte, or_else, then, Expr, Grammar};
use bannelgo_development::numbering::{image_of, Numbering};
use bannelgo_development::samples::{D2, M10};
use bannelgo_development::small_stack::on_small_stack;

fn open(image: &[u8], text: &str) -> Sheet {
    open_image(image, text.as_bytes(), text.len()).expect("the sheet is opened")
}

#[test]
fn marked_6() {
    let mut sheet = open(&D2, "12");
    let rows = [(0, 0, 0, 2), (1, 1, 0, 1), (1, 1, 1, 1)].map(row);
    let expect = |listing: Listing, evaluations| {
        assert_eq!(listing.rows, rows);
        assert_eq!(listing.read.reading.outcome, Whole);
        assert_eq!(listing.read.evaluations, evaluations);
    };
    expect(sheet.list(3).expect("3 rows"), 4);
    expect(sheet.list(100).expect("3 rows"), 0);
    assert_eq!(sheet.list(2), Err(Refusal::Rows { slots: 2 }));
}

#[test]
fn too_many_rows_leave_the_records() {
    let mut sheet = open(&D2, "12");
    assert_eq!(sheet.word(0, 0), Ok(0));
    assert_eq!(sheet.list(2), Err(Refusal::Rows { slots: 2 }));
    assert_eq!(sheet.word(0, 0), Ok(0xC000_0008_0003_0002));
    assert_eq!(sheet.read().expect("a reading").evaluations, 0);
}

#[test]
fn no_match_gives_no_rows() {
    let listing = open(&D2, "a1").list(0).expect("no rows");
    assert_eq!(listing.read.reading.outcome, Nothing);
    assert_eq!(listing.rows, []);
}

const BRACKETS: usize = 1_364;

/// M10's rule, called from rule 0.
fn brackets_under(rule_0: Expr) -> Vec<u8> {
    let rule_1 = or_else(then(byte(b'('), Expr::Call(1)), Expr::Empty);
    let rules = vec![rule_0, rule_1];
    image_of(&Grammar { start: 0, rules }, Numbering::Preorder)
}

/// A row for each bracket and one behind the last, each inside the one before.
fn nested(rule: usize, depth: usize) -> impl Iterator<Item = Row> {
    let starts = 0..=BRACKETS;
    starts.map(move |start| row((rule, depth + start, start, BRACKETS - start)))
}

#[test]
fn marked_10_and_its_neighbours() {
    on_small_stack(|| {
        let list = |image: &[u8]| open(image, &"(".repeat(BRACKETS)).list(BRACKETS + 2);
        let listing = list(&M10).expect("nesting 4,095");
        assert_eq!(listing.read.reading.nesting, 4_095);
        assert!(listing.rows.into_iter().eq(nested(0, 0)));

        let listing = list(&brackets_under(Expr::Call(1))).expect("nesting 4,096");
        let outer = row((0, 0, 0, BRACKETS));
        assert_eq!(listing.read.reading.nesting, 4_096);
        assert!(listing
            .rows
            .into_iter()
            .eq([outer].into_iter().chain(nested(1, 1))));

        let too_deep = brackets_under(then(Expr::Empty, Expr::Call(1)));
        assert_eq!(list(&too_deep), Err(Refusal::Nesting));
    });
}

/// Each of the 64 rules calls the next one twice: 2^64 - 1 rows on no text.
#[test]
fn counting_ends_at_the_first_row_too_many() {
    let twice = |rule| then(Expr::Call(rule), Expr::Call(rule));
    let rules = (1..64).map(twice).chain([Expr::Empty]).collect();
    let image = image_of(&Grammar { start: 0, rules }, Numbering::Preorder);
    let mut sheet = open(&image, "");
    for slots in [0, 1, 63, 64, 1_024, 1_025, 65_536, 1_000_000] {
        assert_eq!(sheet.list(slots), Err(Refusal::Rows { slots }));
    }
    assert_eq!(sheet.read().expect("a reading").evaluations, 0);
}
