//! The demonstration, run as its user runs it: its parts in their order, with the figures that the
//! ledger gives.

mod demonstration;

use demonstration::output::{heading, output};
use demonstration::typed::KEYS;

#[test]
fn it_ends_well() {
    let output = output();
    assert_eq!(output.stderr, "");
    let status = output.status.expect("it ends by itself");
    assert_eq!(status.code(), Some(0));
}

/// For each key at least edit, text and reading in both sheets, and a first reading.
#[test]
fn its_answers_are_compared() {
    let said = output().stdout.lines().rev().nth(1).unwrap_or("");
    assert!(said.ends_with(": none differs."), "{said}");
    let answers = said.split(' ').next().map(str::parse::<usize>);
    let answers = answers.and_then(Result::ok);
    assert!(answers > Some(6 * KEYS.len()), "{said}");
}

#[test]
fn its_parts_come_in_order() {
    let headings: Vec<&str> = output().stdout.lines().filter_map(heading).collect();
    let parts = [
        "The sheet",
        "The rows",
        "Keys",
        "Where a typed line stopped matching",
        "Letters in either case",
        "Names with accents",
        "What a key costs",
        "Refusals",
        "The marked images",
    ];
    assert_eq!(headings, parts);
}

#[test]
fn its_lines_fit() {
    for line in output().stdout.lines() {
        assert!(line.chars().count() <= 100, "{line}");
        assert_eq!(line, line.trim_end());
    }
}
