//! The sheet and its rows.

use super::output::part;
use super::typed::first_reading;
use bannelgo::Row;
use bannelgo_development::gap_sheet::{named_site_sheet, site_sheet};
use bannelgo_development::gap_text::SITE_SHEET;
use bannelgo_development::reference::ledger::Ledger;

#[test]
fn the_sheet_is_shown_and_read() {
    let lines = part("The sheet");
    for (number, line) in (1..).zip(SITE_SHEET.lines()) {
        let numbered = format!("   {number}  {line}");
        assert!(lines.contains(&numbered.trim_end()), "{numbered}");
    }
    let read = first_reading(&site_sheet(), SITE_SHEET.as_bytes());
    let (bytes, pairs) = (SITE_SHEET.len(), read.evaluations);
    assert!(read.reading.is_whole());
    let matched = format!("The whole sheet matched: {bytes} of {bytes} bytes.");
    let evaluated = format!("{pairs} pairs were evaluated; a pair is a rule at a position.");
    assert!(lines.contains(&&matched[..]), "{matched}");
    assert!(lines.contains(&&evaluated[..]), "{evaluated}");
}

/// The rows down to depth 2, then the first red entry with the calls made in it.
#[test]
fn the_rows_have_names() {
    let (grammar, text) = (site_sheet(), SITE_SHEET);
    let rows = Ledger::open(&grammar, text.len(), text.as_bytes()).rows(1_000);
    let rows = rows.expect("there are at most 1,000");
    let shallow = rows.iter().filter(|row| row.depth <= 2);
    let mut expected: Vec<String> = shallow.map(|row| in_print(row, row.depth)).collect();
    let red = text.find("red;").expect("there is a red entry");
    let red_end = red + text[red..].find('\n').expect("its line ends") + 1;
    let inside = rows.iter().filter(|row| {
        (2..=3).contains(&row.depth) && red <= row.start && row.range().end <= red_end
    });
    expected.extend(inside.map(|row| in_print(row, row.depth - 2)));

    let lines = part("The rows").into_iter();
    let printed: Vec<&str> = lines.filter(|line| line.contains("..")).collect();
    assert_eq!(printed.len(), expected.len());
    for (line, row) in printed.iter().zip(&expected) {
        assert!(line.starts_with(row), "{line}, expected: {row}");
    }
}

/// Rule and bytes, as the row begins in print.
pub fn in_print(row: &Row, depth: usize) -> String {
    let grammar = named_site_sheet();
    let name = grammar.name(row.rule).expect("the rule has a name");
    let (range, indent) = (row.range(), 2 * depth);
    format!("{:indent$}{name} {range:?} ", "")
}
