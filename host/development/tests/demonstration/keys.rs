//! The table of keys, and the line that has a slip.

use super::output::part;
use super::table::{assert_table, stopped_at};
use super::typed::{typed, typed_over, BACKSPACE};
use bannelgo_development::gap_sheet::site_sheet;
use bannelgo_development::gap_text::SITE_SHEET;

#[test]
fn each_key_has_the_ledgers_figures() {
    let keys = typed(&site_sheet(), SITE_SHEET, 0);
    assert_table("Keys", &keys, stopped_at(&keys));
}

/// K is the other case of the letter that stands there, and x is not; both lines are shown.
#[test]
fn each_letter_typed_over_has_the_ledgers_figures() {
    let (grammar, text) = (site_sheet(), SITE_SHEET);
    let unit = text.find(" kWh\n").expect("there is a unit") + 1;
    let keys = typed_over(&grammar, text, unit, "Kxk");
    let wholes: Vec<bool> = keys.iter().map(|key| key.stopped().is_none()).collect();
    assert_eq!(wholes, [true, false, true]);
    assert_table("Letters in either case", &keys, stopped_at(&keys));

    let number = text[..unit].lines().count();
    let before = text[..unit].lines().last().expect("the line has values");
    let lines = part("Letters in either case");
    for letter in ["K", "x"] {
        let shown = format!("   {number}  {before}{letter}Wh");
        assert!(lines.contains(&&shown[..]), "{shown}");
    }
}

#[test]
fn the_slip_is_marked() {
    let keys = typed(&site_sheet(), SITE_SHEET, 0);
    let taken_back = keys.iter().position(|key| key.key == BACKSPACE);
    let slip = &keys[taken_back.expect("a key is taken back") - 1];
    let (line, column) = slip.stopped().expect("the slip does not match");
    let text = String::from_utf8_lossy(&slip.text);
    let sheets_line = text.lines().nth(line - 1).expect("the line is there");

    let lines = part("Where a typed line stopped matching");
    let shown = format!("   {line}  {sheets_line}");
    let place = lines.iter().position(|&line| line == shown);
    let mark = lines[place.expect("the line is shown") + 1];
    assert_eq!(
        mark.find('^'),
        Some(shown.len() - sheets_line.len() + column - 1)
    );
    let said = format!("The reading stopped at line {line}, column {column}: ");
    assert!(lines.iter().any(|line| line.starts_with(&said)), "{said}");
}
