//! The refusals: their numbers, and their words as the package has them.

use super::output::part;
use bannelgo::{LoanFault, Refusal};
use bannelgo_development::gap_text::SITE_SHEET;

#[test]
fn the_refusals_have_number_and_words() {
    let length = SITE_SHEET.len();
    let expected = [
        Refusal::Loan(LoanFault::Text { length, most: 100 }),
        Refusal::EditRange {
            start: length,
            end: length + 1,
            length,
        },
        Refusal::EditRoom {
            removed: 0,
            inserted: 1,
            length,
            cap: length,
        },
        Refusal::Nesting,
    ];
    let lines = part("Refusals");
    let of = |asked: &&&str| asked.ends_with(':');
    let asked: Vec<&&str> = lines.iter().filter(of).collect();
    assert_eq!(asked.len(), expected.len());
    for (asked, refusal) in asked.iter().zip(&expected) {
        let number = asked.split_whitespace().next().map(str::parse);
        assert_eq!(number, Some(Ok(refusal.number().unwrap_or(0))), "{asked}");
    }
    let words = lines.iter().filter_map(|line| line.strip_prefix("      "));
    let expected: Vec<String> = expected.iter().map(Refusal::to_string).collect();
    assert_eq!(words.collect::<Vec<&str>>(), expected);
}
