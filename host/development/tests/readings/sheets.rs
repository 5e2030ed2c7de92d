//! Sheets of gaps: every beginning of one, and damaged ones.

use super::subject::Subject;
use super::tally::Tally;
use bannelgo_development::gap_sheet::sheet;
use bannelgo_development::gap_text::{long_sheet, PLANNERS_SHEET};
use bannelgo_development::generate::damage;
use bannelgo_development::numbering::Numbering;
use bannelgo_development::rng::Rng;

pub fn sheets(seed: u64) -> Tally {
    let mut tally = Tally::drawn("sheets, cut and damaged", seed).up_to(100_000);
    let rng = &mut Rng::new(seed);
    let subject = Subject::of(&sheet(), Numbering::Preorder);
    for length in 0..=PLANNERS_SHEET.len() {
        tally.compare(&subject, &PLANNERS_SHEET.as_bytes()[..length]);
    }
    for _ in 0..1_000 {
        let mut text = long_sheet(rng.between(15, 2_000));
        tally.compare(&subject, &text);
        for _ in 0..2 {
            damage(rng, &mut text);
            tally.compare(&subject, &text);
        }
    }
    tally
}
