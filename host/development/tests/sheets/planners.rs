//! Sheets of gaps with 16 and 19 rules: keys that are typed, taken back and typed elsewhere.

use super::session::Session;
use super::tally::Tally;
use bannelgo_development::calls::Call;
use bannelgo_development::expr::Grammar;
use bannelgo_development::gap_sheet::{sheet, sheet_of_days, sheet_of_lines, site_sheet};
use bannelgo_development::gap_text::{
    keys, long_sheet, long_sheet_of_days, PLANNERS_SHEET, SITE_SHEET,
};
use bannelgo_development::generate::{damage, CASE};
use bannelgo_development::rng::Rng;

pub fn sheets(seed: u64) -> Tally {
    let mut tally = Tally::drawn("planners' sheets", seed);
    let rng = &mut Rng::new(seed);
    let site = site_sheet();
    let grammars = [sheet(), sheet_of_lines(), sheet_of_days(), site.clone()];
    for _ in 0..200 {
        // Only its own grammar takes a site's name.
        let (grammar, mut text) = match rng.below(4) {
            0 => (rng.pick(&grammars), PLANNERS_SHEET.into()),
            1 => (&site, SITE_SHEET.into()),
            2 => (rng.pick(&grammars), long_sheet(rng.between(15, 600))),
            _ => (
                rng.pick(&grammars),
                long_sheet_of_days(rng.between(15, 600)),
            ),
        };
        if rng.one_in(4) {
            damage(rng, &mut text);
        }
        typing(&mut tally, rng, grammar, &text);
    }
    tally
}

/// Types up to 40 keys, with a reading or listing after each and now and then a key that deletes a byte, one that
/// changes the case of a letter or the same bit of another byte, or one that types a letter of two bytes.
fn typing(tally: &mut Tally, rng: &mut Rng, grammar: &Grammar, text: &[u8]) {
    let cap = text.len() + rng.between(0, 50);
    let mut session = Session::open(tally, rng, grammar, cap, text);
    session.call(Call::Read);
    let mut cursor = rng.below(text.len() + 1);
    for key in keys().skip(rng.below(80)).take(rng.between(1, 40)) {
        let full = session.ledger.text().len() == cap;
        if cursor > 0 && (full || rng.one_in(8)) {
            session.edit(cursor - 1, cursor, b"");
            cursor -= 1;
        } else if cursor > 0 && rng.one_in(8) {
            let before = session.ledger.text()[cursor - 1];
            session.edit(cursor - 1, cursor, &[before ^ CASE]);
        } else {
            let accented = "é".as_bytes();
            let typed = if rng.one_in(8) { accented } else { &[key] };
            let refused = session.edit(cursor, cursor, typed).number != 0;
            cursor += if refused { 0 } else { typed.len() };
        }
        match rng.one_in(4) {
            true => session.list(rng),
            false => drop(session.call(Call::Read)),
        }
        if rng.one_in(20) {
            cursor = rng.below(session.ledger.text().len() + 1);
        }
        session.call(Call::LookUp {
            rule: rng.below(grammar.rules.len()),
            position: cursor,
        });
    }
}
