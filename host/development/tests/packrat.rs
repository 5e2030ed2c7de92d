//! The benchmark's packrat parser and its sheets: the parser reads what the reference reads, and every
//! key leaves a sheet that is read whole.

use bannelgo_development::gap_sheet::{sheet, sheet_of_days, sheet_of_lines};
use bannelgo_development::gap_text::{keys, long_sheet, long_sheet_of_days, typing_places};
use bannelgo_development::generate::{damage, guarded, small_grammar, text_of};
use bannelgo_development::packrat::Packrat;
use bannelgo_development::reference::machine::evaluate_start;
use bannelgo_development::rng::Rng;

#[test]
fn packrat_and_reference_agree() {
    let rng = &mut Rng::new(2_101);
    let mut matched = 0;
    for round in 0..10_000 {
        let grammar = match round % 2 {
            0 => small_grammar(rng),
            _ => guarded(rng, 10, 100),
        };
        let mut packrat = Packrat::new(&grammar);
        for _ in 0..3 {
            let mut text = text_of(rng, &grammar, 30);
            damage(rng, &mut text);
            let found = evaluate_start(&grammar, &text, u64::MAX);
            let end = found.expect("the work is not bounded").end;
            assert_eq!(packrat.read(&text), end, "{grammar:?}, {text:02x?}");
            matched += u32::from(end.is_some());
        }
    }
    assert!((10_000..29_000).contains(&matched), "{matched} matched");
}

#[test]
fn sheets_have_their_stated_sizes() {
    for grammar in [sheet_of_lines(), sheet_of_days()] {
        assert_eq!(grammar.rules.len(), 16);
    }
    for bytes in [15, 100, 6_000, 60_000] {
        assert_eq!(long_sheet(bytes).len(), bytes);
        assert_eq!(long_sheet_of_days(bytes).len(), bytes);
    }
}

/// Also the grammar that takes no other lines reads a sheet without days whole.
#[test]
fn sheets_are_whole() {
    let text = long_sheet(6_000);
    for grammar in [sheet(), sheet_of_lines()] {
        assert_eq!(Packrat::new(&grammar).read(&text), Some(text.len()));
    }
}

#[test]
fn every_key_leaves_a_whole_sheet() {
    for grammar in [sheet_of_lines(), sheet_of_days()] {
        let mut packrat = Packrat::new(&grammar);
        let opened = long_sheet_of_days(6_000);
        assert_eq!(packrat.read(&opened), Some(opened.len()));
        for (place, cursor) in typing_places(&opened) {
            let mut text = opened.clone();
            for (number, key) in keys().take(1_000).enumerate() {
                text.insert(cursor + number, key);
                let read = packrat.read(&text);
                assert_eq!(read, Some(text.len()), "{place}, key {number}");
            }
        }
    }
}
