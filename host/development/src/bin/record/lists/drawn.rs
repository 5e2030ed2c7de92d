//! Lists that are drawn at random.

use super::*;
use bannelgo_development::generate::{small_grammar, text_of, Typist};
use bannelgo_development::reference::ledger::Ledger;
use bannelgo_development::rng::Rng;

pub fn drawn() -> Vec<Line> {
    let rng = &mut Rng::new(5_004);
    let mut lines = vec![comment("Small grammars and calls drawn at random.")];
    for _ in 0..40 {
        let grammar = small_grammar(rng);
        let text = text_of(rng, &grammar, 20);
        lines.extend(drawn_session(rng, &grammar, &text, 0));
    }
    lines
}

pub fn drawn_with_listings() -> Vec<Line> {
    let rng = &mut Rng::new(5_005);
    let mut lines = vec![comment("The same with listings.")];
    for _ in 0..40 {
        let grammar = small_grammar(rng);
        let text = text_of(rng, &grammar, 20);
        lines.extend(drawn_session(rng, &grammar, &text, 3));
    }
    lines
}

/// 14 calls; one of so many is a listing, none where that is 0.
fn drawn_session(rng: &mut Rng, grammar: &Grammar, text: &[u8], listing: usize) -> Vec<Line> {
    let cap = text.len() + rng.below(6);
    let mut lines = session(grammar, cap, text);
    let mut ledger = Ledger::open(grammar, cap, text);
    let mut typist = Typist::default();
    for _ in 0..14 {
        let call = match listing > 0 && rng.one_in(listing) {
            true => Call::List {
                slots: some_slots(rng, &mut ledger),
            },
            false => typist.call(rng, grammar, ledger.text(), cap),
        };
        let _ = ledger.call(&call);
        lines.push(Line::Call(call));
    }
    lines
}

/// As many as there are rows, up to 40, or about as many.
fn some_slots(rng: &mut Rng, ledger: &mut Ledger) -> usize {
    let fitting = ledger.rows(40).map_or(40, |rows| rows.len());
    let few = rng.below(fitting + 1);
    *rng.pick(&[
        few,
        fitting.saturating_sub(1),
        fitting,
        fitting,
        fitting + 3,
    ])
}
