//! Random lists of calls.

use super::bad_loans::bad_call;
use super::session::Session;
use super::tally::Tally;
use bannelgo_development::expr::Grammar;
use bannelgo_development::generate::{
    guarded, small_grammar, some_text, start_with_the_biggest, text_of, Typist,
};
use bannelgo_development::rng::Rng;

/// Small grammars over three letters.
pub fn letters(seed: u64) -> Tally {
    let mut tally = Tally::drawn("3 letters", seed);
    let rng = &mut Rng::new(seed);
    for _ in 0..150_000 {
        let grammar = small_grammar(rng);
        let text = opening_text(rng, &grammar, 24);
        let cap = text.len() + rng.skewed(0, 4);
        list(&mut tally, rng, &grammar, &text, cap);
    }
    tally
}

/// Grammars over all bytes, up to 64 rules.
pub fn bytes(seed: u64) -> Tally {
    let mut tally = Tally::drawn("all bytes, up to 64 rules", seed);
    let rng = &mut Rng::new(seed);
    for _ in 0..10_000 {
        let rules = 1 + rng.skewed(0, 6);
        let nodes = (3 * rules + rng.skewed(2, 7)).min(1024);
        let mut grammar = guarded(rng, rules, nodes);
        start_with_the_biggest(&mut grammar);
        let text = opening_text(rng, &grammar, 40);
        let cap = text.len() + rng.below(10);
        list(&mut tally, rng, &grammar, &text, cap);
    }
    tally
}

/// No room at all, and no room besides the text.
pub fn full(seed: u64) -> Tally {
    let mut tally = Tally::drawn("cap 0, cap = n", seed);
    let rng = &mut Rng::new(seed);
    for round in 0..10_000 {
        let grammar = small_grammar(rng);
        let longest = if round % 2 == 0 { 0 } else { 12 };
        let text = opening_text(rng, &grammar, longest);
        list(&mut tally, rng, &grammar, &text, text.len());
    }
    tally
}

/// A text that probably matches, several of them one after the other, or any text.
fn opening_text(rng: &mut Rng, grammar: &Grammar, longest: usize) -> Vec<u8> {
    let count = rng.below(longest + 1);
    let mut text = match rng.below(3) {
        0 => text_of(rng, grammar, longest),
        1 => some_text(rng, count),
        _ => (0..4)
            .flat_map(|_| text_of(rng, grammar, longest))
            .collect(),
    };
    text.truncate(longest);
    text
}

fn list(tally: &mut Tally, rng: &mut Rng, grammar: &Grammar, text: &[u8], cap: usize) {
    let mut session = Session::open(tally, rng, grammar, cap, text);
    let mut typist = Typist::default();
    for _ in 0..rng.between(2, 14) {
        if rng.one_in(6) {
            session.list(rng);
        } else {
            let call = typist.call(rng, grammar, session.ledger.text(), cap);
            session.call(call);
        }
        if rng.one_in(16) {
            bad_call(rng, &mut session, grammar);
        }
    }
}
