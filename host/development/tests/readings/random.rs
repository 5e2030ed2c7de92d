//! Random accepted grammars with texts made from them.

use super::subject::Subject;
use super::tally::Tally;
use bannelgo_development::expr::Grammar;
use bannelgo_development::generate::{
    damage, guarded, some_text, start_with_the_biggest, text_of, to_letters,
};
use bannelgo_development::numbering::Numbering;
use bannelgo_development::rng::Rng;

/// Small grammars over three letters, in which many parts match the same bytes.
pub fn letters(seed: u64) -> Tally {
    let mut tally = Tally::drawn("guarded, 3 letters", seed);
    let rng = &mut Rng::new(seed);
    for _ in 0..100_000 {
        let rules = 1 + rng.skewed(0, 4);
        let nodes = 3 * rules + rng.skewed(3, 6);
        let mut grammar = guarded(rng, rules, nodes);
        to_letters(&mut grammar);
        start_with_the_biggest(&mut grammar);
        compare_texts(&mut tally, rng, &grammar, 30);
    }
    tally
}

/// Grammars of every size over all bytes.
pub fn bytes(seed: u64) -> Tally {
    let mut tally = Tally::drawn("guarded, all bytes, every size", seed);
    let rng = &mut Rng::new(seed);
    for _ in 0..10_000 {
        let rules = 1 + rng.skewed(0, 6);
        let nodes = (rules + rng.skewed(1, 10)).min(1024);
        let mut grammar = guarded(rng, rules, nodes);
        start_with_the_biggest(&mut grammar);
        compare_texts(&mut tally, rng, &grammar, 60);
    }
    tally
}

/// The empty text, texts that probably match, their beginnings, damaged ones and any text.
pub fn compare_texts(tally: &mut Tally, rng: &mut Rng, grammar: &Grammar, most_bytes: usize) {
    let subject = &Subject::of(grammar, Numbering::any(rng));
    assert!(subject.accepted(), "the grammar is accepted: {grammar:?}");
    tally.compare(subject, &[]);
    for _ in 0..3 {
        let mut text = text_of(rng, grammar, most_bytes);
        tally.compare(subject, &text);
        // Behind a text that ends early the bytes that would match lie in memory.
        tally.compare(subject, &text[..rng.below(text.len() + 1)]);
        damage(rng, &mut text);
        tally.compare(subject, &text);
    }
    let count = rng.below(most_bytes);
    tally.compare(subject, &some_text(rng, count));
}
