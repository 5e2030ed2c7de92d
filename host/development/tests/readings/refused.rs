//! Images that are refused, with short texts and with texts that are too long.

use super::subject::Subject;
use super::tally::Tally;
use bannelgo_development::generate::{
    change_field, change_one_node, guarded, some_text, to_letters, wild, TASTES,
};
use bannelgo_development::numbering::{words_of, Numbering};
use bannelgo_development::rng::Rng;
use bannelgo_development::samples::SAMPLES;

/// Accepted images with one field changed, and every beginning of the samples.
pub fn damaged(seed: u64) -> Tally {
    let mut tally = Tally::drawn("1 field changed, cut samples", seed);
    let rng = &mut Rng::new(seed);
    for _ in 0..15_000 {
        let rules = 1 + rng.skewed(0, 4);
        let nodes = rules + rng.skewed(1, 6);
        let mut words = words_of(&guarded(rng, rules, nodes), Numbering::any(rng));
        change_field(rng, &mut words);
        texts(&mut tally, rng, &Subject::new(words.to_bytes()));
    }
    for sample in &SAMPLES {
        for length in 0..=sample.image.len() {
            let subject = Subject::new(sample.image[..length].to_vec());
            texts(&mut tally, rng, &subject);
        }
    }
    tally
}

/// Grammars with little or no care for the questions 6 and 7. Some of them are accepted.
pub fn careless(seed: u64) -> Tally {
    let mut tally = Tally::drawn("changed and careless grammars", seed);
    let rng = &mut Rng::new(seed);
    for round in 0..10_000 {
        let rules = 1 + rng.skewed(0, 3);
        let nodes = rules + rng.skewed(1, 5);
        let mut grammar = if round % 2 == 0 {
            guarded(rng, rules, nodes)
        } else {
            wild(rng, rules, nodes, &TASTES[round / 2 % TASTES.len()])
        };
        change_one_node(rng, &mut grammar);
        to_letters(&mut grammar);
        let subject = Subject::of(&grammar, Numbering::any(rng));
        texts(&mut tally, rng, &subject);
    }
    tally
}

/// Any text, the empty one, and in one of eight cases a text above 65,535 bytes.
fn texts(tally: &mut Tally, rng: &mut Rng, subject: &Subject) {
    static TOO_LONG: [u8; 65_536] = [b'a'; 65_536];
    let count = rng.between(1, 12);
    tally.compare(subject, &some_text(rng, count));
    tally.compare(subject, &[]);
    if rng.one_in(8) {
        tally.compare(subject, &TOO_LONG);
    }
}
