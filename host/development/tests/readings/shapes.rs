//! Grammars of chosen shapes, with drawn parts.

use super::random::compare_texts;
use super::tally::Tally;
use bannelgo_development::expr::Grammar;
use bannelgo_development::generate::SHAPES;
use bannelgo_development::rng::Rng;

/// Each shape with drawn parts, and texts made from it.
pub fn shapes(seed: u64) -> Tally {
    let mut tally = Tally::drawn("chosen shapes", seed);
    let rng = &mut Rng::new(seed);
    for _ in 0..5_000 {
        for shape in SHAPES {
            let rules = shape(rng);
            compare_texts(&mut tally, rng, &Grammar { start: 0, rules }, 40);
        }
    }
    tally
}
