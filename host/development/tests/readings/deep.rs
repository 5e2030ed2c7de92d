//! Readings at, near and far beyond the greatest nesting.

use super::subject::Subject;
use super::tally::Tally;
use bannelgo_development::generate::brackets_of_nesting;
use bannelgo_development::numbering::Numbering;
use bannelgo_development::reference::machine::evaluate_start;
use bannelgo_development::rng::Rng;

/// Every nesting from 4,090 to 4,102, reached in many ways.
pub fn near_the_limit(seed: u64) -> Tally {
    let mut tally = Tally::drawn("nesting 4,090 to 4,102", seed).up_to(100_000);
    let rng = &mut Rng::new(seed);
    for _ in 0..200 {
        for nesting in 4_090..=4_102 {
            one_nesting(&mut tally, rng, nesting);
        }
    }
    tally
}

/// Nestings up to those of 65,535 brackets.
pub fn far_beyond(seed: u64) -> Tally {
    let mut tally = Tally::drawn("nesting 5,000 to 196,000", seed).up_to(1_000_000);
    let rng = &mut Rng::new(seed);
    for _ in 0..6 {
        for nesting in [5_000, 8_191, 8_193, 16_384, 65_536, 131_073, 196_000] {
            one_nesting(&mut tally, rng, nesting);
        }
    }
    tally
}

/// Reads brackets with exactly this nesting, then short texts, which a deep one must not disturb.
fn one_nesting(tally: &mut Tally, rng: &mut Rng, nesting: usize) {
    let (grammar, brackets) = brackets_of_nesting(rng, nesting);
    let subject = Subject::of(&grammar, Numbering::any(rng));

    let mut text = vec![b'('; brackets];
    let after: [&[u8]; 4] = [b"", b"z", b")", b")))zz"];
    text.extend(*rng.pick(&after));
    let found = evaluate_start(&grammar, &text, u64::MAX).expect("the work is not bounded");
    assert_eq!(found.nesting, nesting, "{grammar:?}");
    tally.compare(&subject, &text);
    for few in [0, 1, 2, 500] {
        tally.compare(&subject, &text[..few]);
    }
}
