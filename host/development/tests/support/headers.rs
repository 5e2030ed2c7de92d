//! Headers at their limits, and byte strings of every length near the right one.

use super::tally::Tally;
use bannelgo_development::generate::guarded;
use bannelgo_development::image_words::ImageWords;
use bannelgo_development::numbering::{image_of, Numbering};
use bannelgo_development::rng::Rng;
use bannelgo_development::samples::SAMPLES;

/// Limits of every header field, each with the right length and with lengths beside it.
pub fn boundaries() -> Tally {
    let mut tally = Tally::listed("headers at their limits");
    for edition in [0, 1, 2, 3, 9, 15] {
        for rules in [0, 1, 2, 63, 64, 65, 128, 255] {
            for nodes in [0, 1, 2, 1023, 1024, 1025, 2048, 4095] {
                for start in [0, 1, rules - 1, rules, rules + 1, 255] {
                    one_header(&mut tally, edition, rules as u32, nodes, start as u32);
                }
            }
        }
    }
    tally
}

/// The words after the header are one long chain, which every header of one rule accepts.
fn one_header(tally: &mut Tally, edition: u32, rules: u32, nodes: u32, start: u32) {
    let chain = (1..nodes).map(|child| 6 << 28 | child << 12);
    let words = ImageWords {
        edition,
        rules,
        nodes,
        start,
        rule_words: (0..rules).map(|rule| rule as u16).collect(),
        node_words: chain.chain([1 << 28]).take(nodes as usize).collect(),
    };
    let mut image = words.to_bytes();
    tally.compare(&image);
    tally.compare(&image[..image.len() - 1]);
    tally.compare(&image[..4]);
    image.push(0);
    tally.compare(&image);
}

/// Every accepted value of rules and nodes at the limits, with an image that is accepted.
pub fn good_headers(seed: u64) -> Tally {
    let mut tally = Tally::drawn("accepted images at the limits", seed);
    let rng = &mut Rng::new(seed);
    for rules in [1, 2, 63, 64] {
        for nodes in [rules, rules + 1, 1023, 1024] {
            for round in 0..4 {
                let mut grammar = guarded(rng, rules, nodes);
                grammar.start = if round % 2 == 0 { rules as u8 - 1 } else { 0 };
                let image = image_of(&grammar, Numbering::Shuffled(rng.draw()));
                assert_eq!(tally.compare(&image), 0, "guarded grammars are accepted");
            }
        }
    }
    tally
}

/// Every length from 0 to 8 above the right one, for the samples and for drawn grammars.
pub fn lengths(seed: u64) -> Tally {
    let mut tally = Tally::drawn("lengths near the right one", seed);
    let rng = &mut Rng::new(seed);
    for sample in &SAMPLES {
        each_length(&mut tally, rng, sample.image, 0);
    }
    for round in 0..400 {
        let rules = rng.between(1, 64);
        let nodes = rng.between(rules, 1024);
        let image = image_of(&guarded(rng, rules, nodes), Numbering::Preorder);
        let shortest = if round < 20 { 0 } else { image.len() - 12 };
        each_length(&mut tally, rng, &image, shortest);
    }
    tally
}

/// Cuts bytes off the end, or adds zeros, or adds any bytes.
fn each_length(tally: &mut Tally, rng: &mut Rng, image: &[u8], shortest: usize) {
    for length in shortest..=image.len() {
        tally.compare(&image[..length]);
    }
    let mut with_zeros = image.to_vec();
    let mut with_bytes = image.to_vec();
    for _ in 0..8 {
        with_zeros.push(0);
        with_bytes.push(rng.byte());
        tally.compare(&with_zeros);
        tally.compare(&with_bytes);
    }
}

/// Byte strings without any plan; half of them have edition 1.
pub fn any_bytes(seed: u64) -> Tally {
    let mut tally = Tally::drawn("any bytes, 0 to 40 of them", seed);
    let rng = &mut Rng::new(seed);
    for _ in 0..10_000 {
        let length = rng.below(41);
        let mut image: Vec<u8> = (0..length).map(|_| rng.byte()).collect();
        if let (Some(first), true) = (image.first_mut(), rng.one_in(2)) {
            *first = 0x10;
        }
        tally.compare(&image);
    }
    tally
}
