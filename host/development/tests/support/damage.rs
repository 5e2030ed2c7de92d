//! Good images with one field, one bit or two bits changed.

use super::tally::Tally;
use bannelgo_development::generate::{change_field, guarded, set_bits, set_root};
use bannelgo_development::image_words::{node_word, ImageWords};
use bannelgo_development::numbering::{words_of, Numbering};
use bannelgo_development::rng::Rng;
use bannelgo_development::samples::{D2, SAMPLES};

/// Every bit of the samples, and every two bits of D2.
pub fn sample_bits() -> Tally {
    let mut tally = Tally::listed("1 bit of samples, 2 of D2");
    for sample in &SAMPLES {
        for bit in 0..8 * sample.image.len() {
            tally.compare(&flipped(sample.image, bit));
        }
    }
    for first in 0..8 * D2.len() {
        for second in 0..first {
            tally.compare(&flipped(&flipped(&D2, first), second));
        }
    }
    tally
}

fn flipped(image: &[u8], bit: usize) -> Vec<u8> {
    let mut image = image.to_vec();
    image[bit / 8] ^= 0x80 >> (bit % 8);
    image
}

/// Accepted images of many sizes with one bit changed.
pub fn one_bit(seed: u64) -> Tally {
    let mut tally = Tally::drawn("accepted, 1 bit changed", seed);
    let rng = &mut Rng::new(seed);
    for _ in 0..1_500 {
        let image = good_words(rng).to_bytes();
        for _ in 0..10 {
            tally.compare(&flipped(&image, rng.below(8 * image.len())));
        }
    }
    tally
}

/// Accepted images of many sizes with one field changed.
pub fn one_field(seed: u64) -> Tally {
    let mut tally = Tally::drawn("accepted, 1 field changed", seed);
    let rng = &mut Rng::new(seed);
    for _ in 0..3_000 {
        let good = good_words(rng);
        for _ in 0..10 {
            let mut words = good.clone();
            change_field(rng, &mut words);
            tally.compare(&words.to_bytes());
        }
    }
    tally
}

/// Accepted images in which a node occurs twice or not at all.
pub fn occurrences(seed: u64) -> Tally {
    let mut tally = Tally::drawn("a node twice or never", seed);
    let rng = &mut Rng::new(seed);
    for _ in 0..2_000 {
        let good = good_words(rng);
        for change in [
            add_orphan,
            share_child,
            a_is_b,
            share_root,
            root_is_any_node,
        ] {
            let mut words = good.clone();
            change(rng, &mut words);
            tally.compare(&words.to_bytes());
        }
    }
    tally
}

fn good_words(rng: &mut Rng) -> ImageWords {
    let rules = 1 + rng.skewed(0, 6);
    let nodes = rules + rng.skewed(1, 8);
    let grammar = guarded(rng, rules, nodes);
    words_of(&grammar, Numbering::Shuffled(rng.draw()))
}

fn add_orphan(rng: &mut Rng, words: &mut ImageWords) {
    words.node_words.push(node_word(rng.below(2) as u32, 0, 0));
    words.nodes += 1;
}

/// Makes one child field name another node above its parent; kinds 3 and 4 often get A = B.
fn share_child(rng: &mut Rng, words: &mut ImageWords) {
    let node = rng.below(words.node_words.len());
    let word = &mut words.node_words[node];
    let kind = *word >> 28;
    if (3..=4).contains(&kind) && rng.one_in(2) {
        let a = *word >> 12 & 0xFFF;
        set_bits(word, 0, 0xFFF, a);
    } else if (3..=6).contains(&kind) {
        let child = rng.between(node + 1, words.nodes as usize - 1);
        set_bits(word, 12, 0xFFF, child as u32);
    }
}

/// Takes the last node out where it is a B, and puts A in its place: A = B and no orphan.
fn a_is_b(_: &mut Rng, words: &mut ImageWords) {
    let last = words.nodes - 1;
    let parent = words
        .node_words
        .iter_mut()
        .find(|word| (3..=4).contains(&(**word >> 28)) && **word & 0xFFF == last);
    if let Some(word) = parent {
        let a = *word >> 12 & 0xFFF;
        set_bits(word, 0, 0xFFF, a);
        words.node_words.pop();
        words.nodes = last;
    }
}

fn share_root(rng: &mut Rng, words: &mut ImageWords) {
    let (from, to) = (
        rng.below(words.rule_words.len()),
        rng.below(words.rule_words.len()),
    );
    words.rule_words[to] = words.rule_words[from];
}

fn root_is_any_node(rng: &mut Rng, words: &mut ImageWords) {
    let (rule, node) = (
        rng.below(words.rule_words.len()),
        rng.below(words.node_words.len()),
    );
    set_root(words, rule, node as u32);
}
