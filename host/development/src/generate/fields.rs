//! Image words with one field changed.

use crate::image_words::ImageWords;
use crate::rng::Rng;

/// Gives one field, chosen at random, a value at or beside a limit.
pub fn change_field(rng: &mut Rng, words: &mut ImageWords) {
    let node = rng.below(words.node_words.len());
    let rule = rng.below(words.rule_words.len());
    let near = near_limit(rng, words, node as u32);
    match rng.below(16) {
        0 => words.edition = near,
        1 => words.rules = near,
        2 => words.nodes = near,
        3 => words.start = near,
        4 => words.rule_words[rule] ^= 0x1000 << rng.below(4),
        5 | 6 => set_root(words, rule, near),
        7 => words.node_words[node] ^= 1 << rng.between(24, 27),
        8 | 9 => set_bits(&mut words.node_words[node], 28, 0xF, near),
        10..=12 => set_bits(&mut words.node_words[node], 12, 0xFFF, near),
        _ => set_bits(&mut words.node_words[node], 0, 0xFFF, near),
    }
}

/// A value at or beside a limit that some field has.
fn near_limit(rng: &mut Rng, words: &ImageWords, node: u32) -> u32 {
    let limits = [
        0,
        8,
        255,
        node,
        words.nodes,
        words.rules,
        words.start,
        4095,
        rng.below(words.nodes as usize) as u32,
    ];
    let limit = *rng.pick(&limits);
    match rng.below(3) {
        0 => limit.saturating_sub(1),
        1 => limit,
        _ => limit + 1,
    }
}

/// Puts a value in the field of a node word that lies at `shift` and fills `mask`.
pub fn set_bits(word: &mut u32, shift: u32, mask: u32, value: u32) {
    *word = *word & !(mask << shift) | (value & mask) << shift;
}

pub fn set_root(words: &mut ImageWords, rule: usize, root: u32) {
    words.rule_words[rule] = root as u16 & 0xFFF;
}
