//! What each node can do: match nothing long, consume, fail. By these sets a refusal with 6 or 7 is
//! explained.

use super::words::Words;

pub(super) const ZERO: u8 = 1;
const ONE: u8 = 2;
const FAIL: u8 = 4;

/// The least sets, of an image whose words are lawful.
pub(super) fn outcome_sets(words: &Words) -> Vec<u8> {
    let mut sets = vec![0; words.nodes.len()];
    let mut grows = true;
    while grows {
        grows = false;
        // Children stand above their parents.
        for node in (0..words.nodes.len()).rev() {
            let set = sets[node] | outcomes(words, &sets, node);
            grows |= set != sets[node];
            sets[node] = set;
        }
    }
    sets
}

fn outcomes(words: &Words, sets: &[u8], node: usize) -> u8 {
    let word = words.nodes[node];
    let set = |node: usize| sets.get(node).copied().unwrap_or(0);
    match word.kind {
        0 => ZERO,
        1 | 2 => ONE | FAIL,
        3 => then(set(word.a), set(word.b)),
        4 => or_else(set(word.a), set(word.b)),
        5 => on(set(word.a), FAIL, ZERO) | set(word.a) & ONE,
        6 => on(set(word.a), ZERO | ONE, FAIL) | on(set(word.a), FAIL, ZERO),
        _ => words
            .rules
            .get(word.a)
            .map_or(0, |&root| set(usize::from(root))),
    }
}

/// `gives` where the set has one of `any`.
fn on(set: u8, any: u8, gives: u8) -> u8 {
    if set & any != 0 {
        gives
    } else {
        0
    }
}

fn then(a: u8, b: u8) -> u8 {
    on(a, ZERO, b) | on(a, FAIL, FAIL) | on(a, ONE, on(b, ZERO | ONE, ONE) | b & FAIL)
}

fn or_else(a: u8, b: u8) -> u8 {
    a & (ZERO | ONE) | on(a, FAIL, b)
}
