//! Small grammars over three letters in both cases, some with bytes of characters too, for lists of calls.

use super::characters::to_bytes_of_characters;
use super::empties::add_empty_rules;
use super::guarded::{guarded, start_with_the_biggest};
use super::letters::to_letters;
use super::shapes::SHAPES;
use crate::expr::Grammar;
use crate::rng::Rng;

/// An accepted grammar, guarded or of a chosen shape, half of them with rules that examine nothing.
pub fn small_grammar(rng: &mut Rng) -> Grammar {
    let mut grammar = if rng.one_in(2) {
        let rules = 1 + rng.skewed(0, 3);
        let nodes = 3 * rules + rng.skewed(2, 5);
        guarded(rng, rules, nodes)
    } else {
        let rules = rng.pick(&SHAPES)(rng);
        Grammar { start: 0, rules }
    };
    start_with_the_biggest(&mut grammar);
    to_letters(&mut grammar);
    if rng.one_in(8) {
        to_bytes_of_characters(rng, &mut grammar);
    }
    if rng.one_in(2) {
        add_empty_rules(rng, &mut grammar);
    }
    grammar
}
