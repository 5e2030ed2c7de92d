//! Random grammars of many shapes, in every numbering.

use super::tally::Tally;
use bannelgo_development::expr::Grammar;
use bannelgo_development::generate::{change_one_node, guarded, wild, TASTES};
use bannelgo_development::numbering::{image_of, Numbering};
use bannelgo_development::rng::Rng;

/// A number of rules and a number of nodes; small ones are more frequent.
pub fn size(rng: &mut Rng, most_nodes: usize) -> (usize, usize) {
    let rules = 1 + rng.skewed(0, 6);
    let more = rng.skewed(1, 10);
    (rules, (rules + more).min(most_nodes.max(rules)))
}

/// Grammars that pass by the way they are made.
pub fn accepted(seed: u64) -> Tally {
    let mut tally = Tally::drawn("guarded grammars", seed);
    let rng = &mut Rng::new(seed);
    for _ in 0..15_000 {
        let (rules, nodes) = size(rng, 1024);
        let grammar = guarded(rng, rules, nodes);
        let image = image_of(&grammar, Numbering::any(rng));
        assert_eq!(tally.compare(&image), 0, "guarded grammars are accepted");
    }
    tally
}

/// Guarded grammars with one to three nodes changed: many are just accepted or just refused.
pub fn nearly_accepted(seed: u64) -> Tally {
    let mut tally = Tally::drawn("guarded, 1 to 3 nodes changed", seed);
    let rng = &mut Rng::new(seed);
    for _ in 0..8_000 {
        let (rules, nodes) = size(rng, 600);
        let mut grammar = guarded(rng, rules, nodes);
        for _ in 0..3 {
            change_one_node(rng, &mut grammar);
            tally.compare(&image_of(&grammar, Numbering::any(rng)));
        }
    }
    tally
}

/// Grammars without any care for the questions 6 and 7.
pub fn careless(seed: u64) -> Tally {
    let mut tally = Tally::drawn("grammars without guards", seed);
    let rng = &mut Rng::new(seed);
    for _ in 0..20_000 {
        let (rules, nodes) = size(rng, 200);
        let grammar = careless_grammar(rng, rules, nodes);
        tally.compare(&image_of(&grammar, Numbering::any(rng)));
    }
    tally
}

fn careless_grammar(rng: &mut Rng, rules: usize, nodes: usize) -> Grammar {
    let taste = rng.below(TASTES.len());
    wild(rng, rules, nodes, &TASTES[taste])
}

/// Exactly 1,024 nodes, guarded, changed and careless, each in four numberings.
pub fn full_size(seed: u64) -> Tally {
    let mut tally = Tally::drawn("1,024 nodes, 4 numberings", seed);
    let rng = &mut Rng::new(seed);
    for round in 0..600 {
        let rules = *rng.pick(&[1, 2, 7, 16, 63, 64]);
        let grammar = match round % 3 {
            0 => guarded(rng, rules, 1024),
            1 => {
                let mut grammar = guarded(rng, rules, 1024);
                change_one_node(rng, &mut grammar);
                grammar
            }
            _ => careless_grammar(rng, rules, 1024),
        };
        tally.compare_orders(&grammar, rng);
    }
    tally
}
