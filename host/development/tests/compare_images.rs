//! Compares the proved image check with the reference on many images, good and damaged.

mod support;

use bannelgo_development::generate::{change_one_node, each_grammar, guarded, wild, TASTES};
use bannelgo_development::numbering::{image_of, Numbering};
use bannelgo_development::reference;
use bannelgo_development::rng::Rng;
use std::io::Write;
use support::random::size;
use support::{chains, damage, exhaustive, headers, least_sets, random, tally};

#[test]
fn both_checkers_give_the_same_numbers() {
    tally::settle(&[
        exhaustive::one_node(),
        exhaustive::two_nodes(),
        exhaustive::lawful_words(),
        exhaustive::small_grammars(),
        headers::boundaries(),
        headers::good_headers(101),
        headers::lengths(102),
        headers::any_bytes(103),
        damage::sample_bits(),
        damage::one_bit(201),
        damage::one_field(202),
        damage::occurrences(203),
        random::accepted(301),
        random::nearly_accepted(302),
        random::careless(303),
        random::full_size(304),
        chains::rings(401),
        chains::deep_trees(),
        chains::relays(402),
    ]);
}

/// The reference's search for rings and the least well-formed set give the same numbers.
#[test]
fn rings_decide_the_well_formed_set() {
    let seed = 501;
    let mut counts = [0u64; 8];
    let mut ask = |image: &[u8]| {
        let number = reference::check(image);
        assert_eq!(number, least_sets::check(image), "image {image:02x?}");
        counts[number as usize] += 1;
    };
    each_grammar(2, 6, &exhaustive::LEAVES, &mut |grammar| {
        ask(&image_of(grammar, Numbering::Preorder))
    });
    let rng = &mut Rng::new(seed);
    for round in 0..20_000 {
        let (rules, nodes) = size(rng, 100);
        let grammar = match round % 3 {
            0 => chains::ring(rng),
            1 => wild(rng, rules, nodes, &TASTES[round % TASTES.len()]),
            _ => {
                let mut grammar = guarded(rng, rules, nodes);
                change_one_node(rng, &mut grammar);
                grammar
            }
        };
        ask(&image_of(&grammar, Numbering::any(rng)));
    }
    writeln!(
        std::io::stdout(),
        "\nrings against least sets, seed {seed}: 0 {} times, 6 {} times, 7 {} times",
        counts[0],
        counts[6],
        counts[7]
    )
    .expect("the standard output can be written");
    assert!([0, 6, 7].iter().all(|&number| counts[number] >= 1_000));
}
