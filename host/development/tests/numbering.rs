//! The builder of images: its images read back as the grammar they were made from.

use bannelgo_development::big_images::{blocks, relay};
use bannelgo_development::expr::{star, then, Expr, Grammar};
use bannelgo_development::gap_sheet::sheet;
use bannelgo_development::generate::{guarded, wild, TASTES};
use bannelgo_development::numbering::{image_of, words_of, Numbering};
use bannelgo_development::reference::read_grammar;
use bannelgo_development::rng::Rng;
use bannelgo_development::samples::D2;

const ORDERS: [Numbering; 4] = [
    Numbering::Preorder,
    Numbering::LastRuleFirst,
    Numbering::Interleaved,
    Numbering::Shuffled(7),
];

#[test]
fn the_digits_grammar_is_d2() {
    let digits = Grammar {
        start: 0,
        rules: vec![
            then(Expr::Call(1), star(Expr::Call(1))),
            Expr::Bytes(0x30, 0x39),
        ],
    };
    assert_eq!(image_of(&digits, Numbering::Preorder), D2);
    assert_eq!(read_grammar(&D2), Ok(digits));
}

#[test]
fn a_folded_range_has_the_fold_bit() {
    let rules = vec![Expr::Folded(b'A', b'Z'), Expr::Bytes(b'A', b'Z')];
    let words = words_of(&Grammar { start: 0, rules }, Numbering::Preorder);
    assert_eq!(words.node_words, [0x2104_105A, 0x2004_105A]);
}

#[test]
fn every_numbering_reads_back() {
    let rng = &mut Rng::new(601);
    for round in 0..300 {
        let rules = rng.between(1, 64);
        let nodes = rng.between(rules, 1024);
        let grammar = match round % 2 {
            0 => guarded(rng, rules, nodes),
            _ => wild(rng, rules, nodes, &TASTES[round % TASTES.len()]),
        };
        assert_eq!(grammar.nodes(), nodes);
        for order in ORDERS {
            assert_eq!(
                read_grammar(&image_of(&grammar, order)),
                Ok(grammar.clone())
            );
        }
    }
}

#[test]
fn the_numberings_differ() {
    let roots = ORDERS.map(|order| words_of(&blocks(), order).rule_words);
    assert_eq!(roots[0][..3], [0, 16, 32]);
    assert_eq!(roots[1][..3], [1008, 992, 976]);
    assert_eq!(roots[2][..3], [0, 1, 2]);
    assert!(roots[..3].iter().all(|other| *other != roots[3]));
}

#[test]
fn big_grammars_have_their_stated_sizes() {
    assert_eq!((sheet().rules.len(), sheet().nodes()), (16, 122));
    assert_eq!((relay(64).rules.len(), relay(64).nodes()), (64, 1024));
    assert_eq!((blocks().rules.len(), blocks().nodes()), (64, 1024));
}
