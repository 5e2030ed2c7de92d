//! The public grammar builder, held to the development package's own numbering and checker.

use bannelgo::grammar::{self, Builder, GrammarError};
use bannelgo_development::expr::{Expr, Grammar};
use bannelgo_development::generate::{
    change_one_node, each_grammar, guarded, wild, Feature, TASTES,
};
use bannelgo_development::numbering::{image_of, Numbering};
use bannelgo_development::reference::places::{shortest_ring, star_over_nothing};
use bannelgo_development::reference::{self, read_grammar};
use bannelgo_development::rng::Rng;

fn name(rule: usize) -> String {
    format!("Rule_{rule}")
}

/// A grammar by the public functions, each body made by `made`.
fn builder(grammar: &Grammar, made: fn(&Expr) -> grammar::Expr) -> Builder {
    let bodies = grammar.rules.iter().enumerate();
    let rules = bodies.fold(bannelgo::Grammar::builder(), |builder, (rule, body)| {
        builder.rule(name(rule), made(body))
    });
    rules.start(name(usize::from(grammar.start)))
}

fn expr(body: &Expr) -> grammar::Expr {
    match body {
        Expr::Empty => grammar::empty(),
        Expr::Any => grammar::any(),
        Expr::Bytes(low, high) => grammar::range(*low, *high),
        Expr::Folded(low, high) => grammar::either_case(grammar::range(*low, *high)),
        Expr::Then(a, b) => grammar::sequence([expr(a), expr(b)]),
        Expr::Else(a, b) => grammar::choice([expr(a), expr(b)]),
        Expr::Star(a) => grammar::star(expr(a)),
        Expr::Not(a) => grammar::not(expr(a)),
        Expr::Call(rule) => grammar::call(name(usize::from(*rule))),
    }
}

/// Builds a grammar, holds what comes of it to the reference and gives the number.
fn compare(grammar: &Grammar) -> u64 {
    let image = image_of(grammar, Numbering::Preorder);
    let number = reference::check(&image);
    let rule = |name: &String| name["Rule_".len()..].parse::<usize>();
    match (number, builder(grammar, expr).build()) {
        (0, Ok(built)) => {
            assert_eq!(built.image(), image, "{grammar:?}");
            assert_eq!(read_grammar(built.image()).as_ref(), Ok(grammar));
        }
        (6, Err(GrammarError::RepeatsNothing { rule: named })) => {
            let rule = rule(&named).expect("a rule's name");
            assert!(repeats_nothing(grammar, rule), "{grammar:?}, {named}");
        }
        (7, Err(GrammarError::CallsItself { rules })) => {
            let rules: Vec<usize> = rules.iter().flat_map(rule).collect();
            assert!(shortest_ring(&image, &rules), "{grammar:?}, {rules:?}");
        }
        (number, built) => panic!("{number}, {built:?}, {grammar:?}"),
    }
    number
}

/// Whether a star of the rule is over something that can match nothing long.
fn repeats_nothing(grammar: &Grammar, rule: usize) -> bool {
    let image = image_of(grammar, Numbering::Preorder);
    let first: usize = grammar.rules[..rule].iter().map(Expr::nodes).sum();
    let mut nodes = first..first + grammar.rules[rule].nodes();
    nodes.any(|node| star_over_nothing(&image, rule, node) == Some(true))
}

#[test]
fn builder_and_numbering_make_the_same_images() {
    let mut counts = [0u64; 8];
    let leaves = [Expr::Empty, Expr::Any];
    each_grammar(2, 5, &leaves, &mut |grammar| {
        counts[compare(grammar) as usize] += 1;
    });
    let mut folded = 0;
    let rng = &mut Rng::new(701);
    for round in 0..6_000 {
        let rules = rng.between(1, 64);
        let nodes = rng.between(rules, 1_024);
        let mut grammar = match round % 2 {
            0 => guarded(rng, rules, nodes),
            _ => wild(rng, rules, nodes, &TASTES[round % TASTES.len()]),
        };
        grammar.start = rng.below(rules) as u8;
        if round % 3 == 0 {
            change_one_node(rng, &mut grammar);
        }
        let number = compare(&grammar);
        counts[number as usize] += 1;
        folded += u32::from(number == 0 && Feature::FoldBits.taken_from(&grammar).is_some());
    }
    assert!(
        [0, 6, 7].iter().all(|&number| counts[number] >= 500),
        "{counts:?}"
    );
    assert!(folded >= 2_000, "{folded} with fold bits");
}

/// Around a whole body `either_case` gives the fold bit to each range in it.
#[test]
fn either_case_reaches_every_range() {
    let rng = &mut Rng::new(702);
    for _ in 0..500 {
        let rules = rng.between(1, 8);
        let nodes = rng.between(rules, 100);
        let mut grammar = guarded(rng, rules, nodes);
        let around = |body: &Expr| grammar::either_case(expr(body));
        let built = builder(&grammar, around).build().expect("accepted");
        grammar.change_leaves(|leaf| {
            if let Expr::Bytes(low, high) = leaf {
                *leaf = Expr::Folded(*low, *high);
            }
        });
        assert_eq!(built.image(), image_of(&grammar, Numbering::Preorder));
    }
}
