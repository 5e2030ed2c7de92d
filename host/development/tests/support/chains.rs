//! Rules that call one another in rings and chains, and trees as deep as an image allows.

use super::tally::Tally;
use bannelgo_development::big_images::{blocks, relay};
use bannelgo_development::expr::{byte, not, or_else, star, then, Expr, Grammar};
use bannelgo_development::gap_sheet::sheet;
use bannelgo_development::numbering::{image_of, Numbering};
use bannelgo_development::rng::Rng;

/// Rings of 1 to 60 rules. A call stands behind a part that may match nothing long, or must consume.
pub fn rings(seed: u64) -> Tally {
    let mut tally = Tally::drawn("rings of rules", seed);
    let rng = &mut Rng::new(seed);
    for _ in 0..20_000 {
        let grammar = ring(rng);
        tally.compare(&image_of(&grammar, Numbering::any(rng)));
    }
    tally
}

/// The last four rules are parts for the others: a byte or empty; only fails; matches nothing long,
/// or seldom has no outcome at all; a byte.
pub fn ring(rng: &mut Rng) -> Grammar {
    let length = 1 + rng.skewed(0, 6).min(59);
    // Without a rule that consumes first the ring is left recursion.
    let consuming_rule = rng.below(2 * length);
    let mut rules = vec![];
    for rule in 0..length {
        let next = Expr::Call(((rule + 1) % length) as u8);
        let before = if rule == consuming_rule {
            consuming_part(rng, length)
        } else {
            part_with_zero(rng, length)
        };
        rules.push(around(rng, before, next, length));
    }
    rules.push(or_else(Expr::Any, Expr::Empty));
    rules.push(not(Expr::Empty));
    rules.push(if rng.one_in(20) {
        Expr::Call(length as u8 + 2)
    } else {
        not(Expr::Any)
    });
    rules.push(byte(b'x'));
    Grammar { start: 0, rules }
}

/// A part that can match nothing long.
fn part_with_zero(rng: &mut Rng, length: usize) -> Expr {
    match rng.below(7) {
        0 => Expr::Empty,
        1 => star(Expr::Any),
        2 => not(byte(b'a')),
        3 => Expr::Call(length as u8),
        4 => Expr::Call(length as u8 + 2),
        5 => or_else(byte(b'a'), Expr::Empty),
        _ => star(then(byte(b'b'), Expr::Call(0))),
    }
}

/// A part that can't.
fn consuming_part(rng: &mut Rng, length: usize) -> Expr {
    match rng.below(5) {
        0 => Expr::Any,
        1 => Expr::Call(length as u8 + 1),
        2 => Expr::Call(length as u8 + 3),
        3 => then(star(byte(b'a')), byte(b'b')),
        _ => or_else(Expr::Any, not(star(byte(b'a')))),
    }
}

/// A body that has `before`, then the call, in one of many places.
fn around(rng: &mut Rng, before: Expr, call: Expr, length: usize) -> Expr {
    let core = then(before, call);
    match rng.below(8) {
        0 if rng.one_in(8) => star(core),
        0 => core,
        1 => then(core, byte(b'z')),
        2 => not(core),
        3 => or_else(core, byte(b'z')),
        4 => or_else(byte(b'z'), core),
        5 => star(then(core, Expr::Call(length as u8 + 3))),
        6 => then(part_with_zero(rng, length), core),
        _ => or_else(then(core, byte(b'y')), Expr::Call(length as u8)),
    }
}

/// Each puts one or two nodes around an expression.
const LAYERS: [fn(Expr) -> Expr; 7] = [
    not,
    star,
    |inner| then(inner, byte(1)),
    |inner| then(Expr::Empty, inner),
    |inner| or_else(inner, Expr::Empty),
    |inner| or_else(byte(2), inner),
    |inner| then(byte(3), inner),
];

/// One rule is a chain of 1 to 1,023 nodes, with each kind of end; a second rule stands beside it.
pub fn deep_trees() -> Tally {
    let mut tally = Tally::listed("deep trees");
    let ends = [Expr::Empty, Expr::Any, Expr::Call(0), Expr::Call(1)];
    for end in &ends {
        for depth in [1, 2, 3, 10, 100, 511, 1020, 1021, 1023] {
            for layer in LAYERS {
                deep_tree(&mut tally, end, depth, layer);
            }
        }
    }
    tally
}

fn deep_tree(tally: &mut Tally, end: &Expr, depth: usize, layer: fn(Expr) -> Expr) {
    let mut body = end.clone();
    while layer(Expr::Empty).nodes() - 1 + body.nodes() <= depth {
        body = layer(body);
    }
    let second = or_else(Expr::Any, Expr::Empty);
    let with_star = then(star(Expr::Any), Expr::Empty);
    for second in [second, with_star, Expr::Call(0)] {
        if body.nodes() + second.nodes() > 1024 {
            continue;
        }
        let grammar = Grammar {
            start: 0,
            rules: vec![body.clone(), second],
        };
        for numbering in [Numbering::Preorder, Numbering::Interleaved] {
            tally.compare(&image_of(&grammar, numbering));
        }
    }
}

/// Chains of 3 to 64 rules that need many rounds, accepted and refused at their last outcome.
pub fn relays(seed: u64) -> Tally {
    let mut tally = Tally::drawn("relays of 3 to 64 rules", seed);
    let rng = &mut Rng::new(seed);
    for rules in 3..=63 {
        for ending in 0..6 {
            let grammar = relay_with_ending(rules, ending);
            tally.compare_orders(&grammar, rng);
        }
    }
    for grammar in [relay(64), blocks(), sheet()] {
        tally.compare(&image_of(&grammar, Numbering::Preorder));
        tally.compare(&image_of(&grammar, Numbering::LastRuleFirst));
    }
    tally
}

/// One more rule looks at the rules of the chain, or closes it to a ring.
fn relay_with_ending(rules: usize, ending: usize) -> Grammar {
    let mut grammar = relay(rules);
    let last = rules as u8;
    let more = match ending {
        0 => star(Expr::Call(1)),
        1 => star(Expr::Call(0)),
        2 => star(then(Expr::Call(1), Expr::Any)),
        3 => not(star(not(not(not(Expr::Call(1)))))),
        4 => then(Expr::Call(1), Expr::Call(last)),
        _ => then(not(Expr::Call(0)), then(not(Expr::Call(0)), Expr::Call(0))),
    };
    grammar.rules.push(more);
    grammar
}
