//! Grammars of brackets whose nesting on a text is stated beforehand.

use super::folds::fold_some;
use crate::expr::{byte, not, or_else, sequence, star, then, Expr, Grammar};
use crate::rng::Rng;
use Expr::{Call, Empty};

/// A grammar with which brackets are read, and a number of them for which the start pair has exactly
/// this nesting, whatever follows them that is no bracket to the left.
pub fn brackets_of_nesting(rng: &mut Rng, nesting: usize) -> (Grammar, usize) {
    let way = rng.pick(&WAYS);
    let (body, levels) = layers(rng, way, nesting);
    let brackets = (nesting - way.last - levels) / way.each;
    let mut rules = (way.rules)();
    rules.insert(0, body);
    let mut grammar = Grammar { start: 0, rules };
    fold_some(rng, &mut grammar);
    (grammar, brackets)
}

/// Rule 0, a call of rule 1 with layers around it, and its levels without those of rule 1.
///
/// There are so many layers that brackets alone give the rest of the nesting.
fn layers(rng: &mut Rng, way: &Way, nesting: usize) -> (Expr, usize) {
    let (mut body, mut levels) = (Call(1), 1);
    for _ in 0..rng.below(12) {
        let layer = rng.pick(&LAYERS);
        body = (layer.put)(body);
        levels += layer.levels;
    }
    while !(nesting - way.last - levels).is_multiple_of(way.each) {
        body = not(body);
        levels += 1;
    }
    (body, levels)
}

/// Something to put around an expression, which is evaluated at the same position.
struct Layer {
    put: fn(Expr) -> Expr,
    levels: usize,
}

const LAYERS: [Layer; 8] = [
    layer(1, not),
    layer(1, |inner| then(Empty, inner)),
    layer(1, |inner| then(inner, Empty)),
    layer(1, |inner| or_else(inner, Empty)),
    layer(1, |inner| or_else(not(Empty), inner)),
    layer(2, |inner| or_else(then(inner, byte(b'z')), Empty)),
    layer(2, |inner| star(then(inner, byte(b'z')))),
    layer(2, |inner| then(not(inner), byte(b'('))),
];

const fn layer(levels: usize, put: fn(Expr) -> Expr) -> Layer {
    Layer { put, levels }
}

/// Rules 1 and up. Rule 1's nesting at k brackets is `each` × k + `last`.
struct Way {
    rules: fn() -> Vec<Expr>,
    each: usize,
    last: usize,
}

const WAYS: [Way; 6] = [
    way(3, 3, || vec![or_else(then(byte(b'('), Call(1)), Empty)]),
    way(4, 3, || {
        let brackets = sequence([byte(b'('), Call(1), byte(b')')]);
        vec![or_else(brackets, Empty)]
    }),
    way(3, 3, || vec![star(then(byte(b'('), Call(1)))]),
    way(4, 3, || vec![not(then(byte(b'('), not(Call(1))))]),
    way(4, 4, || {
        vec![Call(2), or_else(then(byte(b'('), Call(1)), Empty)]
    }),
    way(5, 5, || {
        let look = not(not(byte(b'(')));
        let first = or_else(then(look, Call(2)), Empty);
        vec![first, then(byte(b'('), Call(1))]
    }),
];

const fn way(each: usize, last: usize, rules: fn() -> Vec<Expr>) -> Way {
    Way { rules, each, last }
}
