//! Grammars of chosen shapes, in which a choice or a not examines far beyond what is consumed.

use super::letters::letter;
use crate::expr::{byte, choice, not, or_else, sequence, star, then, Expr};
use crate::rng::Rng;
use Expr::{Any, Bytes, Call, Empty, Folded};

/// Draws the rules of a grammar that starts with rule 0.
pub type Shape = fn(&mut Rng) -> Vec<Expr>;

pub const SHAPES: [Shape; 9] = [
    far_choices,
    far_not,
    not_not,
    nested_stars,
    left_factored,
    key_words,
    mirrored,
    as_many,
    chain_of_tries,
];

/// A letter, some in either case.
fn one(rng: &mut Rng) -> Expr {
    match (letter(rng), rng.one_in(3)) {
        (letter, true) => Folded(letter, letter),
        (letter, false) => byte(letter),
    }
}

/// A part that consumes.
fn part(rng: &mut Rng) -> Expr {
    let (a, b) = (one(rng), one(rng));
    match rng.below(10) {
        0..=2 => a,
        3 => Bytes(b'a', b'b'),
        4 => Bytes(b'b', b'c'),
        5 => Folded(b'A', b'B'),
        6 => Folded(b'b', b'c'),
        7 => then(a, b),
        8 => then(a, star(b)),
        _ => then(a, Any),
    }
}

/// Each round tries two long alternatives before a short one.
fn far_choices(rng: &mut Rng) -> Vec<Expr> {
    let long = |rng: &mut Rng| then(star(part(rng)), part(rng));
    let round = choice([long(rng), long(rng), part(rng)]);
    vec![star(round)]
}

/// Each round first looks ahead over many bytes.
fn far_not(rng: &mut Rng) -> Vec<Expr> {
    let ahead = sequence([part(rng), star(part(rng)), part(rng)]);
    vec![then(star(then(not(Call(1)), part(rng))), part(rng)), ahead]
}

/// What two nots allow is consumed afterwards, or not at all.
fn not_not(rng: &mut Rng) -> Vec<Expr> {
    let ahead = then(star(part(rng)), part(rng));
    let after = if rng.one_in(2) { part(rng) } else { Empty };
    vec![then(not(not(ahead)), after)]
}

fn nested_stars(rng: &mut Rng) -> Vec<Expr> {
    let inner = then(part(rng), star(part(rng)));
    let middle = then(part(rng), star(inner));
    vec![then(star(middle), or_else(part(rng), not(Any)))]
}

/// Alternatives that begin with the same rule, and the same with the beginning taken out.
fn left_factored(rng: &mut Rng) -> Vec<Expr> {
    let (b, c) = (part(rng), part(rng));
    let body = if rng.one_in(2) {
        choice([then(Call(1), b), then(Call(1), c), Call(1)])
    } else {
        then(Call(1), choice([b, c, Empty]))
    };
    vec![star(body), then(part(rng), star(part(rng)))]
}

/// Words with spaces after them; a key word counts only where no letter of either case follows.
fn key_words(rng: &mut Rng) -> Vec<Expr> {
    let key = sequence([part(rng), part(rng), not(Call(1))]);
    let name = then(Call(1), star(Call(1)));
    let word = then(or_else(key, name), or_else(byte(b' '), not(Any)));
    vec![star(word), Folded(b'a', b'c')]
}

/// S = x S x, else y S y, else a part.
fn mirrored(rng: &mut Rng) -> Vec<Expr> {
    let around = |outer: u8| sequence([byte(outer), Call(0), byte(outer)]);
    let (x, y) = (letter(rng), letter(rng));
    let last = if rng.one_in(2) { part(rng) } else { Empty };
    vec![choice([around(x), around(y), last])]
}

/// As many a as b as c: a look at the a and b, then the b and c.
fn as_many(rng: &mut Rng) -> Vec<Expr> {
    let pairs = |rule: u8, x: u8, y: u8| {
        let inner = or_else(Call(rule), Empty);
        sequence([byte(x), inner, byte(y)])
    };
    let look = not(not(then(Call(1), byte(b'c'))));
    let body = sequence([look, star(byte(b'a')), Call(2), not(Any)]);
    let first = if rng.one_in(4) { part(rng) } else { Empty };
    vec![
        or_else(body, first),
        pairs(1, b'a', b'b'),
        pairs(2, b'b', b'c'),
    ]
}

/// Rules that each try the next one twice.
fn chain_of_tries(rng: &mut Rng) -> Vec<Expr> {
    let length = rng.between(2, 8) as u8;
    let mut rules = vec![];
    for rule in 1..length {
        let next = || Call(rule);
        rules.push(or_else(then(next(), part(rng)), then(next(), part(rng))));
    }
    rules.push(part(rng));
    rules
}
