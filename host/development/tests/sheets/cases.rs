//! Every small grammar over a letter in both cases, with texts in which the case of each letter is changed.

use super::every::each_pair;
use super::session::Session;
use super::tally::Tally;
use bannelgo_development::calls::Call;
use bannelgo_development::expr::{Expr, Grammar};
use bannelgo_development::generate::CASE;
use bannelgo_development::rng::Rng;

/// The leaves besides calls.
const LEAVES: [Expr; 3] = [Expr::Any, Expr::Bytes(b'a', b'a'), Expr::Folded(b'a', b'a')];

const TEXTS: [&[u8]; 8] = [b"a", b"A", b"aa", b"aA", b"Aa", b"AA", b"aab", b"AbA"];

pub fn changes(seed: u64) -> Tally {
    let mut tally = Tally::drawn("all of 2 rules, both cases", seed);
    let rng = &mut Rng::new(seed);
    each_pair(&LEAVES, &TEXTS, |grammar, text| {
        changes_of(&mut tally, rng, grammar, text);
    });
    tally
}

/// A reading, the case of one letter changed, a listing, the case changed back, a reading.
fn changes_of(tally: &mut Tally, rng: &mut Rng, grammar: &Grammar, text: &[u8]) {
    for (place, letter) in text.iter().enumerate() {
        let mut session = Session::open(tally, rng, grammar, text.len(), text);
        session.call(Call::Read);
        session.edit(place, place + 1, &[letter ^ CASE]);
        session.list(rng);
        session.edit(place, place + 1, &[*letter]);
        session.call(Call::Read);
    }
}
