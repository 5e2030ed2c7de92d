//! Characters that are split, joined, broken off and gone on with, by every small grammar and at every border.

use super::every::each_pair;
use super::session::Session;
use super::tally::Tally;
use bannelgo_development::calls::Call;
use bannelgo_development::dots::one_by_one;
use bannelgo_development::expr::{Expr, Grammar};
use bannelgo_development::rng::Rng;

/// The leaves besides calls.
const LEAVES: [Expr; 3] = [Expr::Any, Expr::Bytes(0xC3, 0xC3), Expr::Bytes(0x80, 0xBF)];

const TEXTS: [&[u8]; 8] = [
    "é".as_bytes(),
    "aé".as_bytes(),
    "éa".as_bytes(),
    "éé".as_bytes(),
    "€".as_bytes(),
    "𝄞".as_bytes(),
    b"\xC3a",
    b"\xE2\x82",
];

pub fn changes(seed: u64) -> Tally {
    let mut tally = Tally::drawn("all of 2 rules, characters", seed);
    let rng = &mut Rng::new(seed);
    each_pair(&LEAVES, &TEXTS, |grammar, text| {
        in_and_out(&mut tally, rng, grammar, text);
        out_and_in(&mut tally, rng, grammar, text);
    });
    tally
}

/// A letter is put in at each place and taken out again.
fn in_and_out(tally: &mut Tally, rng: &mut Rng, grammar: &Grammar, text: &[u8]) {
    for place in 0..=text.len() {
        let mut session = Session::open(tally, rng, grammar, text.len() + 1, text);
        session.call(Call::Read);
        session.edit(place, place, b"a");
        session.list(rng);
        session.edit(place, place + 1, b"");
        session.call(Call::Read);
    }
}

/// Each byte is taken out and put in again.
fn out_and_in(tally: &mut Tally, rng: &mut Rng, grammar: &Grammar, text: &[u8]) {
    for (place, byte) in text.iter().enumerate() {
        let mut session = Session::open(tally, rng, grammar, text.len(), text);
        session.call(Call::Read);
        session.edit(place, place + 1, b"");
        session.call(Call::Read);
        session.edit(place, place, &[*byte]);
        session.list(rng);
    }
}

/// First bytes of 2 to 4, of which the last four each have a range of second bytes of their own, and the ends of these.
const BORDERS: [u8; 12] = [
    b'a', 0x80, 0x8F, 0x90, 0x9F, 0xA0, 0xBF, 0xC2, 0xE0, 0xED, 0xF0, 0xF4,
];

/// Texts of up to 3 of these bytes, in which one is put in, taken out or another one.
pub fn borders(seed: u64) -> Tally {
    let mut tally = Tally::drawn("borders of characters", seed);
    let rng = &mut Rng::new(seed);
    let grammar = one_by_one();
    let mut texts = vec![vec![]];
    for _ in 0..3 {
        let longer = texts
            .iter()
            .flat_map(|text| BORDERS.map(|byte| [&text[..], &[byte]].concat()));
        texts = longer.collect();
        for text in &texts {
            edits_of(&mut tally, rng, &grammar, text);
        }
    }
    tally
}

fn edits_of(tally: &mut Tally, rng: &mut Rng, grammar: &Grammar, text: &[u8]) {
    let n = text.len();
    for start in 0..=n {
        for end in start..=n.min(start + 1) {
            let bytes = BORDERS.iter().map(std::slice::from_ref);
            for replacement in bytes.chain([&[][..]]) {
                let mut session = Session::open(tally, rng, grammar, n + 1, text);
                session.call(Call::Read);
                session.edit(start, end, replacement);
                session.list(rng);
            }
        }
    }
}
