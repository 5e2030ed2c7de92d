//! Calls with a loan that fails one of the questions 1 to 8, in the middle of a list.

use super::lent::Lent;
use super::session::Session;
use bannelgo_development::calls::Call;
use bannelgo_development::expr::Grammar;
use bannelgo_development::generate::{change_field, Typist};
use bannelgo_development::numbering::{words_of, Numbering};
use bannelgo_development::reference;
use bannelgo_development::reference::lent::Loan;
use bannelgo_development::rng::Rng;
use bannelgo_development::samples::SAMPLES;

/// Makes one such call. It is refused with the first question's number, whatever else is wrong.
pub fn bad_call(rng: &mut Rng, session: &mut Session, grammar: &Grammar) {
    match rng.below(8) {
        0..=3 => bad_image(rng, session, grammar),
        4 => long_text(rng, session, grammar),
        5 => short_table(rng, session, grammar),
        6 => bad_opening(rng, session, grammar),
        _ if rng.one_in(8) => long_buffer(rng, session, grammar),
        _ => short_table(rng, session, grammar),
    }
}

/// Any call, now and then one that would be refused with 9, 10, 11 or 15.
fn any_call(rng: &mut Rng, session: &Session, grammar: &Grammar) -> Call {
    if rng.one_in(4) {
        let slots = rng.below(4);
        return Call::List { slots };
    }
    Typist::default().call(rng, grammar, session.ledger.text(), session.cap)
}

/// An image that fails one of the questions 1 to 7.
fn refused_image(rng: &mut Rng, grammar: &Grammar) -> (Vec<u8>, u64) {
    loop {
        let mut words = words_of(grammar, Numbering::any(rng));
        let image = match rng.below(4) {
            0 => rng.pick(&SAMPLES).image.to_vec(),
            1 => {
                let mut bytes = words.to_bytes();
                bytes.truncate(rng.below(bytes.len()));
                bytes
            }
            _ => {
                change_field(rng, &mut words);
                words.to_bytes()
            }
        };
        let number = reference::check(&image);
        if number != 0 {
            return (image, number);
        }
    }
}

/// In half of the cases the loan is bad too, which is asked later.
fn bad_image(rng: &mut Rng, session: &mut Session, grammar: &Grammar) {
    let (image, number) = refused_image(rng, grammar);
    let table = grammar.rules.len() * (session.cap + 1);
    let fields = if rng.one_in(4) {
        session.lent.open(&image, b"text")
    } else {
        let call = any_call(rng, session, grammar);
        let n = *rng.pick(&[session.ledger.text().len(), session.cap + 1]);
        let words = *rng.pick(&[table, table - 1]);
        session.lent.call_with(&image, n, words, &call)
    };
    session.count_refused("bad image", fields, number);
}

/// A text that is longer than the buffer.
fn long_text(rng: &mut Rng, session: &mut Session, grammar: &Grammar) {
    let call = any_call(rng, session, grammar);
    let cap = session.cap;
    let n = *rng.pick(&[cap + 1, cap + 2, cap + 1_000, usize::MAX]);
    let table = grammar.rules.len() * (cap + 1);
    let fields = session.lent.call_with(&session.image, n, table, &call);
    session.count_refused("n above cap", fields, 8);
}

/// A table that lacks a word or more.
fn short_table(rng: &mut Rng, session: &mut Session, grammar: &Grammar) {
    let call = any_call(rng, session, grammar);
    let rules = grammar.rules.len();
    let table = rules * (session.cap + 1);
    let few = rng.below(table);
    let words = *rng.pick(&[table - 1, table - rules, few, 0]);
    let n = session.ledger.text().len();
    let fields = session.lent.call_with(&session.image, n, words, &call);
    session.count_refused("short table", fields, 8);
}

/// An opening with a text that is too long.
fn bad_opening(rng: &mut Rng, session: &mut Session, _: &Grammar) {
    let text = vec![b'a'; session.cap + rng.between(1, 3)];
    let fields = session.lent.open(&session.image, &text);
    session.count_refused("open", fields, 8);
}

/// A buffer of more than 65,535 bytes, which is not the session's.
fn long_buffer(rng: &mut Rng, session: &mut Session, grammar: &Grammar) {
    let call = any_call(rng, session, grammar);
    let cap = *rng.pick(&[65_536, 65_537, 70_000]);
    let table = grammar.rules.len() * (cap + 1);
    let loan = Loan {
        buffer: vec![b'a'; cap],
        n: rng.below(3),
        words: vec![1; table + rng.below(2)],
    };
    let mut lent = Lent::new(&loan);
    let fields = match rng.one_in(4) {
        true => lent.open(&session.image, b"a"),
        false => lent.call(&session.image, &call),
    };
    let (words, tail) = loan.words.split_at(table);
    let same = lent.is(&loan.buffer, loan.n, words, tail);
    let same_rows = lent.rows() == lent.rows_with(&[]);
    assert!(same && same_rows, "a refused call changed its loan: {call}");
    session.count_refused("buffer too long", fields, 8);
}
