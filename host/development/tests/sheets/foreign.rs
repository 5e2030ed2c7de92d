//! Calls over tables with any words in them.

use super::answers::MOST_SLOTS;
use super::any_table::AnyTable;
use super::tally::Tally;
use super::words::any_table;
use bannelgo_development::calls::Call;
use bannelgo_development::expr::{then, Expr, Grammar};
use bannelgo_development::generate::{small_grammar, some_junk, some_text, text_of, Typist};
use bannelgo_development::reference::lent::Loan;
use bannelgo_development::rng::Rng;

/// A single call over any table, and then some over what it leaves.
pub fn foreign(seed: u64) -> Tally {
    calls(Tally::drawn("any words", seed), &mut Rng::new(seed), |_| {
        Call::Read
    })
}

/// The same with listings in the place of many calls.
pub fn listings(seed: u64) -> Tally {
    let tally = Tally::drawn("any words, listings", seed);
    calls(tally, &mut Rng::new(seed), |rng| {
        let slots = match rng.below(3) {
            0 => rng.below(4),
            1 => rng.below(40),
            _ => MOST_SLOTS,
        };
        Call::List { slots }
    })
}

/// 63 rules call each other in a ring that has any in it; records that say that any's rule matched
/// nothing close it. No greater nesting takes more stack.
pub fn endless(seed: u64) -> Tally {
    let mut tally = Tally::drawn("a ring of records", seed);
    let rng = &mut Rng::new(seed);
    let mut rules: Vec<Expr> = (1..63).map(Expr::Call).collect();
    rules.extend([then(Expr::Call(63), Expr::Call(0)), Expr::Any]);
    let grammar = Grammar { start: 0, rules };
    let loan = Loan {
        buffer: b"a".to_vec(),
        n: 1,
        words: [[MATCHED_NOTHING; 64], [0; 64]].concat(),
    };
    for slots in [0, 1, 63, 64, 4_095, 4_096, 5_000] {
        let mut table = AnyTable::new(&mut tally, rng, &grammar, loan.clone());
        table.call(&Call::List { slots });
    }
    tally
}

/// Held, matched, nesting 1, examined 0, length 0.
const MATCHED_NOTHING: u64 = 0xC000_0002_0000_0000;

/// Every third call is of the sort that is given.
fn calls(mut tally: Tally, rng: &mut Rng, third: fn(&mut Rng) -> Call) -> Tally {
    for _ in 0..150_000 {
        let grammar = small_grammar(rng);
        let loan = any_loan(rng, &grammar);
        let mut table = AnyTable::new(&mut tally, rng, &grammar, loan);
        for _ in 0..rng.between(1, 4) {
            let Loan { buffer, n, .. } = &table.loan;
            let cap = buffer.len();
            let call = match rng.below(3) {
                0 => third(rng),
                _ => Typist::default().call(rng, &grammar, &buffer[..*n], cap),
            };
            table.call(&call);
        }
    }
    tally
}

/// A text with junk behind it, and up to 3 words after the table.
fn any_loan(rng: &mut Rng, grammar: &Grammar) -> Loan {
    let count = rng.below(10);
    let text = match rng.below(2) {
        0 => text_of(rng, grammar, 10),
        _ => some_text(rng, count),
    };
    let room = rng.below(5);
    let junk = some_junk(rng, room);
    let mut words = any_table(rng, grammar, &text, text.len() + room);
    words.extend((0..rng.below(4)).map(|_| rng.draw()));
    Loan {
        n: text.len(),
        buffer: [text, junk].concat(),
        words,
    }
}
