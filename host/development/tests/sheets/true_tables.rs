//! Readings and listings over tables that are not foreign: every held word is true, and so are the
//! pairs that it calls. The other words are any words that are not held.
//!
//! Such a table need not come from a session. Its reading is the one without records: "over all other
//! tables 12 is never given".

use super::answers::{fields_of, row_words, some_slots, MOST_SLOTS};
use super::lent::Lent;
use super::tally::Tally;
use bannelgo::raw::Fields;
use bannelgo_development::calls::{Answer, Call};
use bannelgo_development::expr::Grammar;
use bannelgo_development::generate::{brackets_of_nesting, small_grammar, some_junk, some_text};
use bannelgo_development::numbering::{image_of, Numbering};
use bannelgo_development::reference::ledger::Ledger;
use bannelgo_development::reference::lent::Loan;
use bannelgo_development::reference::lent_listing;
use bannelgo_development::reference::machine::{evaluate_pair, Found, Pair};
use bannelgo_development::reference::pair_map::PairMap;
use bannelgo_development::reference::record::true_word;
use bannelgo_development::rng::Rng;

pub fn readings(seed: u64) -> Tally {
    tables(Tally::drawn("true tables", seed), seed, reading)
}

pub fn listings(seed: u64) -> Tally {
    tables(Tally::drawn("true tables, listings", seed), seed, listing)
}

/// A call over a text where these pairs are held.
type Made = fn(&mut Tally, &mut Rng, &Grammar, &[u8], &PairMap<Found>);

fn tables(mut tally: Tally, seed: u64, made: Made) -> Tally {
    let rng = &mut Rng::new(seed);
    for _ in 0..30_000 {
        let grammar = small_grammar(rng);
        let count = rng.below(16);
        let text = some_text(rng, count);
        let pairs = rng.below(6);
        let held = held_pairs(rng, &grammar, &text, pairs);
        made(&mut tally, rng, &grammar, &text, &held);
    }
    for round in 0..300 {
        let (grammar, brackets) = brackets_of_nesting(rng, 4_091 + round % 12);
        let text = vec![b'('; brackets];
        let held = held_pairs(rng, &grammar, &text, 2);
        made(&mut tally, rng, &grammar, &text, &held);
    }
    tally
}

/// A loan of that text whose held words are those of the held pairs.
fn loan_of(rng: &mut Rng, grammar: &Grammar, text: &[u8], held: &PairMap<Found>) -> Loan {
    let rules = grammar.rules.len();
    let cap = text.len() + rng.below(4);
    let words = rules * (cap + 1) + rng.below(3);
    let mut loan = Loan {
        buffer: [text, &some_junk(rng, cap - text.len())].concat(),
        n: text.len(),
        words: (0..words).map(|_| rng.draw() >> 1).collect(),
    };
    for (pair, found) in held {
        loan.words[slot(rules, *pair)] = true_word(found, pair.1);
    }
    loan
}

fn reading(
    tally: &mut Tally,
    rng: &mut Rng,
    grammar: &Grammar,
    text: &[u8],
    held: &PairMap<Found>,
) {
    let mut loan = loan_of(rng, grammar, text, held);
    let mut lent = Lent::new(&loan);
    let fields = lent.call(&image_of(grammar, Numbering::any(rng)), &Call::Read);
    let expected = read_without_records(grammar, text, held, &mut loan);
    tally.count_list();
    tally.count_call(&Call::Read, expected);
    let same = fields == expected && lent.left() == loan && lent.fences_stand();
    if !same {
        let answers = format!("ours {fields:?}\n  expected {expected:?}");
        let place = tally.place();
        panic!("{place}\n  {grammar:?}\n  {text:?}\n  {held:?}\n  {answers}");
    }
}

fn listing(
    tally: &mut Tally,
    rng: &mut Rng,
    grammar: &Grammar,
    text: &[u8],
    held: &PairMap<Found>,
) {
    let mut loan = loan_of(rng, grammar, text, held);
    let rows = Ledger::open(grammar, text.len(), text).rows(MOST_SLOTS);
    let slots = some_slots(rng, rows.map_or(MOST_SLOTS, |rows| rows.len()));
    let call = Call::List { slots };
    let mut lent = Lent::new(&loan);
    let fields = lent.call(&image_of(grammar, Numbering::any(rng)), &call);
    let answer = lent_listing::list(grammar, &mut loan, slots);
    let answer = answer.expect("no record is foreign").map(Answer::Listing);
    let expected = fields_of(&answer);
    tally.count_list();
    tally.count_call(&call, expected);
    let same_rows = lent.rows() == lent.rows_with(&row_words(&answer));
    let same = fields == expected && lent.left() == loan && lent.fences_stand();
    if !same || !same_rows {
        let answers = format!("ours {fields:?}\n  expected {answer:?}");
        let place = tally.place();
        panic!("{place}\n  {grammar:?}\n  {text:?}\n  {held:?}\n  {answers}");
    }
}

fn slot(rules: usize, (rule, position): Pair) -> usize {
    position * rules + usize::from(rule)
}

/// The answer and the table where a reading reaches the pairs that a reading without records reaches.
fn read_without_records(
    grammar: &Grammar,
    text: &[u8],
    held: &PairMap<Found>,
    loan: &mut Loan,
) -> Fields {
    // A ledger that has read this text once holds the reached pairs.
    let mut ledger = Ledger::open(grammar, loan.buffer.len(), text);
    let answer = match ledger.call(&Call::Read) {
        Ok(answer) => answer.fields(),
        Err(number) => {
            loan.clear_table(grammar);
            return Fields::of_number(number);
        }
    };
    let table = ledger.table();
    let mut evaluations = 0;
    for pair in ledger.held() {
        if !held.contains_key(pair) {
            let slot = slot(grammar.rules.len(), *pair);
            loan.words[slot] = table[slot];
            evaluations += 1;
        }
    }
    Fields {
        evaluations,
        ..answer
    }
}

/// Drawn pairs with the pairs that are called meanwhile, as far as their nesting can be held.
fn held_pairs(rng: &mut Rng, grammar: &Grammar, text: &[u8], count: usize) -> PairMap<Found> {
    let mut held = PairMap::default();
    for _ in 0..count {
        let rule = rng.below(grammar.rules.len()) as u8;
        let position = rng.below(text.len() + 1);
        let mut own = PairMap::default();
        let found = evaluate_pair(grammar, text, &mut own, (rule, position));
        if found.nesting <= 4_096 {
            held.extend(own);
        }
    }
    held
}
