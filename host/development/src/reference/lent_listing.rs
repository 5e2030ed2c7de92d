//! A listing over any lent words, where the paper settles it: where the word of (start, 0) is held and
//! impossible, and where no record is foreign. There it is a listing without records, except that
//! evaluations counts the reached pairs that were not held, and the table gains just those.

use super::ledger::Ledger;
use super::lent::Loan;
use super::machine::{evaluate_pair, Pair};
use super::pair_map::PairMap;
use super::reading::MOST_NESTING;
use super::record::{true_word, Fields};
use super::Number;
use crate::calls::{Answer, Call};
use crate::expr::Grammar;
use bannelgo::Listing;

/// What a listing answers; nothing where the paper leaves it free. The loan fails no question.
pub fn list(grammar: &Grammar, loan: &mut Loan, slots: usize) -> Option<Result<Listing, Number>> {
    let start = fields_of(grammar, loan, (grammar.start, 0));
    if start.held && !start.possible(0, loan.n) {
        loan.clear_table(grammar);
        return Some(Err(12));
    }
    if foreign(grammar, loan) {
        return None;
    }
    Some(list_afresh(grammar, loan, slots))
}

/// A ledger lists the text once: it then holds the reached pairs, or none after 14.
fn list_afresh(grammar: &Grammar, loan: &mut Loan, slots: usize) -> Result<Listing, Number> {
    let mut ledger = Ledger::open(grammar, loan.buffer.len(), &loan.buffer[..loan.n]);
    let answer = ledger.call(&Call::List { slots });
    if answer == Err(14) {
        loan.clear_table(grammar);
    }
    let gained = gain(grammar, loan, &mut ledger);
    match answer? {
        Answer::Listing(mut listing) => {
            listing.read.evaluations = gained;
            Ok(listing)
        }
        other => unreachable!("a listing answers {other:?}"),
    }
}

/// Puts the ledger's words of pairs that the loan doesn't hold into it, and counts them.
fn gain(grammar: &Grammar, loan: &mut Loan, ledger: &mut Ledger) -> usize {
    let table = ledger.table();
    let mut gained = 0;
    for &pair in ledger.held() {
        if !fields_of(grammar, loan, pair).held {
            let slot = slot_of(grammar, pair);
            loan.words[slot] = table[slot];
            gained += 1;
        }
    }
    gained
}

/// "Words that aren't true, whose nesting is above 4,096 or whose called pairs are missing." A held
/// word behind the text's positions is no pair's, so that it isn't true.
fn foreign(grammar: &Grammar, loan: &Loan) -> bool {
    let rules = grammar.rules.len();
    let text = &loan.buffer[..loan.n];
    let mut called = PairMap::default();
    for (slot, &word) in loan.words[..loan.table_length(grammar)].iter().enumerate() {
        if !Fields::of_word(word).held {
            continue;
        }
        let (rule, position) = ((slot % rules) as u8, slot / rules);
        if position > loan.n {
            return true;
        }
        let found = evaluate_pair(grammar, text, &mut called, (rule, position));
        if found.nesting > MOST_NESTING || word != true_word(&found, position) {
            return true;
        }
    }
    let missing = |pair: &Pair| !fields_of(grammar, loan, *pair).held;
    called.keys().any(missing)
}

fn fields_of(grammar: &Grammar, loan: &Loan, pair: Pair) -> Fields {
    Fields::of_word(loan.words[slot_of(grammar, pair)])
}

fn slot_of(grammar: &Grammar, (rule, position): Pair) -> usize {
    position * grammar.rules.len() + usize::from(rule)
}
