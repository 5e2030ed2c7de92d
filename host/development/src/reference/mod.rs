//! An image checker and a recogniser written apart from the proved ones, for comparison.
//!
//! The checker reads each rule into a tree, keeps one outcome set per rule, and answers question 7
//! by a search for a ring of rules. The proved checker works on node numbers and two loops of
//! rounds.
//!
//! The recogniser works on the trees with a stack of its own and keeps what each rule gave at each
//! position; it reads at any depth. `recursive` is a second one, which follows the paper's sentences
//! without keeping anything.
//!
//! The ledger is the paper's plain ledger over that recogniser, and `rows` gives the rows of its text.
//! `lent`, `lent_reading` and `lent_listing` say what single calls do with any lent words, true or not.

pub mod bytes;
pub mod characters;
mod evaluation;
pub mod forms;
mod header;
pub mod ledger;
pub mod lent;
pub mod lent_listing;
pub mod lent_reading;
pub mod machine;
mod occurrences;
mod outcomes;
pub mod pair_map;
pub mod places;
mod reading;
pub mod record;
pub mod recursive;
mod rings;
pub mod rows;
mod top_bits;
mod trees;
mod words;

pub use reading::read;

use crate::expr::Grammar;

/// The number of the first question that an image or a text fails.
pub type Number = u64;

/// The number of the first of the questions 1 to 7 that the image fails, 0 where it passes all.
pub fn check(image: &[u8]) -> u64 {
    match accepted_grammar(image) {
        Err(number) => number,
        Ok(_) => 0,
    }
}

/// Asks the questions 1 to 7.
pub fn accepted_grammar(image: &[u8]) -> Result<Grammar, Number> {
    let grammar = read_grammar(image)?;
    match check_grammar(&grammar) {
        0 => Ok(grammar),
        number => Err(number),
    }
}

/// Asks the questions 1 to 5, after which every rule is a finite tree.
pub fn read_grammar(image: &[u8]) -> Result<Grammar, Number> {
    let header = header::read(image)?;
    let words = words::read(image, &header).ok_or(4u64)?;
    if !occurrences::each_node_once(&words) {
        return Err(5);
    }
    Ok(Grammar {
        start: header.start,
        rules: trees::grow(&words),
    })
}

/// Asks the questions 6 and 7.
fn check_grammar(grammar: &Grammar) -> u64 {
    let sets = outcomes::of_rules(&grammar.rules);
    if !outcomes::star_bodies_lack_zero(&grammar.rules, &sets) {
        return 6;
    }
    if rings::found(&grammar.rules, &sets) {
        return 7;
    }
    0
}
