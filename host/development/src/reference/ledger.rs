//! The plain ledger: "a text and a set of pairs, the ones held".
//!
//! It is fed the grammar, cap and what each call brings, and nothing that the program keeps or
//! answers. What a pair's evaluation is it asks the recogniser, afresh for each text.

use super::machine::{evaluate_pair, Found, Pair};
use super::pair_map::PairMap;
use super::reading::{of_start, MOST_NESTING};
use super::record::true_word;
use super::rows::rows;
use super::Number;
use crate::calls::{Answer, Call};
use crate::expr::Grammar;
use bannelgo::{Edited, Listing, Row, SheetReading};
use std::collections::BTreeSet;

pub struct Ledger<'g> {
    grammar: &'g Grammar,
    cap: usize,
    text: Vec<u8>,
    held: BTreeSet<Pair>,
    /// What pairs give on the present text.
    evaluations: PairMap<Found>,
}

impl<'g> Ledger<'g> {
    /// Opens a text of at most `cap` bytes: "the set is empty".
    pub fn open(grammar: &'g Grammar, cap: usize, text: &[u8]) -> Ledger<'g> {
        assert!(text.len() <= cap, "question 8 is asked before");
        Ledger {
            grammar,
            cap,
            text: text.to_vec(),
            held: BTreeSet::new(),
            evaluations: PairMap::default(),
        }
    }

    pub fn text(&self) -> &[u8] {
        &self.text
    }

    pub fn held(&self) -> &BTreeSet<Pair> {
        &self.held
    }

    /// The ledger's answer or number.
    pub fn call(&mut self, call: &Call) -> Result<Answer, Number> {
        match call {
            Call::Edit {
                start,
                end,
                replacement,
            } => self.edit(*start, *end, replacement).map(Answer::Edited),
            Call::Read => self.read().map(Answer::Reading),
            Call::LookUp { rule, position } => self.look_up(*rule, *position).map(Answer::Word),
            Call::List { slots } => self.list(*slots).map(Answer::Listing),
        }
    }

    /// Questions 9 and 10, then "bytes s to e − 1 give way to r".
    fn edit(&mut self, start: usize, end: usize, replacement: &[u8]) -> Result<Edited, Number> {
        if start > end || end > self.text.len() {
            return Err(9);
        }
        let length = self.text.len() - (end - start) + replacement.len();
        if length > self.cap {
            return Err(10);
        }
        self.held = self.standing(start, end, replacement.len());
        self.text.splice(start..end, replacement.iter().copied());
        self.evaluations.clear();
        Ok(Edited {
            length,
            standing: self.held.len(),
        })
    }

    /// "A pair at new position q stands exactly when q ≤ s, the pair was held at q, and
    /// q + examined ≤ s; or s + k ≤ q ≤ n' and the pair was held at q − k + (e − s)."
    fn standing(&mut self, start: usize, end: usize, inserted: usize) -> BTreeSet<Pair> {
        let held = std::mem::take(&mut self.held);
        let mut standing = BTreeSet::new();
        for (rule, position) in held {
            // Position + examined is the evaluation's reach.
            if position <= start && self.evaluation((rule, position)).reach <= start {
                standing.insert((rule, position));
            }
            if position >= end {
                standing.insert((rule, position - end + start + inserted));
            }
        }
        standing
    }

    /// Question 14, then "the set gains every reached pair".
    fn read(&mut self) -> Result<SheetReading, Number> {
        let reached = self.reached();
        let start = self.evaluation((self.grammar.start, 0));
        if start.nesting > MOST_NESTING {
            self.held.clear();
            return Err(14);
        }
        let before = self.held.len();
        self.held.extend(reached);
        Ok(SheetReading {
            reading: of_start(&start, self.text.len()),
            evaluations: self.held.len() - before,
        })
    }

    /// Question 11, then "the true word of a held pair, else 0".
    fn look_up(&mut self, rule: usize, position: usize) -> Result<u64, Number> {
        if rule >= self.grammar.rules.len() || position > self.text.len() {
            return Err(11);
        }
        Ok(self.word((rule as u8, position)))
    }

    /// "To it a listing is a reading, also one refused with 15."
    fn list(&mut self, slots: usize) -> Result<Listing, Number> {
        let read = self.read()?;
        let rows = self.rows(slots).ok_or(15u64)?;
        Ok(Listing { read, rows })
    }

    /// The rows of the present text; nothing where there are more than `most`.
    pub fn rows(&mut self, most: usize) -> Option<Vec<Row>> {
        rows(self.grammar, &self.text, &mut self.evaluations, most)
    }

    fn word(&mut self, pair: Pair) -> u64 {
        match self.held.contains(&pair) {
            true => true_word(&self.evaluation(pair), pair.1),
            false => 0,
        }
    }

    /// The pair's evaluation on the present text.
    fn evaluation(&mut self, pair: Pair) -> Found {
        evaluate_pair(self.grammar, &self.text, &mut self.evaluations, pair)
    }

    /// The start pair and each pair called while a reached pair's body is evaluated.
    fn reached(&mut self) -> Vec<Pair> {
        let mut fresh = PairMap::default();
        evaluate_pair(
            self.grammar,
            &self.text,
            &mut fresh,
            (self.grammar.start, 0),
        );
        let reached = fresh.keys().copied().collect();
        self.evaluations.extend(fresh);
        reached
    }

    /// "The buffer holds the ledger's text and then zeros."
    pub fn buffer(&self) -> Vec<u8> {
        let mut buffer = self.text.clone();
        buffer.resize(self.cap, 0);
        buffer
    }

    /// "The slot of each pair that the ledger holds has its true word, and every other table word
    /// is 0." The slot of (rule, position) is position × rules + rule.
    pub fn table(&mut self) -> Vec<u64> {
        let rules = self.grammar.rules.len();
        let mut table = vec![0; rules * (self.cap + 1)];
        let held: Vec<Pair> = self.held.iter().copied().collect();
        for pair in held {
            table[pair.1 * rules + usize::from(pair.0)] = self.word(pair);
        }
        table
    }
}
