//! What open, edit and look-up do with any lent buffers, straight from the paper's definitions.
//!
//! "Open, edit and look-up are fixed for all table contents." The table of an edit is worked out
//! word by word into a table of its own.

use super::record::Fields;
use super::Number;
use crate::calls::Call;
use crate::expr::Grammar;
use bannelgo::Edited;

/// What a call over a sheet is lent.
#[derive(Clone, Debug, PartialEq, Eq)]
pub struct Loan {
    pub buffer: Vec<u8>,
    pub n: usize,
    /// The table, and the words after it.
    pub words: Vec<u64>,
}

/// Question 8: "is cap at most 65,535, the text at most cap, the table wholly lent?"
pub fn lent_wholly(rules: usize, cap: usize, text: usize, words: usize) -> bool {
    cap <= 65_535 && text <= cap && words >= rules * (cap + 1)
}

impl Loan {
    fn cap(&self) -> usize {
        self.buffer.len()
    }

    /// The number of words in the table.
    pub fn table_length(&self, grammar: &Grammar) -> usize {
        grammar.rules.len() * (self.cap() + 1)
    }

    /// Question 8, then 9 and 10 or 11: the number of the first that the call fails.
    pub fn question_failed(&self, grammar: &Grammar, call: &Call) -> Option<Number> {
        let rules = grammar.rules.len();
        if !lent_wholly(rules, self.cap(), self.n, self.words.len()) {
            return Some(8);
        }
        match call {
            Call::Edit { start, end, .. } if start > end || *end > self.n => Some(9),
            Call::Edit {
                start,
                end,
                replacement,
            } if self.n - (end - start) + replacement.len() > self.cap() => Some(10),
            Call::LookUp { rule, position } if *rule >= rules || *position > self.n => Some(11),
            _ => None,
        }
    }

    /// "Copies the text, zeroes the rest of the buffer and the table." Nothing where question 8 fails.
    pub fn open(&mut self, grammar: &Grammar, text: &[u8]) -> Result<usize, Number> {
        let rules = grammar.rules.len();
        if !lent_wholly(rules, self.cap(), text.len(), self.words.len()) {
            return Err(8);
        }
        self.buffer.fill(0);
        self.buffer[..text.len()].copy_from_slice(text);
        self.clear_table(grammar);
        self.n = text.len();
        Ok(self.n)
    }

    /// Zeroes the table and none of the words after it.
    pub fn clear_table(&mut self, grammar: &Grammar) {
        let table = self.table_length(grammar);
        self.words[..table].fill(0);
    }

    /// An edit that fails no question.
    pub fn edit(
        &mut self,
        grammar: &Grammar,
        start: usize,
        end: usize,
        replacement: &[u8],
    ) -> Edited {
        let rules = grammar.rules.len();
        let inserted = replacement.len();
        let length = self.n - (end - start) + inserted;
        let held = |word: u64| Fields::of_word(word).held;
        let old = self.words.clone();
        let old = |rule: usize, position: usize| old[position * rules + rule];
        let mut standing = 0;
        for position in 0..=self.cap() {
            for rule in 0..rules {
                let stays = position <= start && {
                    let word = old(rule, position);
                    held(word) && position + Fields::of_word(word).examined <= start
                };
                let comes = start + inserted <= position
                    && position <= length
                    && held(old(rule, position - inserted + (end - start)));
                standing += usize::from(stays || comes);
                self.words[position * rules + rule] = match (stays, comes) {
                    (true, _) => old(rule, position),
                    (false, true) => old(rule, position - inserted + (end - start)),
                    (false, false) => 0,
                };
            }
        }
        let mut text = self.buffer[..self.n].to_vec();
        text.splice(start..end, replacement.iter().copied());
        text.resize(self.cap(), 0);
        self.buffer = text;
        self.n = length;
        Edited { length, standing }
    }

    /// "The program gives the slot's word whole."
    pub fn look_up(&self, grammar: &Grammar, rule: usize, position: usize) -> u64 {
        self.words[position * grammar.rules.len() + rule]
    }
}
