//! Texts that a grammar is likely to match, and damage done to them.

use super::characters::{broken_character, character};
use super::letters::{letter, CASE};
use crate::expr::{Expr, Grammar};
use crate::reference::bytes::other_case;
use crate::rng::Rng;

/// How deep a walk goes into trees and calls, and how many nodes it passes.
const MOST_DEPTH: usize = 300;
const MOST_STEPS: usize = 3_000;

/// A text made by a walk through the grammar from its start rule, of at most so many bytes.
///
/// Choices, rounds and bytes are drawn, and nots are passed over, so the text need not match.
pub fn text_of(rng: &mut Rng, grammar: &Grammar, most_bytes: usize) -> Vec<u8> {
    let mut walk = Walk {
        rng,
        rules: &grammar.rules,
        text: vec![],
        most_bytes,
        steps: 0,
    };
    walk.through(&Expr::Call(grammar.start), 0);
    walk.text
}

struct Walk<'a> {
    rng: &'a mut Rng,
    rules: &'a [Expr],
    text: Vec<u8>,
    most_bytes: usize,
    steps: usize,
}

impl Walk<'_> {
    fn through(&mut self, expr: &Expr, depth: usize) {
        self.steps += 1;
        let too_far = depth > MOST_DEPTH || self.steps > MOST_STEPS;
        if too_far || self.text.len() == self.most_bytes {
            return;
        }
        match expr {
            Expr::Empty | Expr::Not(_) => {}
            Expr::Any => self.any(),
            Expr::Bytes(low, high) => {
                let byte = self.between(*low, *high);
                self.text.push(byte);
            }
            Expr::Folded(low, high) => {
                let byte = self.between(*low, *high);
                let either = [byte, other_case(byte)];
                self.text.push(*self.rng.pick(&either));
            }
            Expr::Then(a, b) => {
                self.through(a, depth + 1);
                self.through(b, depth + 1);
            }
            Expr::Else(a, b) => {
                let chosen = if self.rng.one_in(2) { a } else { b };
                self.through(chosen, depth + 1);
            }
            Expr::Star(a) => {
                for _ in 0..self.rng.below(4) {
                    self.through(a, depth + 1);
                }
            }
            Expr::Call(rule) => self.through(&self.rules[usize::from(*rule)], depth + 1),
        }
    }

    /// A letter in half of the cases. The last character may be cut off.
    fn any(&mut self) {
        match self.rng.below(8) {
            0 => self.text.extend(character(self.rng)),
            1 => self.text.extend(broken_character(self.rng)),
            2 | 3 => self.text.push(self.rng.byte()),
            _ => self.text.push(letter(self.rng)),
        }
        self.text.truncate(self.most_bytes);
    }

    fn between(&mut self, low: u8, high: u8) -> u8 {
        self.rng.between(usize::from(low), usize::from(high)) as u8
    }
}

/// Changes a text at one place: a byte more, less or other, a character more, a letter in its other case, an
/// early end, or its tail twice.
pub fn damage(rng: &mut Rng, text: &mut Vec<u8>) {
    let at = rng.below(text.len() + 1);
    let new = if rng.one_in(4) {
        rng.byte()
    } else {
        letter(rng)
    };
    match rng.below(7) {
        0 if at < text.len() => text[at] = new,
        1 if at < text.len() => drop(text.remove(at)),
        2 if at < text.len() => text[at] ^= CASE,
        3 => text.truncate(at),
        4 => text.extend_from_within(at..),
        5 => drop(text.splice(at..at, character(rng))),
        _ => text.insert(at, new),
    }
}
