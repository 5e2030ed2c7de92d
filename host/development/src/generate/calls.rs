//! Calls on an open sheet: keys close together, readings and look-ups, and some that are refused.

use super::characters::{byte_of_character, some_text};
use super::letters::{some_letters, CASE};
use super::texts::text_of;
use crate::calls::Call;
use crate::expr::Grammar;
use crate::reference::characters::inside_character;
use crate::rng::Rng;
use std::ops::Range;

/// Makes calls one after the other. Most edits are near the one before.
#[derive(Default)]
pub struct Typist {
    cursor: usize,
}

impl Typist {
    /// A call on a sheet that has this text and room for `cap` bytes.
    pub fn call(&mut self, rng: &mut Rng, grammar: &Grammar, text: &[u8], cap: usize) -> Call {
        match rng.below(20) {
            0 if !text.is_empty() => self.change_case(rng, text),
            1 | 2 if !text.is_ascii() => self.change_character(rng, text, cap),
            0..=7 => self.edit(rng, grammar, text, cap),
            8..=14 => Call::Read,
            15..=18 => look_up(rng, grammar, text.len()),
            _ => refused(rng, grammar, text.len(), cap),
        }
    }

    /// An edit that fits, if only by taking in less.
    fn edit(&mut self, rng: &mut Rng, grammar: &Grammar, text: &[u8], cap: usize) -> Call {
        let n = text.len();
        let start = self.place(rng, n);
        let removed = match rng.below(8) {
            0..=3 => 0,
            4 | 5 => 1,
            6 => rng.below(n - start + 1),
            _ => n - start,
        };
        let end = start + removed.min(n - start);
        let replacement = match rng.below(8) {
            0 | 1 => vec![],
            2..=4 => some_letters(rng, 1),
            5 => some_text(rng, 4),
            6 => text[start..end].to_vec(),
            _ => text_of(rng, grammar, 20),
        };
        self.replace(start..end, replacement, cap - n)
    }

    /// The edit, with as much of the replacement as there is room for.
    fn replace(&mut self, bytes: Range<usize>, mut replacement: Vec<u8>, room: usize) -> Call {
        replacement.truncate(room + bytes.len());
        self.cursor = bytes.start + replacement.len();
        Call::Edit {
            start: bytes.start,
            end: bytes.end,
            replacement,
        }
    }

    /// A key that writes a letter in its other case; a byte that is no letter becomes another byte.
    fn change_case(&mut self, rng: &mut Rng, text: &[u8]) -> Call {
        let start = self.place(rng, text.len() - 1);
        self.cursor = start + 1;
        Call::Edit {
            start,
            end: self.cursor,
            replacement: vec![text[start] ^ CASE],
        }
    }

    /// A key at a byte that is not ASCII, or right behind it. Where a byte stands between two halves of a
    /// character, every second such key deletes it.
    fn change_character(&mut self, rng: &mut Rng, text: &[u8], cap: usize) -> Call {
        let n = text.len();
        let between: Vec<usize> = (0..n).filter(|&at| is_between_halves(text, at)).collect();
        if !between.is_empty() && rng.one_in(2) {
            let at = *rng.pick(&between);
            return self.replace(at..at + 1, vec![], 0);
        }
        let places: Vec<usize> = (0..n).filter(|&at| !text[at].is_ascii()).collect();
        let at = rng.pick(&places) + rng.below(2);
        let behind = n.min(at + 1);
        let (bytes, replacement) = match rng.below(4) {
            0 => (at..behind, vec![]),
            1 => (at..at, some_letters(rng, 1)),
            2 => (at..at, vec![byte_of_character(rng)]),
            _ => (at..behind, vec![byte_of_character(rng)]),
        };
        self.replace(bytes, replacement, cap - n)
    }

    fn place(&self, rng: &mut Rng, n: usize) -> usize {
        match rng.below(8) {
            0 => 0,
            1 => n,
            2 | 3 => rng.below(n + 1),
            4 => self.cursor.saturating_sub(rng.below(3)).min(n),
            _ => (self.cursor + rng.below(3)).min(n),
        }
    }
}

/// Whether a character would be around this place of the text without the byte that is there. It has at most 3
/// bytes on each side.
fn is_between_halves(text: &[u8], at: usize) -> bool {
    let front = &text[at.saturating_sub(3)..at];
    let back = &text[at + 1..text.len().min(at + 4)];
    inside_character(&[front, back].concat(), front.len())
}

fn look_up(rng: &mut Rng, grammar: &Grammar, n: usize) -> Call {
    Call::LookUp {
        rule: rng.below(grammar.rules.len()),
        position: rng.below(n + 1),
    }
}

/// A call that fails question 9, 10 or 11, some by one and some by far.
fn refused(rng: &mut Rng, grammar: &Grammar, n: usize, cap: usize) -> Call {
    let far = *rng.pick(&[1, 2, 1_000, usize::MAX / 64, usize::MAX - n - cap - 64]);
    let edit = |start, end, length: usize| Call::Edit {
        start,
        end,
        replacement: vec![b'a'; length],
    };
    let start = rng.below(n + 1);
    let too_long = cap - n + 1 + rng.below(3);
    let rules = grammar.rules.len();
    match rng.below(8) {
        0 => edit(start, n + far, rng.below(cap + 3)),
        1 => edit(n + far, n + far, rng.below(2)),
        2 => edit(start + far, start, rng.below(2)),
        3 => edit(start, start, too_long),
        4 => edit(start, n, too_long + n - start),
        5 => Call::LookUp {
            rule: rules - 1 + far,
            position: start,
        },
        6 => Call::LookUp {
            rule: rng.below(rules),
            position: n + far,
        },
        _ => Call::LookUp {
            rule: rules - 1 + far,
            position: n + far,
        },
    }
}
