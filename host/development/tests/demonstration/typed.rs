//! What the ledger says to the keys that the demonstration types.

use bannelgo::{Outcome, SheetReading};
use bannelgo_development::calls::{Answer, Call};
use bannelgo_development::expr::Grammar;
use bannelgo_development::reference::ledger::Ledger;
use std::ops::Range;

/// The keys: an entry with a slip that is taken back.
pub const KEYS: &str = "red;  14:000\u{8}:00 / 14:15:00;  7.5\n";

/// What deletes the byte before the cursor.
pub const BACKSPACE: u8 = 8;

/// A key, the text behind it and its reading.
pub struct Typed {
    pub key: u8,
    pub text: Vec<u8>,
    pub read: SheetReading,
}

/// Types the keys in front of the first blank line at or after a place.
pub fn typed(grammar: &Grammar, text: &str, from: usize) -> Vec<Typed> {
    let blank = text[from..].find("\n\n").expect("there is a blank line");
    let mut cursor = from + blank + 1;
    let mut ledger = Ledger::open(grammar, text.len() + KEYS.len(), text.as_bytes());
    read(&mut ledger);
    let mut keys = vec![];
    for key in KEYS.bytes() {
        let start = cursor - usize::from(key == BACKSPACE);
        keys.push(type_one(&mut ledger, key, start..cursor));
        cursor = start + usize::from(key != BACKSPACE);
    }
    keys
}

/// Types letters one after the other over the byte at a place.
pub fn typed_over(grammar: &Grammar, text: &str, place: usize, letters: &str) -> Vec<Typed> {
    let mut ledger = Ledger::open(grammar, text.len(), text.as_bytes());
    read(&mut ledger);
    let letter = |key: u8| type_one(&mut ledger, key, place..place + 1);
    letters.bytes().map(letter).collect()
}

/// Types a key in the place of these bytes, or deletes them, and reads.
pub fn type_one(ledger: &mut Ledger<'_>, key: u8, bytes: Range<usize>) -> Typed {
    let edit = Call::Edit {
        start: bytes.start,
        end: bytes.end,
        replacement: match key {
            BACKSPACE => vec![],
            key => vec![key],
        },
    };
    ledger.call(&edit).expect("the edit is not refused");
    let read = read(ledger);
    let text = ledger.text().to_vec();
    Typed { key, text, read }
}

pub fn first_reading(grammar: &Grammar, text: &[u8]) -> SheetReading {
    read(&mut Ledger::open(grammar, text.len(), text))
}

pub fn read(ledger: &mut Ledger<'_>) -> SheetReading {
    match ledger.call(&Call::Read) {
        Ok(Answer::Reading(read)) => read,
        other => panic!("the ledger says {other:?}"),
    }
}

impl Typed {
    pub fn name(&self) -> String {
        match self.key {
            BACKSPACE => "backspace".into(),
            b'\n' => "enter".into(),
            b' ' => "space".into(),
            key if key.is_ascii() => char::from(key).into(),
            key => format!("byte {key:X}"),
        }
    }

    /// Line and column of the last byte that was examined, from 1 on; nothing where all matched.
    pub fn stopped(&self) -> Option<(usize, usize)> {
        let reading = self.read.reading;
        let before = &self.text[..reading.examined - 1];
        let lines: Vec<&[u8]> = before.split(|&byte| byte == b'\n').collect();
        let column = lines.last().map_or(0, |line| line.len()) + 1;
        (reading.outcome != Outcome::Whole).then_some((lines.len(), column))
    }
}
