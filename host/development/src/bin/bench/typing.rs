//! Keys typed into a sheet: an edit and a reading of the proved sheet, each with its image check, against a packrat parser that reads
//! the whole sheet after the key.
//!
//! Both type the same keys in turns of 100, so that each has its own memory in the caches meanwhile.
//! There is one sheet at a time, and every reading is whole.

use crate::timing::micros;
use bannelgo::Outcome;
use bannelgo::Sheet;
use bannelgo_development::calls::open_image;
use bannelgo_development::expr::Grammar;
use bannelgo_development::gap_sheet::{sheet_of_days, sheet_of_lines};
use bannelgo_development::gap_text::keys;
use bannelgo_development::numbering::{image_of, Numbering};
use bannelgo_development::packrat::Packrat;
use std::hint::black_box;
use std::time::Instant;

pub const KEYS: usize = 1_000;
pub const TURN: usize = 100;

/// The room that is left for the keys, in bytes.
pub const ROOM: usize = KEYS + 10;

/// The grammars for typing, with their names in the output.
pub fn grammars() -> [(&'static str, Grammar); 2] {
    [
        ("lines in one star", sheet_of_lines()),
        ("lines grouped by day", sheet_of_days()),
    ]
}

/// The times of each key in microseconds, and the evaluations of each reading.
#[derive(Default)]
pub struct Times {
    pub edit: Vec<f64>,
    pub reading: Vec<f64>,
    pub key: Vec<f64>,
    pub packrat: Vec<f64>,
    pub evaluations: Vec<f64>,
}

impl Times {
    /// Opens and reads a text, and types so many keys, at most `KEYS`.
    pub fn of(grammar: &Grammar, text: &[u8], cursor: usize, count: usize) -> Times {
        let image = image_of(grammar, Numbering::Preorder);
        let opened = open_image(&image, text, text.len() + ROOM);
        let mut sheet = opened.expect("the sheet is opened");
        sheet.read().expect("the sheet is read");
        let mut packrat = Packrat::new(grammar);
        packrat.read(text);
        let mut packrats_text = text.to_vec();
        packrats_text.reserve(ROOM);

        let mut times = Times::default();
        let typed: Vec<(usize, u8)> = (cursor..).zip(keys()).take(count).collect();
        for turn in typed.chunks(TURN) {
            for &(at, key) in turn {
                times.type_key(&mut sheet, at, key);
            }
            for &(at, key) in turn {
                times.read_all(&mut packrat, &mut packrats_text, at, key);
            }
            assert_eq!(sheet.text(), packrats_text);
        }
        times
    }

    fn type_key(&mut self, sheet: &mut Sheet, at: usize, key: u8) {
        let begin = Instant::now();
        let edited = sheet.edit(at..at, [key]);
        let between = Instant::now();
        let read = sheet.read();
        let end = Instant::now();
        edited.expect("the key is taken in");
        let read = read.expect("the sheet is read");
        assert_eq!(read.reading.outcome, Outcome::Whole);
        self.edit.push(micros(between - begin));
        self.reading.push(micros(end - between));
        self.key.push(micros(end - begin));
        self.evaluations.push(read.evaluations as f64);
    }

    fn read_all(&mut self, packrat: &mut Packrat, text: &mut Vec<u8>, at: usize, key: u8) {
        let begin = Instant::now();
        text.insert(at, key);
        let length = packrat.read(black_box(text));
        self.packrat.push(micros(begin.elapsed()));
        assert_eq!(length, Some(text.len()));
    }
}
