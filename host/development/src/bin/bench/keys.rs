//! What a key costs at the start, in the middle and at the end of a sheet, and what the first reading costs.

use crate::timing::{low, median, micros};
use crate::typing::{grammars, Times, KEYS, ROOM};
use bannelgo::raw;
use bannelgo::Outcome;
use bannelgo_development::expr::Grammar;
use bannelgo_development::gap_text::{long_sheet_of_days, typing_places};
use bannelgo_development::numbering::{image_of, Numbering};
use bannelgo_development::packrat::Packrat;
use std::hint::black_box;
use std::time::Instant;

const SIZES: [usize; 2] = [60_000, 6_000];

const FIRST_READINGS: usize = 51;

pub fn print() {
    let grammars = grammars();
    println!("A key, median of {KEYS} keys typed close together, microseconds");
    println!("(key: edit + reading; quiet: the ratio of the fastest tenths)");
    print!("{:<22}{:>6}{:>8}{:>9}", "sheet", "bytes", "place", "edit");
    print!("{:>9}{:>9}{:>9}", "reading", "key", "packrat");
    println!("{:>13}{:>7}{:>13}", "key/packrat", "quiet", "evaluations");
    for bytes in SIZES {
        for (name, grammar) in &grammars {
            let text = long_sheet_of_days(bytes);
            for (place, cursor) in typing_places(&text) {
                let times = Times::of(grammar, &text, cursor, KEYS);
                times.print(&format!("{name:<22}{bytes:>6}{place:>8}"));
            }
        }
    }
    println!();
    println!("The first reading after opening, median of {FIRST_READINGS}, microseconds");
    print!("{:<22}{:>6}{:>8}", "sheet", "bytes", "open");
    println!("{:>9}{:>9}{:>17}", "reading", "packrat", "reading/packrat");
    for bytes in SIZES {
        for (name, grammar) in &grammars {
            print_first_reading(name, grammar, &long_sheet_of_days(bytes));
        }
    }
}

impl Times {
    fn print(&self, name: &str) {
        let Times {
            edit,
            reading,
            key,
            packrat,
            evaluations,
        } = self;
        println!(
            "{name}{:>9.1}{:>9.1}{:>9.1}{:>9.1}{:>13.2}{:>7.2}{:>13.0}",
            median(edit),
            median(reading),
            median(key),
            median(packrat),
            median(key) / median(packrat),
            low(key) / low(packrat),
            median(evaluations)
        );
    }
}

/// Opens the same buffers again before each reading, so that nothing is held.
fn print_first_reading(name: &str, grammar: &Grammar, text: &[u8]) {
    let image = image_of(grammar, Numbering::Preorder);
    let mut buffer = vec![0; text.len() + ROOM];
    let mut table = vec![0; grammar.rules.len() * (buffer.len() + 1)];
    let mut packrat = Packrat::new(grammar);
    let (mut open, mut reading, mut whole) = (vec![], vec![], vec![]);
    for _ in 0..FIRST_READINGS {
        let begin = Instant::now();
        let opened = raw::open(&image, text, &mut buffer, &mut table);
        let between = Instant::now();
        let read = raw::read(&image, &buffer, text.len(), &mut table);
        let end = Instant::now();
        let length = packrat.read(black_box(text));
        whole.push(micros(end.elapsed()));
        open.push(micros(between - begin));
        reading.push(micros(end - between));
        assert_eq!(opened.opened(), Ok(text.len()));
        let read = read.read().expect("the sheet is read");
        assert_eq!(read.reading.outcome, Outcome::Whole);
        assert_eq!(length, Some(text.len()));
    }
    println!(
        "{name:<22}{:>6}{:>8.1}{:>9.1}{:>9.1}{:>17.2}",
        text.len(),
        median(&open),
        median(&reading),
        median(&whole),
        median(&reading) / median(&whole)
    );
}
