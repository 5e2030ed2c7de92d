//! What a listing costs over a sheet that was just read, beside a reading of it and a packrat parser that reads it whole.

use crate::timing::{median, micros};
use crate::typing::grammars;
use bannelgo::raw;
use bannelgo_development::expr::Grammar;
use bannelgo_development::gap_text::long_sheet_of_days;
use bannelgo_development::numbering::{image_of, Numbering};
use bannelgo_development::packrat::Packrat;
use std::hint::black_box;
use std::time::Instant;

const SIZES: [usize; 2] = [60_000, 6_000];

const LISTINGS: usize = 51;

/// More rows than these sheets have.
const SLOTS: usize = 200_000;

pub fn print() {
    println!("A listing where every record is held, median of {LISTINGS}, microseconds");
    print!("{:<22}{:>6}{:>8}{:>9}", "sheet", "bytes", "rows", "reading");
    println!("{:>9}{:>9}{:>17}", "listing", "packrat", "listing/packrat");
    for bytes in SIZES {
        for (name, grammar) in &grammars() {
            print_listing(name, grammar, &long_sheet_of_days(bytes));
        }
    }
}

fn print_listing(name: &str, grammar: &Grammar, text: &[u8]) {
    let image = image_of(grammar, Numbering::Preorder);
    let mut buffer = vec![0; text.len()];
    let mut table = vec![0; grammar.rules.len() * (text.len() + 1)];
    let mut slots = vec![0; SLOTS];
    let opened = raw::open(&image, text, &mut buffer, &mut table).opened();
    assert_eq!(opened, Ok(text.len()));
    let first = raw::list(&image, &buffer, text.len(), &mut table, &mut slots);
    let (_, rows) = first.listed(SLOTS).expect("the sheet is listed");
    let mut packrat = Packrat::new(grammar);
    let (mut reading, mut listing, mut whole) = (vec![], vec![], vec![]);
    for _ in 0..LISTINGS {
        let begin = Instant::now();
        let read = raw::read(&image, &buffer, text.len(), &mut table);
        let between = Instant::now();
        let list = raw::list(&image, &buffer, text.len(), &mut table, &mut slots);
        let end = Instant::now();
        let length = packrat.read(black_box(text));
        whole.push(micros(end.elapsed()));
        reading.push(micros(between - begin));
        listing.push(micros(end - between));
        assert_eq!((read.evaluations, list.value), (0, rows as u64));
        assert_eq!(length, Some(text.len()));
    }
    let ratio = median(&listing) / median(&whole);
    println!(
        "{name:<22}{:>6}{rows:>8}{:>9.1}{:>9.1}{:>9.1}{ratio:>17.2}",
        text.len(),
        median(&reading),
        median(&listing),
        median(&whole)
    );
}
