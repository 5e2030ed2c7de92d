//! The plain reading against the plain recursive reading written apart.
//!
//! Images and texts lie in memory and are lent unchanged; there are no buffers to be cleared.

use crate::timing::{medians, BATCHES};
use bannelgo::{plain_reading, Outcome};
use bannelgo_development::gap_sheet::sheet;
use bannelgo_development::gap_text::long_sheet;
use bannelgo_development::numbering::{image_of, Numbering};
use bannelgo_development::reference::recursive;
use std::hint::black_box;

pub fn print() {
    println!("Plain reading, median of {BATCHES} batches, microseconds for each call");
    println!("(ours checks the image in each call; Rust recurses over a grammar read before)");
    println!(
        "{:<28}{:>6}{:>6}{:>7}{:>12}{:>12}{:>11}",
        "sheet, whole", "rules", "lines", "bytes", "ours", "Rust", "ours/Rust"
    );
    compare_readings(6_000);
    compare_readings(60_000);
}

/// Lines in one star; every reading is whole.
fn compare_readings(bytes: usize) {
    let grammar = sheet();
    let image = image_of(&grammar, Numbering::Preorder);
    let text = long_sheet(bytes);
    let ours = || plain_reading(black_box(&image), black_box(&text));
    let rust = || recursive::read(black_box(&grammar), black_box(&text));
    let read = ours().expect("the sheet is read");
    assert_eq!(Ok(read), rust(), "both read the same");
    assert_eq!(read.outcome, Outcome::Whole);

    let length = |length: usize| length as u64;
    let (ours, rust) = medians(
        &|| ours().map_or(0, |reading| length(reading.length)),
        &|| rust().map_or(0, |reading| length(reading.length)),
    );
    println!(
        "{:<28}{:>6}{:>6}{:>7}{:>12.1}{:>12.1}{:>11.2}",
        "lines in one star",
        grammar.rules.len(),
        text.iter().filter(|&&byte| byte == b'\n').count(),
        text.len(),
        ours / 1_000.0,
        rust / 1_000.0,
        ours / rust
    );
}
