//! Any over lines that mix ASCII with characters of 2 or 3 bytes, against any over ASCII.

use crate::timing::{median, medians, micros};
use bannelgo::{plain_reading, raw};
use bannelgo_development::dots::{grammars, lines_of, ASCII, LONGER};
use bannelgo_development::numbering::{image_of, Numbering};
use std::hint::black_box;
use std::time::Instant;

const BYTES: usize = 60_000;

const READINGS: usize = 51;

pub fn print() {
    println!("Any, median times of readings of {BYTES} bytes, nanoseconds for each byte");
    println!(
        "{:<32}{:<10}{:<10}{:>8}{:>8}{:>13}",
        "grammar", "reading", "others", "ASCII", "others", "others/ASCII"
    );
    let ascii = lines_of(ASCII, BYTES);
    for (grammar, rules) in grammars() {
        let image = image_of(&rules, Numbering::Preorder);
        for (length, line) in LONGER {
            let texts = [&ascii[..], &lines_of(line, BYTES)];
            print_row(&[grammar, "plain", length], plain(&image, texts));
            let first = first(&image, rules.rules.len(), texts);
            print_row(&[grammar, "first", length], first);
        }
    }
}

/// Times of whole readings, in nanoseconds.
fn print_row([grammar, reading, length]: &[&str; 3], times: [f64; 2]) {
    let [ascii, others] = times.map(|time| time / BYTES as f64);
    let ratio = others / ascii;
    println!("{grammar:<32}{reading:<10}{length:<10}{ascii:>8.2}{others:>8.2}{ratio:>13.2}");
}

/// Plain readings of two texts.
fn plain(image: &[u8], texts: [&[u8]; 2]) -> [f64; 2] {
    let read = |text: &[u8]| {
        let read = plain_reading(black_box(image), black_box(text));
        read.expect("the text is read")
    };
    assert!(texts.iter().all(|text| read(text).is_whole()));
    let length = |text| read(text).length as u64;
    let (one, other) = medians(&|| length(texts[0]), &|| length(texts[1]));
    [one, other]
}

/// First readings of two sheets that were just opened, in turn.
fn first(image: &[u8], rules: usize, texts: [&[u8]; 2]) -> [f64; 2] {
    let mut buffer = vec![0; BYTES];
    let mut table = vec![0; rules * (BYTES + 1)];
    let mut times = [vec![], vec![]];
    for _ in 0..READINGS {
        for (text, times) in texts.iter().zip(&mut times) {
            let opened = raw::open(image, text, &mut buffer, &mut table).opened();
            assert_eq!(opened, Ok(BYTES));
            let begin = Instant::now();
            let read = raw::read(image, &buffer, BYTES, &mut table);
            times.push(micros(begin.elapsed()) * 1_000.0);
            assert!(read.read().is_ok_and(|read| read.reading.is_whole()));
        }
    }
    times.map(|times| median(&times))
}
