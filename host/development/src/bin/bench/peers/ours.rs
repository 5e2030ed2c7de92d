//! Our readers of the sheet, and the length of each rule at each position. All that touches the proved library is in this file.

use super::figures::Figures;
use super::peer::Lengths;
use crate::typing::ROOM;
use bannelgo::{lending, plain_reading, Outcome};
use bannelgo_development::calls::open_image;
use bannelgo_development::expr::Grammar;
use bannelgo_development::gap_sheet::sheet_of_lines;
use bannelgo_development::gap_text::{end_of_line, keys, PLANNERS_SHEET};
use bannelgo_development::numbering::{image_of, Numbering};
use bannelgo_development::packrat::Packrat;
use std::hint::black_box;

/// The figures of a round of each reader over a text that all match whole. Each call of ours checks the image; a key is two calls.
pub fn round(text: &[u8]) -> [(&'static str, Figures); 4] {
    let grammar = sheet_of_lines();
    let image = image_of(&grammar, Numbering::Preorder);
    [
        ("ours, plain reading", plain(&image, text)),
        (
            "ours, open and first reading",
            first(&image, grammar.rules.len(), text),
        ),
        ("ours, a key in the middle", key(&image, text)),
        ("packrat parser in Rust", packrat(&grammar, text)),
    ]
}

fn plain(image: &[u8], text: &[u8]) -> Figures {
    Figures::of(|| {
        let read = plain_reading(black_box(image), black_box(text));
        assert_eq!(read.map(|read| read.length), Ok(text.len()));
    })
}

fn first(image: &[u8], rules: usize, text: &[u8]) -> Figures {
    let n = text.len();
    let mut buffer = vec![0; n + ROOM];
    let mut table = vec![0; rules * (buffer.len() + 1)];
    Figures::of(|| {
        let opened = lending::open(image, black_box(text), &mut buffer, &mut table);
        assert_eq!(opened, Ok(n));
        let read = lending::read(image, &buffer, n, &mut table);
        assert_eq!(read.map(|read| read.reading.length), Ok(n));
    })
}

/// Keys typed close together into a sheet that was read before.
fn key(image: &[u8], text: &[u8]) -> Figures {
    let opened = open_image(image, text, text.len() + ROOM);
    let mut sheet = opened.expect("the sheet is opened");
    sheet.read().expect("the sheet is read");
    let mut keys = (end_of_line(text, text.len() / 2)..).zip(keys());
    Figures::of(|| {
        let (at, key) = keys.next().expect("keys have no end");
        assert!(sheet.edit(at..at, [key]).is_ok());
        let read = sheet.read().map(|read| read.reading.outcome);
        assert_eq!(read, Ok(Outcome::Whole));
    })
}

fn packrat(grammar: &Grammar, text: &[u8]) -> Figures {
    let mut packrat = Packrat::new(grammar);
    Figures::of(|| {
        assert_eq!(packrat.read(black_box(text)), Some(text.len()));
    })
}

/// Lines of every kind, with each byte that the grammar names, finished and unfinished.
pub fn small_text() -> Vec<u8> {
    let odd = "Z.9_z\t,01:02:03/\t04:05:06 ,+7.5;-8\r\n\t \r\n@ Day 1\n- 1. 2:3 +\rGAPS";
    [PLANNERS_SHEET, odd].concat().into_bytes()
}

/// The length that each rule matches at each position of a text; nothing where it fails.
pub fn lengths(text: &[u8]) -> Vec<Lengths> {
    let Grammar { rules, .. } = sheet_of_lines();
    let starts = 0..rules.len() as u8;
    let images = starts.map(|start| {
        let rules = rules.clone();
        image_of(&Grammar { start, rules }, Numbering::Preorder)
    });
    images
        .map(|image| {
            let at = |at: usize| length(&image, &text[at..]);
            (0..=text.len()).map(at).collect()
        })
        .collect()
}

fn length(image: &[u8], text: &[u8]) -> Option<usize> {
    let read = plain_reading(image, text).expect("the text is read");
    (read.outcome != Outcome::Nothing).then_some(read.length)
}
