//! Letters in either case: ranges with the fold bit against choices of both cases.

use crate::timing::{medians, BATCHES};
use bannelgo::grammar::{byte, choice, either_case, literal, range, sequence, star, Expr};
use bannelgo::Grammar;
use std::hint::black_box;

const BYTES: usize = 60_000;

pub fn print() {
    println!("Letters in either case, median of {BATCHES} batches, microseconds for each plain reading of {BYTES} bytes");
    println!(
        "{:<28}{:>12}{:>12}{:>14}",
        "text", "fold bit", "choices", "fold/choices"
    );
    let word = || either_case(literal("kWh"));
    let by_letters = || sequence([b'k', b'W', b'h'].map(either_letter));
    compare("kWh again and again", word(), by_letters(), b"kWh");
    compare("KwH again and again", word(), by_letters(), b"KwH");
    let letter = || either_case(range(b'a', b'z'));
    let by_ranges = || choice([range(b'a', b'z'), range(b'A', b'Z')]);
    compare("small letters", letter(), by_ranges(), b"gap");
    compare("capitals", letter(), by_ranges(), b"GAP");
}

/// The letter, or else its other case.
fn either_letter(letter: u8) -> Expr {
    choice([letter, letter ^ 0x20].map(byte))
}

/// Reads the text again and again by a star over each; both read it whole.
fn compare(name: &str, folded: Expr, choices: Expr, text: &[u8]) {
    let text: Vec<u8> = text.iter().copied().cycle().take(BYTES).collect();
    let [folded, choices] = [folded, choices].map(|part| {
        let rule = Grammar::builder().rule("Words", star(part));
        rule.build().expect("what is repeated consumes")
    });
    let length = |grammar: &Grammar| {
        let read = grammar.read(black_box(&text));
        read.map_or(0, |reading| reading.length as u64)
    };
    assert_eq!([&folded, &choices].map(length), [BYTES as u64; 2]);
    let (folded, choices) = medians(&|| length(&folded), &|| length(&choices));
    println!(
        "{name:<28}{:>12.1}{:>12.1}{:>14.2}",
        folded / 1_000.0,
        choices / 1_000.0,
        folded / choices
    );
}
