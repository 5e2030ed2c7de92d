//! The word that the library gives for a plain reading, bit by bit.

use bannelgo::raw::Unanswered;
use bannelgo::{Outcome, Reading};

const ANSWERED: u64 = 1 << 63;
const MATCHED: u64 = 1 << 62;

fn reading(outcome: Outcome, length: usize, examined: usize, nesting: usize) -> Reading {
    Reading {
        outcome,
        length,
        examined,
        nesting,
    }
}

/// The paper's record words of "12a" have the same layout.
#[test]
fn the_papers_words() {
    let start = Reading::from_word(0xC000_0008_0003_0002, 3);
    assert_eq!(start, Ok(reading(Outcome::Part, 2, 3, 4)));
    let failed_digit = Reading::from_word(0x8000_0002_0001_0000, 3);
    assert_eq!(failed_digit, Ok(reading(Outcome::Nothing, 0, 1, 1)));
}

#[test]
fn each_bit_belongs_to_its_field() {
    let n = 65_535;
    for bit in 0..16 {
        let word = ANSWERED | MATCHED | 1 << bit;
        let expected = reading(Outcome::Part, 1 << bit, 0, 0);
        assert_eq!(Reading::from_word(word, n), Ok(expected), "bit {bit}");
    }
    for bit in 16..33 {
        let expected = reading(Outcome::Nothing, 0, 1 << (bit - 16), 0);
        let read = Reading::from_word(ANSWERED | 1 << bit, n);
        assert_eq!(read, Ok(expected), "bit {bit}");
    }
    for bit in 33..46 {
        let expected = reading(Outcome::Nothing, 0, 0, 1 << (bit - 33));
        let read = Reading::from_word(ANSWERED | 1 << bit, n);
        assert_eq!(read, Ok(expected), "bit {bit}");
    }
}

#[test]
fn the_greatest_reading() {
    let word = ANSWERED | MATCHED | 4_096 << 33 | 65_536 << 16 | 65_535;
    let expected = reading(Outcome::Whole, 65_535, 65_536, 4_096);
    assert_eq!(Reading::from_word(word, 65_535), Ok(expected));
}

#[test]
fn whole_is_the_length_of_the_text() {
    for n in [0, 1, 2, 65_535] {
        let word = ANSWERED | MATCHED | 1 << 33 | (n as u64 + 1) << 16 | n as u64;
        let whole = reading(Outcome::Whole, n, n + 1, 1);
        assert_eq!(Reading::from_word(word, n), Ok(whole));
        let part = reading(Outcome::Part, n, n + 1, 1);
        assert_eq!(Reading::from_word(word, n + 1), Ok(part));
    }
}

fn expect_unknown(word: u64, n: usize) {
    let read = Reading::from_word(word, n);
    assert_eq!(read, Err(Unanswered::Unknown(vec![word])), "{word:#x}");
}

#[test]
fn other_words_are_unknown() {
    for bit in 46..62 {
        expect_unknown(ANSWERED | 1 << bit, 9);
        expect_unknown(ANSWERED | MATCHED | 1 << bit, 9);
    }
    for bit in 4..63 {
        expect_unknown(1 << bit, 9);
        expect_unknown(14 | 1 << bit, 9);
    }
    // A failure with a length, and a length above the text's.
    expect_unknown(ANSWERED | 1, 9);
    expect_unknown(ANSWERED | MATCHED | 10, 9);
}

#[test]
fn refusals_are_numbers_of_questions() {
    let known = [1, 2, 3, 4, 5, 6, 7, 8, 14];
    for number in 0..100 {
        let expected = match known.contains(&number) {
            true => Unanswered::Number(number as u8),
            false => Unanswered::Unknown(vec![number]),
        };
        assert_eq!(Reading::from_word(number, 0), Err(expected));
    }
}
