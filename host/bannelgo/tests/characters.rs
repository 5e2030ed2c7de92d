//! Any character: how long it is and how far it looks, as RFC 3629 has it. Ranges stay single bytes.

mod texts;

use bannelgo::grammar::{any, byte, call, literal, not, one_of, range, sequence, Grammar};
use bannelgo::{Outcome, Reading, Record, Sheet};
use std::str::from_utf8;
use texts::texts;

/// Text <- "=" Character; Character <- .
fn one_character() -> Grammar {
    Grammar::builder()
        .rule("Text", sequence([literal("="), call("Character")]))
        .rule("Character", any())
        .build()
        .expect("accepted")
}

/// The character behind "=" has this length, 0 where there is none, and this examined length: in a plain
/// reading and in a sheet's record.
fn assert_character(grammar: &Grammar, bytes: &[u8], length: usize, examined: usize) {
    let text = [b"=", bytes].concat();
    let about = bytes.escape_ascii();
    let matched = length > 0;
    let reading = Reading {
        outcome: match matched {
            true if length == bytes.len() => Outcome::Whole,
            true => Outcome::Part,
            false => Outcome::Nothing,
        },
        length: if matched { 1 + length } else { 0 },
        examined: 1 + examined,
        nesting: 3,
    };
    assert_eq!(grammar.read(&text), Ok(reading), "{about}");
    let mut sheet = Sheet::open(grammar, &text, text.len()).expect("opened");
    assert_eq!(sheet.read().expect("read").reading, reading, "{about}");
    let record = Record {
        matched,
        length,
        examined,
        nesting: 1,
    };
    assert_eq!(sheet.look_up(1, 1), Ok(Some(record)), "{about}");
}

#[test]
fn a_complete_character_is_taken_whole() {
    let grammar = one_character();
    let edges = [
        '\0',
        '\u{7F}',
        '\u{80}',
        '\u{7FF}',
        '\u{800}',
        '\u{D7FF}',
        '\u{E000}',
        '\u{FFFF}',
        '\u{10000}',
        '\u{10FFFF}',
    ];
    let written = "=a üŁ €ก 🔋".chars();
    for character in edges.into_iter().chain(written) {
        let text = character.to_string();
        let length = character.len_utf8();
        for behind in ["", "x", "ü"] {
            let text = text.clone() + behind;
            assert_character(&grammar, text.as_bytes(), length, length);
        }
    }
}

/// The first byte matches alone; examined counts the byte that breaks it off, or the end.
#[test]
fn a_character_that_breaks_off() {
    let grammar = one_character();
    let broken: [(&[u8], usize); 13] = [
        (b"\xC3", 2),
        (b"\xC3a", 2),
        (b"\xC3\xC3\xBC", 2),
        (b"\xE2\x82", 3),
        (b"\xE2\x82a", 3),
        (b"\xE2\x82\xE2", 3),
        (b"\xE2a\x82", 2),
        (b"\xF0\x9F\x94", 4),
        (b"\xF0\x9F\x94a\x8B", 4),
        // 0x2F in three bytes and in four, a surrogate, a number above 0x10FFFF.
        (b"\xE0\x80\xAF", 2),
        (b"\xF0\x80\x80\xAF", 2),
        (b"\xED\xA0\x80", 2),
        (b"\xF4\x90\x80\x80", 2),
    ];
    for (bytes, examined) in broken {
        assert_character(&grammar, bytes, 1, examined);
    }
}

#[test]
fn a_byte_that_begins_no_character_and_the_end() {
    let grammar = one_character();
    for first in (0x80..=0xC1).chain(0xF5..=0xFF) {
        for behind in ["", "a", "ü"] {
            let bytes = [&[first], behind.as_bytes()].concat();
            assert_character(&grammar, &bytes, 1, 1);
        }
    }
    assert_character(&grammar, b"", 0, 1);
}

/// Length and examined length of the character at a text's beginning, by the standard library.
fn by_std(text: &[u8]) -> (usize, usize) {
    let front = &text[..text.len().min(4)];
    let is_one = |&length: &usize| {
        let characters = from_utf8(&front[..length]).map(|some| some.chars().count());
        characters == Ok(1)
    };
    if let Some(length) = (1..=front.len()).find(is_one) {
        return (length, length);
    }
    let broken_after = |bytes| from_utf8(bytes).err().map(|error| error.error_len());
    match (front.first(), broken_after(front)) {
        (None, _) => (0, 1),
        (Some(&first), _) if broken_after(&[first]) != Some(None) => (1, 1),
        (_, Some(Some(bytes))) => (1, bytes + 1),
        _ => (1, front.len() + 1),
    }
}

/// All texts of two bytes, and of four with bytes at the edges of RFC 3629's ranges.
#[test]
fn characters_are_those_of_the_standard_library() {
    let grammar = one_character();
    let all: Vec<u8> = (0..=255).collect();
    let edges = [0x7F, 0x80, 0x8F, 0x90, 0x9F, 0xA0, 0xBF, 0xC0];
    let behind_first = texts(&edges, 3);
    let firsts = [
        0x7F, 0x80, 0xC1, 0xC2, 0xDF, 0xE0, 0xE1, 0xEC, 0xED, 0xEE, 0xEF, 0xF0, 0xF1, 0xF3, 0xF4,
        0xF5,
    ];
    let long = firsts.iter().flat_map(|&first| {
        behind_first
            .iter()
            .map(move |rest| [&[first], &rest[..]].concat())
    });
    let mut found = [[0; 6]; 5];
    for text in texts(&all, 2).into_iter().chain(long) {
        let (length, examined) = by_std(&text);
        assert_character(&grammar, &text, length, examined);
        found[length][examined] += 1;
    }
    // Of each length, and broken off after each number of bytes.
    let met = [
        (0, 1),
        (1, 1),
        (2, 2),
        (3, 3),
        (4, 4),
        (1, 2),
        (1, 3),
        (1, 4),
    ];
    assert!(met
        .iter()
        .all(|&(length, examined)| found[length][examined] > 0));
}

/// Where any character is no match, the end is; a letter is looked at whole for that.
#[test]
fn the_end_is_where_no_character_is() {
    let end = Grammar::builder().rule("End", not(any())).build();
    let end = end.expect("accepted");
    let examined: [(&[u8], &str); 4] = [
        (b"", "whole, length 0, examined 1, nesting 2"),
        (b"a", "none, length 0, examined 1, nesting 2"),
        ("ü".as_bytes(), "none, length 0, examined 2, nesting 2"),
        (b"\xE2\x82", "none, length 0, examined 3, nesting 2"),
    ];
    for (text, words) in examined {
        assert_eq!(end.read(text).expect("read").to_string(), words);
    }
}

/// Length and examined length over "ü", which is C3 BC.
#[test]
fn ranges_and_literals_go_by_bytes() {
    for (expr, length, examined) in [
        (range(0, 255), 1, 1),
        (byte(0xC3), 1, 1),
        (range(0x80, 0xBF), 0, 1),
        (literal("ü"), 2, 2),
        (one_of("aüö"), 2, 2),
        (sequence([not(one_of("äö")), any()]), 2, 2),
    ] {
        let grammar = Grammar::builder().rule("R", expr.clone()).build();
        let reading = grammar.expect("accepted").read("ü").expect("read");
        let found = (reading.length, reading.examined);
        assert_eq!(found, (length, examined), "{expr:?}");
    }
}
