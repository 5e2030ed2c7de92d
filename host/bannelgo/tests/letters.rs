//! Letters with accents in print: rows, columns, and the place that a reading reached.

mod site;
mod texts;

use bannelgo::grammar::{any, call, literal, not, range, sequence, star, Grammar};
use bannelgo::{Place, Sheet};
use site::site;
use std::str::from_utf8;
use texts::texts;

#[test]
fn a_name_has_a_row_for_each_letter() {
    let mut sheet = Sheet::open(&site(), "Đà Nẵng", 16).expect("opened");
    let printed = r#"
Site 0..11 "Đà Nẵng"
  Character 0..2 "Đ"
  Character 2..4 "à"
  Character 4..5 " "
  Character 5..6 "N"
  Character 6..9 "ẵ"
  Character 9..10 "n"
  Character 10..11 "g"
"#;
    let tree = sheet.tree().expect("listed");
    assert_eq!(tree.to_string(), printed.trim_start());
    let words = "whole, length 11, examined 12, nesting 3, evaluations 9";
    assert_eq!(tree.reading().to_string(), words);
}

/// Digits <- (. Digit)*; Digit <- [0-9]. A row begins behind all bytes of the character before it.
#[test]
fn rows_begin_behind_a_character() {
    let grammar = Grammar::builder()
        .rule("Digits", star(sequence([any(), call("Digit")])))
        .rule("Digit", range(b'0', b'9'))
        .build()
        .expect("accepted");
    let text = ["a0ü1€2🔋3".as_bytes(), b"\xC34\xE2\x825"].concat();
    let mut sheet = Sheet::open(&grammar, &text, text.len()).expect("opened");
    let listing = sheet.list(100).expect("listed");
    let starts: Vec<usize> = listing.rows.iter().map(|row| row.start).collect();
    assert_eq!(starts, [0, 1, 4, 8, 13, 15]);
    // Behind E2 alone stands 82, which is no digit.
    assert_eq!((listing.read.reading.length, text.len()), (16, 19));
}

/// A row for each character: each has a column of its own, and a byte that is in none is printed as one.
#[test]
fn columns_are_characters() {
    let grammar = site();
    for text in texts(b"a\xC3\xBC\xE2\x82\xAC", 4) {
        let mut sheet = Sheet::open(&grammar, &text, 4).expect("opened");
        let tree = sheet.tree().expect("listed");
        let columns = tree.calls().skip(1).zip(1..).flat_map(|(call, column)| {
            let text = from_utf8(call.text());
            assert!(call.text().len() == 1 || text.is_ok(), "{call}");
            call.range().map(move |_| column)
        });
        let places = (0..text.len()).map(|at| Place::of(&text, at).column);
        assert!(columns.eq(places), "{tree}");
    }
    let mut sheet = Sheet::open(&grammar, b"\xC3\xC3\xBC\xE2\x82", 5).expect("opened");
    let printed = r#"
Site 0..5 "\xC3ü\xE2\x82"
  Character 0..1 "\xC3"
  Character 1..3 "ü"
  Character 3..4 "\xE2"
  Character 4..5 "\x82"
"#;
    let tree = sheet.tree().expect("listed");
    assert_eq!(tree.to_string(), printed.trim_start());
}

/// Red <- "red" !. What stands behind is looked at to the end of its letter, or to where that breaks off.
#[test]
fn a_reading_reaches_into_a_letter() {
    let red = sequence([literal("red"), not(any())]);
    let grammar = Grammar::builder().rule("Red", red).build();
    let grammar = grammar.expect("accepted");
    let texts: [(&[u8], usize, bool); 4] = [
        (b"redx", 4, false),
        ("redü".as_bytes(), 4, false),
        (b"red\xE2\x82x", 6, false),
        (b"red\xE2\x82", 6, true),
    ];
    for (text, column, saw_end) in texts {
        let reading = grammar.read(text).expect("read");
        let about = text.escape_ascii();
        assert!(!reading.is_whole(), "{about}");
        assert_eq!(reading.reached(text).column, column, "{about}");
        assert_eq!(reading.saw_end(text), saw_end, "{about}");
    }
}
