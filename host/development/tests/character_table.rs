//! The table of RFC 3629 in the definitions gives the characters that Rust has, each once, and nothing else.

mod definitions;

use definitions::{lines, Line};
use std::collections::BTreeSet;
use std::path::Path;
use std::str::from_utf8;

#[test]
fn the_table_of_the_definitions() {
    let package = Path::new(env!("CARGO_MANIFEST_DIR"));
    let file = package.join("../../crates/grammar/specs/Characters.antt");
    let text = std::fs::read_to_string(&file).expect("the definitions are there");
    assert_eq!(checked(&text), Ok(1_112_064));
}

/// The number of characters in the table of a text, where all are in it.
fn checked(text: &str) -> Result<usize, String> {
    let mut found = BTreeSet::new();
    for bytes in lines(text)?.iter().flat_map(strings) {
        let char = only_char(&bytes).ok_or(format!("{bytes:02x?} is no character"))?;
        if !found.insert(char) {
            return Err(format!("{char:?} stands there twice"));
        }
    }
    match ('\0'..=char::MAX).find(|char| !found.contains(char)) {
        Some(char) => Err(format!("{char:?} is missing")),
        None => Ok(found.len()),
    }
}

/// The byte strings of a line.
fn strings(line: &Line) -> Vec<Vec<u8>> {
    let mut strings = vec![vec![]];
    for range in line {
        let longer = |string: &Vec<u8>| {
            let bytes = range.clone();
            bytes
                .map(|byte| [&string[..], &[byte]].concat())
                .collect::<Vec<_>>()
        };
        strings = strings.iter().flat_map(longer).collect();
    }
    strings
}

/// The character that the bytes are.
fn only_char(bytes: &[u8]) -> Option<char> {
    let mut chars = from_utf8(bytes).ok()?.chars();
    chars.next().filter(|_| chars.next().is_none())
}

/// The table as it is said in the RFC's section 4, and the other places where a file has `begins`.
const TABLE: &str = "
  begins : (first : Octets) (later : List Octets) → Line
tail = 0x80 to 0xBF
table =
    begins (0x00 to 0x7F) []   -- begins (0x80 to 0xFF) []
    ∷ begins (0xC2 to 0xDF) (tail ∷ [])
    ∷ begins (0xE0 to 0xE0) ((0xA0 to 0xBF) ∷ tail ∷ [])
    ∷ begins (0xE1 to 0xEC) (tail ∷ tail ∷ [])
    ∷ begins (0xED to 0xED) ((0x80 to 0x9F)
        ∷ tail ∷ [])
    ∷ begins (0xEE to 0xEF) (tail ∷ tail ∷ [])
    ∷ begins (0xF0 to 0xF0) ((0x90 to 0xBF) ∷ tail ∷ tail ∷ [])
    ∷ begins (0xF1 to 0xF3) (tail ∷ tail ∷ tail ∷ [])
    ∷ begins (0xF4 to 0xF4) ((0x80 to 0x8F) ∷ tail ∷ tail ∷ [])
    ∷ []
laterIn (begins first later ∷ lines) byte = cond (isIn first byte) later (laterIn lines byte)
";

#[test]
fn a_right_table_and_wrong_ones() {
    assert_eq!(checked(TABLE), Ok(1_112_064));
    let wrong = [
        // Surrogates, longer forms, above the last character.
        ("0x80 to 0x9F", "0x80 to 0xBF"),
        ("0xC2 to 0xDF", "0xC0 to 0xDF"),
        ("0xA0 to 0xBF", "0x80 to 0xBF"),
        ("0x90 to 0xBF", "0x80 to 0xBF"),
        ("0x80 to 0x8F", "0x80 to 0xBF"),
        ("0xF4 to 0xF4", "0xF4 to 0xF5"),
        // Some missing, some twice.
        ("0xE1 to 0xEC", "0xE1 to 0xEB"),
        ("0x00 to 0x7F", "0x00 to 0x7E"),
        ("0xEE to 0xEF", "0xEC to 0xEF"),
        // Other lines.
        ("tail = 0x80 to 0xBF", ""),
        ("tail = 0x80 to 0xBF", "tail = 0x80 to 0xBE"),
        ("∷ begins (0xF1 to 0xF3)", "∷ starts (0xF1 to 0xF3)"),
        ("(tail ∷ [])", "(tail)"),
        ("(0x00 to 0x7F) []", "(0x00 to 0x7F)"),
        // One line more, also in other notations, which are not known here.
        ("    ∷ []\n", "    ∷ begins (128 to 193) []\n    ∷ []\n"),
        ("    ∷ []\n", "    ∷ begins (0x80 to 0x1FF) []\n    ∷ []\n"),
        ("    ∷ []\n", "    ∷ begins tail []\n    ∷ []\n"),
        ("    ∷ []\n", "    ∷ begins (0x80 to 0x81) [] ∷ []\n"),
    ];
    for (right, other) in wrong {
        let text = TABLE.replacen(right, other, 1);
        assert_ne!(text, TABLE, "{right}");
        assert!(checked(&text).is_err(), "{right}, {other}");
    }
    assert!(checked("").is_err());
}
