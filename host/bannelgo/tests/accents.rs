//! A site's name with accents in a sheet: letters typed, changed, split and joined byte by byte.

mod site;
mod texts;

use bannelgo::grammar::{any, call, times, Grammar};
use bannelgo::Sheet;
use site::site;
use texts::texts;

const CHARACTER: usize = 1;

/// A sheet of this text that was read once.
fn read_once(grammar: &Grammar, text: &[u8]) -> Sheet {
    let mut sheet = Sheet::open(grammar, text, text.len() + 4).expect("opened");
    assert!(sheet.read().expect("read").is_whole());
    sheet
}

/// Length and examined length of the character at a position, where its record is held.
fn character(sheet: &Sheet, position: usize) -> Option<(usize, usize)> {
    let record = sheet.look_up(CHARACTER, position).expect("answered");
    record.map(|record| (record.length, record.examined))
}

/// Each edit is at the second byte of the letter at 1. The letter's record is dropped wherever it looked at
/// that place, those of the other letters stand, and the reading evaluates what is missing.
#[test]
fn edits_inside_a_letter() {
    let grammar = site();
    let mut sheet = read_once(&grammar, "Zürich".as_bytes());
    assert_eq!(character(&sheet, 1), Some((2, 2)));
    let edits: [(_, &[u8], &[u8], _, _, _); 7] = [
        // The second byte changed, deleted, and typed again.
        (2..3, b"\xB6", "Zörich".as_bytes(), 6, 2, (2, 2)),
        (2..3, b"", b"Z\xC3rich", 6, 2, (1, 2)),
        (2..2, b"\xBC", "Zürich".as_bytes(), 6, 2, (2, 2)),
        // Split by a byte, and joined: the record of BC alone stands, and is not met.
        (2..2, b"x", b"Z\xC3x\xBCrich", 6, 4, (1, 2)),
        (2..3, b"", "Zürich".as_bytes(), 7, 2, (2, 2)),
        // Nothing put between the two bytes; then an edit right behind the letter, whose record stands.
        (2..2, b"", "Zürich".as_bytes(), 7, 2, (2, 2)),
        (3..4, b"R", "ZüRich".as_bytes(), 7, 2, (2, 2)),
    ];
    for (bytes, typed, text, standing, evaluations, letter) in edits {
        let about = format!("{bytes:?}, {}", typed.escape_ascii());
        let is_behind = bytes.start == 3;
        let edited = sheet.edit(bytes, typed).expect("edited");
        assert_eq!((sheet.text(), edited.standing), (text, standing), "{about}");
        assert_eq!(character(&sheet, 1).is_some(), is_behind, "{about}");
        let read = sheet.read().expect("read");
        assert_eq!(read.evaluations, evaluations, "{about}");
        assert_eq!(grammar.read(text), Ok(read.reading), "{about}");
        assert_eq!(character(&sheet, 1), Some(letter), "{about}");
    }
    assert_eq!(character(&sheet, 2), Some((1, 1)));
}

/// With each byte that is typed the letter's first byte looks one further, until the letter is complete; so
/// too where they are deleted from the last one on. At the text's end and in front of another letter.
#[test]
fn a_letter_typed_byte_by_byte() {
    for behind in ["", "b"] {
        for letter in ["ü", "€", "🔋"] {
            let mut sheet = read_once(&site(), format!("Z{behind}").as_bytes());
            let length = letter.len();
            let first_of = |typed: usize| match typed {
                0 => (behind.len(), 1),
                typed if typed == length => (length, length),
                typed => (1, typed + 1),
            };
            for typed in 1..=length {
                let byte = letter.as_bytes()[typed - 1];
                sheet.edit(typed..typed, [byte]).expect("edited");
                assert!(sheet.read().expect("read").is_whole());
                assert_eq!(character(&sheet, 1), Some(first_of(typed)), "{letter}");
            }
            for typed in (0..length).rev() {
                sheet.edit(typed + 1..typed + 2, "").expect("edited");
                assert!(sheet.read().expect("read").is_whole());
                assert_eq!(character(&sheet, 1), Some(first_of(typed)), "{letter}");
            }
        }
    }
}

/// A code is two characters: a letter split in two makes three of them, and the code is a part of the text.
#[test]
fn a_code_of_two_characters() {
    let grammar = Grammar::builder()
        .rule("Code", times(2, call("Character")))
        .rule("Character", any())
        .build()
        .expect("accepted");
    let mut sheet = Sheet::open(&grammar, "Zü", 8).expect("opened");
    assert!(sheet.read().expect("read").is_whole());
    let edits: [(_, &[u8], _); 6] = [
        (2..2, b"x", "part, length 2, examined 3"),
        (2..3, b"", "whole, length 3, examined 3"),
        (2..3, b"", "whole, length 2, examined 3"),
        (1..2, b"\xE2", "whole, length 2, examined 3"),
        (2..2, b"\x82", "part, length 2, examined 4"),
        (3..3, b"\xAC", "whole, length 4, examined 4"),
    ];
    for (bytes, typed, words) in edits {
        sheet.edit(bytes, typed).expect("edited");
        let read = sheet.read().expect("read");
        let words = format!("{words}, nesting 3, evaluations 2");
        assert_eq!(read.to_string(), words, "{}", sheet.text().escape_ascii());
        assert_eq!(grammar.read(sheet.text()), Ok(read.reading));
    }
    assert_eq!(sheet.text(), "Z€".as_bytes());
}

/// Every record of a character that is held, and then the rows, are those of the text.
fn assert_true(grammar: &Grammar, sheet: &mut Sheet) {
    let text = sheet.text().to_vec();
    let about = text.escape_ascii().to_string();
    let alone = Grammar::builder().rule("Character", any()).build();
    let alone = alone.expect("accepted");
    for position in 0..=text.len() {
        let fresh = alone.read(&text[position..]).expect("read");
        if let Some(held) = character(sheet, position) {
            assert_eq!(held, (fresh.length, fresh.examined), "{about}, {position}");
        }
    }
    let listing = sheet.list(100).expect("listed");
    let mut fresh = Sheet::open(grammar, &text, text.len()).expect("opened");
    let fresh = fresh.list(100).expect("listed");
    assert_eq!(listing.read.reading, fresh.read.reading, "{about}");
    assert_eq!(listing.rows, fresh.rows, "{about}");
}

/// All short texts of whole and broken letters, and every edit of them that puts in one byte or none.
#[test]
fn records_are_true_after_every_edit() {
    let grammar = site();
    let bytes = b"a\xC3\xBC\xE2\x82\xAC";
    let mut broken = 0;
    for text in texts(bytes, 3) {
        let ends = 0..=text.len();
        for (start, end) in ends.flat_map(|end| (0..=end).map(move |start| (start, end))) {
            for typed in texts(bytes, 1) {
                let mut sheet = read_once(&grammar, &text);
                let before = start
                    .checked_sub(1)
                    .and_then(|place| character(&sheet, place));
                broken += usize::from(before == Some((1, 2)));
                sheet.edit(start..end, &typed).expect("edited");
                assert_true(&grammar, &mut sheet);
            }
        }
    }
    // Edits right behind a letter that is broken off there.
    assert!(broken >= 1_000, "{broken}");
}
