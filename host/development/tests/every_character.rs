//! Any on every byte string of up to 3 bytes, and on those of 4 bytes at borders: by the reference, by plain readings,
//! and by the records and rows of listings.

mod characters;

use bannelgo::raw::{self, Fields};
use bannelgo::Outcome::{Nothing, Part, Whole};
use bannelgo::{plain_reading, Reading, SheetReading};
use bannelgo_development::expected::{reading, row};
use bannelgo_development::expr::{not, or_else, star, then, Expr, Grammar};
use bannelgo_development::numbering::{image_of, Numbering};
use bannelgo_development::reference::characters::{any_at, Looked};
use bannelgo_development::reference::rows;
use characters::all_chars::AllChars;
use characters::one_call;
use characters::strings::each_string;
use std::sync::atomic::AtomicU64;
use std::sync::atomic::Ordering::Relaxed;

fn image(rules: Vec<Expr>) -> Vec<u8> {
    image_of(&Grammar { start: 0, rules }, Numbering::Preorder)
}

#[test]
fn the_reference_is_what_all_characters_say() {
    let all = AllChars::new();
    let strings = AtomicU64::new(0);
    each_string(0..=255, |text| {
        let expected = all.first_of(text);
        assert_eq!(any_at(text, 0), expected, "reference, {text:02x?}");
        assert_eq!(one_call::first_of(text), expected, "one call, {text:02x?}");
        strings.fetch_add(1, Relaxed);
    });
    let up_to_three = 1 + (1 << 8) + (1 << 16) + (1 << 24);
    let of_four = 65_536 * 64;
    assert_eq!(strings.into_inner(), up_to_three + of_four);
}

/// The start rule is any.
#[test]
fn plain_readings_by_any() {
    let image = image(vec![Expr::Any]);
    each_string(0..=255, |text| {
        let expected = reading_of(one_call::first_of(text), text.len());
        assert_eq!(plain_reading(&image, text), Ok(expected), "{text:02x?}");
    });
}

fn reading_of(looked: Looked, n: usize) -> Reading {
    let outcome = match looked.length {
        None => Nothing,
        Some(length) if length == n => Whole,
        Some(_) => Part,
    };
    reading((outcome, looked.length.unwrap_or(0), looked.examined, 1))
}

/// Rule 0 = (rule 1 then any) zero or more times, rule 1 = (not any) else empty. Where a character begins rule 1 has a
/// record with what any examines there, and a row, which the listing finds by its own walk over any. Of the first bytes
/// that are ASCII, which have nothing to do with the second, there is one.
#[test]
fn records_and_rows_before_each_character() {
    let looks = or_else(not(Expr::Any), Expr::Empty);
    let image = image(vec![star(then(Expr::Call(1), Expr::Any)), looks]);
    each_string(0x7F..=0xFF, |text| {
        let (mut buffer, mut table, mut slots) = ([0; 4], [0; 10], [0; 5]);
        raw::open(&image, text, &mut buffer, &mut table);
        let listed = raw::list(&image, &buffer, text.len(), &mut table, &mut slots);
        let expected = Listed::of(text);
        assert_eq!(listed, expected.fields, "{text:02x?}");
        assert_eq!(table, expected.table, "{text:02x?}");
        assert_eq!(slots, expected.slots, "{text:02x?}");
    });
}

/// What a listing answers, and leaves in a table and in row slots.
struct Listed {
    fields: Fields,
    table: [u64; 10],
    slots: [u64; 5],
}

impl Listed {
    fn of(text: &[u8]) -> Listed {
        let n = text.len();
        let (mut table, mut slots) = ([0; 10], [0; 5]);
        // The last round fails at the end, behind a rule 1 that matches.
        table[0] = word(n, n + 1, 6);
        slots[0] = rows::word(&row((0, 0, 0, n)));
        let (mut at, mut characters) = (0, 0);
        loop {
            let looked = one_call::first_of(&text[at..]);
            table[2 * at + 1] = word(0, looked.examined, 3);
            let Some(length) = looked.length else {
                break;
            };
            characters += 1;
            slots[characters] = rows::word(&row((1, 1, at, 0)));
            at += length;
        }
        let read = SheetReading {
            reading: reading((Whole, n, n + 1, 6)),
            evaluations: characters + 2,
        };
        Listed {
            fields: Fields::of_listing(read, characters + 1),
            table,
            slots,
        }
    }
}

/// The word of a match: held, matched, nesting, examined and length.
fn word(length: usize, examined: usize, nesting: usize) -> u64 {
    (0b11 << 62) | (nesting << 33 | examined << 16 | length) as u64
}
