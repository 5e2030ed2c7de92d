//! The site's name with accents, and the keys inside a letter of it.

use super::output::part;
use super::sheet::in_print;
use super::table::assert_table;
use super::typed::{read, type_one, Typed, BACKSPACE};
use bannelgo::{Outcome, Record};
use bannelgo_development::calls::{Answer, Call};
use bannelgo_development::gap_sheet::{named_site_sheet, site_sheet};
use bannelgo_development::gap_text::SITE_SHEET;
use bannelgo_development::reference::ledger::Ledger;

/// What Character takes where the letter begins, behind each key: its bytes in print, length and examined.
const TAKEN: [&str; 5] = ["ö 2 2", "C3 1 2", "r 1 1", "C3 1 2", "ü 2 2"];

/// The second byte changed to that of ö, both deleted from the end, and both typed.
#[test]
fn each_key_inside_a_letter_has_the_ledgers_figures() {
    let grammar = site_sheet();
    let text = SITE_SHEET.as_bytes();
    let first = SITE_SHEET.find("ü").expect("there is the letter");
    let second = first + 1;
    let mut ledger = Ledger::open(&grammar, text.len(), text);
    read(&mut ledger);
    let strokes = [
        (0xB6, second..second + 1),
        (BACKSPACE, second..second + 1),
        (BACKSPACE, first..first + 1),
        (0xC3, first..first),
        (0xBC, second..second),
    ];
    let mut keys = vec![];
    for ((key, bytes), taken) in strokes.into_iter().zip(TAKEN) {
        let key = type_one(&mut ledger, key, bytes);
        assert_eq!(character(&mut ledger, &key, first), taken);
        assert_eq!(key.read.reading.outcome, Outcome::Whole);
        keys.push(key);
    }
    assert_eq!(keys[4].text, text);
    assert_table("Names with accents", &keys, TAKEN.map(String::from).into());
}

/// The record of Character at a place, with the bytes that it takes.
fn character(ledger: &mut Ledger<'_>, key: &Typed, position: usize) -> String {
    let rule = named_site_sheet().rule("Character");
    let rule = rule.expect("there is the rule");
    let Ok(Answer::Word(word)) = ledger.call(&Call::LookUp { rule, position }) else {
        panic!("a look-up gives a word");
    };
    let record = Record::from_word(word).expect("the pair is held");
    let bytes = &key.text[position..position + record.length];
    let hexadecimal = || bytes.iter().map(|byte| format!("{byte:02X}")).collect();
    let taken = String::from_utf8(bytes.to_vec()).unwrap_or_else(|_| hexadecimal());
    format!("{taken} {} {}", record.length, record.examined)
}

/// The site, and below it a row for each character.
#[test]
fn the_letters_of_the_name_are_shown() {
    let (grammar, text) = (site_sheet(), SITE_SHEET);
    let rows = Ledger::open(&grammar, text.len(), text.as_bytes()).rows(1_000);
    let rows = rows.expect("there are at most 1,000");
    let title = text.lines().next().expect("there is a title");
    let name = title.strip_prefix("GAPS ").expect("it has a name");
    let begin = title.len() - name.len();
    let inside = rows
        .iter()
        .filter(|row| row.depth >= 2 && begin <= row.start && row.range().end <= title.len());
    let expected: Vec<String> = inside
        .map(|row| in_print(row, row.depth - 2) + &format!("{:?}", &text[row.range()]))
        .collect();
    assert_eq!(expected.len(), 1 + name.chars().count());
    assert!(name.chars().any(|letter| letter.len_utf8() > 1));
    let lines = part("Names with accents").into_iter();
    let printed: Vec<&str> = lines.filter(|line| line.contains("..")).collect();
    assert_eq!(printed, expected);
}
