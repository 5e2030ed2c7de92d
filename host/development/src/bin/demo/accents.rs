//! A letter with an accent in the site's name: changed, deleted and typed byte by byte.

use crate::compared::Compared;
use crate::keys::{show_table, typed, Key};
use crate::layout::heading;
use crate::rows::show_with_children;
use crate::typing::{Pair, Stroke, BACKSPACE};
use crate::Shown;
use bannelgo::{Record, Tree};
use bannelgo_development::gap_sheet::named_site_sheet;
use bannelgo_development::gap_text::SITE_SHEET;
use std::io::Write;

/// The letter in the name, and the one that it becomes: the same but for its second byte.
const LETTER: &str = "ü";
const CHANGED: &str = "ö";

pub fn show(out: &mut impl Write, tree: &Tree, compared: &mut Compared) -> Shown {
    let place = SITE_SHEET.find(LETTER).expect("the name has it");
    let keys = typed(strokes(place), compared)?;
    let site = tree.calls().find(|call| call.name() == "Site");
    heading(out, "Names with accents")?;
    writeln!(
        out,
        "The site's name has letters with accents. In UTF-8 such a letter has two bytes or\n\
         more, and the rule Character takes it whole:\n"
    )?;
    show_with_children(out, site.expect("the sheet has a site"))?;
    writeln!(
        out,
        "\nAn editor may send a letter byte by byte. The first ü is C3 BC: its second byte\n\
         gives way to that of ö, the letter is deleted from its end, and an ü is typed.\n\
         While it is incomplete, its first byte is taken alone; the byte behind was\n\
         examined too, and so the key that completes the letter drops that record:\n"
    )?;
    show_table(out, &keys, "letter length examined", |key| {
        letter(key, place)
    })
}

/// The keys inside the letter. Behind each one the record of Character where the letter begins is looked up.
fn strokes(place: usize) -> Vec<Stroke> {
    let rule = named_site_sheet().rule("Character");
    let pair = Pair {
        rule: rule.expect("the grammar has the rule"),
        position: place,
    };
    let second = place + 1;
    let byte = |letter: &str, at: usize| letter.as_bytes()[at];
    let strokes = [
        Stroke::new(byte(CHANGED, 1), second..second + 1),
        Stroke::new(BACKSPACE, second..second + 1),
        Stroke::new(BACKSPACE, place..place + 1),
        Stroke::new(byte(LETTER, 0), place..place),
        Stroke::new(byte(LETTER, 1), second..second),
    ];
    strokes.map(|stroke| stroke.and_look_up(pair)).into()
}

/// What Character takes where the letter begins, with its length and its examined length.
fn letter(Key { step, .. }: &Key, place: usize) -> String {
    let Some(record) = step.word.and_then(Record::from_word) else {
        return "no record".to_string();
    };
    let Record {
        length, examined, ..
    } = record;
    let bytes = &step.text[place..place + length];
    let taken = match std::str::from_utf8(bytes) {
        Ok(letter) => letter.to_string(),
        Err(_) => format!("{:02X}", bytes[0]),
    };
    format!("{taken:<6} {length:>6} {examined:>8}")
}
