//! Keys that are typed into a sheet: a line at a cursor, or keys in the place of bytes.

use crate::compared::Compared;
use bannelgo::{Edited, Grammar, Refusal, Sheet, SheetReading};
use bannelgo_development::calls::{Answer, Call};
use bannelgo_development::gap_sheet::tree_of;
use bannelgo_development::reference::ledger::Ledger;
use std::ops::Range;
use std::time::{Duration, Instant};

/// An entry with a slip that is taken back.
pub const TYPED: &str = "red;  14:000\u{8}:00 / 14:15:00;  7.5\n";

/// What deletes the byte before the cursor.
pub const BACKSPACE: u8 = 8;

/// A key: the bytes of the range give way to the replacement. Behind the reading a pair may be looked up.
#[derive(Clone)]
pub struct Stroke {
    pub key: u8,
    bytes: Range<usize>,
    replacement: Vec<u8>,
    looked_up: Option<Pair>,
}

/// A rule at a position.
#[derive(Clone, Copy)]
pub struct Pair {
    pub rule: usize,
    pub position: usize,
}

impl Stroke {
    /// A key in the place of these bytes, which a backspace deletes.
    pub fn new(key: u8, bytes: Range<usize>) -> Stroke {
        Stroke {
            key,
            bytes,
            replacement: match key {
                BACKSPACE => vec![],
                key => vec![key],
            },
            looked_up: None,
        }
    }

    pub fn and_look_up(self, pair: Pair) -> Stroke {
        let looked_up = Some(pair);
        Stroke { looked_up, ..self }
    }
}

/// What a key did to the sheet.
pub struct Step {
    pub stroke: Stroke,
    edited: Edited,
    pub read: SheetReading,
    /// The word of the pair that was looked up.
    pub word: Option<u64>,
    /// The text that the edit left.
    pub text: Vec<u8>,
    /// The time of edit and reading together.
    pub time: Duration,
}

/// The place behind a line that a blank line follows, the first one at or after `from`.
pub fn before_blank_line(text: &[u8], from: usize) -> usize {
    let blank = text[from..].windows(2).position(|two| two == b"\n\n");
    from + blank.expect("the sample sheets have blank lines") + 1
}

/// The keys of the line, typed at a cursor.
pub fn line_at(mut cursor: usize) -> Vec<Stroke> {
    let mut strokes = vec![];
    for key in TYPED.bytes() {
        let bytes = match key {
            BACKSPACE => cursor - 1..cursor,
            _ => cursor..cursor,
        };
        let stroke = Stroke::new(key, bytes);
        cursor = stroke.bytes.start + stroke.replacement.len();
        strokes.push(stroke);
    }
    strokes
}

/// Keys typed one after the other over the byte at a place.
pub fn over(place: usize, keys: &[u8]) -> Vec<Stroke> {
    let stroke = |&key: &u8| Stroke::new(key, place..place + 1);
    keys.iter().map(stroke).collect()
}

/// Opens and reads a text and types the keys, with a reading after each one. The ledger is asked the
/// same afterwards, so that it takes no part in the times.
pub fn type_keys(
    grammar: &Grammar,
    text: &[u8],
    strokes: Vec<Stroke>,
    compared: &mut Compared,
) -> Result<Vec<Step>, Refusal> {
    let room = text.len() + strokes.len();
    let mut sheet = Sheet::open(grammar, text, room)?;
    let opened = sheet.read()?;
    let typed = |stroke| Step::of(&mut sheet, stroke);
    let steps: Vec<Step> = strokes.into_iter().map(typed).collect::<Result<_, _>>()?;

    let written_apart = tree_of(grammar);
    let mut ledger = Ledger::open(&written_apart, room, text);
    let read = Ok(Answer::Reading(opened));
    compared.compare(
        "the reading after the opening",
        &read,
        &ledger.call(&Call::Read),
    );
    for step in &steps {
        step.compare(&mut ledger, compared);
    }
    Ok(steps)
}

impl Step {
    fn of(sheet: &mut Sheet, stroke: Stroke) -> Result<Step, Refusal> {
        let begin = Instant::now();
        let edited = sheet.edit(stroke.bytes.clone(), &stroke.replacement);
        let read = sheet.read();
        let time = begin.elapsed();
        let pair = stroke.looked_up;
        let word = pair.map(|Pair { rule, position }| sheet.word(rule, position));
        Ok(Step {
            stroke,
            edited: edited?,
            read: read?,
            word: word.transpose()?,
            text: sheet.text().to_vec(),
            time,
        })
    }

    fn compare(&self, ledger: &mut Ledger<'_>, compared: &mut Compared) {
        let Stroke {
            bytes,
            replacement,
            looked_up,
            ..
        } = self.stroke.clone();
        let edit = Call::Edit {
            start: bytes.start,
            end: bytes.end,
            replacement,
        };
        let edited = Ok(Answer::Edited(self.edited));
        let read = Ok(Answer::Reading(self.read));
        let escaped = |text: &[u8]| text.escape_ascii().to_string();
        compared.compare(&edit.to_string(), &edited, &ledger.call(&edit));
        compared.compare(
            &format!("the text after {edit}"),
            &escaped(&self.text),
            &escaped(ledger.text()),
        );
        compared.compare(
            &format!("the reading after {edit}"),
            &read,
            &ledger.call(&Call::Read),
        );
        if let (Some(Pair { rule, position }), Some(word)) = (looked_up, self.word) {
            let look_up = Call::LookUp { rule, position };
            let word = Ok(Answer::Word(word));
            compared.compare(&look_up.to_string(), &word, &ledger.call(&look_up));
        }
    }
}
