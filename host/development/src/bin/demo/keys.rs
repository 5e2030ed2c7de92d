//! A line typed into the planner's sheet: each key's evaluations beside those of a first reading.

use crate::compared::Compared;
use crate::first::{expected, FirstReading};
use crate::layout::heading;
use crate::typing::{before_blank_line, line_at, type_keys, Step, Stroke, BACKSPACE};
use crate::Shown;
use bannelgo::Refusal;
use bannelgo_development::gap_sheet::named_site_sheet;
use bannelgo_development::gap_text::SITE_SHEET;
use std::io::{self, Write};

/// A key, and the first reading of the text that it left.
pub struct Key {
    pub step: Step,
    pub first: FirstReading,
}

/// Types the line behind the third gap.
pub fn typed_line(compared: &mut Compared) -> Result<Vec<Key>, Refusal> {
    let cursor = before_blank_line(SITE_SHEET.as_bytes(), 0);
    typed(line_at(cursor), compared)
}

/// Types keys into the planner's sheet.
pub fn typed(strokes: Vec<Stroke>, compared: &mut Compared) -> Result<Vec<Key>, Refusal> {
    let grammar = named_site_sheet();
    let steps = type_keys(&grammar, SITE_SHEET.as_bytes(), strokes, compared)?;
    let beside_first = |step: Step| {
        let first = FirstReading::of(&grammar, &step.text)?;
        let expected = expected(&grammar, &step.text);
        compared.compare("a first reading after a key", &first.answer(), &expected);
        Ok(Key { step, first })
    };
    steps.into_iter().map(beside_first).collect()
}

pub fn show(out: &mut impl Write, keys: &[Key]) -> Shown {
    heading(out, "Keys")?;
    writeln!(
        out,
        "A line is typed behind the third gap, with a slip that is taken back, and the\n\
         sheet is read after each key. The outcome is whole where the sheet matched to\n\
         its end, and none where it did not.\n"
    )?;
    show_table(out, keys, STOPPED_AT, stopped_at)
}

/// The last column of a table: where a sheet that is not whole stopped matching.
pub const STOPPED_AT: &str = "stopped at";

pub fn stopped_at(Key { step, .. }: &Key) -> String {
    let reading = step.read.reading;
    match reading.is_whole() {
        true => String::new(),
        false => reading.reached(&step.text).to_string(),
    }
}

/// A line for each key, with a last column under this name.
pub fn show_table(
    out: &mut impl Write,
    keys: &[Key],
    last: &str,
    last_of: impl Fn(&Key) -> String,
) -> Shown {
    writeln!(out, "{:28}pairs evaluated by", "")?;
    let (key, bytes, outcome) = ("key", "bytes", "outcome");
    let (this, first) = ("this key", "a first reading");
    writeln!(
        out,
        "{key:<11}{bytes:>5}   {outcome:<9}{this:>8}{first:>18}   {last}"
    )?;
    for key in keys {
        show_key(out, key, &last_of(key))?;
    }
    Ok(())
}

fn show_key(out: &mut impl Write, Key { step, first }: &Key, last: &str) -> io::Result<()> {
    let line = format!(
        "{:<11}{:>5}   {:<9}{:>8}{:>18}   {last}",
        name(step.stroke.key),
        step.text.len(),
        step.read.reading.outcome,
        step.read.evaluations,
        first.read.evaluations
    );
    writeln!(out, "{}", line.trim_end())
}

fn name(key: u8) -> String {
    match key {
        BACKSPACE => "backspace".to_string(),
        b'\n' => "enter".to_string(),
        b' ' => "space".to_string(),
        0x80.. => format!("byte {key:02X}"),
        key => char::from(key).to_string(),
    }
}
