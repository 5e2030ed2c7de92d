//! What a key costs: one timing in a long sheet, and the last line of all in words.

use crate::compared::Compared;
use crate::cost::{average, Cost};
use crate::keys::Key;
use crate::layout::{grouped, heading};
use crate::typing::{before_blank_line, line_at, type_keys};
use crate::Shown;
use bannelgo_development::gap_sheet::named_sheet_of_days;
use bannelgo_development::gap_text::long_sheet_of_days;
use std::io::Write;

/// The length of the long sheet in bytes, without the typed line.
const LONG: usize = 60_000;

/// The same line typed into the middle of a long sheet, by a grammar that groups the lines by day.
pub fn show(out: &mut impl Write, compared: &mut Compared) -> Shown {
    let grammar = named_sheet_of_days();
    let text = long_sheet_of_days(LONG);
    let cursor = before_blank_line(&text, LONG / 2);
    let steps = type_keys(&grammar, &text, line_at(cursor), compared)?;
    let cost = Cost::of(&grammar, &steps, compared)?;

    heading(out, "What a key costs")?;
    writeln!(
        out,
        "In a sheet of {} bytes, its lines grouped by day, a key evaluates {} pairs, and a\n\
         first reading {}. On this machine the key, which is an edit and a reading, takes\n\
         {} microseconds, and the first reading {}; the fastest tenth of each took\n\
         less.",
        grouped(cost.bytes),
        grouped(cost.key_pairs),
        grouped(cost.first_pairs),
        grouped(cost.key_micros),
        grouped(cost.first_micros)
    )?;
    Ok(())
}

/// The keys of the planner's sheet in words.
pub fn show_in_words(out: &mut impl Write, keys: &[Key]) -> Shown {
    writeln!(
        out,
        "{} keys: {} pairs evaluated for each, on average, instead of {} for a first reading.",
        keys.len(),
        grouped(average(keys.iter().map(|key| key.step.read.evaluations))),
        grouped(average(keys.iter().map(|key| key.first.read.evaluations)))
    )?;
    Ok(())
}
