//! The planner's sheet and its first reading.

use crate::compared::Compared;
use crate::first::{expected, FirstReading};
use crate::layout::{grouped, heading, numbered};
use crate::Shown;
use bannelgo::{Grammar, SheetReading};
use bannelgo_development::gap_sheet::named_site_sheet;
use bannelgo_development::gap_text::SITE_SHEET;
use std::io::Write;

pub fn show(out: &mut impl Write, compared: &mut Compared) -> Shown {
    let grammar = named_site_sheet();
    heading(out, "The sheet")?;
    writeln!(
        out,
        "A sheet is a text that is being typed. This one is a planner's, about gaps in\n\
         what a meter recorded at a site: a colour, from when to when, the values in the\n\
         gap, and their unit.\n"
    )?;
    for (number, line) in (1..).zip(SITE_SHEET.lines()) {
        writeln!(out, "{}", numbered(number, line))?;
    }
    writeln!(out, "\n{}", rules_in_words(&grammar))?;
    let text = SITE_SHEET.as_bytes();
    let first = FirstReading::of(&grammar, text)?;
    compared.compare(
        "the first reading of the sheet",
        &first.answer(),
        &expected(&grammar, text),
    );
    writeln!(out, "\n{}", reading_in_words(&first.read))?;
    Ok(())
}

/// The rules by name, on two lines.
fn rules_in_words(grammar: &Grammar) -> String {
    let names: Vec<&str> = grammar.names().collect();
    let (first, second) = names.split_at(names.len() / 2);
    let (first, second) = (first.join(", "), second.join(", "));
    format!(
        "Its grammar has {} rules:\n{first},\n{second}.",
        names.len()
    )
}

fn reading_in_words(read: &SheetReading) -> String {
    let (matched, all) = (read.reading.length, SITE_SHEET.len());
    let verdict = match read.reading.is_whole() {
        true => "The whole sheet matched",
        false => "The sheet did not match as a whole",
    };
    let pairs = grouped(read.evaluations);
    format!(
        "{verdict}: {matched} of {all} bytes.\n\
         {pairs} pairs were evaluated; a pair is a rule at a position."
    )
}
