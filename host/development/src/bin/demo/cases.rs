//! Letters typed over the first one of a unit, which is read in either case.

use crate::compared::Compared;
use crate::keys::{show_table, stopped_at, typed, STOPPED_AT};
use crate::layout::{heading, numbered};
use crate::typing::over;
use crate::Shown;
use bannelgo_development::gap_text::SITE_SHEET;
use std::io::Write;

/// The other case of the letter that stands there, another letter, and the first one again.
const LETTERS: &[u8] = b"Kxk";

pub fn show(out: &mut impl Write, compared: &mut Compared) -> Shown {
    let place = SITE_SHEET.find("kWh").expect("a value has its unit");
    let keys = typed(over(place, LETTERS), compared)?;
    heading(out, "Letters in either case")?;
    writeln!(
        out,
        "Some loggers write KWH and some kwh. The rule Unit is kWh in either case. The key\n\
         K, typed over the k, leaves the sheet whole; an x there does not:\n"
    )?;
    for key in &keys[..2] {
        let text = String::from_utf8_lossy(&key.step.text);
        let number = text[..place].matches('\n').count();
        let line = text.lines().nth(number).unwrap_or("");
        writeln!(out, "{}", numbered(number + 1, line))?;
    }
    writeln!(out)?;
    show_table(out, &keys, STOPPED_AT, stopped_at)
}
