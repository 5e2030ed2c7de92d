//! Refusals that a user meets: what was asked, the number, and what is wrong in words.

use crate::compared::Compared;
use crate::layout::{grouped, heading};
use crate::Shown;
use bannelgo::{Grammar, Refusal, Sheet};
use bannelgo_development::calls::{number_of, Call};
use bannelgo_development::gap_sheet::{named_site_sheet, tree_of};
use bannelgo_development::gap_text::SITE_SHEET;
use bannelgo_development::reference::ledger::Ledger;
use bannelgo_development::reference::lent::lent_wholly;
use bannelgo_development::samples::M10;
use std::io::Write;
use std::ops::Range;

/// The fewest brackets that nest too deep by M10.
const BRACKETS: usize = 1_365;

/// What was asked, what was said to it, and what the ledger says.
struct Asked {
    about: String,
    said: Result<(), Refusal>,
    expected: Result<(), u64>,
}

pub fn show(out: &mut impl Write, compared: &mut Compared) -> Shown {
    let end = SITE_SHEET.len();
    let asked = [
        opening(100),
        edit("A byte behind the text is deleted", end..end + 1, "")?,
        edit("A key is typed into a sheet that is full", end..end, "#")?,
        brackets()?,
    ];
    heading(out, "Refusals")?;
    writeln!(
        out,
        "A call without an answer says why. README.md lists the numbers.\n"
    )?;
    for asked in asked {
        asked.compare(compared);
        asked.show(out)?;
    }
    Ok(())
}

impl Asked {
    fn compare(&self, compared: &mut Compared) {
        let said = self.said.clone();
        let said = said.map_err(|refusal| number_of(&refusal));
        compared.compare(&self.about, &said, &self.expected);
    }

    fn show(&self, out: &mut impl Write) -> Shown {
        match &self.said {
            Ok(()) => writeln!(out, "    {}: not refused", self.about)?,
            Err(refusal) => {
                let number = number_of(refusal);
                writeln!(out, "{number:>4}  {}:\n      {refusal}", self.about)?;
            }
        }
        Ok(())
    }
}

fn opening(room: usize) -> Asked {
    let grammar = named_site_sheet();
    let (rules, length) = (grammar.names().count(), SITE_SHEET.len());
    let expected = match lent_wholly(rules, room, length, rules * (room + 1)) {
        true => Ok(()),
        false => Err(8),
    };
    let said = Sheet::open(&grammar, SITE_SHEET, room);
    Asked {
        about: format!("The sheet is opened with room for {room} bytes"),
        said: said.map(|_| ()),
        expected,
    }
}

/// An edit of the planner's sheet, which has no room to grow.
fn edit(about: &str, bytes: Range<usize>, replacement: &str) -> Result<Asked, Refusal> {
    let grammar = named_site_sheet();
    let text = SITE_SHEET.as_bytes();
    let written_apart = tree_of(&grammar);
    let mut sheet = Sheet::open(&grammar, text, text.len())?;
    let mut ledger = Ledger::open(&written_apart, text.len(), text);
    let expected = ledger.call(&Call::Edit {
        start: bytes.start,
        end: bytes.end,
        replacement: replacement.as_bytes().to_vec(),
    });
    Ok(Asked {
        about: about.to_string(),
        said: sheet.edit(bytes, replacement).map(|_| ()),
        expected: expected.map(|_| ()),
    })
}

/// Brackets that open and never close, read by M10.
fn brackets() -> Result<Asked, Refusal> {
    let grammar = Grammar::from_image(&M10)?;
    let text = "(".repeat(BRACKETS);
    let written_apart = tree_of(&grammar);
    let mut sheet = Sheet::open(&grammar, &text, text.len())?;
    let mut ledger = Ledger::open(&written_apart, text.len(), text.as_bytes());
    let count = grouped(BRACKETS);
    Ok(Asked {
        about: format!("{count} opening brackets are read by the grammar M10 below"),
        said: sheet.read().map(|_| ()),
        expected: ledger.call(&Call::Read).map(|_| ()),
    })
}
