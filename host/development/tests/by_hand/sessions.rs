//! A session by the library and by the ledger.

use bannelgo::{Edited, Listing, Sheet, SheetReading};
use bannelgo_development::calls::{ask, open_image, Answer, Call};
use bannelgo_development::expected::{reading, row, ReadingFields, RowFields};
use bannelgo_development::expr::Grammar;
use bannelgo_development::numbering::{image_of, Numbering};
use bannelgo_development::reference::ledger::Ledger;

pub type Expected = Result<Answer, u64>;

pub struct Both<'g> {
    sheet: Sheet,
    ledger: Ledger<'g>,
}

impl<'g> Both<'g> {
    pub fn open(grammar: &'g Grammar, cap: usize, text: &[u8]) -> Both<'g> {
        let image = image_of(grammar, Numbering::Preorder);
        Both {
            sheet: open_image(&image, text, cap).expect("the sheet is opened"),
            ledger: Ledger::open(grammar, cap, text),
        }
    }

    /// Makes a call in both ways.
    pub fn expect(&mut self, call: Call, expected: Expected) {
        assert_eq!(ask(&mut self.sheet, &call), expected, "ours, {call}");
        assert_eq!(self.ledger.call(&call), expected, "ledger, {call}");
    }
}

pub fn edit(start: usize, end: usize, replacement: impl AsRef<[u8]>) -> Call {
    Call::Edit {
        start,
        end,
        replacement: replacement.as_ref().to_vec(),
    }
}

pub fn edited(length: usize, standing: usize) -> Expected {
    Ok(Answer::Edited(Edited { length, standing }))
}

pub fn read(fields: ReadingFields, evaluations: usize) -> Expected {
    Ok(Answer::Reading(sheet_reading(fields, evaluations)))
}

pub fn listed(fields: ReadingFields, evaluations: usize, rows: &[RowFields]) -> Expected {
    Ok(Answer::Listing(Listing {
        read: sheet_reading(fields, evaluations),
        rows: rows.iter().copied().map(row).collect(),
    }))
}

fn sheet_reading(fields: ReadingFields, evaluations: usize) -> SheetReading {
    SheetReading {
        reading: reading(fields),
        evaluations,
    }
}
