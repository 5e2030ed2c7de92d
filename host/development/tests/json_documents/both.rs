//! A sheet held to the ledger, call by call.

use bannelgo::{Grammar, Reading, Sheet};
use bannelgo_development::calls::{ask, Answer, Call};
use bannelgo_development::expr;
use bannelgo_development::reference::ledger::Ledger;

/// A sheet and the ledger that is asked the same.
pub struct Both<'g> {
    sheet: Sheet,
    ledger: Ledger<'g>,
}

impl<'g> Both<'g> {
    pub fn open(grammar: &Grammar, tree: &'g expr::Grammar, text: &[u8], room: usize) -> Both<'g> {
        Both {
            sheet: Sheet::open(grammar, text, room).expect("the sheet is opened"),
            ledger: Ledger::open(tree, room, text),
        }
    }

    /// Makes the call in both ways; answers and texts are the same.
    pub fn ask(&mut self, call: Call) -> Result<Answer, u64> {
        let expected = self.ledger.call(&call);
        let said = ask(&mut self.sheet, &call);
        let text = self.ledger.text();
        assert_eq!(said, expected, "{call} on {}", text.escape_ascii());
        assert_eq!(self.sheet.text(), text, "{call}");
        said
    }

    pub fn read(&mut self) -> Reading {
        match self.ask(Call::Read) {
            Ok(Answer::Reading(read)) => read.reading,
            other => panic!("no reading: {other:?}"),
        }
    }
}

/// A first reading of a text, by the sheet and by the ledger.
pub fn first_reading(grammar: &Grammar, tree: &expr::Grammar, text: &[u8]) -> Reading {
    Both::open(grammar, tree, text, text.len()).read()
}
