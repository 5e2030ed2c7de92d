//! A first reading: the text is opened afresh, so that no record is held.

use bannelgo::{Grammar, Refusal, Sheet, SheetReading};
use bannelgo_development::calls::{Answer, Call};
use bannelgo_development::gap_sheet::tree_of;
use bannelgo_development::reference::ledger::Ledger;
use std::time::{Duration, Instant};

#[derive(Clone, Copy)]
pub struct FirstReading {
    pub read: SheetReading,
    /// The time of the reading, without that of the opening.
    pub time: Duration,
}

impl FirstReading {
    pub fn of(grammar: &Grammar, text: &[u8]) -> Result<FirstReading, Refusal> {
        let mut sheet = Sheet::open(grammar, text, text.len())?;
        let begin = Instant::now();
        let read = sheet.read();
        let time = begin.elapsed();
        Ok(FirstReading { read: read?, time })
    }

    pub fn answer(&self) -> Result<Answer, u64> {
        Ok(Answer::Reading(self.read))
    }
}

/// What the ledger says to a first reading of a text.
pub fn expected(grammar: &Grammar, text: &[u8]) -> Result<Answer, u64> {
    let written_apart = tree_of(grammar);
    Ledger::open(&written_apart, text.len(), text).call(&Call::Read)
}
