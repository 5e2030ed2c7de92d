//! An image together with what the reference makes of it, so that many texts share one check.

use bannelgo::Reading;
use bannelgo_development::expr::Grammar;
use bannelgo_development::generate::Feature;
use bannelgo_development::numbering::{image_of, Numbering};
use bannelgo_development::reference::forms::Forms;
use bannelgo_development::reference::machine::evaluate_start;
use bannelgo_development::reference::{accepted_grammar, read};

pub struct Subject {
    pub image: Vec<u8>,
    grammar: Result<Grammar, u64>,
}

impl Subject {
    pub fn new(image: Vec<u8>) -> Subject {
        let grammar = accepted_grammar(&image);
        Subject { image, grammar }
    }

    pub fn of(grammar: &Grammar, numbering: Numbering) -> Subject {
        Subject::new(image_of(grammar, numbering))
    }

    pub fn accepted(&self) -> bool {
        self.grammar.is_ok()
    }

    /// The reference's answer; nothing where a reading without records has more than `most_work`.
    pub fn read(&self, text: &[u8], most_work: u64) -> Option<Result<Reading, u64>> {
        match &self.grammar {
            Ok(grammar) => read(grammar, text, most_work),
            Err(number) => Some(Err(*number)),
        }
    }

    /// Whether the answer would be another one than this without the feature.
    pub fn decides(
        &self,
        feature: Feature,
        text: &[u8],
        most_work: u64,
        answer: Result<Reading, u64>,
    ) -> bool {
        let grammar = self.grammar.as_ref().ok();
        let plain = grammar.and_then(|grammar| feature.taken_from(grammar));
        let plain = plain.and_then(|plain| read(&plain, text, most_work));
        plain.is_some_and(|plain| plain != answer)
    }

    /// The forms of any's matches in a reading.
    pub fn forms(&self, text: &[u8], most_work: u64) -> Forms {
        let grammar = self.grammar.as_ref().ok();
        let found = grammar.and_then(|grammar| evaluate_start(grammar, text, most_work));
        found.map_or(Forms::default(), |found| found.forms)
    }
}
