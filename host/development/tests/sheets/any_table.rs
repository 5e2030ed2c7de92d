//! Calls over any lent words, compared with the paper's definitions, or where these leave a reading or
//! a listing free with what holds of it.

use super::answers::{fields_of, row_words};
use super::free::{row_frame, table_frame};
use super::lent::Lent;
use super::session::first_difference;
use super::tally::Tally;
use bannelgo_development::calls::{Answer, Call};
use bannelgo_development::expr::Grammar;
use bannelgo_development::generate::Feature;
use bannelgo_development::numbering::{image_of, Numbering};
use bannelgo_development::reference::lent::Loan;
use bannelgo_development::reference::{lent_listing, lent_reading, Number};
use bannelgo_development::rng::Rng;

pub struct AnyTable<'a> {
    tally: &'a mut Tally,
    grammar: &'a Grammar,
    image: Vec<u8>,
    /// What the next call is lent.
    pub loan: Loan,
}

impl<'a> AnyTable<'a> {
    pub fn new(
        tally: &'a mut Tally,
        rng: &mut Rng,
        grammar: &'a Grammar,
        loan: Loan,
    ) -> AnyTable<'a> {
        tally.count_list();
        AnyTable {
            tally,
            grammar,
            image: image_of(grammar, Numbering::any(rng)),
            loan,
        }
    }

    /// Makes a call; the next one is lent what it leaves.
    pub fn call(&mut self, call: &Call) {
        let before = self.loan.clone();
        let mut lent = Lent::new(&before);
        let fields = lent.call(&self.image, call);
        let left = lent.left();
        let fences = lent.fences_stand();
        assert!(fences, "a fence is down\n{}", self.story(call, &before));
        match expected(self.grammar, &mut self.loan, call) {
            Some(answer) => {
                let expected = fields_of(&answer);
                self.count_more(call, &before, &answer);
                self.tally.count_call(call, expected);
                let rows = lent.rows_with(&row_words(&answer));
                let settled = fields == expected && left == self.loan && lent.rows() == rows;
                if !settled {
                    let words = first_difference(&left.words, &self.loan.words);
                    let bytes = first_difference(&left.buffer, &self.loan.buffer);
                    let rows = first_difference(lent.rows(), &rows);
                    let seen = format!("words {words}\n  bytes {bytes}\n  rows {rows}");
                    let story = self.story(call, &before);
                    panic!("{seen}\n  ours {fields:?}\n  expected {expected:?}\n{story}");
                }
            }
            None => {
                self.tally.count_free(call);
                let kept = table_frame(self.grammar, &before, &left, call, fields);
                if let Err(broken) = kept.and(row_frame(&lent, call, fields)) {
                    let story = self.story(call, &before);
                    panic!("{broken}\n  ours {fields:?}\n{story}");
                }
                self.loan = left;
            }
        }
    }

    fn count_more(&mut self, call: &Call, before: &Loan, answer: &Result<Answer, Number>) {
        let text = &before.buffer[..before.n];
        if answer.is_ok() {
            let after = &self.loan.buffer[..self.loan.n];
            self.tally.count_edit(call, text, after);
        }
        let grammar = self.grammar;
        let decides = |feature: Feature| {
            let plain = feature.taken_from(grammar);
            let plain = plain.and_then(|plain| expected(&plain, &mut before.clone(), call));
            plain.is_some_and(|plain| plain != *answer)
        };
        self.tally.count_decided(call, text, decides);
    }

    fn story(&self, call: &Call, before: &Loan) -> String {
        let place = self.tally.place();
        let Loan { buffer, n, words } = before;
        let text = buffer.escape_ascii();
        let words: Vec<String> = words.iter().map(|word| format!("{word:#018x}")).collect();
        let lent = format!("buffer \"{text}\", n {n}, words {}", words.join(" "));
        format!("{place}\n  {:?}\n  {call}\n  {lent}", self.grammar)
    }
}

/// What the paper says of a call, and does with the loan; nothing for one that is free.
fn expected(grammar: &Grammar, loan: &mut Loan, call: &Call) -> Option<Result<Answer, Number>> {
    if let Some(number) = loan.question_failed(grammar, call) {
        return Some(Err(number));
    }
    Some(match call {
        Call::Edit {
            start,
            end,
            replacement,
        } => Ok(Answer::Edited(loan.edit(
            grammar,
            *start,
            *end,
            replacement,
        ))),
        Call::Read => lent_reading::read(grammar, loan)?.map(Answer::Reading),
        Call::LookUp { rule, position } => {
            Ok(Answer::Word(loan.look_up(grammar, *rule, *position)))
        }
        Call::List { slots } => lent_listing::list(grammar, loan, *slots)?.map(Answer::Listing),
    })
}
