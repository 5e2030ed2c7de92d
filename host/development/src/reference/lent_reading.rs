//! A reading over any lent words, where the paper settles it.
//!
//! "A reading that is no listing isn't free where Ford's rules, each held pair that is called, and
//! the start pair too, taking what its word says, true or not, give the start pair a nesting of at
//! most 4,096 and meet only possible words and no star round of length 0: it answers that
//! evaluation, evaluations counts the pairs whose body is evaluated in it, and the table gains just
//! those."

use super::bytes::{between, between_in_either_case};
use super::evaluation::{Evaluation, Rounds};
use super::lent::Loan;
use super::machine::Pair;
use super::pair_map::PairMap;
use super::reading::MOST_NESTING;
use super::record::Fields;
use super::Number;
use crate::expr::{Expr, Grammar};
use bannelgo::SheetReading;

/// What a reading answers; nothing where the paper leaves it free. The loan fails no question.
pub fn read(grammar: &Grammar, loan: &mut Loan) -> Option<Result<SheetReading, Number>> {
    let start = (grammar.start, 0);
    let mut reader = Reader {
        rules: &grammar.rules,
        text: &loan.buffer[..loan.n],
        words: &loan.words,
        bodies: PairMap::default(),
    };
    if reader.record(start).is_some_and(|record| record.is_none()) {
        loan.clear_table(grammar);
        return Some(Err(12));
    }
    let found = reader.pair(start, MOST_NESTING)?;
    let bodies = reader.bodies;
    if found.nesting > MOST_NESTING {
        return None;
    }
    let rules = grammar.rules.len();
    let evaluations = bodies.len();
    for ((rule, position), body) in bodies {
        let body = body.expect("each body that was begun has ended");
        loan.words[position * rules + usize::from(rule)] = word_of(body);
    }
    Some(Ok(SheetReading {
        reading: found.reading(loan.n),
        evaluations,
    }))
}

fn word_of(evaluation: Evaluation) -> u64 {
    let Evaluation {
        matched,
        length,
        examined,
        nesting,
    } = evaluation;
    let held = true;
    let zero = 0;
    Fields {
        held,
        matched,
        zero,
        nesting,
        examined,
        length,
    }
    .word()
}

struct Reader<'a> {
    rules: &'a [Expr],
    text: &'a [u8],
    words: &'a [u64],
    /// The pairs whose body has been begun, with the evaluation where it has ended.
    bodies: PairMap<Option<Evaluation>>,
}

impl Reader<'_> {
    /// What the pair's word says: nothing where it isn't held, and nothing inside where it is held
    /// and impossible.
    fn record(&self, (rule, position): Pair) -> Option<Option<Evaluation>> {
        let word = self.words[position * self.rules.len() + usize::from(rule)];
        let fields = Fields::of_word(word);
        let evaluation = Evaluation {
            matched: fields.matched,
            length: fields.length,
            examined: fields.examined,
            nesting: fields.nesting,
        };
        let possible = fields.possible(position, self.text.len());
        fields.held.then_some(possible.then_some(evaluation))
    }

    /// The pair's evaluation; nothing where it has none, or the reading is free by the way.
    fn pair(&mut self, pair: Pair, allowance: usize) -> Option<Evaluation> {
        if let Some(record) = self.record(pair) {
            return record;
        }
        if let Some(body) = self.bodies.get(&pair) {
            return *body;
        }
        self.bodies.insert(pair, None);
        let rules = self.rules;
        let body = self.evaluate(&rules[usize::from(pair.0)], pair.1, allowance)?;
        self.bodies.insert(pair, Some(body));
        Some(body)
    }

    /// Evaluates an expression; nothing where it would go deeper than `allowance`.
    fn evaluate(&mut self, expr: &Expr, at: usize, allowance: usize) -> Option<Evaluation> {
        let inside = allowance.checked_sub(1)?;
        Some(match expr {
            Expr::Empty => Evaluation::EMPTY,
            Expr::Any => Evaluation::of_any(self.text, at),
            Expr::Bytes(low, high) => {
                Evaluation::of_byte(self.text, at, |byte| between(byte, *low, *high))
            }
            Expr::Folded(low, high) => Evaluation::of_byte(self.text, at, |byte| {
                between_in_either_case(byte, *low, *high)
            }),
            Expr::Then(a, b) => match self.evaluate(a, at, inside)? {
                a if a.matched => a.then(self.evaluate(b, at + a.length, inside)?),
                a => a.around(),
            },
            Expr::Else(a, b) => match self.evaluate(a, at, inside)? {
                a if a.matched => a.around(),
                a => a.or_else(self.evaluate(b, at, inside)?),
            },
            Expr::Star(a) => self.star(a, at, inside)?,
            Expr::Not(a) => self.evaluate(a, at, inside)?.not(),
            Expr::Call(rule) => self.pair((*rule, at), inside)?.around(),
        })
    }

    /// Nothing also where a matched round has length 0.
    fn star(&mut self, a: &Expr, at: usize, inside: usize) -> Option<Evaluation> {
        let mut rounds = Rounds::default();
        loop {
            let round = self.evaluate(a, at + rounds.length, inside)?;
            if round.matched && round.length == 0 {
                return None;
            }
            if let Some(star) = rounds.add(round) {
                return Some(star);
            }
        }
    }
}
