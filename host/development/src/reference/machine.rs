//! An evaluator with a stack of its own, so that no text is too deep for it.
//!
//! It counts in positions of the text. A match has an end, and every evaluation has a reach: one
//! more than the last position at which it asked for a byte, the end of the text included. Consumed
//! bytes have been asked for, so a part's reach is never before the place where the next part
//! begins. That is why the reach minus the own position is the examined length of the paper's rules.
//!
//! What a rule gave at a position is kept, together with the work that an evaluation without
//! records has there. After the start pair's evaluation exactly the reached pairs are kept.

use super::bytes::{between, between_in_either_case};
use super::characters::any_at;
use super::forms::Forms;
use super::pair_map::PairMap;
use crate::expr::{Expr, Grammar};

/// A rule and a position.
pub type Pair = (u8, usize);

/// What an evaluation gave.
#[derive(Clone, Copy, Debug, PartialEq, Eq)]
pub struct Found {
    /// Where the match ends; nothing where the evaluation failed.
    pub end: Option<usize>,
    pub reach: usize,
    pub nesting: usize,
    /// How many evaluations are made where nothing is kept, this one included.
    pub work: u64,
    /// The forms of any's matches in it.
    pub forms: Forms,
}

/// The start pair's evaluation by an accepted grammar; nothing where it has more than `most_work`.
pub fn evaluate_start(grammar: &Grammar, text: &[u8], most_work: u64) -> Option<Found> {
    let kept = &mut PairMap::default();
    Machine::new(grammar, text, kept).run((grammar.start, 0), most_work)
}

/// A pair's evaluation on a text. `kept` has what pairs gave on this text, and gains what is
/// evaluated: the pair itself and the pairs that are called meanwhile.
pub fn evaluate_pair(
    grammar: &Grammar,
    text: &[u8],
    kept: &mut PairMap<Found>,
    pair: Pair,
) -> Found {
    if let Some(found) = kept.get(&pair) {
        return *found;
    }
    let found = Machine::new(grammar, text, kept).run(pair, u64::MAX);
    found.expect("the work is not bounded")
}

struct Machine<'g> {
    rules: &'g [Expr],
    text: &'g [u8],
    kept: &'g mut PairMap<Found>,
    open: Vec<Open<'g>>,
}

/// An evaluation that has begun and not ended.
struct Open<'g> {
    expr: &'g Expr,
    begin: usize,
    /// Where the last part that has begun begins, and whether it is the first one.
    now: usize,
    first: bool,
    /// The largest reach, the largest nesting, all the work and all the forms of the parts that have ended.
    reach: usize,
    nesting: usize,
    work: u64,
    forms: Forms,
}

/// What the machine does next: begin an evaluation at a position, or hand on what one gave.
enum Next<'g> {
    Begin(&'g Expr, usize),
    HandOn(Found),
}

impl<'g> Machine<'g> {
    fn new(grammar: &'g Grammar, text: &'g [u8], kept: &'g mut PairMap<Found>) -> Machine<'g> {
        Machine {
            rules: &grammar.rules,
            text,
            kept,
            open: vec![],
        }
    }

    fn run(mut self, pair: Pair, most_work: u64) -> Option<Found> {
        let mut begun = 0;
        let mut next = Next::Begin(self.body(pair.0), pair.1);
        loop {
            next = match next {
                Next::Begin(..) if begun == most_work => return None,
                Next::Begin(expr, at) => {
                    begun += 1;
                    self.begin(Open::new(expr, at))
                }
                Next::HandOn(part) => match self.open.pop() {
                    Some(open) => self.go_on(open.with(&part), part),
                    None => {
                        self.kept.insert(pair, part);
                        return (part.work <= most_work).then_some(part);
                    }
                },
            }
        }
    }

    fn body(&self, rule: u8) -> &'g Expr {
        &self.rules[usize::from(rule)]
    }

    fn begin(&mut self, open: Open<'g>) -> Next<'g> {
        let at = open.begin;
        match open.expr {
            Expr::Empty => open.ends(Some(at)),
            Expr::Any => self.ask_character(open),
            Expr::Bytes(low, high) => self.ask_byte(open, |byte| between(byte, *low, *high)),
            Expr::Folded(low, high) => {
                self.ask_byte(open, |byte| between_in_either_case(byte, *low, *high))
            }
            Expr::Then(a, _) | Expr::Else(a, _) | Expr::Star(a) | Expr::Not(a) => {
                self.part(open, a, at)
            }
            Expr::Call(rule) => match self.kept.get(&(*rule, at)) {
                Some(kept) => open.with(kept).ends(kept.end),
                None => self.part(open, self.body(*rule), at),
            },
        }
    }

    fn ask_character(&self, mut open: Open<'g>) -> Next<'g> {
        let looked = any_at(self.text, open.begin);
        open.reach = open.begin + looked.examined;
        open.forms = Forms::of(looked, self.text.get(open.begin));
        open.ends(looked.length.map(|length| open.begin + length))
    }

    fn ask_byte(&self, mut open: Open<'g>, fits: impl Fn(u8) -> bool) -> Next<'g> {
        let after = open.begin + 1;
        let byte = self.text.get(open.begin);
        open.reach = after;
        open.ends(byte.is_some_and(|byte| fits(*byte)).then_some(after))
    }

    /// Begins a part of an evaluation, which stays open meanwhile.
    fn part(&mut self, mut open: Open<'g>, expr: &'g Expr, at: usize) -> Next<'g> {
        open.now = at;
        self.open.push(open);
        Next::Begin(expr, at)
    }

    /// Goes on with an evaluation whose part has ended.
    fn go_on(&mut self, mut open: Open<'g>, part: Found) -> Next<'g> {
        let begin = open.begin;
        let first = std::mem::replace(&mut open.first, false);
        match (open.expr, part.end) {
            (Expr::Then(_, b), Some(end)) if first => self.part(open, b, end),
            (Expr::Else(_, b), None) if first => self.part(open, b, begin),
            (Expr::Then(..) | Expr::Else(..), end) => open.ends(end),
            (Expr::Star(a), Some(end)) => self.part(open, a, end),
            (Expr::Star(_), None) => open.ends(Some(open.now)),
            (Expr::Not(_), Some(_)) => open.ends(None),
            (Expr::Not(_), None) => open.ends(Some(begin)),
            (Expr::Call(rule), end) => {
                self.kept.insert((*rule, begin), part);
                open.ends(end)
            }
            (Expr::Empty | Expr::Any | Expr::Bytes(..) | Expr::Folded(..), _) => {
                unreachable!("these kinds have no parts")
            }
        }
    }
}

impl<'g> Open<'g> {
    fn new(expr: &'g Expr, at: usize) -> Open<'g> {
        Open {
            expr,
            begin: at,
            now: at,
            first: true,
            reach: at,
            nesting: 0,
            work: 0,
            forms: Forms::default(),
        }
    }

    fn with(mut self, part: &Found) -> Open<'g> {
        self.reach = self.reach.max(part.reach);
        self.nesting = self.nesting.max(part.nesting);
        self.work = self.work.saturating_add(part.work);
        self.forms = self.forms.with(part.forms);
        self
    }

    fn ends(&self, end: Option<usize>) -> Next<'g> {
        Next::HandOn(Found {
            end,
            reach: self.reach,
            nesting: self.nesting + 1,
            work: self.work.saturating_add(1),
            forms: self.forms,
        })
    }
}
