//! A list of calls from an opening, made by the library and by the ledger.
//!
//! After every call the answers are the same, the buffer holds the ledger's text and then zeros, the
//! slot of each held pair has its true word, every other table word is 0, and the words after the
//! table are as they were. After an answered listing the row slots have the ledger's rows, and behind
//! them, or after a refused one, what they had.

use super::answers::{fields_of, row_words, some_slots, MOST_SLOTS};
use super::lent::Lent;
use super::tally::Tally;
use bannelgo::raw::Fields;
use bannelgo_development::calls::Call;
use bannelgo_development::expr::Grammar;
use bannelgo_development::generate::{letter, Feature};
use bannelgo_development::numbering::{image_of, Numbering};
use bannelgo_development::reference;
use bannelgo_development::reference::ledger::Ledger;
use bannelgo_development::reference::lent::Loan;
use bannelgo_development::rng::Rng;

pub struct Session<'a> {
    tally: &'a mut Tally,
    grammar: &'a Grammar,
    pub image: Vec<u8>,
    pub cap: usize,
    pub ledger: Ledger<'a>,
    pub lent: Lent,
    /// The words after the table.
    tail: Vec<u64>,
    opened: Vec<u8>,
    calls: Vec<Call>,
}

impl<'a> Session<'a> {
    /// Opens a text in buffers that are full of junk, with up to 3 words after the table.
    pub fn open(
        tally: &'a mut Tally,
        rng: &mut Rng,
        grammar: &'a Grammar,
        cap: usize,
        text: &[u8],
    ) -> Session<'a> {
        let table = grammar.rules.len() * (cap + 1);
        let junk = Loan {
            buffer: (0..cap).map(|_| letter(rng)).collect(),
            n: 0,
            words: (0..table + rng.below(4)).map(|_| rng.draw()).collect(),
        };
        let mut session = Session {
            tally,
            grammar,
            image: image_of(grammar, Numbering::any(rng)),
            cap,
            ledger: Ledger::open(grammar, cap, text),
            lent: Lent::new(&junk),
            tail: junk.words[table..].to_vec(),
            opened: text.to_vec(),
            calls: vec![],
        };
        session.tally.count_list();
        let fields = session.lent.open(&session.image, text);
        session.tally.count_open(fields);
        session.compare("open", fields, Fields::of_open(text.len()), &[]);
        session
    }

    /// Makes a call in both ways.
    pub fn call(&mut self, call: Call) -> Fields {
        let before = self.ledger.text().to_vec();
        let fields = self.lent.call(&self.image, &call);
        let answer = self.ledger.call(&call);
        let expected = fields_of(&answer);
        self.tally.count_call(&call, expected);
        let (grammar, text) = (self.grammar, self.ledger.text());
        if expected.number == 0 {
            self.tally.count_edit(&call, &before, text);
        }
        let decides = |feature| decides(feature, grammar, text);
        self.tally.count_decided(&call, text, decides);
        self.calls.push(call);
        self.compare("call", fields, expected, &row_words(&answer));
        fields
    }

    /// Lists with a number of slots that matters: as many as there are rows, one less, more, few.
    pub fn list(&mut self, rng: &mut Rng) {
        let slots = some_slots(rng, self.fitting_slots());
        self.call(Call::List { slots });
    }

    /// The number of the text's rows, or `MOST_SLOTS` where there are more.
    pub fn fitting_slots(&mut self) -> usize {
        let rows = self.ledger.rows(MOST_SLOTS);
        rows.map_or(MOST_SLOTS, |rows| rows.len())
    }

    pub fn edit(&mut self, start: usize, end: usize, replacement: &[u8]) -> Fields {
        self.call(Call::Edit {
            start,
            end,
            replacement: replacement.to_vec(),
        })
    }

    /// A call that is lent something else and is refused; it must change nothing.
    pub fn count_refused(&mut self, what: &str, fields: Fields, number: u64) {
        let expected = Fields::of_number(number);
        self.tally.count_open(expected);
        self.compare(what, fields, expected, &[]);
    }

    fn compare(&mut self, what: &str, fields: Fields, expected: Fields, rows: &[u64]) {
        let (buffer, table) = (self.ledger.buffer(), self.ledger.table());
        let n = self.ledger.text().len();
        if fields != expected {
            let answers = format!("ours {fields:?}\n  ledger {expected:?}");
            panic!("{what}: {answers}\n{}", self.story());
        }
        if !self.lent.is(&buffer, n, &table, &self.tail) {
            let left = self.lent.left();
            let words = first_difference(&left.words, &[&table[..], &self.tail[..]].concat());
            let bytes = first_difference(&left.buffer, &buffer);
            let fences = self.lent.fences_stand();
            let seen = format!("fences stand: {fences}, bytes: {bytes}, words: {words}");
            panic!("{what}: buffers differ; {seen}\n{}", self.story());
        }
        let rows = self.lent.rows_with(rows);
        if self.lent.rows() != rows {
            let seen = first_difference(self.lent.rows(), &rows);
            panic!("{what}: rows differ; {seen}\n{}", self.story());
        }
        self.lent.take_rows_back();
    }

    fn story(&self) -> String {
        let Session { cap, grammar, .. } = self;
        let place = self.tally.place();
        let mut story = format!("{place}\n  {grammar:?}\n  image {:02x?}\n", self.image);
        story += &format!("  cap {cap}, opened \"{}\"\n", shown(&self.opened));
        for call in &self.calls {
            story += &format!("  {call}\n");
        }
        story
    }
}

/// Whether the text's reading would be another one without the feature.
fn decides(feature: Feature, grammar: &Grammar, text: &[u8]) -> bool {
    let read = |grammar: &Grammar| reference::read(grammar, text, u64::MAX);
    let plain = feature.taken_from(grammar);
    plain.is_some_and(|plain| read(&plain) != read(grammar))
}

/// The text, or its length where it is long.
fn shown(text: &[u8]) -> String {
    match text.len() {
        0..=2_000 => text.escape_ascii().to_string(),
        length => format!("{length} bytes"),
    }
}

/// Where two lists differ first, and how.
pub fn first_difference<T: PartialEq + std::fmt::LowerHex>(ours: &[T], other: &[T]) -> String {
    let place = ours.iter().zip(other).position(|(one, two)| one != two);
    match place {
        Some(at) => format!("at {at} ours {:#x}, expected {:#x}", ours[at], other[at]),
        None if ours.len() == other.len() => "the same".to_string(),
        None => format!("{} in the place of {}", ours.len(), other.len()),
    }
}
