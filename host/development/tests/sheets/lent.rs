//! Buffers that are lent to the library call after call.

use super::fence::Fenced;
use bannelgo::raw::{self, Fields};
use bannelgo_development::calls::Call;
use bannelgo_development::reference::lent::Loan;

const POST: u64 = 0xA5A5_A5A5_A5A5_A5A5;

pub struct Lent {
    buffer: Fenced<u8>,
    n: usize,
    words: Fenced<u64>,
    /// The row slots of the last call; none where it was no listing.
    rows: Fenced<u64>,
}

impl Lent {
    pub fn new(loan: &Loan) -> Lent {
        Lent {
            buffer: Fenced::new(&loan.buffer, 0xA5),
            n: loan.n,
            words: Fenced::new(&loan.words, POST),
            rows: Fenced::new(&[], POST),
        }
    }

    /// Lends the buffers to an open.
    pub fn open(&mut self, image: &[u8], text: &[u8]) -> Fields {
        let fields = raw::open(image, text, self.buffer.lent(), self.words.lent());
        if fields.number == 0 {
            self.n = fields.length as usize;
        }
        fields
    }

    /// Lends the buffers to a call, with the length that the last open or edit gave.
    pub fn call(&mut self, image: &[u8], call: &Call) -> Fields {
        let words = self.words.content().len();
        let fields = self.call_with(image, self.n, words, call);
        if matches!(call, Call::Edit { .. }) && fields.number == 0 {
            self.n = fields.length as usize;
        }
        fields
    }

    /// Lends the text buffer, any length of the text and the first so many words; to a listing also
    /// row slots that are full of junk.
    pub fn call_with(&mut self, image: &[u8], n: usize, words: usize, call: &Call) -> Fields {
        self.rows = Fenced::new(&junk(slots_of(call)), POST);
        let words = &mut self.words.lent()[..words];
        let buffer = self.buffer.lent();
        match call {
            Call::Edit {
                start,
                end,
                replacement,
            } => raw::edit(image, buffer, n, words, *start..*end, replacement),
            Call::Read => raw::read(image, buffer, n, words),
            Call::LookUp { rule, position } => {
                raw::look_up(image, buffer, n, words, *rule, *position)
            }
            Call::List { .. } => raw::list(image, buffer, n, words, self.rows.lent()),
        }
    }

    /// Whether the buffers are these, and nothing beside them was written.
    pub fn is(&self, buffer: &[u8], n: usize, table: &[u64], tail: &[u64]) -> bool {
        let words = self.words.content();
        let (own_table, own_tail) = words.split_at(table.len().min(words.len()));
        self.fences_stand()
            && self.n == n
            && self.buffer.content() == buffer
            && own_table == table
            && own_tail == tail
    }

    pub fn fences_stand(&self) -> bool {
        let text_and_table = self.buffer.fence_stands() && self.words.fence_stands();
        text_and_table && self.rows.fence_stands()
    }

    /// The row slots that the last call was lent.
    pub fn rows(&self) -> &[u64] {
        self.rows.content()
    }

    /// No row slots are lent from here on to the next listing.
    pub fn take_rows_back(&mut self) {
        self.rows = Fenced::new(&[], POST);
    }

    /// What they have where these words are written to the first of them, and nothing else is.
    pub fn rows_with(&self, words: &[u64]) -> Vec<u64> {
        let mut rows = junk(self.rows().len());
        rows[..words.len()].copy_from_slice(words);
        rows
    }

    pub fn left(&self) -> Loan {
        Loan {
            buffer: self.buffer.content().to_vec(),
            n: self.n,
            words: self.words.content().to_vec(),
        }
    }
}

/// The number of row slots that a call brings.
fn slots_of(call: &Call) -> usize {
    match call {
        Call::List { slots } => *slots,
        Call::Edit { .. } | Call::Read | Call::LookUp { .. } => 0,
    }
}

/// What row slots have at first. No row has these bits in its zero field.
fn junk(slots: usize) -> Vec<u64> {
    (0..slots as u64).map(|slot| !slot).collect()
}
