//! What the program must print: the answers of the checker and the ledger written apart.

use crate::line::Line;
use bannelgo::Outcome;
use bannelgo::{Edited, Listing, SheetReading};
use bannelgo_development::calls::{Answer, Call};
use bannelgo_development::expr::Grammar;
use bannelgo_development::reference::ledger::Ledger;
use bannelgo_development::reference::lent::lent_wholly;
use bannelgo_development::reference::rows::word;
use bannelgo_development::reference::{accepted_grammar, Number};

/// What the images of the lists are: a grammar, or the number of a question from 1 to 7.
type Checked = Result<Grammar, Number>;

pub fn output(lines: &[Line]) -> String {
    let images: Vec<(&[u8], Checked)> = lines.iter().filter_map(image).collect();
    let mut replay = Replay {
        image: None,
        cap: 0,
        words: 0,
        sheet: None,
    };
    let mut later = images.iter();
    let mut output = String::new();
    for (number, line) in (1..).zip(lines) {
        if let Line::Image(_) = line {
            replay.image = later.next();
        }
        output += &replay.printed(number, line);
    }
    output
}

fn image(line: &Line) -> Option<(&[u8], Checked)> {
    match line {
        Line::Image(image) => Some((image, accepted_grammar(image))),
        _ => None,
    }
}

struct Replay<'g> {
    /// None before the first image, when an image of no bytes is lent.
    image: Option<&'g (&'g [u8], Checked)>,
    cap: usize,
    words: usize,
    sheet: Option<Sheet<'g>>,
}

/// An opened sheet, and what it was opened with.
struct Sheet<'g> {
    ledger: Ledger<'g>,
    image: &'g [u8],
    cap: usize,
}

impl<'g> Replay<'g> {
    /// What the program prints for a line; nothing for some.
    fn printed(&mut self, number: usize, line: &Line) -> String {
        match line {
            Line::Comment(words) => format!("# {words}\n"),
            Line::Image(_) => String::new(),
            Line::Lend { cap, words } => {
                (self.cap, self.words) = (*cap, *words);
                String::new()
            }
            Line::Open(text) => {
                let answer = self.open(text).map(|length| format!("length {length}"));
                answered(number, "open", answer)
            }
            Line::Call(call) => {
                let answer = self.call(call).map(in_words);
                answered(number, name(call), answer)
            }
            Line::Bad(_, message) => format!("{number}: {message}\n"),
        }
    }

    /// The questions 1 to 8 for a text of `n` bytes.
    fn asked(&self, n: usize) -> Result<(&'g [u8], &'g Grammar), Number> {
        // "Are there 4 bytes?"
        let (image, checked) = self.image.ok_or(1u64)?;
        let grammar = checked.as_ref().map_err(|number| *number)?;
        if !lent_wholly(grammar.rules.len(), self.cap, n, self.words) {
            return Err(8);
        }
        Ok((image, grammar))
    }

    fn open(&mut self, text: &[u8]) -> Result<usize, Number> {
        let (image, grammar) = self.asked(text.len())?;
        self.sheet = Some(Sheet {
            ledger: Ledger::open(grammar, self.cap, text),
            image,
            cap: self.cap,
        });
        Ok(text.len())
    }

    fn call(&mut self, call: &Call) -> Result<Answer, Number> {
        let n = self
            .sheet
            .as_ref()
            .map_or(0, |sheet| sheet.ledger.text().len());
        let (image, grammar) = self.asked(n)?;
        let cap = self.cap;
        // Zeros are what an opening of no text leaves.
        let sheet = self.sheet.get_or_insert_with(|| Sheet {
            ledger: Ledger::open(grammar, cap, b""),
            image,
            cap,
        });
        assert_eq!((sheet.image, sheet.cap), (image, cap), "the ledger's sheet");
        sheet.ledger.call(call)
    }
}

fn answered(number: usize, name: &str, answer: Result<String, Number>) -> String {
    match answer {
        Ok(words) => format!("{number} {name}: {words}\n"),
        Err(refusal) => format!("{number} {name}: refused {refusal}\n"),
    }
}

fn name(call: &Call) -> &'static str {
    match call {
        Call::Edit { .. } => "edit",
        Call::Read => "read",
        Call::LookUp { .. } => "look",
        Call::List { .. } => "list",
    }
}

fn in_words(answer: Answer) -> String {
    match answer {
        Answer::Edited(Edited { length, standing }) => {
            format!("length {length}, standing {standing}")
        }
        Answer::Reading(read) => reading_in_words(read),
        Answer::Word(word) => format!("word {word:016x}"),
        Answer::Listing(Listing { read, rows }) => {
            let words = rows.iter().map(|row| format!(" {:016x}", word(row)));
            let words: String = words.collect();
            format!("{}, rows {}{words}", reading_in_words(read), rows.len())
        }
    }
}

fn reading_in_words(read: SheetReading) -> String {
    let SheetReading {
        reading,
        evaluations,
    } = read;
    let outcome = match reading.outcome {
        Outcome::Whole => "whole",
        Outcome::Part => "part",
        Outcome::Nothing => "none",
    };
    let (length, examined, nesting) = (reading.length, reading.examined, reading.nesting);
    format!("{outcome}, length {length}, examined {examined}, nesting {nesting}, evaluations {evaluations}")
}
