//! What Bannelgo does, for somebody who sees it for the first time: a sheet, its rows, keys that are
//! typed into it, refusals and the paper's marked images.
//!
//! Every answer is compared with that of a ledger or a checker written apart. The exit status is 1
//! where one of them differs.

mod accents;
mod cases;
mod compared;
mod cost;
mod first;
mod images;
mod keys;
mod layout;
mod planner;
mod refusals;
mod rows;
mod stopped;
mod summary;
mod typing;

use compared::Compared;
use std::error::Error;
use std::io::{stdout, Write};
use std::process::ExitCode;

/// A part writes what it shows, or could not go on.
type Shown = Result<(), Box<dyn Error>>;

fn main() -> ExitCode {
    let mut compared = Compared::default();
    match show(&mut stdout().lock(), &mut compared) {
        Ok(()) if compared.wrong == 0 => ExitCode::SUCCESS,
        Ok(()) => ExitCode::FAILURE,
        Err(error) => {
            eprintln!("the demonstration stopped: {error}");
            ExitCode::FAILURE
        }
    }
}

fn show(out: &mut impl Write, compared: &mut Compared) -> Shown {
    writeln!(
        out,
        "Bannelgo reads a text by a grammar. What a rule gave at a position is kept as a\n\
         record. A key drops the records that it can have changed, and the next reading\n\
         evaluates only what has no record. The functions that do this are proved.\n\
         docs/WORDS.md explains the words, a ledger among them."
    )?;
    planner::show(out, compared)?;
    let tree = rows::tree(compared)?;
    rows::show(out, &tree)?;
    let line = keys::typed_line(compared)?;
    keys::show(out, &line)?;
    stopped::show(out, &line)?;
    cases::show(out, compared)?;
    accents::show(out, &tree, compared)?;
    summary::show(out, compared)?;
    refusals::show(out, compared)?;
    images::show(out, compared)?;
    compared.show(out)?;
    summary::show_in_words(out, &line)
}
