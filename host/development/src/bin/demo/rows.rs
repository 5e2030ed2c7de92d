//! The rows of the planner's sheet as a tree: the calls that made the match.

use crate::compared::Compared;
use crate::layout::heading;
use crate::Shown;
use bannelgo::{Listing, Refusal, Sheet, Tree, MOST_ROWS};
use bannelgo_development::calls::{Answer, Call};
use bannelgo_development::gap_sheet::{named_site_sheet, tree_of};
use bannelgo_development::gap_text::SITE_SHEET;
use bannelgo_development::reference::ledger::Ledger;
use std::io::Write;

/// Rows of a greater depth are counted and not printed.
const DEEPEST: usize = 2;

/// The entry that is shown with the calls inside it.
const SHOWN_ENTRY: &str = "red;";

pub fn tree(compared: &mut Compared) -> Result<Tree, Refusal> {
    let grammar = named_site_sheet();
    let text = SITE_SHEET.as_bytes();
    let tree = Sheet::open(&grammar, text, text.len())?.tree()?;
    let written_apart = tree_of(&grammar);
    let mut ledger = Ledger::open(&written_apart, text.len(), text);
    let expected = ledger.call(&Call::List { slots: MOST_ROWS });
    compared.compare("the rows of the sheet", &listed(&tree), &expected);
    Ok(tree)
}

pub fn show(out: &mut impl Write, tree: &Tree) -> Shown {
    heading(out, "The rows")?;
    writeln!(
        out,
        "The calls that made the match, with rule, bytes and text, each below the call\n\
         that it was made in. Down to depth {DEEPEST}:\n"
    )?;
    write!(out, "{}", tree.down_to(DEEPEST))?;
    let mut calls = tree.calls();
    let shown = calls
        .find(|call| call.name() == "Entry" && call.text().starts_with(SHOWN_ENTRY.as_bytes()));
    writeln!(out, "\nOne entry with the calls made in it:\n")?;
    show_with_children(out, shown.expect("the sheet has this entry"))
}

/// A call, and the calls made in it.
pub fn show_with_children(out: &mut impl Write, call: bannelgo::Call<'_>) -> Shown {
    writeln!(out, "{call}")?;
    for child in call.children() {
        writeln!(out, "  {child}")?;
    }
    Ok(())
}

/// The tree as the listing that it was made from.
fn listed(tree: &Tree) -> Result<Answer, u64> {
    Ok(Answer::Listing(Listing {
        read: tree.reading(),
        rows: tree.calls().map(|call| call.row()).collect(),
    }))
}
