//! A sheet read whole by ours and by other readers in one run: LPeg and peg, where they are installed.
//!
//! Their grammars are in host/peers, rule for rule the one of lines in one star. Before they are timed, each rule must match the same
//! length as ours at each position of a small text.

mod figures;
mod lpeg;
mod ours;
mod peer;
mod peg;

use bannelgo_development::gap_text::long_sheet_of_days;
use figures::{Table, BATCHES, READINGS, ROUNDS};
use peer::{kept, Lack, Lengths, Peer};
use std::path::PathBuf;
use std::process::ExitCode;

const SIZES: [usize; 2] = [6_000, 60_000];

/// Status 1 where a peer matches another length than ours, or can't be built or run though it is installed.
pub fn print() -> ExitCode {
    let mut failed = false;
    let mut peers = vec![];
    for lookup in [lpeg::find, peg::find] {
        match lookup().and_then(rule_for_rule) {
            Ok(peer) => peers.push(peer),
            Err(Lack::NotInstalled(line)) => println!("left out: {line}"),
            Err(Lack::Failed(trouble)) => {
                eprintln!("{trouble}");
                failed = true;
            }
        }
    }
    if let Err(trouble) = print_sheets(&peers) {
        eprintln!("{trouble}");
        failed = true;
    }
    ExitCode::from(u8::from(failed))
}

/// The peer again where each of its rules matches what ours does.
fn rule_for_rule(peer: Peer) -> Result<Peer, Lack> {
    let text = ours::small_text();
    let theirs = kept("small.txt", &text).and_then(|file| peer.lengths(&file));
    match difference(&theirs.map_err(Lack::Failed)?, &ours::lengths(&text)) {
        None => Ok(peer),
        Some(difference) => Err(Lack::Failed(format!("{}: {difference}", peer.name))),
    }
}

/// The first rule and position where the lengths differ, in words.
fn difference(theirs: &[(String, Lengths)], ours: &[Lengths]) -> Option<String> {
    if theirs.len() != ours.len() {
        return Some(format!("{} rules, ours {}", theirs.len(), ours.len()));
    }
    let pairs = theirs.iter().zip(ours);
    let mut differing = pairs.filter(|((_, theirs), ours)| theirs != *ours);
    let ((rule, theirs), ours) = differing.next()?;
    let at = (0..).find(|&at| theirs.get(at) != ours.get(at))?;
    let length = |lengths: &Lengths| match lengths.get(at) {
        Some(Some(length)) => format!("{length} bytes"),
        Some(None) => "nothing".to_string(),
        None => "no length".to_string(),
    };
    let (theirs, ours) = (length(theirs), length(ours));
    Some(format!(
        "rule {rule} matches {theirs} at position {at}, ours {ours}"
    ))
}

/// Each round goes through both sizes, so that other work on the machine slows a part of the rounds and not one size alone.
fn print_sheets(peers: &[Peer]) -> Result<(), String> {
    let sheets: Result<Vec<Sheet>, String> = SIZES.into_iter().map(Sheet::new).collect();
    let mut sheets = sheets?;
    for _ in 0..ROUNDS {
        for sheet in &mut sheets {
            sheet.take_round(peers)?;
        }
    }
    println!(
        "A sheet read whole, lines in one star, {ROUNDS} rounds of {BATCHES} batches of {READINGS} readings, processor time in microseconds"
    );
    println!("(lowest: of all batches; median: the lowest of the rounds' medians)");
    for sheet in sheets {
        sheet.table.print(sheet.text.len());
    }
    Ok(())
}

/// A text in a file, and the figures of its readers.
struct Sheet {
    text: Vec<u8>,
    file: PathBuf,
    table: Table,
}

impl Sheet {
    fn new(bytes: usize) -> Result<Sheet, String> {
        let text = long_sheet_of_days(bytes);
        Ok(Sheet {
            file: kept(&format!("sheet-{bytes}.txt"), &text)?,
            text,
            table: Table::default(),
        })
    }

    /// Ours first, then the peers, each of which must match the whole text as ours do.
    fn take_round(&mut self, peers: &[Peer]) -> Result<(), String> {
        for (name, figures) in ours::round(&self.text) {
            self.table.join(name, figures);
        }
        let bytes = self.text.len();
        for peer in peers {
            let (length, figures) = peer.times(&self.file)?;
            if length != Some(bytes) {
                let length = length.unwrap_or(0);
                return Err(format!(
                    "{} matches {length} of {bytes} bytes, ours all",
                    peer.name
                ));
            }
            self.table.join(&peer.name, figures);
        }
        Ok(())
    }
}
