//! The counts beside those of the file.

use crate::callgrind::Count;
use crate::calls::Counted;
use crate::file::{self, Row};
use bannelgo_development::figures::grouped;
use std::process::ExitCode;

/// A count may be so much above the file's, in hundredths of it.
const ALLOWED: u64 = 1;

/// How a count stands to the file's.
#[derive(Clone, Copy, Debug, PartialEq, Eq)]
enum Verdict {
    Near,
    Above,
    Below,
    /// The file does not have the call.
    New,
}

pub fn with_file(calls: &[Counted]) -> Result<ExitCode, String> {
    let kept = file::rows()?;
    print_head();
    let mut verdicts = vec![];
    for call in calls {
        let row = Row::counted(call)?;
        let before = kept.iter().find(|before| before.name == row.name);
        let verdict = Verdict::of(row.count, before.map(|before| before.count));
        print_row(&row, before, verdict);
        verdicts.push(verdict);
    }
    let uncounted = |row: &&Row| calls.iter().all(|call| call.name != row.name);
    let gone: Vec<&Row> = kept.iter().filter(uncounted).collect();
    for row in &gone {
        println!("{} has {}, which is not counted", file::NAME, row.name);
    }
    print_sums(&verdicts);
    let is_bad = |verdict: &Verdict| matches!(verdict, Verdict::Above | Verdict::New);
    let bad = !gone.is_empty() || verdicts.iter().any(is_bad);
    Ok(ExitCode::from(u8::from(bad)))
}

impl Verdict {
    fn of(count: Count, before: Option<Count>) -> Verdict {
        let Some(before) = before else {
            return Verdict::New;
        };
        let pairs = [
            (count.instructions, before.instructions),
            (count.moved, before.moved),
        ];
        if pairs.iter().any(|&(now, before)| is_above(now, before)) {
            Verdict::Above
        } else if pairs.iter().any(|&(now, before)| is_above(before, now)) {
            Verdict::Below
        } else {
            Verdict::Near
        }
    }

    fn in_words(self) -> &'static str {
        match self {
            Verdict::Near => "",
            Verdict::Above => "  more than 1 % above",
            Verdict::Below => "  more than 1 % below",
            Verdict::New => "  not in the file",
        }
    }
}

/// Is `count` more than the allowed share above `before`?
fn is_above(count: u64, before: u64) -> bool {
    count * 100 > before * (100 + ALLOWED)
}

fn print_head() {
    println!(
        "Instructions of one call and the bytes that memcpy and memset write in it, beside those of {}",
        file::NAME
    );
    print!(
        "{:<61}{:>13}{:>13}{:>7}",
        "call", "instructions", "file", "ratio"
    );
    println!("{:>11}{:>11}{:>7}", "bytes", "file", "ratio");
}

fn print_row(row: &Row, before: Option<&Row>, verdict: Verdict) {
    let name = &row.name;
    let instructions = compared(
        row.count.instructions,
        before.map(|row| row.count.instructions),
        13,
    );
    let moved = compared(row.count.moved, before.map(|row| row.count.moved), 11);
    println!("{name:<61}{instructions}{moved}{}", verdict.in_words());
}

/// A count, the file's and the ratio, in columns of that width.
fn compared(count: u64, before: Option<u64>, width: usize) -> String {
    let file = before.map_or(String::new(), grouped);
    let ratio = match before {
        Some(before) if before > 0 => format!("{:.3}", count as f64 / before as f64),
        _ => String::new(),
    };
    format!("{:>width$}{file:>width$}{ratio:>7}", grouped(count))
}

fn print_sums(verdicts: &[Verdict]) {
    let number = |verdict| verdicts.iter().filter(|&&other| other == verdict).count();
    println!(
        "{} of {} calls take more than 1 % more than {} says",
        number(Verdict::Above),
        verdicts.len(),
        file::NAME
    );
    if number(Verdict::Below) > 0 {
        println!(
            "{} take more than 1 % less: `bin/bench instructions write` keeps that",
            number(Verdict::Below)
        );
    }
    if number(Verdict::New) > 0 {
        println!("{} are not in it", number(Verdict::New));
    }
}

#[test]
fn more_than_a_hundredth_is_above() {
    let count = |instructions, moved| Count {
        instructions,
        moved,
    };
    let before = Some(count(10_000, 0));
    assert_eq!(Verdict::of(count(10_100, 0), before), Verdict::Near);
    assert_eq!(Verdict::of(count(10_101, 0), before), Verdict::Above);
    assert_eq!(Verdict::of(count(9_000, 1), before), Verdict::Above);
    assert_eq!(Verdict::of(count(9_000, 0), before), Verdict::Below);
    assert_eq!(Verdict::of(count(10_000, 0), None), Verdict::New);
}
