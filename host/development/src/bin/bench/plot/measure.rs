//! The key times that are plotted.
//!
//! Each round goes through all sizes, and the lowest of the rounds' medians counts, for both readers: other work on the machine
//! slows a part of the rounds, and not one size alone.

use crate::timing::median;
use crate::typing::{Times, TURN};
use bannelgo_development::expr::Grammar;
use bannelgo_development::gap_text::{end_of_line, long_sheet_of_days};

const SIZES: [usize; 8] = [3_000, 6_000, 12_000, 20_000, 30_000, 40_000, 50_000, 60_000];

pub const ROUNDS: usize = 15;

/// Sizes in bytes, and times in microseconds.
pub type Points = Vec<(f64, f64)>;

pub struct Curves {
    pub ours: Points,
    pub packrat: Points,
}

/// The times of both readers at every size, for each grammar.
pub fn measured(grammars: [&Grammar; 2]) -> [Curves; 2] {
    let unmeasured = || SIZES.map(|bytes| (bytes as f64, f64::INFINITY)).to_vec();
    let mut curves = grammars.map(|_| Curves {
        ours: unmeasured(),
        packrat: unmeasured(),
    });
    for _ in 0..ROUNDS {
        for (grammar, curves) in grammars.iter().zip(&mut curves) {
            curves.take_round(grammar);
        }
    }
    curves
}

impl Curves {
    fn take_round(&mut self, grammar: &Grammar) {
        for (index, bytes) in SIZES.into_iter().enumerate() {
            let text = long_sheet_of_days(bytes);
            let times = Times::of(grammar, &text, end_of_line(&text, bytes / 2), TURN);
            lower(&mut self.ours[index].1, median(&times.key));
            lower(&mut self.packrat[index].1, median(&times.packrat));
        }
    }
}

fn lower(lowest: &mut f64, time: f64) {
    *lowest = lowest.min(time);
}

pub fn print(curves: &[(&str, &Curves)]) {
    println!("A key in the middle of the sheet, the lowest of {ROUNDS} medians of {TURN} keys, microseconds");
    print!("{:<22}{:>6}", "sheet", "bytes");
    println!("{:>9}{:>9}{:>13}", "key", "packrat", "key/packrat");
    for (name, curves) in curves {
        for ((bytes, key), (_, packrat)) in curves.ours.iter().zip(&curves.packrat) {
            let ratio = key / packrat;
            println!("{name:<22}{bytes:>6}{key:>9.1}{packrat:>9.1}{ratio:>13.2}");
        }
    }
}
