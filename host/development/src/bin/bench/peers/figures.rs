//! The figures of a reader and their table.

use crate::timing::median;
use std::ffi::c_long;

pub const ROUNDS: usize = 7;
pub const BATCHES: usize = 21;
/// Readings in a batch, whose time is shared among them.
pub const READINGS: usize = 10;

extern "C" {
    /// The C library's clock: the processor time of this process in microseconds. The peers take it too; Lua has no other one.
    fn clock() -> c_long;
}

/// Processor times of a reading in microseconds.
#[derive(Clone, Copy)]
pub struct Figures {
    pub lowest: f64,
    pub median: f64,
}

impl Figures {
    /// One round of a reader.
    pub fn of(mut read: impl FnMut()) -> Figures {
        let mut times = vec![];
        for _ in 0..BATCHES {
            let begin = now();
            for _ in 0..READINGS {
                read();
            }
            times.push((now() - begin) as f64 / READINGS as f64);
        }
        Figures {
            lowest: times.iter().copied().fold(f64::INFINITY, f64::min),
            median: median(&times),
        }
    }
}

fn now() -> c_long {
    // SAFETY: the function has no arguments and may be called at any time.
    unsafe { clock() }
}

/// The lowest figures of each reader, by its name.
#[derive(Default)]
pub struct Table {
    rows: Vec<(String, Figures)>,
}

impl Table {
    pub fn join(&mut self, name: &str, figures: Figures) {
        match self.rows.iter_mut().find(|row| row.0 == name) {
            Some((_, kept)) => {
                kept.lowest = kept.lowest.min(figures.lowest);
                kept.median = kept.median.min(figures.median);
            }
            None => self.rows.push((name.to_string(), figures)),
        }
    }

    /// The ratios are to the first reader.
    pub fn print(&self, bytes: usize) {
        print!(
            "{:<32}{:>7}{:>10}{:>10}",
            "reader", "bytes", "lowest", "median"
        );
        println!("{:>14}{:>14}", "lowest/plain", "median/plain");
        for (name, Figures { lowest, median }) in &self.rows {
            let plain = self.rows[0].1;
            println!(
                "{name:<32}{bytes:>7}{lowest:>10.1}{median:>10.1}{:>14.2}{:>14.2}",
                lowest / plain.lowest,
                median / plain.median
            );
        }
    }
}
