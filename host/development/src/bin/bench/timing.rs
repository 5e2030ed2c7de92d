//! Times of two calls, whose batches take turns, and what is printed of many times.

use std::hint::black_box;
use std::time::{Duration, Instant};

/// The number of timed batches; the median of them is printed.
pub const BATCHES: usize = 201;

/// A batch repeats the call until it takes about this long.
const BATCH_TIME: Duration = Duration::from_micros(500);

/// The medians of the times of both calls, whose batches take turns, in nanoseconds.
pub fn medians(ours: &dyn Fn() -> u64, rust: &dyn Fn() -> u64) -> (f64, f64) {
    let (ours_repeats, rust_repeats) = (repeats(ours), repeats(rust));
    let (mut ours_times, mut rust_times) = (vec![], vec![]);
    for _ in 0..BATCHES {
        ours_times.push(time_per_call(ours, ours_repeats));
        rust_times.push(time_per_call(rust, rust_repeats));
    }
    (median(&ours_times), median(&rust_times))
}

/// How many calls fill a batch.
fn repeats(call: &dyn Fn() -> u64) -> u32 {
    let mut repeats = 1;
    while time_of(call, repeats) < BATCH_TIME && repeats < 1 << 20 {
        repeats *= 2;
    }
    repeats
}

fn time_of(call: &dyn Fn() -> u64, repeats: u32) -> Duration {
    let begin = Instant::now();
    for _ in 0..repeats {
        black_box(call());
    }
    begin.elapsed()
}

fn time_per_call(call: &dyn Fn() -> u64, repeats: u32) -> f64 {
    time_of(call, repeats).as_nanos() as f64 / f64::from(repeats)
}

pub fn median(times: &[f64]) -> f64 {
    at_share(times, 0.5)
}

/// The time below which a tenth of the times are.
pub fn low(times: &[f64]) -> f64 {
    at_share(times, 0.1)
}

fn at_share(times: &[f64], share: f64) -> f64 {
    let mut times = times.to_vec();
    times.sort_by(f64::total_cmp);
    times[(times.len() as f64 * share) as usize]
}

pub fn micros(time: Duration) -> f64 {
    time.as_nanos() as f64 / 1_000.0
}
