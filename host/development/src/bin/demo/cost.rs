//! What a key costs beside a first reading, in pairs and in time.

use crate::compared::Compared;
use crate::first::{expected, FirstReading};
use crate::typing::Step;
use bannelgo::{Grammar, Refusal};
use std::time::Duration;

/// So many first readings are timed.
const FIRST_READINGS: usize = 34;

/// Of the keys typed into a sheet, and of first readings of the text that they left.
pub struct Cost {
    /// The length of that text.
    pub bytes: usize,
    /// The pairs evaluated for a key, on average, and for a first reading.
    pub key_pairs: usize,
    pub first_pairs: usize,
    /// The times of both in microseconds, by [`fast_micros`].
    pub key_micros: usize,
    pub first_micros: usize,
}

impl Cost {
    pub fn of(grammar: &Grammar, steps: &[Step], compared: &mut Compared) -> Result<Cost, Refusal> {
        let text = steps.last().map_or(&[][..], |step| &step.text);
        let firsts = (0..FIRST_READINGS).map(|_| FirstReading::of(grammar, text));
        let firsts: Vec<FirstReading> = firsts.collect::<Result<_, _>>()?;
        let expected = expected(grammar, text);
        for first in &firsts {
            compared.compare("a timed first reading", &first.answer(), &expected);
        }
        Ok(Cost {
            bytes: text.len(),
            key_pairs: average(steps.iter().map(|step| step.read.evaluations)),
            first_pairs: average(firsts.iter().map(|first| first.read.evaluations)),
            key_micros: fast_micros(steps.iter().map(|step| step.time)),
            first_micros: fast_micros(firsts.iter().map(|first| first.time)),
        })
    }
}

/// The nearest whole number to the average; 0 where there are no numbers.
pub fn average(numbers: impl ExactSizeIterator<Item = usize>) -> usize {
    let count = numbers.len().max(1);
    (numbers.sum::<usize>() + count / 2) / count
}

/// The time that a tenth of the times are below, in whole microseconds; 0 where there are no times.
///
/// On a busy machine a median of longer calls tells how often they were interrupted.
fn fast_micros(times: impl Iterator<Item = Duration>) -> usize {
    let mut times: Vec<Duration> = times.collect();
    times.sort_unstable();
    let fast = times.get(times.len() / 10).copied().unwrap_or_default();
    (fast.as_nanos() as usize + 500) / 1_000
}

#[cfg(test)]
mod tests {
    use super::{average, fast_micros};
    use std::time::Duration;

    #[test]
    fn an_average_is_the_nearest_whole_number() {
        assert_eq!(average([1, 2].into_iter()), 2);
        assert_eq!(average([1, 1, 2].into_iter()), 1);
        assert_eq!(average([].into_iter()), 0);
    }

    #[test]
    fn a_tenth_of_the_times_are_below() {
        assert_eq!(fast_micros((1..=20).rev().map(Duration::from_micros)), 3);
        assert_eq!(fast_micros([Duration::from_nanos(1_500)].into_iter()), 2);
        assert_eq!(fast_micros([].into_iter()), 0);
    }
}
