//! Counts lists, calls and answers.

use super::edited::sorts;
use bannelgo::raw::Fields;
use bannelgo_development::calls::Call;
use bannelgo_development::generate::Feature;
use std::io::Write;

/// The kinds of answer: an open, an edit, a look-up, the outcomes of a reading, the refusals, a listing
/// with rows and one without, and a reading and a listing that the paper leaves free. Beside the answers more is
/// counted: readings and listings that fold bits decide, those that characters decide, and sorts of edits.
const COUNTED: [&str; 34] = [
    "open", "edit", "word", "whole", "part", "none", "1", "2", "3", "4", "5", "6", "7", "8", "9",
    "10", "11", "12", "14", "15", "rows", "0 rows", "free", "free l", "fold", "fold l", "char",
    "char l", "case", "inside", "split", "join", "goes on", "unlawful",
];

const ROWS: usize = 20;
const NO_ROWS: usize = 21;
const FREE: usize = 22;
const FREE_LISTING: usize = 23;
const DECIDED: usize = 24;
const SORTS: usize = 28;

/// How many readings that something decides are counted in each family, and how many listings.
const MOST_DECIDED: u64 = 1_000;

/// The counts of one family.
pub struct Tally {
    name: &'static str,
    seed: Option<u64>,
    lists: u64,
    counts: [u64; COUNTED.len()],
}

impl Tally {
    /// A family without draws.
    pub fn listed(name: &'static str) -> Tally {
        Tally {
            name,
            seed: None,
            lists: 0,
            counts: [0; COUNTED.len()],
        }
    }

    /// A family drawn with a seed.
    pub fn drawn(name: &'static str, seed: u64) -> Tally {
        Tally {
            seed: Some(seed),
            ..Tally::listed(name)
        }
    }

    pub fn count_list(&mut self) {
        self.lists += 1;
    }

    pub fn count_open(&mut self, fields: Fields) {
        self.count(if fields.number == 0 {
            0
        } else {
            refused(fields.number)
        });
    }

    pub fn count_call(&mut self, call: &Call, fields: Fields) {
        let place = match (fields.number, call, fields.outcome) {
            (0, Call::Edit { .. }, _) => 1,
            (0, Call::LookUp { .. }, _) => 2,
            (0, Call::Read, outcome) => 5 - outcome as usize,
            (0, Call::List { .. }, 0) => NO_ROWS,
            (0, Call::List { .. }, _) => ROWS,
            (number, ..) => refused(number),
        };
        self.count(place);
    }

    pub fn count_free(&mut self, call: &Call) {
        self.count(match call {
            Call::List { .. } => FREE_LISTING,
            _ => FREE,
        });
    }

    /// Counts a reading or a listing of a text for each feature that decides it, which is asked until enough are
    /// counted.
    pub fn count_decided(&mut self, call: &Call, text: &[u8], decides: impl Fn(Feature) -> bool) {
        let listing = match call {
            Call::Read => 0,
            Call::List { .. } => 1,
            _ => return,
        };
        for (number, feature) in Feature::ALL.into_iter().enumerate() {
            let place = DECIDED + 2 * number + listing;
            let asked = self.counts[place] < MOST_DECIDED && feature.matters_in(text);
            if asked && decides(feature) {
                self.count(place);
            }
        }
    }

    /// Counts an accepted edit as each sort that it is.
    pub fn count_edit(&mut self, call: &Call, before: &[u8], after: &[u8]) {
        for (place, is_one) in (SORTS..).zip(sorts(call, before, after)) {
            self.counts[place] += u64::from(is_one);
        }
    }

    fn count(&mut self, place: usize) {
        self.counts[place] += 1;
    }

    /// The family, the seed and the list that is at work, for a message.
    pub fn place(&self) -> String {
        let seed = self.seed();
        format!("{}, seed {seed}, list {}", self.name, self.lists)
    }

    fn seed(&self) -> String {
        self.seed.map_or("-".to_string(), |seed| seed.to_string())
    }
}

fn refused(number: u64) -> usize {
    match number {
        14 | 15 => number as usize + 4,
        _ => number as usize + 5,
    }
}

/// Prints a table of the families, then fails if there are few lists, or an answer comes up less often
/// than it is said to.
pub fn settle(tallies: &[Tally], fewest_lists: u64, fewest: &[(&str, u64)]) {
    let mut total = Tally::listed("total");
    for tally in tallies {
        for (sum, count) in total.counts.iter_mut().zip(tally.counts) {
            *sum += count;
        }
        total.lists += tally.lists;
    }
    print_table(tallies, &total);
    assert!(total.lists >= fewest_lists, "only {} lists", total.lists);
    for (name, least) in fewest {
        let place = COUNTED.iter().position(|answer| answer == name);
        let count = total.counts[place.expect("the name of an answer")];
        assert!(count >= *least, "{name} came up only {count} times");
    }
}

/// Writes to the standard output itself, which the test harness shows also for a passed test.
fn print_table(tallies: &[Tally], total: &Tally) {
    let mut text = format!("\n{:<28}{:>5}{:>8}", "family", "seed", "lists");
    for name in COUNTED {
        text += &format!("{name:>9}");
    }
    for tally in tallies.iter().chain([total]) {
        let (seed, lists) = (tally.seed(), tally.lists);
        text += &format!("\n{:<28}{seed:>5}{lists:>8}", tally.name);
        for count in tally.counts {
            text += &format!("{count:>9}");
        }
    }
    writeln!(std::io::stdout(), "{text}").expect("the standard output can be written");
}
