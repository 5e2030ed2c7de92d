//! Compares the two readings pair by pair and counts the answers.

use super::subject::Subject;
use bannelgo::{plain_reading, Outcome, Reading};
use bannelgo_development::calls::number_of;
use bannelgo_development::generate::Feature;
use bannelgo_development::reference::forms::Forms;
use std::io::Write;

/// A pair on which a reading without records makes more evaluations than this is skipped.
const MOST_WORK: u64 = 20_000;

/// The kinds of answer, the least number of times that each has to come up, and their names.
const ANSWERS: [(u64, &str); 12] = [
    (1_000, "whole"),
    (1_000, "part"),
    (1_000, "none"),
    (1_000, "1"),
    (1_000, "2"),
    (1_000, "3"),
    (1_000, "4"),
    (1_000, "5"),
    (1_000, "6"),
    (1_000, "7"),
    (100, "8"),
    (100, "14"),
];

/// Readings that fold bits decide and that characters decide; then readings in which a match of any has one of
/// the forms. How often each has to come up, and its name.
const MORE: [(u64, &str); 9] = [
    (5_000, "fold"),
    (5_000, "char"),
    (5_000, Forms::NAMES[0]),
    (5_000, Forms::NAMES[1]),
    (4_000, Forms::NAMES[2]),
    (5_000, Forms::NAMES[3]),
    (5_000, Forms::NAMES[4]),
    (5_000, Forms::NAMES[5]),
    (3_500, Forms::NAMES[6]),
];

/// How many of these are counted in each family.
const MOST_OF_MORE: u64 = 1_000;

/// The place of an answer in `ANSWERS`.
fn place(answer: Result<Reading, u64>) -> usize {
    match answer {
        Ok(reading) => match reading.outcome {
            Outcome::Whole => 0,
            Outcome::Part => 1,
            Outcome::Nothing => 2,
        },
        Err(14) => 11,
        Err(number) => number as usize + 2,
    }
}

/// The counts of one family of pairs.
pub struct Tally {
    name: &'static str,
    seed: Option<u64>,
    most_work: u64,
    skipped: u64,
    counts: [u64; ANSWERS.len()],
    more: [u64; MORE.len()],
}

impl Tally {
    /// A family without draws.
    pub fn listed(name: &'static str) -> Tally {
        Tally {
            name,
            seed: None,
            most_work: MOST_WORK,
            skipped: 0,
            counts: [0; ANSWERS.len()],
            more: [0; MORE.len()],
        }
    }

    /// A family drawn with a seed.
    pub fn drawn(name: &'static str, seed: u64) -> Tally {
        Tally {
            seed: Some(seed),
            ..Tally::listed(name)
        }
    }

    /// The same family with another bound on the work of a pair.
    pub fn up_to(self, most_work: u64) -> Tally {
        Tally { most_work, ..self }
    }

    fn pairs(&self) -> u64 {
        self.counts.iter().sum()
    }

    /// Reads a text in both ways and counts the reference's answer, or skips it.
    ///
    /// Stops at the first mismatch, because a reader that is wrong may also take too long.
    pub fn compare(&mut self, subject: &Subject, text: &[u8]) {
        let Some(reference) = subject.read(text, self.most_work) else {
            self.skipped += 1;
            return;
        };
        self.counts[place(reference)] += 1;
        self.count_more(subject, text, reference);
        let ours = plain_reading(&subject.image, text).map_err(|refusal| number_of(&refusal));
        if ours != reference {
            let (name, seed, pair) = (self.name, self.seed(), self.pairs());
            let shown = mismatch(&subject.image, text, ours, reference);
            panic!("{name}, seed {seed}, pair {pair}\n{shown}");
        }
    }

    fn count_more(&mut self, subject: &Subject, text: &[u8], answer: Answer) {
        let most_work = self.most_work;
        let decides = |feature| subject.decides(feature, text, most_work, answer);
        let (decided, forms) = self.more.split_at_mut(Feature::ALL.len());
        for (count, feature) in decided.iter_mut().zip(Feature::ALL) {
            let asked = *count < MOST_OF_MORE && feature.matters_in(text);
            if asked && decides(feature) {
                *count += 1;
            }
        }
        if Feature::Characters.matters_in(text) {
            let seen = subject.forms(text, most_work);
            for (place, count) in forms.iter_mut().enumerate() {
                let more = seen.has(place) && *count < MOST_OF_MORE;
                *count += u64::from(more);
            }
        }
    }

    fn seed(&self) -> String {
        self.seed.map_or("-".to_string(), |seed| seed.to_string())
    }
}

type Answer = Result<Reading, u64>;

fn mismatch(image: &[u8], text: &[u8], ours: Answer, reference: Answer) -> String {
    [
        format!("  ours       {}", in_words(ours)),
        format!("  reference  {}", in_words(reference)),
        format!("  image      {} bytes: {}", image.len(), hex(image)),
        format!("  text       {} bytes: {}", text.len(), hex_runs(text)),
    ]
    .join("\n")
}

fn in_words(answer: Answer) -> String {
    match answer {
        Ok(reading) => reading.to_string(),
        Err(number) => format!("refused with {number}"),
    }
}

fn hex(bytes: &[u8]) -> String {
    let bytes = bytes.iter().map(|byte| format!("{byte:02x}"));
    bytes.collect::<Vec<_>>().join(" ")
}

/// Like `hex`, but more than 8 equal bytes are written once, with their number.
fn hex_runs(bytes: &[u8]) -> String {
    let runs = bytes.chunk_by(|one, next| one == next);
    let runs = runs.map(|run| match run.len() {
        0..=8 => hex(run),
        count => format!("{:02x}*{count}", run[0]),
    });
    runs.collect::<Vec<_>>().join(" ")
}

/// Prints a table of the families, then fails if there are few pairs or a kind of answer is rare.
pub fn settle(tallies: &[Tally]) {
    let mut total = Tally::listed("total");
    for tally in tallies {
        let counts = total.counts.iter_mut().zip(tally.counts);
        let more = total.more.iter_mut().zip(tally.more);
        for (sum, count) in counts.chain(more) {
            *sum += count;
        }
        total.skipped += tally.skipped;
    }
    print_table(tallies, &total);
    let pairs = total.pairs();
    assert!(pairs >= 1_000_000, "only {pairs} pairs");
    let answers = ANSWERS.iter().zip(total.counts);
    let more = MORE.iter().zip(total.more);
    for ((least, name), count) in answers.chain(more) {
        assert!(count >= *least, "{name} came up only {count} times");
    }
}

/// Writes to the standard output itself, which the test harness shows also for a passed test.
fn print_table(tallies: &[Tally], total: &Tally) {
    let mut text = format!(
        "\n{:<32}{:>5}{:>9}{:>8}",
        "family", "seed", "pairs", "skipped"
    );
    for (_, name) in ANSWERS.iter().chain(&MORE) {
        text += &format!("{name:>8}");
    }
    for tally in tallies.iter().chain([total]) {
        let (seed, pairs, skipped) = (tally.seed(), tally.pairs(), tally.skipped);
        text += &format!("\n{:<32}{seed:>5}{pairs:>9}{skipped:>8}", tally.name);
        for count in tally.counts.iter().chain(&tally.more) {
            text += &format!("{count:>8}");
        }
    }
    writeln!(std::io::stdout(), "{text}").expect("the standard output can be written");
}
