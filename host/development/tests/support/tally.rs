//! Compares the two checkers image by image and counts the numbers.

use super::faults;
use bannelgo::raw::check_image;
use bannelgo_development::expr::Grammar;
use bannelgo_development::numbering::{image_of, Numbering};
use bannelgo_development::reference;
use bannelgo_development::rng::Rng;
use std::io::Write;

/// The counts of one family of images.
pub struct Tally {
    name: &'static str,
    seed: Option<u64>,
    counts: [u64; 8],
    /// The accepted images in which a node has the fold bit.
    folded: u64,
    mismatches: u64,
    first_mismatch: Option<String>,
}

impl Tally {
    /// A family without draws.
    pub fn listed(name: &'static str) -> Tally {
        Tally {
            name,
            seed: None,
            counts: [0; 8],
            folded: 0,
            mismatches: 0,
            first_mismatch: None,
        }
    }

    /// A family drawn with a seed.
    pub fn drawn(name: &'static str, seed: u64) -> Tally {
        Tally {
            seed: Some(seed),
            ..Tally::listed(name)
        }
    }

    /// Asks both checkers about an image, and what the refusal says of it, and returns the reference's
    /// number.
    pub fn compare(&mut self, image: &[u8]) -> u64 {
        let ours = check_image(image);
        let reference = reference::check(image);
        self.counts[reference as usize] += 1;
        self.folded += u64::from(reference == 0 && has_fold(image));
        if ours != reference {
            self.mismatches += 1;
            self.first_mismatch
                .get_or_insert_with(|| mismatch(image, ours, reference));
        }
        if !faults::said_rightly(image, reference) {
            self.mismatches += 1;
            self.first_mismatch
                .get_or_insert_with(|| faults::wrongly_said(image, reference));
        }
        reference
    }

    /// Compares a grammar's image in each order of its nodes, the last one drawn.
    pub fn compare_orders(&mut self, grammar: &Grammar, rng: &mut Rng) {
        for numbering in [
            Numbering::Preorder,
            Numbering::LastRuleFirst,
            Numbering::Interleaved,
            Numbering::Shuffled(rng.draw()),
        ] {
            self.compare(&image_of(grammar, numbering));
        }
    }
}

/// Whether a node of an image that passes question 3 has the fold bit.
fn has_fold(image: &[u8]) -> bool {
    let rules = usize::from(image[0] & 0xF) << 4 | usize::from(image[1] >> 4);
    let mut words = image[4 + 2 * rules..].chunks_exact(4);
    words.any(|word| word[0] & 1 == 1)
}

fn mismatch(image: &[u8], ours: u64, reference: u64) -> String {
    let hex: Vec<String> = image.iter().map(|byte| format!("{byte:02x}")).collect();
    format!(
        "ours {ours}, reference {reference}, {} bytes: {}",
        image.len(),
        hex.join(" ")
    )
}

/// Prints a table of the families, then fails if an answer differs or a number is rare.
pub fn settle(tallies: &[Tally]) {
    let mut total = Tally::listed("total");
    for tally in tallies {
        for (sum, count) in total.counts.iter_mut().zip(tally.counts) {
            *sum += count;
        }
        total.folded += tally.folded;
        total.mismatches += tally.mismatches;
    }
    print_table(tallies, &total);
    let failures: Vec<String> = tallies.iter().filter_map(failure).collect();
    assert!(failures.is_empty(), "{}", failures.join("\n"));
    let images: u64 = total.counts.iter().sum();
    assert!(images >= 200_000, "only {images} images");
    for (number, count) in total.counts.iter().enumerate() {
        assert!(
            *count >= 1_000,
            "number {number} came up only {count} times"
        );
    }
    let folded = total.folded;
    assert!(
        folded >= 10_000,
        "only {folded} accepted images with fold bits"
    );
}

fn failure(tally: &Tally) -> Option<String> {
    let first = tally.first_mismatch.as_ref()?;
    let Tally {
        name, mismatches, ..
    } = tally;
    Some(format!("{name}: {mismatches} differ, the first: {first}"))
}

/// Writes to the standard output itself, which the test harness shows also for a passed test.
fn print_table(tallies: &[Tally], total: &Tally) {
    let mut text = format!("\n{:<32}{:>8}{:>8}", "family", "seed", "images");
    for number in 0..8 {
        text += &format!("{number:>8}");
    }
    text += &format!("{:>8}", "folded");
    for tally in tallies.iter().chain([total]) {
        let seed = tally.seed.map_or("-".to_string(), |seed| seed.to_string());
        let images: u64 = tally.counts.iter().sum();
        text += &format!("\n{:<32}{seed:>8}{images:>8}", tally.name);
        for count in tally.counts {
            text += &format!("{count:>8}");
        }
        text += &format!("{:>8}", tally.folded);
    }
    writeln!(std::io::stdout(), "{text}").expect("the standard output can be written");
}
