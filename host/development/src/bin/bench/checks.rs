//! The image check against the checker written apart.
//!
//! Images and texts lie in memory and are lent unchanged; there are no buffers to be cleared.

use crate::timing::{medians, BATCHES};
use bannelgo::raw::check_image;
use bannelgo_development::big_images::{blocks, relay};
use bannelgo_development::expr::Grammar;
use bannelgo_development::gap_sheet::sheet;
use bannelgo_development::numbering::{image_of, Numbering};
use bannelgo_development::reference;
use std::hint::black_box;

pub fn print() {
    println!("Image check, median of {BATCHES} batches, nanoseconds for each call");
    println!(
        "{:<28}{:>6}{:>6}{:>7}{:>12}{:>12}{:>11}",
        "image", "rules", "nodes", "bytes", "ours", "Rust", "ours/Rust"
    );
    compare_checks("sheet, preorder", &sheet(), Numbering::Preorder);
    compare_checks(
        "relay, last rule first",
        &relay(64),
        Numbering::LastRuleFirst,
    );
    compare_checks("blocks, preorder", &blocks(), Numbering::Preorder);
}

fn compare_checks(name: &str, grammar: &Grammar, numbering: Numbering) {
    let image = image_of(grammar, numbering);
    let ours = || check_image(black_box(&image));
    let rust = || reference::check(black_box(&image));
    assert_eq!((ours(), rust()), (0, 0), "the image is accepted by both");
    let (ours, rust) = medians(&ours, &rust);
    println!(
        "{:<28}{:>6}{:>6}{:>7}{:>12.0}{:>12.0}{:>11.2}",
        name,
        grammar.rules.len(),
        grammar.nodes(),
        image.len(),
        ours,
        rust,
        ours / rust
    );
}
