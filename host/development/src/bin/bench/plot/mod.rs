//! The plot of key times against the size of the sheet: docs/key-times.svg.

mod axis;
mod chart;
mod measure;
mod svg;

use crate::typing::{grammars, TURN};
use chart::{Chart, Series};
use measure::{measured, print, Points, ROUNDS};

const FILE: &str = concat!(env!("CARGO_MANIFEST_DIR"), "/../../docs/key-times.svg");

/// Prints the times and writes the file.
pub fn make() {
    let [lines, days] = grammars();
    let [of_lines, of_days] = measured([&lines.1, &days.1]);
    print(&[(lines.0, &of_lines), (days.0, &of_days)]);
    let series = |reader, name, class, dashed, points: Points| Series {
        label: format!("{reader}, {name}"),
        class,
        dashed,
        points,
    };
    let whole = "whole-sheet packrat";
    let chart = Chart {
        title: "The time of a key against the size of the sheet",
        subtitle: format!(
            "keys in the middle of the sheet; the lowest of {ROUNDS} medians of {TURN} keys; ours is edit + reading"
        ),
        x_label: "size of the sheet, bytes",
        y_label: "time of a key, microseconds",
        series: vec![
            series(whole, lines.0, "packrat", false, of_lines.packrat),
            series(whole, days.0, "packrat", true, of_days.packrat),
            series("ours", lines.0, "ours", false, of_lines.ours),
            series("ours", days.0, "ours", true, of_days.ours),
        ],
    };
    std::fs::write(FILE, chart.svg()).expect("docs/key-times.svg can be written");
    println!("docs/key-times.svg is written");
}
