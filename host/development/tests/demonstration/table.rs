//! A table of keys as the demonstration prints it.

use super::output::part;
use super::typed::{first_reading, Typed};
use bannelgo_development::gap_sheet::site_sheet;

/// The part ends with a table that has a line for each key, with these words in its last column.
pub fn assert_table(name: &str, keys: &[Typed], last: Vec<String>) {
    let rows = keys.iter().zip(last);
    let expected: Vec<String> = rows
        .map(|(key, last)| format!("{} {last}", fields(key)).trim_end().to_string())
        .collect();
    let lines = part(name).into_iter();
    let table: Vec<&str> = lines
        .skip_while(|line| !line.starts_with("key "))
        .filter(|line| !line.is_empty())
        .collect();
    assert!(table.iter().all(|line| line.chars().count() <= 80));
    let single_spaced = |line: &&str| line.split_whitespace().collect::<Vec<&str>>().join(" ");
    let rows: Vec<String> = table.iter().skip(1).map(single_spaced).collect();
    assert_eq!(rows, expected);
}

/// A row's first fields with a space between them.
fn fields(key: &Typed) -> String {
    let read = key.read;
    let first = first_reading(&site_sheet(), &key.text).evaluations;
    let (bytes, outcome, evaluations) = (key.text.len(), read.reading.outcome, read.evaluations);
    format!("{} {bytes} {outcome} {evaluations} {first}", key.name())
}

/// Line and column where each key's sheet stopped matching; nothing where it is whole.
pub fn stopped_at(keys: &[Typed]) -> Vec<String> {
    let place = |(line, column)| format!("line {line}, column {column}");
    let stopped = keys.iter().map(Typed::stopped);
    stopped.map(|at| at.map_or(String::new(), place)).collect()
}
