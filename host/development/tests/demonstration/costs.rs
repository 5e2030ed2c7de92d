//! What a key costs: the pairs are the ledger's; times are there, and none is checked.

use super::output::{output, part};
use super::typed::{first_reading, typed, Typed};
use bannelgo_development::figures::grouped;
use bannelgo_development::gap_sheet::{sheet_of_days, site_sheet};
use bannelgo_development::gap_text::{long_sheet_of_days, SITE_SHEET};

#[test]
fn the_last_line_is_true() {
    let grammar = site_sheet();
    let keys = typed(&grammar, SITE_SHEET, 0);
    let first = |key: &Typed| first_reading(&grammar, &key.text).evaluations;
    let firsts: Vec<usize> = keys.iter().map(first).collect();
    let (count, each, instead) = (keys.len(), average_of(&keys), average(&firsts));
    let expected = format!(
        "{count} keys: {each} pairs evaluated for each, on average, instead of {instead} for a first reading."
    );
    assert_eq!(output().stdout.lines().last(), Some(expected.as_str()));
}

#[test]
fn the_long_sheet_is_true() {
    let grammar = sheet_of_days();
    let text = String::from_utf8(long_sheet_of_days(60_000)).expect("the sheet is UTF-8");
    let keys = typed(&grammar, &text, 30_000);
    let each = average_of(&keys);
    let last = &keys.last().expect("keys are typed").text;
    let bytes = grouped(last.len() as u64);
    let first = grouped(first_reading(&grammar, last).evaluations as u64);
    let words = part("What a key costs").join(" ");
    let begins = format!(
        "In a sheet of {bytes} bytes, its lines grouped by day, a key evaluates {each} pairs, and a first \
         reading {first}. On this machine the key, which is an edit and a reading, takes "
    );
    let times = words.trim().strip_prefix(&begins).expect(&words);
    let times = times
        .strip_suffix("; the fastest tenth of each took less.")
        .expect(&words);
    let times: Vec<&str> = times
        .split(" microseconds, and the first reading ")
        .collect();
    let is_time = |time: &&str| time.replace(',', "").parse::<u64>().is_ok();
    assert!(times.len() == 2 && times.iter().all(is_time), "{words}");
}

fn average_of(keys: &[Typed]) -> usize {
    let evaluations: Vec<usize> = keys.iter().map(|key| key.read.evaluations).collect();
    average(&evaluations)
}

/// The nearest whole number.
fn average(numbers: &[usize]) -> usize {
    let sum: usize = numbers.iter().sum();
    (sum as f64 / numbers.len() as f64).round() as usize
}
