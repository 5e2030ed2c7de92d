//! How headings, lines of a text and numbers are written.

use bannelgo_development::figures;
use std::io::{self, Write};

const WIDTH: usize = 80;

pub fn heading(out: &mut impl Write, name: &str) -> io::Result<()> {
    let before = format!("-- {name} ");
    writeln!(out, "\n{before:-<WIDTH$}\n")
}

/// A line of a text behind its number.
pub fn numbered(number: usize, line: &str) -> String {
    let line = format!("{number:>4}  {line}");
    line.trim_end().to_string()
}

/// A mark that stands under a column of a numbered line.
pub fn mark_under(column: usize) -> String {
    format!("      {:>column$}", "^")
}

/// A number with a comma before every three digits.
pub fn grouped(number: usize) -> String {
    figures::grouped(number as u64)
}

#[cfg(test)]
mod tests {
    use super::{mark_under, numbered};

    #[test]
    fn a_mark_stands_under_its_column() {
        let line = numbered(6, "abc");
        assert_eq!(line.find('b'), mark_under(2).find('^'));
    }
}
