//! Grammars full of any, and texts of lines in ASCII and in longer characters.

use crate::expr::{byte, not, star, then, Expr, Grammar};
use Expr::{Any, Call};

/// Each grammar of the benchmarks with its name.
pub fn grammars() -> [(&'static str, Grammar); 3] {
    let line_end = || byte(b'\n');
    let line = then(star(then(not(line_end()), Any)), line_end());
    [
        ("any in a star", of(vec![star(Any)])),
        (
            "any but a line end, in lines",
            of(vec![star(Call(1)), line]),
        ),
        ("any in a rule of its own", one_by_one()),
    ]
}

/// Rule 0 = rule 1 zero or more times, rule 1 = any. Each character has a pair of its own.
pub fn one_by_one() -> Grammar {
    of(vec![star(Call(1)), Any])
}

fn of(rules: Vec<Expr>) -> Grammar {
    Grammar { start: 0, rules }
}

/// A line of characters of one byte.
pub const ASCII: &str = "Feeder 12, north side of the street, measured at the meter.\n";

/// Lines in which other characters are too, with the length of those.
pub const LONGER: [(&str, &str); 2] = [
    (
        "2 bytes",
        "Zähler 12, südliche Straßenseite, für Tübingen abgeschätzt.\n",
    ),
    ("3 bytes", "東京 12, 南側の通り, メーターで測定.\n"),
];

/// So many bytes of this line again and again; the last line is filled up.
pub fn lines_of(line: &str, bytes: usize) -> Vec<u8> {
    let mut text = line.repeat(bytes / line.len()).into_bytes();
    text.resize(bytes, b'.');
    text[bytes - 1] = b'\n';
    text
}
