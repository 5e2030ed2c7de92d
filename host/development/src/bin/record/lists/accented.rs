//! Names with accents: any takes one character.

use super::*;
use bannelgo_development::dots::one_by_one;
use bannelgo_development::expr::{byte, not, sequence, star, then, Expr};
use Expr::{Any, Call as Rule};

/// Rule 0 = rule 1, rule 1 zero or more times, a line end; rule 1 = any but a line end.
fn letters() -> Grammar {
    let line_end = || byte(b'\n');
    let name = sequence([Rule(1), star(Rule(1)), line_end()]);
    let rules = vec![name, then(not(line_end()), Any)];
    Grammar { start: 0, rules }
}

pub fn name() -> Vec<Line> {
    let mut lines = vec![comment("A name with accents: each letter has one row.")];
    lines.extend(session(&letters(), 10, "Zürich\n".as_bytes()));
    lines.extend([read(), look(1, 1), look(1, 2), list(6), list(7)]);
    lines.extend(split_and_joined());
    lines.extend(other_last_bytes());
    lines.extend(longer_letters());
    lines
}

fn split_and_joined() -> Vec<Line> {
    let mut lines = vec![comment(
        "A key inside the letter, which splits it, and a deletion that joins it.",
    )];
    lines.extend([edit(2, 2, "x"), look(1, 1), read(), look(1, 1), look(1, 3)]);
    lines.extend([list(9), edit(2, 3, ""), look(1, 1), look(1, 2), list(7)]);
    lines
}

fn other_last_bytes() -> Vec<Line> {
    let mut lines = vec![comment(
        "Its last byte is another one, none, a letter, and is there again.",
    )];
    lines.extend([edit(2, 3, b"\xB6"), read()]);
    lines.extend([edit(2, 3, ""), list(7), look(1, 1)]);
    lines.extend([edit(2, 2, "u"), list(8), edit(2, 3, b"\xBC"), list(7)]);
    lines
}

fn longer_letters() -> Vec<Line> {
    let mut lines = vec![comment(
        "Refused edits inside it, and longer letters in its place.",
    )];
    lines.extend([edit(2, 9, "x"), edit(2, 1, ""), edit(2, 2, "xyz"), read()]);
    lines.extend([edit(1, 3, "€"), list(7), look(1, 1)]);
    lines.extend([edit(2, 3, ""), list(8)]);
    lines.extend([edit(1, 3, "𝄞"), list(7)]);
    lines.extend([edit(3, 4, "."), list(10), look(1, 1)]);
    lines
}

pub fn typed_by_bytes() -> Vec<Line> {
    let mut lines = vec![comment(
        "Texts that end inside a character, which is then typed.",
    )];
    lines.extend(session(&one_by_one(), 8, b"Caf\xC3"));
    lines.extend([read(), look(1, 3), look(1, 4), list(5)]);
    lines.extend([edit(4, 4, b"\xA9"), look(1, 3), list(5), look(1, 3), read()]);
    for (at, byte) in (5..).zip("€".bytes()) {
        lines.extend([edit(at, at, [byte]), read(), look(1, 5), list(8)]);
    }
    lines.push(comment("Another one, deleted byte by byte from its end."));
    lines.extend([open("a𝄞".as_bytes()), read(), look(1, 1)]);
    for last in (1..5).rev() {
        lines.extend([edit(last, last + 1, ""), read(), look(1, 1), list(8)]);
    }
    lines
}

pub fn unlawful() -> Vec<Line> {
    let mut lines = vec![comment(
        "A surrogate, longer forms, above the last character, single bytes: each byte has a row.",
    )];
    lines.extend(session(&one_by_one(), 5, b""));
    let texts: [&[u8]; 9] = [
        b"\xED\xA0\x80",
        b"\xC0\x80",
        b"\xE0\x80\x80",
        b"\xF0\x80\x80\x80",
        b"\xF4\x90\x80\x80",
        b"\xF5\x80\x80\x80",
        b"\x80\xBF",
        b"\xFF\xFE",
        b"\xF0\x9D\x84a",
    ];
    for text in texts {
        lines.extend([open(text), list(5), look(1, 0), edit(1, 1, "a"), list(6)]);
    }
    lines
}
