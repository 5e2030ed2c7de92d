//! Reads the table of characters in a file of definitions.
//!
//! A line of it has the range of the first byte and a list of the ranges behind it, for example
//! `begins (0xE0 to 0xE0) ((0xA0 to 0xBF) ∷ tail ∷ [])`, and the file has `tail = 0x80 to 0xBF`.

use std::ops::RangeInclusive;

/// The ranges of the bytes of some characters, the first byte's first.
pub type Line = Vec<RangeInclusive<u8>>;

type Words<'a> = &'a [&'a str];

/// The lines of the table. Each `begins` has one, except in its type and in a pattern.
pub fn lines(text: &str) -> Result<Vec<Line>, String> {
    let text = without_comments(text);
    let words: Vec<&str> = text.split_whitespace().collect();
    let tail = tail(&words).ok_or("there is no range behind tail =")?;
    let places = (0..words.len()).filter(|&place| words[place] == "begins");
    let behind = places.map(|place| &words[place + 1..]);
    let of_table = behind.filter(|words| !is_no_line(words));
    of_table.map(|words| line(words, &tail)).collect()
}

/// Whether the words behind a `begins` are those of its type or of a pattern.
fn is_no_line(words: Words) -> bool {
    matches!(words, [":", "(", "first", ..] | ["first", "later", ..])
}

/// The line whose `begins` the words are behind.
fn line(words: Words, tail: &RangeInclusive<u8>) -> Result<Line, String> {
    let shown = || words[..words.len().min(8)].join(" ");
    let (first, rest) = range(words).ok_or_else(|| format!("no range of bytes: {}", shown()))?;
    let (later, _) = list(rest, tail).ok_or_else(|| format!("no list of ranges: {}", shown()))?;
    Ok([vec![first], later].concat())
}

/// The text without what is behind two hyphens, and with spaces around brackets and signs.
fn without_comments(text: &str) -> String {
    let code = text
        .lines()
        .map(|line| line.split("--").next().unwrap_or(""));
    let mut code = code.collect::<Vec<_>>().join("\n");
    for sign in ["(", ")", "∷", "[]", "="] {
        code = code.replace(sign, &format!(" {sign} "));
    }
    code
}

fn tail(words: Words) -> Option<RangeInclusive<u8>> {
    let place = words.windows(2).position(|two| two == ["tail", "="])?;
    range(&words[place + 2..]).map(|(range, _)| range)
}

/// The range at the beginning of the words, in brackets or not, and the words behind it.
fn range<'a>(words: Words<'a>) -> Option<(RangeInclusive<u8>, Words<'a>)> {
    match words {
        ["(", inside @ ..] => match range(inside)? {
            (range, [")", rest @ ..]) => Some((range, rest)),
            _ => None,
        },
        [low, "to", high, rest @ ..] => Some((byte(low)?..=byte(high)?, rest)),
        _ => None,
    }
}

fn byte(word: &str) -> Option<u8> {
    u8::from_str_radix(word.strip_prefix("0x")?, 16).ok()
}

/// The list at the beginning of the words, in brackets or not, and the words behind it.
fn list<'a>(words: Words<'a>, tail: &RangeInclusive<u8>) -> Option<(Line, Words<'a>)> {
    let (first, rest) = match (words, range(words)) {
        (["[]", rest @ ..], _) => return Some((vec![], rest)),
        (["tail", "∷", rest @ ..], _) => (tail.clone(), rest),
        (_, Some((range, ["∷", rest @ ..]))) => (range, rest),
        (["(", inside @ ..], _) => {
            let (ranges, rest) = list(inside, tail)?;
            return rest.strip_prefix(&[")"]).map(|rest| (ranges, rest));
        }
        _ => return None,
    };
    let (others, rest) = list(rest, tail)?;
    Some(([vec![first], others].concat(), rest))
}
