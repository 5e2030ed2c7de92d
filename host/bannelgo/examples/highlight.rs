//! A host with buffers of its own: it colours a settings file by the rows of a listing, and shows its
//! user what is refused. Run it in host/:
//!
//!     cargo run --release --example highlight -p bannelgo
//!
//! The text is coloured before and after a key. A line that is wrong is red and spoils no other: the
//! grammar has a rule for it. Then come an edit and a listing that are refused, and wrong grammars.

use bannelgo::grammar::{
    and, any, call, choice, either_case, literal, not, one_of, plus, range, sequence, star,
    Builder, Expr, GrammarError,
};
use bannelgo::{lending, Grammar, Row};
use std::error::Error;

const TEXT: &str = "# quarter-hours\n[meter]\nroom = 96\nname = Köln 7\nlost\n";

/// The rules that have a colour, each with a terminal's number for it.
const COLOURS: [(&str, u8); 6] = [
    ("Comment", 90),
    ("Section", 35),
    ("Key", 36),
    ("Number", 33),
    ("Words", 32),
    ("Wrong", 31),
];

/// A line is tried as what it may be, up to its end; any other line is wrong.
fn settings() -> Result<Grammar, GrammarError> {
    let not_newline = || sequence([not(literal("\n")), any()]);
    let letters = || plus(either_case(range(b'a', b'z')));
    let right = choice(["Comment", "Section", "Setting", "Blank"].map(call));
    let value = choice([to_the_end(call("Number")), call("Words")]);
    // A star must consume, and a line can be empty: the star is over a line with its newline.
    let lines = star(sequence([call("Line"), literal("\n")]));
    Grammar::builder()
        .rule("Settings", sequence([lines, call("Line"), not(any())]))
        .rule("Line", choice([to_the_end(right), call("Wrong")]))
        .rule("Comment", sequence([literal("#"), star(not_newline())]))
        .rule("Section", sequence([literal("["), letters(), literal("]")]))
        .rule("Setting", sequence([call("Key"), literal(" = "), value]))
        .rule("Blank", star(one_of(" \t")))
        .rule("Key", letters())
        .rule("Number", plus(range(b'0', b'9')))
        .rule("Words", plus(not_newline()))
        .rule("Wrong", plus(not_newline()))
        .build()
}

fn to_the_end(part: Expr) -> Expr {
    sequence([part, and(choice([literal("\n"), not(any())]))])
}

/// The text with a terminal's code wherever the colour changes, by the rows in these slots.
fn coloured(grammar: &Grammar, text: &[u8], slots: &[u64]) -> String {
    let mut colours = vec![0; text.len()];
    // Parents come first, so that the colour of an inner row is the one that stays.
    for row in slots.iter().map(|&word| Row::from_word(word)) {
        let name = grammar.name(row.rule);
        if let Some((_, colour)) = COLOURS.iter().find(|(rule, _)| name == Some(rule)) {
            colours[row.range()].fill(*colour);
        }
    }
    let mut shown = vec![];
    let mut colour = 0;
    for (&byte, next) in text.iter().zip(colours) {
        if next != colour {
            shown.extend(format!("\x1b[{next}m").bytes());
            colour = next;
        }
        shown.push(byte);
    }
    shown.extend(b"\x1b[0m");
    String::from_utf8_lossy(&shown).into_owned()
}

fn wrong_grammars() -> [Builder; 3] {
    [
        Grammar::builder().rule("Settings", star(call("Line"))),
        Grammar::builder().rule("Lines", star(star(literal("\n")))),
        Grammar::builder().rule("Sum", sequence([call("Sum"), literal("+")])),
    ]
}

fn main() -> Result<(), Box<dyn Error>> {
    let grammar = settings()?;
    let image = grammar.image();
    let (mut buffer, mut slots) = ([0; 64], [0; 40]);
    let mut table = vec![0; lending::table_words(image, buffer.len())];

    let n = lending::open(image, TEXT.as_bytes(), &mut buffer, &mut table)?;
    let (read, rows) = lending::list(image, &buffer, n, &mut table, &mut slots)?;
    let shown = coloured(&grammar, &buffer[..n], &slots[..rows]);
    println!("{shown}{read}\n");

    let at = TEXT.find("96").map_or(0, |at| at + 2);
    let edited = lending::edit(image, &mut buffer, n, &mut table, at..at, b"h")?;
    let n = edited.length;
    let (read, rows) = lending::list(image, &buffer, n, &mut table, &mut slots)?;
    let shown = coloured(&grammar, &buffer[..n], &slots[..rows]);
    println!("{shown}{read}\n");

    let long = b"# a line for which there is no room\n";
    if let Err(refusal) = lending::edit(image, &mut buffer, n, &mut table, 0..0, long) {
        println!("not typed: {refusal}");
    }
    if let Err(refusal) = lending::list(image, &buffer, n, &mut table, &mut slots[..5]) {
        println!("not listed: {refusal}");
    }
    for builder in wrong_grammars() {
        if let Err(error) = builder.build() {
            println!("no grammar: {error}");
        }
    }
    Ok(())
}
