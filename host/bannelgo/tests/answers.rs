//! What calls answer: readings and records.

mod texts;

use bannelgo::grammar::{
    any, byte, call, choice, literal, not, plus, range, sequence, star, Grammar,
};
use bannelgo::{Outcome, Reading, Record, Sheet, MOST_BYTES};
use texts::texts;

/// Line <- Word ("," Word)* "\n"; Word <- '"' (!'"' .)* '"' / [a-z]+.
fn words() -> Grammar {
    let quote = || byte(b'"');
    let quoted = sequence([quote(), star(sequence([not(quote()), any()])), quote()]);
    let more = star(sequence([byte(b','), call("Word")]));
    Grammar::builder()
        .rule("Line", sequence([call("Word"), more, byte(b'\n')]))
        .rule("Word", choice([quoted, plus(range(b'a', b'z'))]))
        .build()
        .expect("accepted")
}

/// A reading that did not look at the end has the same fields whatever follows, and is never whole then.
#[test]
fn what_follows_an_end_that_was_not_looked_at() {
    let grammar = words();
    let mut found = [0; 2];
    for text in texts(b"a,\"\n", 5) {
        let read = grammar.read(&text).expect("read");
        if read.saw_end(&text) {
            continue;
        }
        found[usize::from(read.is_whole())] += 1;
        for behind in ["a", ",", "\"", "\n", "\"\n", ",a\n", "a\"\n"] {
            let longer = [&text[..], behind.as_bytes()].concat();
            let after = grammar.read(&longer).expect("read");
            assert_eq!(fields(after), fields(read), "{text:?}, {behind:?}");
            assert!(!after.is_whole(), "{text:?}, {behind:?}");
        }
    }
    assert!(found.iter().all(|&count| count >= 5), "{found:?}");
}

fn fields(reading: Reading) -> (bool, usize, usize, usize) {
    let Reading {
        outcome,
        length,
        examined,
        nesting,
    } = reading;
    (outcome != Outcome::Nothing, length, examined, nesting)
}

#[test]
fn a_sheet_says_whether_the_end_was_looked_at() {
    let grammar = Grammar::builder().rule("Red", literal("red")).build();
    let grammar = grammar.expect("accepted");
    for (text, saw_end) in [
        ("", true),
        ("re", true),
        ("ro", false),
        ("red", false),
        ("redx", false),
    ] {
        let mut sheet = Sheet::open(&grammar, text, 8).expect("opened");
        let read = sheet.read().expect("read");
        assert_eq!(read.saw_end(text), saw_end, "{text}");
        assert_eq!(read.reading.saw_end(text), saw_end, "{text}");
    }
}

/// A part that was given up is read as far as it was tried.
#[test]
fn an_unclosed_quote_is_read_to_the_end() {
    let text = "a,\"b\nc\n";
    let read = words().read(text).expect("read");
    assert_eq!(read.outcome, Outcome::Nothing);
    assert_eq!(read.reached(text).to_string(), "line 3, column 1");
}

/// Each field alone and all at once, at the most that a reading gives.
#[test]
fn a_record_has_its_fields_apart() {
    for (matched, nesting, examined, length) in [
        (false, 0, 0, 0),
        (true, 0, 0, 0),
        (false, 4_096, 0, 0),
        (false, 0, 65_536, 0),
        (false, 0, 65_535, 0),
        (false, 0, 0, 65_535),
        (true, 4_096, 65_536, 65_535),
    ] {
        let fields = nesting << 33 | examined << 16 | length;
        let word = u64::from(matched) << 62 | fields as u64;
        let record = Record {
            matched,
            length,
            examined,
            nesting,
        };
        assert_eq!(Record::from_word(1 << 63 | word), Some(record));
        assert_eq!(Record::from_word(word), None);
    }
}

#[test]
fn the_longest_text_has_its_record() {
    let grammar = Grammar::builder().rule("All", star(any())).build();
    let grammar = grammar.expect("accepted");
    let text = vec![b'x'; MOST_BYTES];
    let mut sheet = Sheet::open(&grammar, &text, MOST_BYTES).expect("opened");
    assert!(sheet.read().expect("read").is_whole());
    let record = Record {
        matched: true,
        length: 65_535,
        examined: 65_536,
        nesting: 2,
    };
    assert_eq!(sheet.look_up(0, 0), Ok(Some(record)));
}
