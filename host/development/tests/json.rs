//! The example json of the package bannelgo: each key held to the ledger, texts that RFC 8259 allows and
//! texts that it does not, drawn documents and edits of them, and how deep brackets go.

#[allow(dead_code)]
#[path = "../../bannelgo/examples/json/main.rs"]
mod json;
mod json_documents;

use bannelgo::{Grammar, Outcome};
use bannelgo_development::calls::Call;
use bannelgo_development::gap_sheet::tree_of;
use bannelgo_development::rng::Rng;
use bannelgo_development::small_stack::on_small_stack;
use json_documents::both::{first_reading, Both};
use json_documents::draws::{drawn_document, drawn_edit};
use json_documents::texts::{INVALID, VALID};

fn json_grammar() -> Grammar {
    json::grammar::json().expect("the check accepts the grammar of JSON")
}

#[test]
fn the_grammar_has_the_size_that_is_said() {
    let tree = tree_of(&json_grammar());
    assert_eq!((tree.rules.len(), tree.nodes()), (13, 322));
}

/// Text, answers, evaluations and rows after each key.
#[test]
fn each_key_is_the_ledgers() {
    let grammar = json_grammar();
    let tree = tree_of(&grammar);
    let mut both = Both::open(&grammar, &tree, b"", json::ROOM);
    let mut whole = vec![];
    for key in json::keys::keys() {
        let edited = both.ask(Call::Edit {
            start: key.bytes.start,
            end: key.bytes.end,
            replacement: key.typed.into_bytes(),
        });
        assert!(edited.is_ok(), "{:?} is refused", key.pressed);
        if both.read().outcome == Outcome::Whole {
            whole.push(key.pressed);
        }
        let listed = both.ask(Call::List { slots: 200 });
        assert!(listed.is_ok(), "{:?}: too many rows", key.pressed);
    }
    assert_eq!(whole, ['}', 'e', ']']);
}

#[test]
fn valid_texts_are_whole() {
    let grammar = json_grammar();
    let tree = tree_of(&grammar);
    for text in VALID {
        let reading = first_reading(&grammar, &tree, text);
        assert!(reading.is_whole(), "{}: {reading}", text.escape_ascii());
    }
}

#[test]
fn invalid_texts_do_not_match() {
    let grammar = json_grammar();
    let tree = tree_of(&grammar);
    for text in INVALID {
        let reading = first_reading(&grammar, &tree, text);
        let said = format!("{}: {reading}", text.escape_ascii());
        assert_eq!(reading.outcome, Outcome::Nothing, "{said}");
    }
}

/// The texts of one byte and of two: `d`, and `dd`, `-d`, `""`, `[]`, `{}`, ws `d`, `d` ws.
#[test]
fn texts_of_two_bytes_are_whole_by_the_number() {
    let grammar = json_grammar();
    let whole = |text: &[u8]| grammar.read(text).expect("a short text is read").is_whole();
    let ones = (0..=255).filter(|&one| whole(&[one])).count();
    assert_eq!(ones, 10);
    let twos = (0..=u16::MAX).filter(|two| whole(&two.to_be_bytes()));
    assert_eq!(twos.count(), 9 * 10 + 10 + 3 + 4 * 10 + 10 * 4);
}

/// What is not ASCII in a string, against the check of UTF-8 that Rust has.
#[test]
fn strings_take_the_characters_of_utf_8() {
    let grammar = json_grammar();
    let edges = [0x80, 0x8F, 0x90, 0x9F, 0xA0, 0xBF, 0xC0, 0xFF];
    let mut allowed = 0;
    let mut hold = |bytes: &[u8]| {
        let text = [b"\"", bytes, b"\""].concat();
        let reading = grammar.read(&text).expect("a short text is read");
        let utf_8 = std::str::from_utf8(bytes).is_ok();
        assert_eq!(reading.is_whole(), utf_8, "{}", bytes.escape_ascii());
        allowed += usize::from(utf_8);
    };
    for first in 0x80..=0xFF {
        hold(&[first]);
        (0x80..=0xFF).for_each(|second| hold(&[first, second]));
        for second in edges {
            for third in edges {
                hold(&[first, second, third]);
                for last in edges {
                    hold(&[first, second, third, last]);
                }
            }
        }
    }
    assert!(allowed > 3_000, "{allowed} of them are UTF-8");
}

/// Each edit is taken back, so that all of them are made in a whole document.
#[test]
fn drawn_documents_are_whole_and_their_edits_the_ledgers() {
    let grammar = json_grammar();
    let tree = tree_of(&grammar);
    let rng = &mut Rng::new(8_259);
    let (mut whole, mut broken) = (0, 0);
    for _ in 0..600 {
        let text = drawn_document(rng);
        let mut both = Both::open(&grammar, &tree, &text, text.len() + 1);
        assert!(both.read().is_whole(), "{}", text.escape_ascii());
        for _ in 0..5 {
            let (edit, back) = drawn_edit(rng, &text);
            both.ask(edit).expect("there is room for a byte");
            match both.read().outcome {
                Outcome::Whole => whole += 1,
                _ => broken += 1,
            }
            both.ask(back).expect("the byte is there");
            assert!(both.read().is_whole(), "{}", text.escape_ascii());
        }
    }
    assert!(
        whole > 500 && broken > 500,
        "{whole} whole, {broken} broken"
    );
}

/// So many of `open` and then `inner` and as many of `close` are whole, and one more is refused with 14.
fn deepest_is(count: usize, open: &str, inner: &str, close: &str) {
    let grammar = json_grammar();
    let tree = tree_of(&grammar);
    let text = |count| [&open.repeat(count), inner, &close.repeat(count)].concat();
    let reading = first_reading(&grammar, &tree, text(count).as_bytes());
    assert!(reading.is_whole(), "{count} of {open}: {reading}");
    let deeper = text(count + 1);
    let mut both = Both::open(&grammar, &tree, deeper.as_bytes(), deeper.len());
    assert_eq!(both.ask(Call::Read), Err(14), "{} of {open}", count + 1);
}

#[test]
fn brackets_go_as_deep_as_is_said() {
    on_small_stack(|| {
        deepest_is(510, "[", "", "]");
        deepest_is(407, "{\"\":", "0", "}");
        deepest_is(339, "{\"\":0,\"\":", "0", "}");
    });
}
