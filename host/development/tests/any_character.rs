//! Any takes one character, worked out by hand: readings by the library and the readers written apart, and sessions
//! by the library and the ledger.

mod by_hand;

use bannelgo::Outcome::{Nothing, Part, Whole};
use bannelgo_development::calls::Call;
use bannelgo_development::dots::one_by_one;
use bannelgo_development::expr::{byte, not, or_else, star, then, Expr};
use by_hand::readings::expect;
use by_hand::sessions::{edit, edited, listed, read, Both, Expected};
use Expr::{Any, Bytes, Folded};

#[test]
fn one_character_of_each_length() {
    let first_and_last = [
        ("\0", "\u{7F}"),
        ("\u{80}", "\u{7FF}"),
        ("\u{800}", "\u{FFFF}"),
        ("\u{10000}", "\u{10FFFF}"),
    ];
    for (bytes, (first, last)) in (1..).zip(first_and_last) {
        for text in [first, last] {
            expect(&Any, text.as_bytes(), (Whole, bytes, bytes, 1));
            let more = format!("{text}é");
            expect(&Any, more.as_bytes(), (Part, bytes, bytes, 1));
        }
    }
    for beside_the_surrogates in ["\u{D7FF}", "\u{E000}"] {
        expect(&Any, beside_the_surrogates.as_bytes(), (Whole, 3, 3, 1));
    }
    expect(&Any, b"", (Nothing, 0, 1, 1));
}

/// The byte that cannot continue the character is examined too.
#[test]
fn a_character_that_breaks_off() {
    for text in [&b"\xC3a"[..], b"\xC3\xC3", b"\xE2a\xAC", b"\xF0a\x98\x80"] {
        expect(&Any, text, (Part, 1, 2, 1));
    }
    for text in [&b"\xE2\x82a"[..], b"\xE2\x82\xE2", b"\xF0\x9Fa\x80"] {
        expect(&Any, text, (Part, 1, 3, 1));
    }
    for text in [&b"\xF0\x9F\x98a"[..], b"\xF0\x9F\x98\xC0"] {
        expect(&Any, text, (Part, 1, 4, 1));
    }
}

/// The end is examined too.
#[test]
fn a_text_that_ends_inside_a_character() {
    for text in [b"\xC3", b"\xE2", b"\xF0"] {
        expect(&Any, text, (Whole, 1, 2, 1));
    }
    for text in [b"\xE2\x82", b"\xF0\x9F"] {
        expect(&Any, text, (Part, 1, 3, 1));
    }
    expect(&Any, b"\xF0\x9F\x98", (Part, 1, 4, 1));
}

/// Longer forms than needed, surrogates, and what is above the last character: the second byte decides.
#[test]
fn second_bytes_that_are_unlawful() {
    let texts: [&[u8]; 7] = [
        b"\xE0\x80\x80",
        b"\xE0\x9F\xBF",
        b"\xED\xA0\x80",
        b"\xED\xBF\xBF",
        b"\xF0\x80\x80\x80",
        b"\xF0\x8F\xBF\xBF",
        b"\xF4\x90\x80\x80",
    ];
    for text in texts {
        expect(&Any, text, (Part, 1, 2, 1));
        let n = text.len();
        expect(&star(Any), text, (Whole, n, n + 1, 2));
    }
}

#[test]
fn first_bytes_that_are_unlawful() {
    for first in (0x80..=0xC1).chain(0xF5..=0xFF) {
        expect(&Any, &[first], (Whole, 1, 1, 1));
        expect(&Any, &[first, 0x80, 0x80, 0x80], (Part, 1, 1, 1));
    }
}

/// Rules around any take over what it examined.
#[test]
fn any_inside_other_rules() {
    expect(&star(Any), "aé€𝄞".as_bytes(), (Whole, 10, 11, 2));
    expect(&not(Any), "€".as_bytes(), (Nothing, 0, 3, 2));
    expect(&not(Any), b"\xE2\x82", (Nothing, 0, 3, 2));
    expect(&not(Any), b"", (Whole, 0, 1, 2));
    let two = then(Any, Any);
    expect(&two, "éé".as_bytes(), (Whole, 4, 4, 2));
    expect(&two, "é".as_bytes(), (Nothing, 0, 3, 2));
    expect(&two, b"\xF0\x9F\x98a", (Part, 2, 4, 2));
    let loud = or_else(then(Any, byte(b'!')), Any);
    expect(&loud, "é!".as_bytes(), (Whole, 3, 3, 3));
    expect(&loud, "é?".as_bytes(), (Part, 2, 3, 3));
    expect(&loud, b"\xE2\x82", (Part, 1, 3, 3));
}

/// Kind 2 takes one byte, with the fold bit and without it.
#[test]
fn a_range_takes_one_byte() {
    for range in [Bytes(0xC3, 0xC3), Bytes(0, 255), Folded(0x80, 0xFF)] {
        expect(&range, "é".as_bytes(), (Part, 1, 1, 1));
        expect(&range, b"\xC3", (Whole, 1, 1, 1));
    }
    let halves = then(byte(0xC3), byte(0xA9));
    expect(&halves, "é".as_bytes(), (Whole, 2, 2, 2));
    // Inside a character any begins at a byte that begins none.
    expect(&then(byte(0xE2), Any), "€".as_bytes(), (Part, 2, 2, 2));
}

/// The reading of a whole text of so many bytes.
fn whole(bytes: usize, evaluations: usize) -> Expected {
    read((Whole, bytes, bytes + 1, 3), evaluations)
}

/// An insertion splits a character, and a deletion joins its halves again.
#[test]
fn a_letter_typed_inside_a_character() {
    let grammar = one_by_one();
    let mut both = Both::open(&grammar, 3, "é".as_bytes());
    both.expect(Call::Read, whole(2, 3));
    // What stands is the record of the end.
    both.expect(edit(1, 1, "x"), edited(3, 1));
    both.expect(Call::Read, whole(3, 4));
    let rows = [(0, 0, 0, 3), (1, 1, 0, 1), (1, 1, 1, 1), (1, 1, 2, 1)];
    both.expect(Call::List { slots: 4 }, listed((Whole, 3, 4, 3), 0, &rows));
    both.expect(Call::List { slots: 3 }, Err(15));
    // The second half, which is true alone at its place, and the end.
    both.expect(edit(1, 2, ""), edited(2, 2));
    let rows = [(0, 0, 0, 2), (1, 1, 0, 2)];
    both.expect(Call::List { slots: 2 }, listed((Whole, 2, 3, 3), 2, &rows));
}

/// The last byte of a character gives way to another one, to none, and to one that does not continue it.
#[test]
fn an_edit_inside_a_character() {
    let grammar = one_by_one();
    let mut both = Both::open(&grammar, 4, "€a".as_bytes());
    both.expect(Call::Read, whole(4, 4));
    both.expect(edit(2, 3, b"\xAD"), edited(4, 2));
    both.expect(Call::Read, whole(4, 2));
    both.expect(edit(2, 3, "x"), edited(4, 2));
    both.expect(Call::Read, whole(4, 4));
    // The record of E2 is gone, because it examined x; that of 82 stands.
    both.expect(edit(2, 3, b"\xAC"), edited(4, 3));
    both.expect(Call::Read, whole(4, 2));
    // It has stood unused, and 82 is alone again.
    both.expect(edit(2, 3, ""), edited(3, 3));
    both.expect(Call::Read, whole(3, 2));
}

/// The text ends inside a character, and the rest of it is typed.
#[test]
fn a_character_typed_byte_by_byte() {
    let grammar = one_by_one();
    let mut both = Both::open(&grammar, 4, b"\xF0");
    both.expect(Call::Read, whole(1, 3));
    // The first byte examined the end. The bytes behind it stand, and the end moves.
    both.expect(edit(1, 1, b"\x9D"), edited(2, 1));
    both.expect(Call::Read, whole(2, 3));
    both.expect(edit(2, 2, b"\x84"), edited(3, 2));
    both.expect(Call::Read, whole(3, 3));
    both.expect(edit(3, 3, b"\x9E"), edited(4, 3));
    let rows = [(0, 0, 0, 4), (1, 1, 0, 4)];
    both.expect(Call::List { slots: 9 }, listed((Whole, 4, 5, 3), 2, &rows));
}

/// A complete character does not look behind itself, nor does a byte that begins none.
#[test]
fn an_edit_right_behind_a_character() {
    let grammar = one_by_one();
    let mut both = Both::open(&grammar, 4, "éx".as_bytes());
    both.expect(Call::Read, whole(3, 4));
    both.expect(edit(2, 2, "y"), edited(4, 3));
    both.expect(Call::Read, whole(4, 2));
    let mut both = Both::open(&grammar, 3, b"\x80x");
    both.expect(Call::Read, whole(2, 4));
    both.expect(edit(1, 1, b"\x80"), edited(3, 3));
    both.expect(Call::Read, whole(3, 2));
    let mut both = Both::open(&grammar, 3, b"\xC3x");
    both.expect(Call::Read, whole(2, 4));
    both.expect(edit(1, 1, b"\xA9"), edited(3, 2));
    both.expect(Call::Read, whole(3, 2));
}
