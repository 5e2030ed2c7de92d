//! Letters in either case, worked out by hand: readings by the library and both readers of the reference,
//! and a session by the library and the ledger.

mod by_hand;

use bannelgo::Outcome::{Nothing, Part, Whole};
use bannelgo_development::calls::Call;
use bannelgo_development::expr::{sequence, star, then, Expr, Grammar};
use by_hand::readings::expect;
use by_hand::sessions::{edit, edited, listed, read, Both};
use Expr::{Bytes, Folded};

/// A range alone matches each of these bytes, and none of the others.
fn expect_bytes(range: Expr, matched: &[u8], others: &[u8]) {
    for &byte in matched {
        expect(&range, &[byte], (Whole, 1, 1, 1));
    }
    for &byte in others {
        expect(&range, &[byte], (Nothing, 0, 1, 1));
    }
}

/// The letters of "KWH" in either case, each written in one of them.
fn kwh() -> Expr {
    sequence([Folded(b'K', b'K'), Folded(b'w', b'w'), Folded(b'H', b'H')])
}

#[test]
fn one_word_in_every_case() {
    for text in ["KWH", "kwh", "kWh", "Kwh", "kWH"] {
        expect(&kwh(), text.as_bytes(), (Whole, 3, 3, 3));
    }
    expect(&kwh(), b"kWhs", (Part, 3, 3, 3));
    expect(&kwh(), b"kVh", (Nothing, 0, 2, 3));
    expect(&kwh(), b"KW", (Nothing, 0, 3, 3));
    expect(&kwh(), b"wh", (Nothing, 0, 1, 2));
    expect(&kwh(), b"", (Nothing, 0, 1, 2));
}

#[test]
fn either_case_of_every_letter() {
    let letters = b"AMZamz";
    let others = b"@[`{0 \xC1\xDA\xE1\xFA";
    expect_bytes(Folded(b'a', b'z'), letters, others);
    expect_bytes(Folded(b'A', b'Z'), letters, others);
    expect_bytes(Bytes(b'a', b'z'), b"amz", b"AMZ");
    expect_bytes(Folded(b'b', b'd'), b"bcdBCD", b"aeAE");
}

/// The byte is folded and not the range: 'z' matches because 'Z' does, '{' does not although '[' does.
#[test]
fn from_capital_z_to_small_a() {
    expect_bytes(Folded(b'Z', b'a'), b"Z[\\]^_`azA", b"@BYby{|}~\x7F");
    expect_bytes(Bytes(b'Z', b'a'), b"Z[\\]^_`a", b"zA{");
    expect_bytes(Folded(b'@', b'['), b"@AZ[az", b"`{");
    expect_bytes(Folded(b'`', b'{'), b"`az{AZ", b"@[");
}

/// Two bytes that differ as the cases of a letter do, and are no letters.
#[test]
fn bytes_without_another_case() {
    for capital in [
        0x00, 0x10, 0x1B, b'@', b'[', b'_', 0x80, 0xC1, 0xC9, 0xDA, 0xDF,
    ] {
        let small = capital | 0x20;
        expect_bytes(Folded(capital, capital), &[capital], &[small]);
        expect_bytes(Folded(small, small), &[small], &[capital]);
    }
    expect_bytes(Folded(b'0', b'9'), b"059", b"/:\x10\x15\x19PUYpuy");
}

/// Examined is 1 also at the end, where the range fails.
#[test]
fn the_end_is_examined() {
    expect(&Folded(b'a', b'z'), b"", (Nothing, 0, 1, 1));
    expect(&star(Folded(b'a', b'a')), b"", (Whole, 0, 1, 2));
    expect(&star(Folded(b'a', b'a')), b"aAa", (Whole, 3, 4, 2));
    expect(&star(Folded(b'a', b'a')), b"aAb", (Part, 2, 3, 2));
}

/// Rule 1 is a digit and rule 2 a unit: the cases of the unit's letters change.
#[test]
fn a_session_in_both_cases() {
    let body = then(Expr::Call(1), Expr::Call(2));
    let rules = vec![body, Bytes(b'0', b'9'), kwh()];
    let grammar = Grammar { start: 0, rules };
    let mut both = Both::open(&grammar, 5, b"7kWh");
    let list = || Call::List { slots: 3 };
    let whole = |evaluations| read((Whole, 4, 4, 5), evaluations);
    let nothing = |evaluations| read((Nothing, 0, 4, 5), evaluations);
    let rows = |evaluations| {
        let rows = [(0, 0, 0, 4), (1, 1, 0, 1), (2, 1, 1, 3)];
        listed((Whole, 4, 4, 5), evaluations, &rows)
    };
    both.expect(Call::Read, whole(3));
    both.expect(edit(1, 2, "K"), edited(4, 1));
    both.expect(Call::Read, whole(2));
    both.expect(edit(3, 4, "H"), edited(4, 1));
    both.expect(list(), rows(2));
    both.expect(edit(3, 2, "h"), Err(9));
    both.expect(edit(3, 4, "hhh"), Err(10));
    both.expect(list(), rows(0));
    both.expect(edit(3, 4, "g"), edited(4, 1));
    both.expect(Call::Read, nothing(2));
    both.expect(edit(1, 4, "kwh"), edited(4, 1));
    both.expect(Call::Read, whole(2));
    // The unit's record stands behind an edit of the digit.
    both.expect(edit(0, 1, "8"), edited(4, 1));
    both.expect(list(), rows(2));
}
