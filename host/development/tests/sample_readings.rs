//! Readings that are worked out by hand, made by the library and by both readers of the reference.

use bannelgo::Outcome::{self, Nothing, Part, Whole};
use bannelgo::Reading;
use bannelgo_development::calls::number_of;
use bannelgo_development::expr::{byte, not, or_else, sequence, star, then, Expr, Grammar};
use bannelgo_development::gap_sheet::sheet;
use bannelgo_development::gap_text::{long_sheet, PLANNERS_SHEET};
use bannelgo_development::numbering::{image_of, Numbering};
use bannelgo_development::reference::{self, recursive};
use bannelgo_development::samples::{D2, M10};
use bannelgo_development::small_stack::{on_small_stack, on_stack_of};
use Expr::{Any, Bytes, Call, Empty};

/// The library's reading, or its number.
fn plain_reading(image: &[u8], text: &[u8]) -> Result<Reading, u64> {
    bannelgo::plain_reading(image, text).map_err(|refusal| number_of(&refusal))
}

/// Asks all three. The recursive reader gets a stack that is enough also without optimisation.
fn expect(image: &[u8], text: &[u8], expected: Result<Reading, u64>) {
    let (lent_image, lent_text) = (image.to_vec(), text.to_vec());
    let ours = on_small_stack(move || plain_reading(&lent_image, &lent_text));
    let shown = String::from_utf8_lossy(&text[..text.len().min(40)]);
    assert_eq!(ours, expected, "ours, {shown:?}");

    let grammar = reference::accepted_grammar(image).expect("the image is accepted");
    let machine = reference::read(&grammar, text, u64::MAX);
    assert_eq!(machine, Some(expected), "machine, {shown:?}");
    let text = text.to_vec();
    let recursive = on_stack_of(64 << 20, move || recursive::read(&grammar, &text));
    assert_eq!(recursive, expected, "recursive, {shown:?}");
}

/// Outcome, length, examined, nesting.
type Fields = (Outcome, usize, usize, usize);

fn reading((outcome, length, examined, nesting): Fields) -> Result<Reading, u64> {
    Ok(Reading {
        outcome,
        length,
        examined,
        nesting,
    })
}

fn image(rules: &[Expr]) -> Vec<u8> {
    let rules = rules.to_vec();
    image_of(&Grammar { start: 0, rules }, Numbering::Preorder)
}

fn expect_rule(rule: Expr, readings: &[(&str, Fields)]) {
    let image = image(&[rule]);
    for (text, fields) in readings {
        expect(&image, text.as_bytes(), reading(*fields));
    }
}

#[test]
fn the_papers_digits() {
    expect(&D2, b"12a", reading((Part, 2, 3, 4)));
    expect(&D2, b"12", reading((Whole, 2, 3, 4)));
    expect(&D2, b"712", reading((Whole, 3, 4, 4)));
    expect(&D2, b"", reading((Nothing, 0, 1, 3)));
    expect(&D2, b"a12", reading((Nothing, 0, 1, 3)));
}

#[test]
fn leaves() {
    expect_rule(Empty, &[("", (Whole, 0, 0, 1)), ("a", (Part, 0, 0, 1))]);
    let any = [
        ("", (Nothing, 0, 1, 1)),
        ("a", (Whole, 1, 1, 1)),
        ("ab", (Part, 1, 1, 1)),
    ];
    expect_rule(Any, &any);
    let range = [
        ("", (Nothing, 0, 1, 1)),
        ("a", (Nothing, 0, 1, 1)),
        ("b", (Whole, 1, 1, 1)),
        ("d", (Whole, 1, 1, 1)),
        ("e", (Nothing, 0, 1, 1)),
    ];
    expect_rule(Bytes(b'b', b'd'), &range);
    for value in [0, 1, 127, 128, 255] {
        let all = reading((Whole, 1, 1, 1));
        expect(&image(&[byte(value)]), &[value], all);
        expect(&image(&[Bytes(0, 255)]), &[value], all);
    }
}

#[test]
fn sequences() {
    let two = [
        ("", (Nothing, 0, 1, 2)),
        ("a", (Nothing, 0, 2, 2)),
        ("ac", (Nothing, 0, 2, 2)),
        ("b", (Nothing, 0, 1, 2)),
        ("ab", (Whole, 2, 2, 2)),
        ("abc", (Part, 2, 2, 2)),
    ];
    expect_rule(then(byte(b'a'), byte(b'b')), &two);
    // The first part consumes 1 byte and examines 3.
    let look = not(sequence([byte(b'a'), byte(b'b'), byte(b'c')]));
    let first = then(look, byte(b'a'));
    let matches = then(first.clone(), Empty);
    expect_rule(matches, &[("abx", (Part, 1, 3, 6))]);
    let fails = then(first, byte(b'z'));
    expect_rule(fails, &[("abx", (Nothing, 0, 3, 6))]);
}

#[test]
fn choices() {
    let far_first = [
        ("ab", (Whole, 2, 2, 3)),
        ("ac", (Part, 1, 2, 3)),
        ("a", (Whole, 1, 2, 3)),
        ("b", (Nothing, 0, 1, 3)),
    ];
    let first = || then(byte(b'a'), byte(b'b'));
    expect_rule(or_else(first(), byte(b'a')), &far_first);
    let far_second = [("a", (Whole, 1, 1, 2)), ("bc", (Part, 1, 2, 5))];
    let second = then(byte(b'b'), not(first()));
    expect_rule(or_else(byte(b'a'), second), &far_second);
    expect_rule(or_else(byte(b'a'), Empty), &[("", (Whole, 0, 1, 2))]);
}

#[test]
fn stars() {
    let letters = [
        ("", (Whole, 0, 1, 2)),
        ("aa", (Whole, 2, 3, 2)),
        ("aab", (Part, 2, 3, 2)),
    ];
    expect_rule(star(byte(b'a')), &letters);
    // The failing round examines 2 bytes, the second of them at the end.
    let pairs = star(then(byte(b'a'), byte(b'b')));
    expect_rule(pairs, &[("ababa", (Part, 4, 6, 3))]);
    // The first round examines 4 bytes, the failing one the second of them.
    let three = sequence([Any, Any, Any]);
    let far = star(then(byte(b'a'), not(not(three))));
    expect_rule(far, &[("axyz", (Part, 1, 4, 7))]);
    let inner = then(byte(b'b'), star(byte(b'c')));
    let nested = star(then(byte(b'a'), star(inner)));
    expect_rule(nested, &[("abccbaab", (Whole, 8, 9, 6))]);
}

#[test]
fn nots() {
    expect_rule(
        not(Any),
        &[("", (Whole, 0, 1, 2)), ("a", (Nothing, 0, 1, 2))],
    );
    let two = [
        ("ab", (Nothing, 0, 2, 3)),
        ("ac", (Part, 0, 2, 3)),
        ("b", (Part, 0, 1, 3)),
    ];
    expect_rule(not(then(byte(b'a'), byte(b'b'))), &two);
    let all = not(not(star(Any)));
    expect_rule(all, &[("", (Whole, 0, 1, 4)), ("abc", (Part, 0, 4, 4))]);
}

#[test]
fn calls_and_parts_that_are_not_evaluated() {
    let through = image(&[Call(1), Call(2), byte(b'a')]);
    expect(&through, b"a", reading((Whole, 1, 1, 3)));
    let after_a =
        |join: fn(Expr, Expr) -> Expr| image(&[join(byte(b'a'), Call(1)), Call(2), Empty]);
    expect(&after_a(then), b"b", reading((Nothing, 0, 1, 2)));
    expect(&after_a(then), b"ab", reading((Part, 1, 1, 4)));
    expect(&after_a(or_else), b"a", reading((Whole, 1, 1, 2)));
    expect(&after_a(or_else), b"b", reading((Part, 0, 1, 4)));
    let rules = vec![Empty, byte(b'a')];
    let second = image_of(&Grammar { start: 1, rules }, Numbering::Preorder);
    expect(&second, b"a", reading((Whole, 1, 1, 1)));
}

/// S = ("(" then S) else empty, as rule 1.
fn brackets_under(rule_0: Expr) -> Vec<u8> {
    image(&[rule_0, or_else(then(byte(b'('), Call(1)), Empty)])
}

#[test]
fn the_greatest_nesting() {
    let brackets = |count: usize| vec![b'('; count];
    let whole = |count, nesting| reading((Whole, count, count + 1, nesting));
    expect(&M10, &brackets(0), whole(0, 3));
    expect(&M10, &brackets(1_363), whole(1_363, 4_092));
    expect(&M10, &brackets(1_364), whole(1_364, 4_095));
    expect(&M10, &brackets(1_365), Err(14));

    let call = brackets_under(Call(1));
    expect(&call, &brackets(1_364), whole(1_364, 4_096));
    expect(&call, &brackets(1_365), Err(14));

    let not_call = brackets_under(not(Call(1)));
    let failed = reading((Nothing, 0, 1_364, 4_094));
    expect(&not_call, &brackets(1_363), failed);
    expect(&not_call, &brackets(1_364), Err(14));
}

/// A part that fails, is negated or is a round counts with its nesting.
#[test]
fn nesting_is_counted_in_every_part() {
    let text = [vec![b'('; 1_363], vec![b'y']].concat();
    let failed = || then(Call(1), byte(b'x'));
    let places = [
        (or_else(failed(), Empty), (Part, 0, 1_364, 4_095)),
        (star(failed()), (Part, 0, 1_364, 4_095)),
        (not(failed()), (Part, 0, 1_364, 4_095)),
        (or_else(not(failed()), Empty), (Part, 0, 1_364, 4_096)),
        (then(Call(1), Call(1)), (Part, 1_363, 1_364, 4_094)),
    ];
    for (body, fields) in places {
        expect(&brackets_under(body.clone()), &text, reading(fields));
        let deeper = not(not(not(body)));
        expect(&brackets_under(deeper), &text, Err(14));
    }
}

#[test]
fn far_beyond_the_greatest_nesting() {
    for count in [1_366, 4_096, 10_000, 65_535] {
        expect(&M10, &vec![b'('; count], Err(14));
    }
}

#[test]
fn the_longest_text() {
    let digits = vec![b'5'; 65_536];
    let longest = reading((Whole, 65_535, 65_536, 4));
    expect(&D2, &digits[..65_535], longest);
    expect(&D2, &digits, Err(8));
    let none = image(&[not(star(Any))]);
    expect(&none, &digits[..65_535], reading((Nothing, 0, 65_536, 3)));
}

/// The image's number comes before 8.
#[test]
fn the_image_is_asked_first() {
    let too_long = vec![0; 65_536];
    for (number, image) in [
        (1, &D2[..3]),
        (3, &D2[..27]),
        (6, &image(&[star(Empty)])),
        (7, &image(&[Call(0)])),
    ] {
        for text in [&[][..], b"12", &too_long] {
            assert_eq!(plain_reading(image, text), Err(number));
        }
    }
}

#[test]
fn sheets_are_read_whole() {
    let image = image_of(&sheet(), Numbering::Preorder);
    for text in [
        PLANNERS_SHEET.as_bytes(),
        &long_sheet(15),
        &long_sheet(6_000),
        &long_sheet(60_000),
    ] {
        let read = plain_reading(&image, text).expect("the sheet is read");
        let all = (Whole, text.len(), text.len() + 1);
        assert_eq!((read.outcome, read.length, read.examined), all);
    }
    assert_eq!(long_sheet(60_000).len(), 60_000);
}

/// The answer does not depend on where in memory the bytes begin, nor on what lies around them.
#[test]
fn every_alignment_gives_the_same_reading() {
    let part = reading((Part, 2, 3, 4));
    for before in 0..8 {
        for around in [0, b'1', 0xFF] {
            let shifted = |bytes: &[u8]| [&vec![around; before], bytes, &[around; 8]].concat();
            let (image, text) = (shifted(&D2), shifted(b"12a"));
            let image = &image[before..before + D2.len()];
            assert_eq!(plain_reading(image, &text[before..before + 3]), part);
        }
    }
}

/// Calls made at the same time on several threads do not disturb one another.
#[test]
fn threads_get_the_same_readings() {
    std::thread::scope(|scope| {
        for count in 0..4 {
            scope.spawn(move || {
                let digits = vec![b'7'; count + 1];
                let whole = reading((Whole, count + 1, count + 2, 4));
                for _ in 0..2_000 {
                    let read = plain_reading(&D2, &digits);
                    assert_eq!(read, whole);
                }
            });
        }
    });
}
