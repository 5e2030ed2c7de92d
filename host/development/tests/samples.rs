//! Images whose numbers are worked out by hand, checked by both checkers.

use bannelgo::raw::check_image;
use bannelgo_development::expr::{byte, not, or_else, star, then, Expr, Grammar};
use bannelgo_development::image_words::{node_word, ImageWords, FOLD};
use bannelgo_development::numbering::{image_of, words_of, Numbering};
use bannelgo_development::reference;
use bannelgo_development::samples::{D2, SAMPLES};

fn expect(name: &str, image: &[u8], number: u64) {
    assert_eq!(check_image(image), number, "{name}, ours");
    assert_eq!(reference::check(image), number, "{name}, reference");
}

#[test]
fn marked_images_have_the_papers_numbers() {
    for sample in &SAMPLES {
        expect(sample.name, sample.image, sample.number);
    }
}

/// One image for each number 1 to 7. Up to 3 they are D2 with one change.
#[test]
fn each_number_has_a_witness() {
    let mut edition_2 = D2;
    edition_2[0] = 0x20;
    expect("edition 2", &edition_2, 1);
    let mut start_2 = D2;
    start_2[3] = 2;
    expect("start 2 of 2 rules", &start_2, 2);
    expect("one byte more", &[&D2[..], &[0]].concat(), 3);

    let own_child = [0x10, 0x10, 0x01, 0, 0, 0, 0x50, 0, 0, 0];
    expect("a star over itself", &own_child, 4);
    let twice = [0x10, 0x10, 0x02, 0, 0, 0, 0x30, 0, 0x10, 1, 0x10, 0, 0, 0];
    expect("node 1 then node 1", &twice, 5);
    let star_of_empty = [0x10, 0x10, 0x02, 0, 0, 0, 0x50, 0, 0x10, 0, 0, 0, 0, 0];
    expect("a star over empty", &star_of_empty, 6);
    let self_call = [0x10, 0x10, 0x01, 0, 0, 0, 0x70, 0, 0, 0];
    expect("S = S", &self_call, 7);
}

#[test]
fn short_images_and_odd_words() {
    expect("no byte", &[], 1);
    expect("three bytes", &D2[..3], 1);
    expect("a header with 0 rules", &[0x10, 0x00, 0x05, 0x00], 2);
    expect("a header with 0 nodes", &[0x10, 0x10, 0x00, 0x00], 2);
    expect("a good header alone", &D2[..4], 3);
    expect("the last byte missing", &D2[..27], 3);

    let roots_fall = [
        0x10, 0x20, 2, 0, 0, 1, 0, 0, 0x10, 0, 0, 0, 0x70, 0, 0x10, 0,
    ];
    expect("rule 0 has the higher root", &roots_fall, 0);
    let call_of_rule_1 = [0x10, 0x10, 1, 0, 0, 0, 0x70, 0, 0x10, 0];
    expect("rule 1 of 1 rule is called", &call_of_rule_1, 4);
    let orphan = [0x10, 0x10, 2, 0, 0, 0, 0x10, 0, 0, 0, 0x10, 0, 0, 0];
    expect("node 1 occurs nowhere", &orphan, 5);
    let shared_root = [0x10, 0x20, 1, 0, 0, 0, 0, 0, 0x10, 0, 0, 0];
    expect("two rules with one root", &shared_root, 5);
}

fn expect_grammar(name: &str, number: u64, rules: &[Expr]) {
    let grammar = Grammar {
        start: 0,
        rules: rules.to_vec(),
    };
    expect(name, &image_of(&grammar, Numbering::Preorder), number);
}

#[test]
fn left_recursion_is_refused_where_nothing_is_consumed() {
    use Expr::{Any, Call, Empty};
    let s = || Call(0);
    let hidden = |before: Expr| [then(before, s())];
    expect_grammar("any, S", 0, &hidden(Any));
    expect_grammar("empty, S", 7, &hidden(Empty));
    expect_grammar("not any, S", 7, &hidden(not(Any)));
    expect_grammar("any*, S", 7, &hidden(star(Any)));
    expect_grammar("(any else empty), S", 7, &hidden(or_else(Any, Empty)));
    expect_grammar("not empty, S", 0, &hidden(not(Empty)));
    expect_grammar("(S, any) else any", 7, &[or_else(then(s(), Any), Any)]);
    expect_grammar("any else S", 7, &[or_else(Any, s())]);
    expect_grammar("S*", 7, &[star(s())]);
    let brackets = or_else(then(byte(b'('), s()), Empty);
    expect_grammar("('(' S) else empty", 0, &[brackets]);
    expect_grammar("a ring of two", 7, &[Call(1), s()]);
    expect_grammar("a ring out of reach", 7, &[Any, Call(1)]);
    let through_rule_1 = [then(Call(1), s()), or_else(Any, Empty)];
    expect_grammar("rule 1 can match nothing", 7, &through_rule_1);
    expect_grammar("rule 1 consumes", 0, &[then(Call(1), s()), byte(b'a')]);
}

#[test]
fn star_bodies_are_asked_first_and_everywhere() {
    use Expr::{Any, Call, Empty};
    expect_grammar("a star out of reach", 6, &[Any, star(Empty)]);
    expect_grammar("a star behind a byte", 6, &[then(Any, star(Empty))]);
    expect_grammar("a star over a star", 6, &[star(star(Any))]);
    expect_grammar("a star that only ends", 0, &[star(not(Empty))]);
    expect_grammar("6 comes before 7", 6, &[Call(0), star(Empty)]);
    expect_grammar("a body without outcomes", 7, &[star(Call(1)), Call(1)]);
    let late_zero = [star(Call(1)), Call(2), or_else(Any, not(Any))];
    expect_grammar("0 comes from rule 2", 6, &late_zero);
}

/// Two rules with a node of each kind.
fn each_kind() -> ImageWords {
    use Expr::{Any, Call, Empty};
    let rules = vec![
        or_else(then(Any, then(not(Call(0)), star(byte(b'a')))), Empty),
        Expr::Folded(b'a', b'z'),
    ];
    words_of(&Grammar { start: 0, rules }, Numbering::Preorder)
}

/// "The lowest of a node's four zero bits becomes a fold bit for kind 2." The others are 0 in every kind.
#[test]
fn the_fold_bit_is_lawful_in_ranges_only() {
    let mut kinds = [0; 8];
    for node in 0..each_kind().node_words.len() {
        let kind = each_kind().node_words[node] >> 28;
        kinds[kind as usize] += 1;
        for bits in 0..16 {
            let mut words = each_kind();
            words.node_words[node] = words.node_words[node] & !(0xF << 24) | bits << 24;
            let number = match (kind, bits) {
                (_, 0) | (2, 1) => 0,
                _ => 4,
            };
            let name = format!("bits {bits:04b} in kind {kind}");
            expect(&name, &words.to_bytes(), number);
        }
    }
    assert!(kinds.iter().all(|&count| count > 0), "{kinds:?}");
}

/// A rule's word has no fold bit.
#[test]
fn the_zero_bits_of_a_rule() {
    for rule in 0..2 {
        for bits in 1..16 {
            let mut words = each_kind();
            words.rule_words[rule] |= bits << 12;
            let name = format!("bits {bits:04b} in rule {rule}");
            expect(&name, &words.to_bytes(), 4);
        }
    }
}

/// The fold bit is no excuse for a range that falls, and a range need have no letter.
#[test]
fn ranges_with_the_fold_bit() {
    for (low, high, number) in [
        (0x41, 0x5A, 0), // A to Z
        (0x5A, 0x61, 0), // Z to a
        (0x30, 0x39, 0),
        (0x00, 0xFF, 0),
        (0xFF, 0xFF, 0),
        (0x61, 0x5A, 4), // a to Z
        (0x62, 0x61, 4),
        (0x00, 0x100, 4),
        (0x100, 0x100, 4),
    ] {
        let word = node_word(2, low, high) | FOLD;
        let image = ImageWords::new(0, vec![0], vec![word]).to_bytes();
        expect(&format!("{low:#x} to {high:#x}"), &image, number);
    }
}

/// The answer does not depend on where in memory the bytes begin.
#[test]
fn every_alignment_gives_the_same_answer() {
    for sample in &SAMPLES {
        for offset in 0..8 {
            let buffer = [&vec![0xFF; offset][..], sample.image, &[0xFF; 8]].concat();
            let image = &buffer[offset..offset + sample.image.len()];
            expect(sample.name, image, sample.number);
        }
    }
}

/// Calls made at the same time on several threads do not disturb one another.
#[test]
fn threads_get_the_same_answers() {
    std::thread::scope(|scope| {
        for sample in &SAMPLES {
            scope.spawn(move || {
                for _ in 0..10_000 {
                    expect(sample.name, sample.image, sample.number);
                }
            });
        }
    });
}
