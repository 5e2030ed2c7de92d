//! The tree of a match, its print, and places.

use bannelgo::grammar::{
    any, call, choice, empty, literal, not, one_of, plus, range, sequence, star, times, Grammar,
};
use bannelgo::{Call, Place, Refusal, Row, Sheet, Tree};

/// Sum <- Value (Sign Value)*; Value <- "(" Sum ")" / Number.
fn sums() -> Grammar {
    let signed = sequence([call("Sign"), call("Value")]);
    let inner = sequence([literal("("), call("Sum"), literal(")")]);
    Grammar::builder()
        .rule("Sum", sequence([call("Value"), star(signed)]))
        .rule("Value", choice([inner, call("Number")]))
        .rule("Number", plus(range(b'0', b'9')))
        .rule("Sign", one_of("+-"))
        .build()
        .expect("accepted")
}

fn tree(text: &str) -> Tree {
    let mut sheet = Sheet::open(&sums(), text, text.len()).expect("opened");
    sheet.tree().expect("few rows")
}

const PRINTED: &str = r#"Sum 0..8 "1+(23-4)"
  Value 0..1 "1"
    Number 0..1 "1"
  Sign 1..2 "+"
  Value 2..8 "(23-4)"
    Sum 3..7 "23-4"
      Value 3..5 "23"
        Number 3..5 "23"
      Sign 5..6 "-"
      Value 6..7 "4"
        Number 6..7 "4"
"#;

#[test]
fn a_tree_prints_its_calls() {
    let tree = tree("1+(23-4)");
    assert_eq!(tree.to_string(), PRINTED);
    let shallow = "Sum 0..8 \"1+(23-4)\"\n  Value 0..1 \"1\"\n  Sign 1..2 \"+\"\n  \
                   Value 2..8 \"(23-4)\"\nand 7 deeper\n";
    assert_eq!(tree.down_to(1).to_string(), shallow);
    assert_eq!(tree.down_to(4).to_string(), PRINTED);
    assert_eq!(tree.len(), 11);
    assert_eq!(tree.text(), b"1+(23-4)");
    assert!(tree.reading().reading.is_whole());
}

#[test]
fn a_tree_has_a_line_for_each_call_whatever_the_names_are() {
    let bodies = [call("a\nb"), call("it's"), any()];
    let rules = ["", "a\nb", "it's"].into_iter().zip(bodies);
    let builder = rules.fold(Grammar::builder(), |builder, (name, body)| {
        builder.rule(name, body)
    });
    let grammar = builder.build().expect("accepted");
    let tree = Sheet::open(&grammar, "x", 1).expect("opened").tree();
    let expected = "\"\" 0..1 \"x\"\n  \"a\\nb\" 0..1 \"x\"\n    it's 0..1 \"x\"\n";
    assert_eq!(tree.expect("3 rows").to_string(), expected);
}

/// Every call's parent has it among its children, and the children are just the calls with that parent.
#[test]
fn parents_and_children_agree() {
    for text in ["1", "1+2", "1+(23-4)", "((((7))))-(1+(2-3)+4)"] {
        let tree = tree(text);
        assert_eq!(
            tree.calls().filter(|call| call.parent().is_none()).count(),
            1
        );
        for call in tree.calls() {
            let children: Vec<Call<'_>> = call.children().collect();
            let is_child = |other: &Call<'_>| other.parent() == Some(call);
            let expected: Vec<Call<'_>> = tree.calls().filter(is_child).collect();
            assert_eq!(children, expected);
            for child in children {
                assert_eq!(child.depth(), call.depth() + 1);
                assert!(call.range().start <= child.range().start);
                assert!(child.range().end <= call.range().end);
            }
        }
    }
}

#[test]
fn the_innermost_call_at_a_byte() {
    let tree = tree("1+(23-4)");
    let names: Vec<&str> = (0..8)
        .map(|at| tree.at(at).expect("matched").name())
        .collect();
    let expected = [
        "Number", "Sign", "Value", "Number", "Number", "Sign", "Number", "Value",
    ];
    assert_eq!(names, expected);
    assert!(tree.at(8).is_none());
    assert!(tree.at(usize::MAX).is_none());
}

#[test]
fn no_match_says_how_far_it_got() {
    let tree = tree("(1+\n");
    assert!(tree.is_empty());
    assert!(tree.root().is_none());
    assert!(tree.at(0).is_none());
    assert_eq!(
        tree.to_string(),
        "no match; read as far as line 1, column 4\n"
    );
}

#[test]
fn a_part_says_how_far_it_got() {
    let tree = tree("1+");
    let expected = "Sum 0..1 \"1\"\n  Value 0..1 \"1\"\n    Number 0..1 \"1\"\n\
                    only a part; read as far as line 1, column 3\n";
    assert_eq!(tree.to_string(), expected);
    let expected = "Sum 0..1 \"1\"\nand 2 deeper\n\
                    only a part; read as far as line 1, column 3\n";
    assert_eq!(tree.down_to(0).to_string(), expected);
}

/// Rows that no listing gives make an odd tree and no panic.
#[test]
fn any_rows_make_a_tree() {
    let reading = tree("1").reading();
    let rows = [
        (9, 3, 7, 9),
        (0, 0, 0, 1),
        (1, 0, 0, 0),
        (2, usize::MAX, usize::MAX, usize::MAX),
        (3, 1, 0, 1),
    ];
    let rows = rows.map(|(rule, depth, start, length)| Row {
        rule,
        depth,
        start,
        length,
    });
    let odd = Tree::new(&sums(), b"1", reading, rows.to_vec());
    assert_eq!(odd.calls().count(), 5);
    assert!(odd
        .calls()
        .all(|call| call.children().count() < 5 && call.text().len() < 2));
    assert!(odd.to_string().lines().count() >= 5);
    assert!(odd.at(0).is_none());
}

#[test]
fn long_texts_are_cut_and_odd_bytes_escaped() {
    let grammar = Grammar::builder().rule("All", star(any())).build();
    let grammar = grammar.expect("accepted");
    let shown = |text: &[u8]| {
        let mut sheet = Sheet::open(&grammar, text, text.len()).expect("opened");
        sheet.tree().expect("one row").to_string()
    };
    let a = "a".repeat(32);
    assert_eq!(shown(a.as_bytes()), format!("All 0..32 \"{a}\"\n"));
    assert_eq!(
        shown(format!("{a}b").as_bytes()),
        format!("All 0..33 \"{a}\" ..\n")
    );
    assert_eq!(shown(b"\"\n'\xFF\\"), "All 0..5 \"\\\"\\n'\\xFF\\\\\"\n");
    let umlauts = "ü".repeat(32);
    assert_eq!(
        shown(umlauts.as_bytes()),
        format!("All 0..64 \"{umlauts}\"\n")
    );
    let more = format!("{umlauts}é");
    assert_eq!(
        shown(more.as_bytes()),
        format!("All 0..66 \"{umlauts}\" ..\n")
    );
    assert_eq!(shown(b""), "All 0..0 \"\"\n");
}

/// Each field with its highest and its lowest bits.
#[test]
fn a_row_has_its_fields_apart() {
    let row = Row {
        rule: 0xF9,
        depth: 0xF003,
        start: 0xF005,
        length: 0xF007,
    };
    assert_eq!(Row::from_word(0xF900_F003_F005_F007), row);
}

/// More rows than the slots that a listing begins with; the evaluations are those of the first reading.
#[test]
fn a_listing_grows_its_slots() {
    let grammar = Grammar::builder()
        .rule("Text", sequence([star(call("Character")), not(any())]))
        .rule("Character", any())
        .build()
        .expect("accepted");
    for length in [1_022, 1_023, 1_024, 5_000, 65_535] {
        let text = vec![b'x'; length];
        let mut sheet = Sheet::open(&grammar, &text, length).expect("opened");
        let listing = sheet.list(usize::MAX).expect("it grows");
        assert_eq!(listing.rows.len(), length + 1);
        assert_eq!(listing.rows[0].range(), 0..length);
        let character = |(start, row): (usize, &Row)| {
            (row.rule, row.depth, row.range()) == (1, 1, start..start + 1)
        };
        assert!(listing.rows[1..].iter().enumerate().all(character));
        assert_eq!(listing.read.evaluations, length + 2);
        let tree = sheet.tree().expect("it grows");
        assert_eq!(tree.len(), length + 1);
        assert_eq!(tree.reading().evaluations, 0);
        assert_eq!(tree.root().expect("matched").children().count(), length);
        assert_eq!(sheet.list(length).unwrap_err().number(), Some(15));
        assert_eq!(sheet.list(length + 1).expect("it fits").rows, listing.rows);
    }
}

/// Each of 25 rules calls the next one twice, and the last is empty: 33,554,431 rows, all nothing long.
#[test]
fn a_listing_of_too_many_rows_is_refused() {
    let name = |rule: usize| format!("R{rule}");
    let twice = (0..24).fold(Grammar::builder(), |builder, rule| {
        builder.rule(name(rule), times(2, call(name(rule + 1))))
    });
    let grammar = twice.rule(name(24), empty()).build().expect("accepted");
    let mut sheet = Sheet::open(&grammar, "", 0).expect("opened");
    let listed = sheet.list(usize::MAX);
    assert_eq!(listed, Err(Refusal::Rows { slots: 16_777_216 }));
    let refusal = sheet.tree().expect_err("more rows than MOST_ROWS");
    assert_eq!(refusal.number(), Some(15));
    assert_eq!(
        refusal.to_string(),
        "the match has more than 16,777,216 rows"
    );
    assert_eq!(sheet.read().expect("read").evaluations, 0);
}

#[test]
fn places_are_lines_and_columns() {
    let text = "ab\n\ncäd\n".as_bytes();
    let places: Vec<(usize, usize)> = (0..=text.len() + 1)
        .map(|offset| Place::of(text, offset))
        .map(|place| (place.line, place.column))
        .collect();
    // Both bytes of ä are in one column.
    let expected = [
        (1, 1),
        (1, 2),
        (1, 3),
        (2, 1),
        (3, 1),
        (3, 2),
        (3, 2),
        (3, 3),
        (3, 4),
        (4, 1),
        (4, 1),
    ];
    assert_eq!(places, expected);
    assert_eq!(Place::of(text, 99).offset, text.len());
    // Bytes in no character have a column each; a newline ends what is cut off before it.
    let odd = b"\xA4\xC3\xC3\xA4\xE2\x82\n\xA4x";
    let columns: Vec<usize> = (0..=odd.len())
        .map(|at| Place::of(odd, at).column)
        .collect();
    assert_eq!(columns, [1, 2, 3, 3, 4, 5, 6, 1, 2, 3]);
    assert_eq!(Place::of(&[], 0).to_string(), "line 1, column 1");
}
