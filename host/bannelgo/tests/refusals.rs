//! What refusals say, and that no argument makes a call panic.

use bannelgo::grammar::{any, byte, call, choice, empty, not, range, sequence, star, Grammar};
use bannelgo::{check_image, lending, plain_reading, Refusal, Sheet, MOST_BYTES};
use std::error::Error;

fn digits() -> Grammar {
    Grammar::builder()
        .rule("Number", sequence([call("Digit"), star(call("Digit"))]))
        .rule("Digit", range(b'0', b'9'))
        .build()
        .expect("accepted")
}

fn brackets() -> Grammar {
    let inside = sequence([byte(b'('), call("S")]);
    Grammar::builder()
        .rule("S", choice([inside, empty()]))
        .build()
        .expect("accepted")
}

fn says(refusal: impl Into<Option<Refusal>>, number: u8, words: &str) {
    let refusal = refusal.into().expect(words);
    assert_eq!(refusal.to_string(), words);
    assert_eq!(refusal.number(), Some(number), "{words}");
}

/// The digits' image with one byte changed.
fn with(place: usize, value: u8) -> Vec<u8> {
    let mut image = digits().image().to_vec();
    image[place] = value;
    image
}

/// Every call that is lent the image refuses it.
fn refused(image: &[u8], number: u8, words: &str) {
    says(check_image(image).err(), number, words);
    says(Grammar::from_image(image).err(), number, words);
    says(plain_reading(image, b"1").err(), number, words);
    let opened = lending::open(image, b"1", &mut [0; 9], &mut [0; 99]);
    says(opened.err(), number, words);
}

#[test]
fn headers() {
    let short = "the image has 3 bytes, fewer than the 4 of its header";
    refused(&digits().image()[..3], 1, short);
    let edition = "the image is of edition 2 and not of edition 1";
    refused(&with(0, 0x20), 1, edition);
    let rules = |count: usize| format!("the image has {count} rules and not 1 to 64");
    refused(&[0x10, 0, 1, 0], 2, &rules(0));
    refused(&[0x14, 0x10, 1, 0], 2, &rules(65));
    let nodes = |count: &str| format!("the image has {count} nodes and not 1 to 1,024");
    refused(&[0x10, 0x10, 0, 0], 2, &nodes("0"));
    refused(&[0x10, 0x14, 1, 0], 2, &nodes("1,025"));
    let start = "the image has 2 rules and starts with rule 2";
    refused(&with(3, 2), 2, start);
    let size = "the image has 27 bytes, and its header asks for 28";
    refused(&digits().image()[..27], 3, size);
}

fn rule(rule: usize, why: &str) -> String {
    format!("the word of rule {rule} is not lawful: {why}")
}

fn node(node: usize, why: &str) -> String {
    format!("the word of node {node} is not lawful: {why}")
}

#[test]
fn words_that_are_not_lawful() {
    refused(&with(7, 5), 4, &rule(1, "it names no node"));
    refused(&with(24, 0x80), 4, &node(4, "its kind is above 7"));
    let unused = "a field that its kind does not use is not 0";
    refused(&with(15, 1), 4, &node(1, unused));
    refused(&with(24, 0x10), 4, &node(4, unused));
    refused(&with(24, 0x00), 4, &node(4, unused));
    let call = "it calls a rule that is not there";
    refused(&with(14, 0x20), 4, &node(1, call));
}

/// With the fold bit as without it.
#[test]
fn ranges_that_are_not_lawful() {
    for front in [0x20, 0x21] {
        let range = |place, value| {
            let mut image = with(24, front);
            image[place] = value;
            image
        };
        assert_eq!(check_image(&range(27, 0x30)), Ok(()));
        let falls = "its range ends below its beginning";
        refused(&range(27, 0x2F), 4, &node(4, falls));
        refused(&range(26, 0x01), 4, &node(4, "its range ends above 255"));
    }
}

/// R <- . !R 'a'* / '': a node of each kind.
fn each_kind() -> Vec<u8> {
    let long = sequence([any(), not(call("R")), star(byte(b'a'))]);
    let rule = Grammar::builder().rule("R", choice([long, empty()]));
    rule.build().expect("accepted").image().to_vec()
}

/// The image with these bits set in the byte at that place.
fn with_bits(image: &[u8], place: usize, bits: u8) -> Vec<u8> {
    let mut image = image.to_vec();
    image[place] |= bits;
    image
}

const ZERO_BITS: &str = "its zero bits are not 0";
const FOLD_BIT: &str = "it has the fold bit and is no byte range";

/// The lowest of the four is the fold bit, which a byte range may have. Where another one is set too, the
/// zero bits are said.
#[test]
fn bits_behind_the_kind_of_a_node() {
    let image = each_kind();
    let mut kinds = vec![];
    for (place, word) in image[6..].chunks_exact(4).enumerate() {
        let kind = word[0] >> 4;
        for bits in 1..16 {
            let changed = with_bits(&image, 6 + 4 * place, bits);
            match (kind, bits) {
                (2, 1) => assert_eq!(check_image(&changed), Ok(())),
                (_, 1) => refused(&changed, 4, &node(place, FOLD_BIT)),
                _ => refused(&changed, 4, &node(place, ZERO_BITS)),
            }
        }
        kinds.push(kind);
    }
    assert_eq!(kinds, [4, 3, 1, 3, 6, 7, 5, 2, 0]);
    // Of a kind above 7 the fold bit is said.
    refused(&with(24, 0x91), 4, &node(4, FOLD_BIT));
}

#[test]
fn bits_in_front_of_a_root() {
    let image = digits().image().to_vec();
    for (number, bits) in (0..2).flat_map(|rule| (1..16).map(move |bits| (rule, bits))) {
        let changed = with_bits(&image, 4 + 2 * number, bits << 4);
        refused(&changed, 4, &rule(number, ZERO_BITS));
    }
}

/// Where both children are wrong, the first one is said.
#[test]
fn children_that_are_not_lawful() {
    let not_above = "a child's number is not above its own";
    let not_there = "a child is a node that is not there";
    // Node 0 is a sequence, node 2 a star.
    let children = |first: u8, second: u8| {
        let mut image = with(10, first << 4);
        image[11] = second;
        image
    };
    refused(&children(1, 5), 4, &node(0, not_there));
    refused(&children(5, 2), 4, &node(0, not_there));
    refused(&children(1, 0), 4, &node(0, not_above));
    refused(&children(0, 2), 4, &node(0, not_above));
    refused(&children(0, 5), 4, &node(0, not_above));
    refused(&children(5, 0), 4, &node(0, not_there));
    refused(&with(18, 0x20), 4, &node(2, not_above));
    refused(&with(18, 0x50), 4, &node(2, not_there));
}

#[test]
fn grammars_that_are_not_well_formed() {
    let twice = "node 1 is 2 times a root or a child and not once";
    refused(&with(11, 1), 5, twice);
    let mut empties = with(24, 0x00);
    empties[25..].fill(0);
    let star = "rule 0 repeats something that can match without consuming";
    refused(&empties, 6, star);
    let ring = "rule 0 is called from itself without consuming";
    refused(&with(14, 0x00), 7, ring);
}

#[test]
fn loans() {
    let grammar = digits();
    let opening = |text: &str, cap| Sheet::open(&grammar, text, cap).err();
    says(
        opening("123", 2),
        8,
        "the text has 3 bytes, and there is room for 2",
    );
    let cap = "there is room for 65,536 bytes of text, and at most 65,535 are allowed";
    says(opening("123", MOST_BYTES + 1), 8, cap);
    let most = "there is room for 18,446,744,073,709,551,615 bytes of text, \
                and at most 65,535 are allowed";
    says(opening("123", usize::MAX), 8, most);
    for cap in [3, MOST_BYTES] {
        assert!(opening("123", cap).is_none());
    }
    assert!(opening("", 0).is_none());

    let image = grammar.image();
    let table = lending::open(image, b"1", &mut [0; 4], &mut [0; 9]);
    says(table.err(), 8, "the table has 9 words, and 10 are needed");
    let length = lending::read(image, &[0; 4], 5, &mut [0; 10]);
    says(
        length.err(),
        8,
        "the text has 5 bytes, and there is room for 4",
    );
    let long = vec![b'1'; MOST_BYTES + 1];
    let words = "the text has 65,536 bytes, and at most 65,535 are allowed";
    says(grammar.read(&long).err(), 8, words);
}

#[test]
fn edits_and_look_ups() {
    let mut sheet = Sheet::open(&digits(), "12a", 8).expect("opened");
    #[allow(clippy::reversed_empty_ranges)]
    let reversed = sheet.edit(2..1, "");
    let words = "the edit ends at byte 1, before its start at byte 2";
    says(reversed.err(), 9, words);
    let words = "the edit starts at byte 5, behind the text, which has 3 bytes";
    says(sheet.edit(5.., "x").err(), 9, words);
    let words = "the edit of bytes 1 to 4 ends behind the text, which has 3 bytes";
    says(sheet.edit(1..4, "").err(), 9, words);
    says(
        sheet.edit(2..3, "3456789").err(),
        10,
        "the text would have 9 bytes, and there is room for 8",
    );
    says(
        sheet.look_up(2, 0).err(),
        11,
        "there is no rule 2: the grammar has 2 rules",
    );
    says(
        sheet.look_up(0, 4).err(),
        11,
        "there is no position 4: the text has 3 bytes",
    );
    says(sheet.list(2).err(), 15, "the match has more than 2 rows");
    assert_eq!(sheet.text(), b"12a");
    assert_eq!(sheet.read().expect("read").evaluations, 0);

    for end in [usize::MAX, usize::MAX - 1, 1 << 62] {
        assert_eq!(sheet.edit(0..end, "").unwrap_err().number(), Some(9));
        assert_eq!(sheet.edit(end..end, "").unwrap_err().number(), Some(9));
        assert_eq!(sheet.look_up(end, 0).unwrap_err().number(), Some(11));
        assert_eq!(sheet.look_up(0, end).unwrap_err().number(), Some(11));
        assert_eq!(sheet.list(end).expect("3 rows").rows.len(), 3);
    }
}

#[test]
fn readings() {
    let deep = "(".repeat(1_365);
    let words = "the text nests too deep: more than 4,096 evaluations inside each other";
    let grammar = brackets();
    says(grammar.read(&deep).err(), 14, words);
    let mut sheet = Sheet::open(&grammar, &deep, deep.len()).expect("opened");
    says(sheet.read().err(), 14, words);
    says(sheet.list(5).err(), 14, words);
    says(sheet.tree().err(), 14, words);
    assert!(grammar.read(&deep[1..]).expect("4,095").is_whole());

    // Held, matched, and a nesting of 0, which no reading gives.
    let mut table = [0xC000_0000_0000_0000; 4];
    let read = lending::read(digits().image(), b"1", 1, &mut table);
    let words = "the lent table held a word that no reading of this text leaves there";
    says(read.err(), 12, words);
    assert_eq!(table, [0; 4]);
}

/// Counts have commas as the limits do, positions and numbers of rules have none.
#[test]
fn counts_have_commas() {
    for (slots, words) in [
        (0, "0 rows"),
        (1, "1 row"),
        (999, "999 rows"),
        (1_000, "1,000 rows"),
        (12_345, "12,345 rows"),
        (999_999, "999,999 rows"),
        (1_000_000, "1,000,000 rows"),
    ] {
        let refusal = Refusal::Rows { slots };
        says(refusal, 15, &format!("the match has more than {words}"));
    }
    let grammar = digits();
    let mut sheet = Sheet::open(&grammar, "1".repeat(2_000), 3_000).expect("opened");
    let words = "the text would have 3,001 bytes, and there is room for 3,000";
    says(sheet.edit(0..0, "1".repeat(1_001)).err(), 10, words);
    let words = "the edit of bytes 1999 to 2001 ends behind the text, which has 2,000 bytes";
    says(sheet.edit(1_999..2_001, "").err(), 9, words);
    let words = "there is no position 2001: the text has 2,000 bytes";
    says(sheet.look_up(0, 2_001).err(), 11, words);
    let words = "there is no rule 1000: the grammar has 2 rules";
    says(sheet.look_up(1_000, 0).err(), 11, words);
    let opened = Sheet::open(&grammar, "1".repeat(2_000), 1_000);
    let words = "the text has 2,000 bytes, and there is room for 1,000";
    says(opened.err(), 8, words);
    let table = lending::open(grammar.image(), b"1", &mut [0; 1_000], &mut [0; 2_001]);
    says(
        table.err(),
        8,
        "the table has 2,001 words, and 2,002 are needed",
    );
    let words = "the image has 4 bytes, and its header asks for 4,102";
    says(check_image(&[0x10, 0x14, 0x00, 0x00]).err(), 3, words);
}

#[test]
fn words_of_another_library() {
    let refusal = Refusal::Unknown(vec![16, 0, u64::MAX]);
    let words = "the linked library is not the proved one: it answered [10, 0, ffffffffffffffff]";
    assert_eq!(refusal.to_string(), words);
    assert_eq!(refusal.number(), None);
}

#[test]
fn a_refusal_is_an_error() {
    fn opened(cap: usize) -> Result<Sheet, Box<dyn Error>> {
        Ok(Sheet::open(&digits(), "1", cap)?)
    }
    assert!(opened(1).is_ok());
    let error = opened(0).expect_err("no room");
    assert_eq!(
        error.to_string(),
        "the text has 1 byte, and there is room for 0"
    );
    let built = Grammar::builder().rule("A", call("A")).build();
    let error: Box<dyn Error> = built.expect_err("a ring").into();
    assert!(error.source().is_none());
}

#[test]
fn a_table_has_rules_times_positions() {
    let image = digits().image().to_vec();
    assert_eq!(lending::table_words(&image, 16), 2 * 17);
    assert_eq!(lending::table_words(&image, usize::MAX), usize::MAX);
    assert_eq!(lending::table_words(&[], 16), 0);
}
