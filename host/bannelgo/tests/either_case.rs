//! Letters in either case: images byte for byte, and what is read by them.

use bannelgo::grammar::{
    and, any, byte, call, choice, either_case, empty, literal, not, one_of, optional, plus, range,
    sequence, star, times, Expr, Grammar, GrammarError,
};
use bannelgo::Sheet;

fn one_rule(body: Expr) -> Grammar {
    let rule = Grammar::builder().rule("R", body);
    rule.build().expect("accepted")
}

fn is_whole(grammar: &Grammar, text: &str) -> bool {
    grammar.read(text).expect("read").is_whole()
}

/// The bit is the lowest of a word's first byte; a range without letters has it too.
#[test]
fn each_range_has_the_bit() {
    let digit = [0x10, 0x10, 0x01, 0x00, 0x00, 0x00, 0x21, 0x03, 0x00, 0x39];
    assert_eq!(one_rule(either_case(range(b'0', b'9'))).image(), digit);
    let unit = [
        0x10, 0x10, 0x05, 0x00, 0x00, 0x00, 0x30, 0x00, 0x10, 0x02, 0x21, 0x06, 0xB0, 0x6B, 0x30,
        0x00, 0x30, 0x04, 0x21, 0x05, 0x70, 0x57, 0x21, 0x06, 0x80, 0x68,
    ];
    assert_eq!(one_rule(either_case(literal("kWh"))).image(), unit);
}

/// [0-9], then k in either case or any character, then W.
#[test]
fn what_stands_around_it_has_no_bit() {
    let letter = either_case(choice([byte(b'k'), any()]));
    let image = [
        0x10, 0x10, 0x07, 0x00, 0x00, 0x00, 0x30, 0x00, 0x10, 0x02, 0x20, 0x03, 0x00, 0x39, 0x30,
        0x00, 0x30, 0x06, 0x40, 0x00, 0x40, 0x05, 0x21, 0x06, 0xB0, 0x6B, 0x10, 0x00, 0x00, 0x00,
        0x20, 0x05, 0x70, 0x57,
    ];
    let mixed = sequence([range(b'0', b'9'), letter, byte(b'W')]);
    assert_eq!(one_rule(mixed).image(), image);
}

/// It goes into every part, however the parts are joined.
#[test]
fn parts_of_every_kind() {
    let made: [fn(Expr, Expr) -> Expr; 5] = [
        |a, b| sequence([a, b]),
        |a, b| choice([a, any(), b]),
        |a, b| star(sequence([not(a), b])),
        |a, b| and(choice([plus(a), optional(b)])),
        |a, b| times(3, sequence([a, call("R"), b])),
    ];
    let [a, b] = [|| byte(b'a'), || range(b'b', b'z')];
    for make in made {
        let parts_in_either = make(either_case(a()), either_case(b()));
        assert_ne!(parts_in_either, make(a(), b()));
        assert_eq!(either_case(make(a(), b())), parts_in_either);
    }
    let characters = [literal("a"), literal("ä")].map(either_case);
    assert_eq!(either_case(one_of("aä")), choice(characters));
    for unchanged in [empty(), any(), call("R")] {
        assert_eq!(either_case(unchanged.clone()), unchanged);
    }
}

#[test]
fn twice_is_as_once() {
    let once = either_case(literal("kWh"));
    assert_eq!(either_case(once.clone()), once);
    let a_part = sequence([either_case(byte(b'k')), literal("Wh")]);
    assert_eq!(either_case(a_part), once);
}

/// Reads each byte as a text, plainly and in a sheet whose one byte is typed over.
fn bytes_read(expr: Expr, is_read: impl Fn(u8) -> bool) {
    let grammar = one_rule(expr);
    let mut sheet = Sheet::open(&grammar, "?", 1).expect("opened");
    for byte in 0..=255 {
        let words = match is_read(byte) {
            true => "whole, length 1, examined 1, nesting 1",
            false => "none, length 0, examined 1, nesting 1",
        };
        let reading = grammar.read([byte]).expect("read");
        assert_eq!(reading.to_string(), words, "{byte:#04x}");
        sheet.edit(0..1, [byte]).expect("edited");
        assert_eq!(sheet.read().expect("read").reading, reading, "{byte:#04x}");
    }
    let end = grammar.read("").expect("read");
    assert_eq!(end.to_string(), "none, length 0, examined 1, nesting 1");
}

/// Ranges from and to the bytes at both ends of the letters, inside them and far from them.
#[test]
fn every_byte_by_its_cases() {
    let ends = *b"\0\x1f0@AKZ[`akz{\x7f\x80\xc1\xe1\xff";
    for (place, &low) in ends.iter().enumerate() {
        for &high in &ends[place..] {
            let has = |byte: u8| (low..=high).contains(&byte);
            let cases = |byte: u8| [byte.to_ascii_uppercase(), byte.to_ascii_lowercase()];
            bytes_read(range(low, high), has);
            bytes_read(either_case(range(low, high)), |byte| {
                cases(byte).into_iter().any(has)
            });
        }
    }
}

#[test]
fn words_in_either_case() {
    let unit = one_rule(either_case(literal("kWh")));
    for text in ["kWh", "KWH", "kwh", "Kwh", "kwH"] {
        assert!(is_whole(&unit, text), "{text}");
    }
    // The last one begins with the Kelvin sign, which has k as its small letter outside ASCII.
    for text in ["kW", "kWj", "k7h", "\u{b}Wh", "\u{212a}Wh"] {
        assert!(!is_whole(&unit, text), "{text}");
    }
    // The bytes of "Ä" and "ä" differ as those of A and a do.
    let accented = one_rule(either_case(literal("ä")));
    assert!(is_whole(&accented, "ä"));
    assert!(!is_whole(&accented, "Ä"));
}

#[test]
fn a_called_rule_is_not_changed() {
    let unit = either_case(sequence([literal("kW"), call("Hour")]));
    let rules = Grammar::builder().rule("Unit", unit);
    let grammar = rules.rule("Hour", byte(b'h')).build().expect("accepted");
    assert!(is_whole(&grammar, "KWh"));
    assert!(!is_whole(&grammar, "KWH"));
    assert!(!is_whole(&grammar, "kWH"));
}

/// Also where another case of its ends would make it rise.
#[test]
fn a_range_that_falls_is_refused() {
    for (low, high) in [(b'z', b'a'), (b'a', b'Z'), (b'1', b'0')] {
        let builder = Grammar::builder().rule("R", either_case(range(low, high)));
        let rule = "R".to_string();
        let falls = GrammarError::EmptyRange { rule, low, high };
        assert_eq!(builder.build(), Err(falls));
    }
}

#[test]
fn an_image_with_the_bit_is_a_grammar() {
    let written = one_rule(star(either_case(range(b'a', b'f'))));
    let read = Grammar::from_image(written.image()).expect("accepted");
    assert_eq!(read.image(), written.image());
    for (text, length) in [("abcABC", 6), ("FgF", 1), ("G", 0)] {
        assert_eq!(read.read(text).expect("read").length, length, "{text}");
    }
}

/// Line <- Number " " Unit; Number <- [0-9]+; in either case Unit <- "k" Base; Base <- "Wh".
fn line() -> Grammar {
    let line = sequence([call("Number"), literal(" "), call("Unit")]);
    let unit = sequence([literal("k"), call("Base")]);
    Grammar::builder()
        .rule("Line", line)
        .rule("Number", plus(range(b'0', b'9')))
        .rule("Unit", either_case(unit))
        .rule("Base", either_case(literal("Wh")))
        .build()
        .expect("accepted")
}

/// A key leaves the record of Number, and where it is the k also that of Base.
#[test]
fn letters_typed_over() {
    let grammar = line();
    let mut sheet = Sheet::open(&grammar, "12 kWh", 8).expect("opened");
    let words = "whole, length 6, examined 6, nesting 7, evaluations 4";
    assert_eq!(sheet.read().expect("read").to_string(), words);
    for (place, letter, standing, outcome, evaluations) in [
        (3, "K", 2, "whole, length 6", 2),
        (4, "w", 1, "whole, length 6", 3),
        (5, "j", 1, "none, length 0", 3),
        (5, "H", 1, "whole, length 6", 3),
    ] {
        let edited = sheet.edit(place..=place, letter).expect("edited");
        assert_eq!(edited.standing, standing, "{letter}");
        let read = sheet.read().expect("read");
        let words = format!("{outcome}, examined 6, nesting 7, evaluations {evaluations}");
        assert_eq!(read.to_string(), words, "{letter}");
        assert_eq!(grammar.read(sheet.text()), Ok(read.reading), "{letter}");
    }
    let tree = "Line 0..6 \"12 KwH\"\n  Number 0..2 \"12\"\n  \
                Unit 3..6 \"KwH\"\n    Base 4..6 \"wH\"\n";
    assert_eq!(sheet.tree().expect("listed").to_string(), tree);
}
