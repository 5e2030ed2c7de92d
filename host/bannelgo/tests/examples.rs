//! Runs the programs of examples/ and looks for lines that would be other ones if the library's answers
//! were.

use std::io::Write;
use std::process::{Command, Stdio};

/// What an example prints, given this input. `cargo test` has built it, so that cargo only starts it.
fn printed(example: &str, input: &str) -> String {
    let mut cargo = Command::new(env!("CARGO"));
    cargo.current_dir(env!("CARGO_MANIFEST_DIR"));
    cargo.args(["run", "--quiet", "--offline", "--example", example]);
    if !cfg!(debug_assertions) {
        cargo.arg("--release");
    }
    cargo.stdin(Stdio::piped()).stdout(Stdio::piped());
    let mut program = cargo.spawn().expect("cargo can be started");
    let mut stdin = program.stdin.take().expect("the input is a pipe");
    // An example that does not read its input may have ended.
    let _ = stdin.write_all(input.as_bytes());
    drop(stdin);
    let output = program.wait_with_output().expect("the example ends");
    assert!(output.status.success(), "{example}: {}", output.status);
    String::from_utf8(output.stdout).expect("the example prints UTF-8")
}

/// Each of these lines is printed, in this order.
fn assert_lines(printed: &str, expected: &[&str]) {
    let mut lines = printed.lines();
    for line in expected {
        let found = lines.any(|other| other == *line);
        assert!(
            found,
            "{line:?} is not in, or not behind the one before:\n{printed}"
        );
    }
}

#[test]
fn json_types_a_document() {
    let printed = printed("json", "");
    assert_lines(
        &printed,
        &[
            "'{'    none              12             12  line 1, column 2, the end",
            "'l'    none               8             68  line 3, column 19, the end",
            "'k'    none               8             68  line 3, column 19",
            "'⌫'    none               8             68  line 3, column 19, the end",
            "'}'    whole              3             62  line 3, column 27, the end",
            "'u'    none               6             27  line 1, column 37",
            "'e'    whole              6             73  line 3, column 27, the end",
            "'['    none               9             89  line 3, column 27",
            "']'    whole              8             76  line 3, column 29, the end",
            r#" "kWh": [[12.5, null], 3e2]}"#,
            r#"              array 81..93 "[12.5, null]""#,
            r#"                value 82..86 "12.5""#,
            r#"                    frac 84..86 ".5""#,
            r#"                  null 88..92 "null""#,
            r#"                exp 96..98 "e2""#,
            "101 keys: 710 evaluations. First readings of the same texts: 3718.",
        ],
    );
}

#[test]
fn typing_has_lines_of_its_own() {
    assert_lines(
        &printed("typing", ""),
        &[
            "3  whole, length 5, examined 6, nesting 13, evaluations 4",
            r#"Sum 0..5 "1+2*3""#,
            r#"  Product 2..5 "2*3""#,
            r#"      Number 4..5 "3""#,
            r#"Sum 0..7 "(1+2)*3""#,
            r#"    Value 0..5 "(1+2)""#,
            r#"      Sum 1..4 "1+2""#,
            "+  part, length 1, examined 3, nesting 10, evaluations 4",
            "only a part; read as far as line 1, column 3",
        ],
    );
}

#[test]
fn typing_takes_lines_from_its_input() {
    let input = format!("4-(5\nx\n{}\n{}\n67\n", "(".repeat(600), "1".repeat(1_001));
    let printed = printed("typing", &input);
    assert_lines(
        &printed,
        &[
            "5  part, length 1, examined 5, nesting 19, evaluations 7",
            "only a part; read as far as line 1, column 5",
            "x  none, length 0, examined 1, nesting 8, evaluations 4",
            "no match; read as far as line 1, column 1",
            r#"Sum 0..2 "67""#,
        ],
    );
    let refused = printed.lines().filter(|line| line.starts_with("refused: "));
    assert_eq!(refused.count(), 2, "{printed}");
}

#[test]
fn highlight_colours_a_text_and_says_what_is_refused() {
    assert_lines(
        &printed("highlight", ""),
        &[
            "\x1b[90m# quarter-hours\x1b[0m",
            "\x1b[35m[meter]\x1b[0m",
            "\x1b[36mroom\x1b[0m = \x1b[33m96\x1b[0m",
            "\x1b[31mlost\x1b[0m",
            "\x1b[0mwhole, length 54, examined 55, nesting 19, evaluations 32",
            "\x1b[36mroom\x1b[0m = \x1b[32m96h\x1b[0m",
            "\x1b[36mname\x1b[0m = \x1b[32mKöln 7\x1b[0m",
            "\x1b[0mwhole, length 55, examined 56, nesting 19, evaluations 5",
            "not typed: the text would have 91 bytes, and there is room for 64",
            "not listed: the match has more than 5 rows",
            r#"no grammar: rule Settings calls "Line", and no rule has that name"#,
            "no grammar: rule Lines repeats something that can match without consuming",
            "no grammar: rule Sum is called from itself without consuming",
        ],
    );
}
