//! A grammar of the usual size: a sheet of gaps in meter data.
//!
//! A sheet has a title line, then comments, blank lines and entries. An entry has a name, which is a
//! meter's or a colour's, two times and values; a question mark stands for a value that is missing.
//!
//! Two more grammars read a sheet while it is typed. They take any line, so that a sheet with an
//! unfinished line is whole too. In the second the lines are grouped by day. The demonstration has a grammar
//! in which the title has a site's name, in any characters, and an entry has a unit, in either case.

use crate::expr;
use crate::reference::read_grammar;
use bannelgo::grammar::{
    any, byte, call, choice, either_case, empty, literal, not, one_of, optional, plus, range,
    sequence, star, Expr,
};
use bannelgo::Grammar;

/// The rules of a sheet, by name: 16 rules, 122 nodes.
pub fn named_sheet() -> Grammar {
    built(sheet_rules(title("Name"), entry(None)))
}

/// The same with a site's name of any characters, and with a unit behind the values, kWh in either case: 19
/// rules.
pub fn named_site_sheet() -> Grammar {
    let unit = optional(sequence([call("Space"), call("Unit")]));
    let mut rules = sheet_rules(title("Site"), entry(Some(unit)));
    rules.extend([
        ("Unit", either_case(literal("kWh"))),
        (
            "Site",
            plus(sequence([not(call("NewLine")), call("Character")])),
        ),
        ("Character", any()),
    ]);
    built(rules)
}

fn sheet_rules(title: Expr, entry: Expr) -> Vec<(&'static str, Expr)> {
    rules(
        sequence([call("Title"), star(call("Line")), call("End")]),
        title,
        choice([call("Comment"), call("Entry"), call("Blank")]),
        entry,
        [
            ("Blank", sequence([call("Space"), call("NewLine")])),
            ("End", not(any())),
        ],
    )
}

/// 16 rules; the lines are in one star.
pub fn named_sheet_of_lines() -> Grammar {
    built(rules(
        sequence([call("Title"), star(call("Line")), not(any())]),
        title("Name"),
        choice([call("Comment"), call("Entry"), call("Blank"), call("Other")]),
        entry(None),
        [
            ("Blank", sequence([call("Space"), call("NewLine")])),
            ("Other", sequence([rest_of_line(), call("NewLine")])),
        ],
    ))
}

/// 16 rules; a line that begins with @ is the heading of a day, and each day has its lines in a star.
pub fn named_sheet_of_days() -> Grammar {
    let blank = sequence([call("Space"), call("NewLine")]);
    built(rules(
        sequence([call("Title"), star(call("Day")), not(any())]),
        title("Name"),
        choice([call("Comment"), call("Entry"), blank, call("Other")]),
        entry(None),
        [
            (
                "Day",
                sequence([
                    literal("@"),
                    rest_of_line(),
                    call("NewLine"),
                    star(call("Line")),
                ]),
            ),
            (
                "Other",
                sequence([not(literal("@")), rest_of_line(), call("NewLine")]),
            ),
        ],
    ))
}

/// The same grammars as trees, rules by number.
pub fn sheet() -> expr::Grammar {
    tree_of(&named_sheet())
}

pub fn site_sheet() -> expr::Grammar {
    tree_of(&named_site_sheet())
}

pub fn sheet_of_lines() -> expr::Grammar {
    tree_of(&named_sheet_of_lines())
}

pub fn sheet_of_days() -> expr::Grammar {
    tree_of(&named_sheet_of_days())
}

/// The tree of each rule, read from the image's own bytes.
pub fn tree_of(grammar: &Grammar) -> expr::Grammar {
    read_grammar(grammar.image()).expect("an accepted image passes questions 1 to 5")
}

/// The rules that all have, with those that differ: a sheet, a title, a line, an entry, the sixth and the
/// last.
fn rules(
    sheet: Expr,
    title: Expr,
    line: Expr,
    entry: Expr,
    [sixth, last]: [(&'static str, Expr); 2],
) -> Vec<(&'static str, Expr)> {
    vec![
        ("Sheet", sheet),
        ("Title", title),
        ("Line", line),
        ("Entry", entry),
        (
            "Comment",
            sequence([literal("#"), rest_of_line(), call("NewLine")]),
        ),
        sixth,
        ("Name", sequence([call("Letter"), star(name_byte())])),
        ("Letter", choice([range(b'a', b'z'), range(b'A', b'Z')])),
        ("Digit", range(b'0', b'9')),
        ("Number", plus(call("Digit"))),
        ("Time", time()),
        ("Value", sequence([sign(), call("Number"), fraction()])),
        (
            "Separator",
            sequence([call("Space"), one_of(";,"), call("Space")]),
        ),
        ("Space", star(one_of(" \t"))),
        ("NewLine", choice([literal("\n"), literal("\r\n")])),
        last,
    ]
}

fn built(rules: Vec<(&str, Expr)>) -> Grammar {
    let rules = rules.into_iter();
    let builder = rules.fold(Grammar::builder(), |builder, (name, body)| {
        builder.rule(name, body)
    });
    builder
        .build()
        .expect("the check accepts a sheet's grammar")
}

/// The first line, with a name by this rule.
fn title(name: &str) -> Expr {
    sequence([literal("GAPS"), call("Space"), call(name), call("NewLine")])
}

/// A name, two times and values, and a unit where the grammar has one.
fn entry(unit: Option<Expr>) -> Expr {
    let front = [call("Name"), call("Separator"), two_times(), values()];
    sequence(front.into_iter().chain(unit).chain([call("NewLine")]))
}

fn rest_of_line() -> Expr {
    star(sequence([not(call("NewLine")), any()]))
}

fn two_times() -> Expr {
    sequence([
        call("Time"),
        call("Space"),
        literal("/"),
        call("Space"),
        call("Time"),
    ])
}

fn values() -> Expr {
    star(sequence([
        call("Separator"),
        choice([call("Value"), literal("?")]),
    ]))
}

fn name_byte() -> Expr {
    choice([call("Letter"), call("Digit"), literal("_"), literal(".")])
}

fn time() -> Expr {
    let two_digits = || sequence([call("Digit"), call("Digit")]);
    let colon = || byte(b':');
    sequence([two_digits(), colon(), two_digits(), colon(), two_digits()])
}

fn sign() -> Expr {
    choice([literal("-"), literal("+"), empty()])
}

fn fraction() -> Expr {
    optional(sequence([literal("."), call("Number")]))
}
