//! Listings: M6, refusals, which calls give rows, and many rows.

use super::*;
use bannelgo_development::expr::{byte, not, or_else, sequence, star, then, Expr};
use bannelgo_development::gap_sheet::sheet;
use bannelgo_development::gap_text::PLANNERS_SHEET;
use bannelgo_development::samples::{D2, M10};
use Expr::{Any, Call as Rule, Empty};

pub fn digits() -> Vec<Line> {
    vec![
        comment("M6: 3 rows; 2 slots give 15, and the records of the reading are kept."),
        image(&D2),
        lend(2, 5),
        open(b"12"),
        list(2),
        read(),
        list(3),
        list(0),
        list(1),
        list(100),
        comment("Listings after edits count evaluations as readings do."),
        open(b"12a"),
        list(3),
        edit(2, 3, ""),
        list(3),
        edit(0, 0, "7"),
        list(3),
        list(4),
        read(),
        comment("No match: 0 rows fit in 0 slots."),
        edit(0, 0, "x"),
        list(0),
        list(2),
        open(b""),
        list(0),
    ]
}

pub fn refused() -> Vec<Line> {
    vec![
        comment(
            "A listing over an image or a loan that is refused, also where the rows do not fit.",
        ),
        open(b"12"),
        image(&D2[..27]),
        list(3),
        list(0),
        image(&D2),
        lend(2, 1),
        list(3),
        Line::Lend { cap: 5, words: 11 },
        list(0),
        lend(2, 5),
        list(3),
        comment("1364 brackets have 1365 rows; 1365 brackets give 14, whatever the slots."),
        image(&M10),
        lend(1, 2_000),
        open(&[b'('; 1_364]),
        list(1_364),
        list(1_365),
        edit(0, 0, "("),
        list(0),
        list(2_000),
        edit(3, 1_365, ""),
        list(4),
        list(3),
    ]
}

/// Calls under a not, in a failed choice and in a failed round give no row.
pub fn rows_of_calls() -> Vec<Line> {
    let rules = |body: Expr| vec![body, byte(b'a'), byte(b'b'), then(Rule(1), Rule(2)), Empty];
    let bodies = [
        or_else(Rule(3), then(Rule(1), Rule(1))),
        star(then(Rule(1), Rule(2))),
        sequence([not(Rule(2)), not(not(Rule(1))), Any, Rule(2)]),
        or_else(then(Rule(1), not(Rule(2))), then(Rule(3), Rule(4))),
        then(Rule(1), not(Rule(2))),
    ];
    let mut lines = vec![comment("Which calls give rows.")];
    for body in bodies {
        let rules = rules(body);
        lines.extend(session(&Grammar { start: 0, rules }, 4, b"ab"));
        lines.extend([list(9), edit(1, 2, "a"), list(9)]);
        lines.extend([edit(1, 2, "ba"), list(9), list(1)]);
    }
    lines
}

pub fn many() -> Vec<Line> {
    let mut lines = vec![comment(
        "64 rules that each call the next twice: 2^64 - 1 rows.",
    )];
    lines.extend(session(&doubling(64), 1, b""));
    lines.extend([list(0), list(1), list(64), list(65_536), read()]);
    lines.push(comment("6 of them: 63 rows."));
    lines.extend(session(&doubling(6), 1, b"x"));
    lines.extend([list(62), list(63), list(64)]);
    lines.push(comment("The rows of a planner's sheet."));
    lines.extend(session(&sheet(), 500, PLANNERS_SHEET.as_bytes()));
    lines.extend([list(191), list(192), edit(94, 95, ""), list(500)]);
    lines
}

fn doubling(rules: u8) -> Grammar {
    let twice = |rule| then(Rule(rule), Rule(rule));
    let rules = (1..rules).map(twice).chain([Empty]).collect();
    Grammar { start: 0, rules }
}
