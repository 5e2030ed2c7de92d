//! Letters in either case: ranges with the fold bit.

use super::*;
use bannelgo_development::expr::{byte, sequence, star, Expr};
use bannelgo_development::samples::D2;
use Expr::{Bytes, Call as Rule, Folded};

/// Rule 0 = rule 1, rule 1 zero or more times, a space, rule 2; rule 1 is a digit, rule 2 "KWH" in either case.
pub fn unit() -> Vec<Line> {
    let either = |letter: u8| Folded(letter, letter);
    let line = sequence([Rule(1), star(Rule(1)), byte(b' '), Rule(2)]);
    let unit = sequence([either(b'K'), either(b'W'), either(b'H')]);
    let rules = vec![line, Bytes(b'0', b'9'), unit];
    let mut lines = vec![comment("KWH in either case: keys that change one letter.")];
    lines.extend(session(&Grammar { start: 0, rules }, 8, b"12 KWH"));
    lines.extend([read(), look(2, 3), list(4)]);
    lines.extend([edit(3, 4, "k"), read(), edit(4, 5, "w"), list(4)]);
    lines.extend([edit(5, 6, "h"), read(), look(2, 3), list(3), list(4)]);
    lines.push(comment("Refused edits between such keys."));
    lines.extend([edit(4, 5, "W"), edit(5, 4, "H"), edit(6, 7, "H"), read()]);
    lines.extend([edit(3, 3, "kWh"), edit(5, 6, "H"), edit(3, 6, "kwhkwh")]);
    lines.extend([list(4), look(3, 3), look(2, 7), look(2, 3)]);
    lines.push(comment("Other letters, the end, and KWH again."));
    lines.extend([edit(4, 5, "v"), read(), edit(4, 5, "V"), list(0)]);
    lines.extend([edit(4, 5, "w"), edit(5, 6, ""), read(), look(2, 3)]);
    lines.extend([edit(5, 5, "H"), read(), list(4)]);
    lines
}

/// Rule 0 = rule 1 zero or more times; rule 1 = 'Z' to 'a' in either case.
pub fn from_capital_z_to_small_a() -> Vec<Line> {
    let rules = vec![star(Rule(1)), Folded(b'Z', b'a')];
    let mut lines = vec![comment(
        "'Z' to 'a' in either case: [ matches and { does not.",
    )];
    lines.extend(session(&Grammar { start: 0, rules }, 9, b"Z[\\]^_`a"));
    lines.extend([read(), list(9), edit(0, 1, "z"), read()]);
    lines.extend([edit(7, 8, "A"), list(9), edit(1, 2, "{"), list(2)]);
    lines.extend([edit(1, 2, "Y"), read(), edit(1, 2, "y"), read()]);
    lines.extend([edit(1, 2, "@"), read(), edit(1, 2, "`"), list(9)]);
    lines.extend([edit(8, 8, "B"), read(), edit(8, 9, "b"), read()]);
    lines
}

/// D2 with bits behind a kind set: refused are the lowest in nodes 0 to 3, and in node 4 the second lowest, alone
/// and beside the lowest. The lowest alone in node 4, which is a range, is the fold bit.
pub fn refused_images() -> Vec<Line> {
    let with = |place: usize, first: u8| {
        let mut image = D2;
        image[place] = first;
        image
    };
    let nodes = [(8, 0x31), (12, 0x71), (16, 0x51), (20, 0x71)];
    let refused = nodes.into_iter().chain([(24, 0x22), (24, 0x23)]);
    let mut lines = vec![comment("The fold bit of digits, which have no other case.")];
    let digits = with(24, 0x21);
    lines.extend([image(&digits), lend(2, 5), open(b"12a"), read(), look(0, 0)]);
    lines.push(comment(
        "Refused with 4: the fold bit outside kind 2, and another bit in kind 2.",
    ));
    for (place, first) in refused {
        lines.extend([image(&with(place, first)), open(b"5"), edit(2, 3, "3")]);
        lines.extend([read(), look(0, 0), list(9)]);
    }
    lines.extend([image(&digits), read(), edit(2, 3, "3"), list(4)]);
    lines
}
