//! The paper's digits: the marked cases M1 to M5 and the edits that tempt.

use super::*;
use bannelgo_development::expr::{then, Expr};
use bannelgo_development::samples::D2;

pub fn before_anything() -> Vec<Line> {
    vec![
        comment("Nothing is lent yet: the image has no bytes."),
        read(),
        open(b"12a"),
        edit(0, 0, "1"),
        look(0, 0),
        list(5),
        comment("D2 over no buffer, then over one that nothing was opened in."),
        image(&D2),
        read(),
        list(5),
        lend(2, 5),
        read(),
        look(0, 0),
        edit(0, 0, "1"),
        read(),
    ]
}

pub fn digits() -> Vec<Line> {
    vec![
        comment("D2, digits: M1 to M3."),
        open(b"12a"),
        read(),
        look(0, 0),
        look(1, 0),
        look(1, 1),
        look(1, 2),
        look(0, 1),
        edit(2, 3, ""),
        read(),
        edit(0, 0, "7"),
        read(),
        look(0, 0),
        comment("M4: an empty edit."),
        open(b"12a"),
        read(),
        edit(2, 2, ""),
        read(),
        read(),
        comment("M5: no text."),
        open(b""),
        read(),
        look(0, 0),
        look(1, 0),
    ]
}

pub fn tempting() -> Vec<Line> {
    let empty_then_byte = Grammar {
        start: 0,
        rules: vec![then(Expr::Call(1), Expr::Any), Expr::Empty],
    };
    let mut lines = vec![
        comment("M1, then (2, 3, \"3\"): whole."),
        open(b"12a"),
        read(),
        edit(2, 3, "3"),
        read(),
        comment("The end is examined: a digit typed there is read."),
        edit(3, 3, "4"),
        read(),
        edit(1, 3, "x"),
        read(),
        comment("A record of examined 0 stays at the edit's start and also moves."),
    ];
    lines.extend(session(&empty_then_byte, 2, b"a"));
    lines.extend([read(), edit(0, 0, "b"), look(1, 0), look(1, 1), read()]);
    lines
}
