//! Refusals: questions 1 to 11, and lines that are not understood.

use super::*;
use bannelgo_development::samples::{D2, M7, M8, M9};

pub fn refused_calls() -> Vec<Line> {
    let vast = 10_000_000_000_000_000_000;
    vec![
        comment("Question 8: a word too few, a byte too few, a buffer above 65535 bytes."),
        image(&D2),
        Line::Lend { cap: 5, words: 11 },
        open(b"12a"),
        lend(2, 2),
        open(b"12a"),
        Line::Lend {
            cap: 65_536,
            words: 131_072,
        },
        open(b"12a"),
        lend(2, 65_535),
        open(b"12a"),
        read(),
        comment("Questions 9 to 11, 8 before them; a refused call leaves everything."),
        lend(2, 4),
        open(b"123"),
        read(),
        edit(2, 1, ""),
        edit(0, 4, ""),
        edit(0, 4, "too long"),
        edit(vast, vast, "4"),
        edit(3, 3, "45"),
        edit(0, 3, "45678"),
        look(2, 0),
        look(0, 4),
        look(vast, 0),
        look(0, vast),
        lend(2, 2),
        read(),
        edit(2, 1, ""),
        look(2, 0),
        open(b"123"),
        lend(2, 4),
        read(),
        edit(3, 3, "4"),
        read(),
        edit(0, 3, "987"),
        read(),
        look(1, 4),
    ]
}

pub fn refused_images() -> Vec<Line> {
    let mut edition_2 = D2;
    edition_2[0] = 0x20;
    let mut start_2 = D2;
    start_2[3] = 2;
    let own_child = [0x10, 0x10, 0x01, 0, 0, 0, 0x50, 0, 0, 0];
    let twice = [0x10, 0x10, 0x02, 0, 0, 0, 0x30, 0, 0x10, 1, 0x10, 0, 0, 0];
    let mut lines = vec![comment(
        "Images refused with 1, 1, 2, 3, 4, 5, 6, 7 and 7: every call is, and the sheet stays.",
    )];
    let images: [&[u8]; 9] = [
        &D2[..3],
        &edition_2,
        &start_2,
        &D2[..27],
        &own_child,
        &twice,
        &M9,
        &M7,
        &M8,
    ];
    for bytes in images {
        lines.extend([image(bytes), open(b"5"), edit(2, 1, ""), read(), look(9, 9)]);
        lines.push(list(0));
    }
    lines.extend([image(&D2), read(), look(0, 0)]);
    lines
}

pub fn bad_lines() -> Vec<Line> {
    let not_understood = [
        "list",
        "list 1 2",
        "list ten",
        "list -1",
        "list 18446744073709551616",
        "frob",
        " read",
        "read now",
        "Read",
        "open 123",
        "open 12zz",
        "open 31 32",
        "image 1",
        "edit",
        "edit 1",
        "edit one 2 33",
        "edit 1 2 3",
        "edit 0  1",
        "look 0",
        "look 0 0 0",
        "look -1 0",
        "look 0 99999999999999999999",
        "lend 5",
    ];
    let mut lines = vec![comment("Lines that are not understood change nothing.")];
    lines.extend(not_understood.map(|line| Line::Bad(line, "not understood")));
    let too_much = "more than 65536 bytes or 131072 words to lend";
    lines.push(Line::Bad("lend 65537 12", too_much));
    lines.push(Line::Bad("lend 5 131073", too_much));
    let too_many = "more than 65536 row slots to lend";
    lines.push(Line::Bad("list 65537", too_many));
    lines.push(Line::Bad("list 18446744073709551615", too_many));
    lines.extend([read(), look(0, 0)]);
    lines
}
