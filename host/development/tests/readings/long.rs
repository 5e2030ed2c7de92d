//! Texts at and above the greatest length.

use super::subject::Subject;
use super::tally::Tally;
use bannelgo_development::expr::{byte, not, or_else, star, then, Expr, Grammar};
use bannelgo_development::gap_sheet::sheet;
use bannelgo_development::gap_text::long_sheet;
use bannelgo_development::numbering::{image_of, Numbering};
use Expr::{Any, Bytes, Call, Empty};

const LENGTHS: [usize; 9] = [
    65_533, 65_534, 65_535, 65_536, 65_537, 65_600, 70_000, 131_071, 131_072,
];

/// Each body with texts of each length.
pub fn lengths() -> Tally {
    let mut tally = Tally::listed("65,533 to 131,072 bytes").up_to(1_000_000);
    let subjects: Vec<Subject> = bodies().map(with_letter_rule).into();
    for length in LENGTHS {
        for text in texts(length) {
            for subject in &subjects {
                tally.compare(subject, &text);
            }
        }
        let subject = Subject::new(image_of(&sheet(), Numbering::Preorder));
        tally.compare(&subject, &long_sheet(length));
    }
    tally
}

/// Rule 0 is the body, rule 1 a letter.
fn with_letter_rule(body: Expr) -> Subject {
    let rules = vec![body, Bytes(b'a', b'b')];
    Subject::of(&Grammar { start: 0, rules }, Numbering::Preorder)
}

fn texts(length: usize) -> [Vec<u8>; 4] {
    let same = vec![b'a'; length];
    let mut last_differs = same.clone();
    last_differs[length - 1] = b'x';
    let in_turn = (0..length).map(|place| b"ab"[place % 2]).collect();
    // Characters of 1 to 4 bytes; at most lengths the last is cut off.
    let characters = "aé€𝄞".bytes().cycle().take(length).collect();
    [same, last_differs, in_turn, characters]
}

fn bodies() -> [Expr; 12] {
    let all = || star(Any);
    [
        Empty,
        Any,
        all(),
        then(all(), not(Any)),
        not(all()),
        not(not(then(all(), not(Any)))),
        or_else(then(all(), byte(b'x')), Any),
        star(byte(b'a')),
        then(Call(1), star(Call(1))),
        then(star(Call(1)), byte(b'x')),
        star(then(byte(b'a'), star(byte(b'b')))),
        then(Any, star(then(Any, Any))),
    ]
}
