//! Words of every sort for tables that no session would leave.

use bannelgo_development::expr::Grammar;
use bannelgo_development::reference::machine::evaluate_pair;
use bannelgo_development::reference::pair_map::PairMap;
use bannelgo_development::reference::record::{true_word, Fields};
use bannelgo_development::rng::Rng;

/// A table for a text and so many positions; how its words are drawn is drawn first.
pub fn any_table(rng: &mut Rng, grammar: &Grammar, text: &[u8], cap: usize) -> Vec<u64> {
    let taste = *rng.pick(&TASTES);
    let kept = &mut PairMap::default();
    let mut table = vec![];
    for position in 0..=cap {
        for rule in 0..grammar.rules.len() {
            let n = text.len();
            let mut truth = || match position <= n {
                true => {
                    let found = evaluate_pair(grammar, text, kept, (rule as u8, position));
                    true_word(&found, position)
                }
                false => 0,
            };
            table.push(match taste[rng.below(taste.len())] {
                Sort::Empty => 0,
                Sort::True => truth(),
                Sort::NearlyTrue => truth() ^ 1 << rng.below(64),
                Sort::NotHeld => rng.draw() >> rng.between(1, 63),
                Sort::Possible => possible(rng, position, n),
                Sort::NearALimit => near_a_limit(rng, position, n),
                Sort::Any => rng.draw(),
            });
        }
    }
    table
}

#[derive(Clone, Copy)]
enum Sort {
    Empty,
    True,
    NearlyTrue,
    NotHeld,
    Possible,
    NearALimit,
    Any,
}

use Sort::{Any, Empty, NearALimit, NearlyTrue, NotHeld, Possible, True};

/// In each list every sort is drawn as often as it stands there.
const TASTES: [&[Sort]; 9] = [
    &[Empty, Empty, Empty, Possible],
    &[Empty, NotHeld],
    &[Possible],
    &[Empty, True],
    &[True, True, True, NearlyTrue, NotHeld],
    &[Empty, Empty, Empty, Empty, Empty, Empty, NearALimit],
    &[Possible, Possible, Possible, Possible, NearALimit],
    &[Empty, True, NearlyTrue, NotHeld, Possible, NearALimit, Any],
    &[Any, NotHeld],
];

/// A word that question 12 lets pass at this position, as far as there is one.
fn possible(rng: &mut Rng, position: usize, n: usize) -> u64 {
    let rest = n.saturating_sub(position);
    let matched = rng.one_in(2);
    let length = if matched { rng.below(rest + 1) } else { 0 };
    let examined = rng.between(length, rest + 1);
    Fields {
        held: true,
        matched,
        zero: 0,
        nesting: some_nesting(rng),
        examined,
        length,
    }
    .word()
}

/// Most of them small, some at the greatest.
fn some_nesting(rng: &mut Rng) -> usize {
    match rng.below(8) {
        0 => 4_096 - rng.below(6),
        _ => rng.between(1, 6),
    }
}

/// A held word with each field at or beside a limit.
fn near_a_limit(rng: &mut Rng, position: usize, n: usize) -> u64 {
    let rest = n.saturating_sub(position);
    let matched = rng.one_in(2);
    let small = rng.below(rest + 1);
    let lengths = [0, 0, 1, small, rest, rest, rest + 1, 65_535];
    let length = *rng.pick(&lengths);
    let examined = match rng.below(8) {
        0 => length.saturating_sub(1),
        1 | 2 => length,
        3 | 4 => rest + 1,
        5 => rest + 2,
        6 => rest,
        _ => *rng.pick(&[0, 65_535, 65_536, 65_537, 131_071]),
    };
    let nestings = [0, 1, 1, 2, 3, 4_095, 4_096, 4_096, 4_097, 8_191];
    let spare = if rng.one_in(8) { 1 << rng.below(16) } else { 0 };
    Fields {
        held: true,
        matched,
        zero: spare,
        nesting: *rng.pick(&nestings),
        examined,
        length,
    }
    .word()
}
