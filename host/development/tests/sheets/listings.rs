//! Listings at the limits: of nesting, of the number of rows, of the length of a text.

use super::session::Session;
use super::tally::Tally;
use bannelgo_development::calls::Call;
use bannelgo_development::dots::one_by_one;
use bannelgo_development::expr::{byte, not, or_else, star, then, Expr, Grammar};
use bannelgo_development::generate::{brackets_of_nesting, Levels};
use bannelgo_development::rng::Rng;
use Expr::{Any, Bytes, Call as Rule, Empty};

/// Nestings from 4,091 to 4,102: listings of a text that was not read, and after edits of it.
pub fn near_the_limit(seed: u64) -> Tally {
    let mut tally = Tally::drawn("listings, nesting near 4,096", seed);
    let rng = &mut Rng::new(seed);
    for round in 0..240 {
        let (grammar, brackets) = brackets_of_nesting(rng, 4_091 + round % 12);
        let text = vec![b'('; brackets];
        let session = &mut Session::open(&mut tally, rng, &grammar, brackets + 3, &text);
        list_with_all(session);
        let place = *rng.pick(&[0, brackets / 2, brackets]);
        session.edit(place, place, b"(");
        session.list(rng);
        session.edit(place, place + 1, b"");
        session.list(rng);
    }
    tally
}

/// Nestings from 4,093 to 4,098, most of their levels choices or calls; a chain of calls takes the most stack.
pub fn by_choices_and_calls(seed: u64) -> Tally {
    let mut tally = Tally::drawn("listings by choices, calls", seed);
    let rng = &mut Rng::new(seed);
    let choices = [1, 2, 10, 100, 250].map(Levels::of_choices);
    let calls = [1, 2, 20, 62].map(Levels::of_calls);
    for levels in choices.iter().chain(&calls) {
        for nesting in 4_093..4_099 {
            let (grammar, brackets) = levels.with_nesting(nesting);
            let text = vec![b'('; brackets];
            let session = &mut Session::open(&mut tally, rng, &grammar, brackets, &text);
            let fields = session.call(Call::Read);
            assert_eq!(fields.number, if nesting > 4_096 { 14 } else { 0 });
            list_with_all(session);
        }
    }
    tally
}

/// Rule i calls rule i + 1 twice: k rules have 2^k - 1 rows on every text. 64 of them have as many as
/// 64 bits can say.
pub fn doubling(seed: u64) -> Tally {
    let mut tally = Tally::drawn("rows that double", seed);
    let rng = &mut Rng::new(seed);
    for rules in 1..=64 {
        let grammar = doubling_grammar(rules);
        for text in [&b""[..], b"a"] {
            let session = &mut Session::open(&mut tally, rng, &grammar, 1, text);
            list_with_all(session);
            session.call(Call::List { slots: 70_000 });
            session.call(Call::Read);
        }
    }
    tally
}

fn doubling_grammar(rules: usize) -> Grammar {
    let calls = |rule: usize| then(Rule(rule as u8), Rule(rule as u8));
    let bodies = (1..rules).map(calls).chain([Empty]);
    Grammar {
        start: 0,
        rules: bodies.collect(),
    }
}

const MOST: usize = 65_535;

/// Texts of up to 65,535 bytes with a row for each byte, with rows only at the end or nowhere, and with a row for
/// each character.
pub fn long_texts(seed: u64) -> Tally {
    let mut tally = Tally::drawn("listings of long texts", seed);
    let rng = &mut Rng::new(seed);
    for body in bodies() {
        let rules = vec![body, Bytes(b'a', b'b')];
        let grammar = Grammar { start: 0, rules };
        let session = &mut Session::open(&mut tally, rng, &grammar, MOST, &vec![b'a'; MOST]);
        for slots in [0, 1, 2, MOST - 1, MOST, MOST + 1, MOST + 2] {
            session.call(Call::List { slots });
        }
        session.edit(MOST - 1, MOST, b"x");
        session.call(Call::List { slots: MOST });
        session.edit(1, MOST, b"");
        session.list(rng);
    }
    long_text_of_characters(&mut tally, rng);
    tally
}

/// 21,845 characters; then the first is broken, and each of its bytes has a row.
fn long_text_of_characters(tally: &mut Tally, rng: &mut Rng) {
    let grammar = one_by_one();
    let text: Vec<u8> = "€".bytes().cycle().take(MOST).collect();
    let session = &mut Session::open(tally, rng, &grammar, MOST, &text);
    let rows = MOST / 3 + 1;
    for slots in [rows - 1, rows] {
        session.call(Call::List { slots });
    }
    session.edit(1, 2, b"x");
    for slots in [rows + 1, rows + 2] {
        session.call(Call::List { slots });
    }
}

fn bodies() -> [Expr; 6] {
    let all = || star(Any);
    [
        star(Rule(1)),
        then(star(Rule(1)), not(Rule(1))),
        or_else(then(star(Rule(1)), byte(b'x')), then(Rule(1), Rule(1))),
        star(then(Rule(1), Rule(1))),
        then(not(then(all(), byte(b'x'))), star(Rule(1))),
        not(star(Rule(1))),
    ]
}

/// Lists with no slot, one, one less than there are rows, as many, and more; once more after the 15s.
fn list_with_all(session: &mut Session) {
    let fitting = session.fitting_slots();
    for slots in [0, 1, fitting.saturating_sub(1), fitting, fitting + 9] {
        session.call(Call::List { slots });
    }
}
