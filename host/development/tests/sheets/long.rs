//! The greatest buffers and texts, and the greatest table.

use super::session::Session;
use super::tally::Tally;
use bannelgo_development::calls::Call;
use bannelgo_development::dots::one_by_one;
use bannelgo_development::expr::{byte, not, or_else, star, then, Expr, Grammar};
use bannelgo_development::rng::Rng;
use Expr::{Any, Bytes, Call as Rule, Empty};

const MOST: usize = 65_535;

/// Room for 65,535 bytes: texts of that length, and edits at both ends.
pub fn most_bytes(seed: u64) -> Tally {
    let mut tally = Tally::drawn("cap 65,535", seed);
    let rng = &mut Rng::new(seed);
    for body in bodies() {
        for length in [MOST, MOST - 1, 3] {
            let rules = vec![body.clone(), Bytes(b'a', b'b')];
            let grammar = Grammar { start: 0, rules };
            let text = vec![b'a'; length];
            ends(Session::open(&mut tally, rng, &grammar, MOST, &text));
        }
    }
    for length in [MOST, MOST - 1] {
        let grammar = one_by_one();
        let text: Vec<u8> = "é".bytes().cycle().take(length).collect();
        ends(Session::open(&mut tally, rng, &grammar, MOST, &text));
    }
    most_words(&mut tally, rng);
    tally
}

fn bodies() -> [Expr; 5] {
    let all = || star(Any);
    [
        star(Rule(1)),
        then(star(Rule(1)), not(Any)),
        or_else(then(all(), byte(b'x')), then(Rule(1), Empty)),
        then(Rule(1), star(then(Rule(1), Rule(1)))),
        not(then(star(Rule(1)), Any)),
    ]
}

/// Readings before and after a byte more, less and other at each end.
fn ends(mut session: Session) {
    session.call(Call::Read);
    for (from_end, removed, replacement) in [
        (0, 0, &b"a"[..]),
        (1, 1, b""),
        (1, 1, b"x"),
        (0, 0, b"b"),
        (usize::MAX, 1, b"b"),
        (usize::MAX, 0, b"b"),
        (usize::MAX, 1, b""),
    ] {
        let n = session.ledger.text().len();
        let start = n.saturating_sub(from_end);
        session.edit(start, start + removed, replacement);
        session.call(Call::Read);
        session.call(Call::LookUp {
            rule: 0,
            position: MOST,
        });
    }
    let n = session.ledger.text().len();
    session.edit(1, n, b"");
    session.call(Call::Read);
}

/// 64 rules and 65,536 positions.
fn most_words(tally: &mut Tally, rng: &mut Rng) {
    let mut rules = vec![star(Rule(63))];
    rules.extend((1..63).map(|rule| byte(b'a' + rule % 26)));
    rules.push(then(not(Rule(7)), Bytes(b'a', b'z')));
    let grammar = Grammar { start: 0, rules };
    let mut session = Session::open(tally, rng, &grammar, MOST, &[b'c'; 700]);
    session.call(Call::Read);
    session.edit(300, 301, &[b'd'; 3]);
    session.call(Call::Read);
    session.edit(0, 600, &vec![b'e'; MOST - 102]);
    session.call(Call::LookUp {
        rule: 63,
        position: MOST,
    });
}
