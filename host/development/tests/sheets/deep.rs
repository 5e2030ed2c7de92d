//! Lists whose readings are at, above and below the greatest nesting.

use super::session::Session;
use super::tally::Tally;
use bannelgo_development::calls::Call;
use bannelgo_development::generate::brackets_of_nesting;
use bannelgo_development::rng::Rng;

/// Brackets come and go at the start, the middle and the end, so that the nesting crosses 4,096.
pub fn near_the_limit(seed: u64) -> Tally {
    let mut tally = Tally::drawn("nesting near 4,096", seed);
    let rng = &mut Rng::new(seed);
    for round in 0..300 {
        let (grammar, brackets) = brackets_of_nesting(rng, 4_091 + round % 12);
        let mut text = vec![b'('; brackets];
        let after: [&[u8]; 4] = [b"", b"z", b")", b")))zz"];
        text.extend(*rng.pick(&after));
        let cap = text.len() + 5;
        let session = &mut Session::open(&mut tally, rng, &grammar, cap, &text);
        session.call(Call::Read);
        for _ in 0..6 {
            change(rng, session);
            session.call(Call::Read);
        }
    }
    tally
}

/// A few brackets more or less, somewhere.
fn change(rng: &mut Rng, session: &mut Session) {
    let n = session.ledger.text().len();
    let start = *rng.pick(&[0, 1, n / 2, n - 7, n - 1, n]);
    let end = start + rng.below(3).min(n - start);
    let replacement = match rng.below(6) {
        0..=2 => vec![b'('; rng.below(4)],
        3 => b"z".to_vec(),
        4 => session.ledger.text()[start..end].to_vec(),
        _ => vec![],
    };
    session.edit(start, end, &replacement);
    let position = rng.below(n + 1);
    session.call(Call::LookUp { rule: 1, position });
}
