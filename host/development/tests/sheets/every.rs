//! Every small grammar with every short text over two letters and every short edit of it.

use super::session::Session;
use super::tally::Tally;
use bannelgo_development::calls::Call;
use bannelgo_development::expr::{Expr, Grammar};
use bannelgo_development::generate::each_grammar;
use bannelgo_development::numbering::{image_of, Numbering};
use bannelgo_development::reference;
use bannelgo_development::rng::Rng;

/// The leaves besides calls.
const LEAVES: [Expr; 3] = [Expr::Empty, Expr::Any, Expr::Bytes(b'a', b'a')];

const TEXTS: [&[u8]; 7] = [b"", b"a", b"b", b"aa", b"ab", b"ba", b"bb"];

const REPLACEMENTS: [&[u8]; 4] = [b"", b"a", b"b", b"ab"];

/// Gives `visit` each accepted grammar of two rules with at most 4 nodes together, over these leaves and calls, and
/// each text with it.
pub fn each_pair(leaves: &[Expr], texts: &[&[u8]], mut visit: impl FnMut(&Grammar, &[u8])) {
    each_grammar(2, 4, leaves, &mut |grammar| {
        let image = image_of(grammar, Numbering::Preorder);
        if reference::check(&image) == 0 {
            for text in texts {
                visit(grammar, text);
            }
        }
    });
}

/// A reading, an edit, a reading or a listing.
pub fn edits(seed: u64) -> Tally {
    let mut tally = Tally::drawn("all of 2 rules, 4 nodes", seed);
    let rng = &mut Rng::new(seed);
    each_pair(&LEAVES, &TEXTS, |grammar, text| {
        edits_of(&mut tally, rng, grammar, text);
    });
    tally
}

fn edits_of(tally: &mut Tally, rng: &mut Rng, grammar: &Grammar, text: &[u8]) {
    let n = text.len();
    for start in 0..=n {
        for end in start..=n {
            for replacement in REPLACEMENTS {
                let mut session = Session::open(tally, rng, grammar, n + 1, text);
                session.call(Call::Read);
                session.edit(start, end, replacement);
                match rng.one_in(2) {
                    true => drop(session.call(Call::Read)),
                    false => session.list(rng),
                }
            }
        }
    }
}
