//! Grammars of a stated number of rules and nodes, texts for them, changes in both, and calls.

mod brackets;
mod calls;
mod change;
mod characters;
mod empties;
mod every;
mod features;
mod fields;
mod folds;
mod guarded;
mod letters;
mod levels;
mod shapes;
mod small;
mod texts;
mod wild;

pub use brackets::brackets_of_nesting;
pub use calls::Typist;
pub use change::change_one_node;
pub use characters::{some_junk, some_text};
pub use empties::add_empty_rules;
pub use every::each_grammar;
pub use features::Feature;
pub use fields::{change_field, set_bits, set_root};
pub use guarded::{guarded, start_with_the_biggest};
pub use letters::{letter, some_letters, to_letters, CASE};
pub use levels::Levels;
pub use shapes::{Shape, SHAPES};
pub use small::small_grammar;
pub use texts::{damage, text_of};
pub use wild::{wild, Taste, TASTES};

use crate::expr::{byte, Expr};
use crate::rng::Rng;
use folds::some_folded;

/// Shares `nodes` among `rules`, at least one for each.
fn shares(rng: &mut Rng, rules: usize, nodes: usize) -> Vec<usize> {
    let mut shares = vec![1; rules];
    // In one of three cases a few rules get all the rest.
    let getting = if rng.one_in(3) { rules.min(3) } else { rules };
    let first = rng.below(rules);
    for _ in rules..nodes {
        shares[(first + rng.below(getting)) % rules] += 1;
    }
    shares
}

/// A byte or a range of bytes, with the fold bit or without it, or any.
fn some_bytes(rng: &mut Rng) -> Expr {
    let (one, other) = (rng.byte(), rng.byte());
    match rng.below(4) {
        0 => byte(one),
        1 => Expr::Bytes(one.min(other), one.max(other)),
        2 => some_folded(rng),
        _ => Expr::Any,
    }
}
