//! What stands for an answer of the ledger: fields and the words of rows. Also numbers of row slots.

use bannelgo::raw::Fields;
use bannelgo_development::calls::Answer;
use bannelgo_development::reference::rows::word;
use bannelgo_development::reference::Number;
use bannelgo_development::rng::Rng;

/// More row slots than the lists lend, except where a text has more rows just by its length.
pub const MOST_SLOTS: usize = 5_000;

/// The fields that stand for the ledger's answer or number.
pub fn fields_of(answer: &Result<Answer, Number>) -> Fields {
    match answer {
        Ok(answer) => answer.fields(),
        Err(number) => Fields::of_number(*number),
    }
}

/// The words of an answered listing's rows; none for any other answer.
pub fn row_words(answer: &Result<Answer, Number>) -> Vec<u64> {
    match answer {
        Ok(Answer::Listing(listing)) => listing.rows.iter().map(word).collect(),
        _ => vec![],
    }
}

/// As many slots as there are rows, one less, more, or few.
pub fn some_slots(rng: &mut Rng, fitting: usize) -> usize {
    let one_less = fitting.saturating_sub(1);
    let few = rng.below(fitting + 1);
    let plenty = fitting + rng.between(1, 9);
    *rng.pick(&[0, 1, few, one_less, one_less, fitting, fitting, plenty])
}
