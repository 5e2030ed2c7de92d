//! A plain reading: the start rule's evaluation at a text's first byte, without records.

use crate::image::refused_image;
use crate::raw::{self, Unanswered};
use crate::reading::Reading;
use crate::refusal::{LoanFault, Refusal};
use crate::MOST_BYTES;

/// Reads `text` by the grammar in `image`. Every two byte strings have an answer; a refusal is one of
/// 1 to 8, or 14.
///
/// A thread's stack of 2 MiB is enough for it, also where the nesting comes near 4,096. Without records
/// some grammars take a time that grows exponentially with the text; a [`Sheet`](crate::Sheet) evaluates
/// each rule at most once at each position.
///
/// ```
/// use bannelgo::grammar::{literal, Grammar};
///
/// let grammar = Grammar::builder().rule("Red", literal("red")).build()?;
/// let reading = bannelgo::plain_reading(grammar.image(), b"redder")?;
/// assert_eq!(reading.to_string(), "part, length 3, examined 3, nesting 3");
/// # Ok::<(), Box<dyn std::error::Error>>(())
/// ```
pub fn plain_reading(image: &[u8], text: &[u8]) -> Result<Reading, Refusal> {
    let word = raw::plain_reading(image, text);
    Reading::from_word(word, text.len()).map_err(|unanswered| match unanswered {
        Unanswered::Number(number @ 1..=7) => refused_image(number, image),
        Unanswered::Number(8) => Refusal::Loan(LoanFault::Text {
            length: text.len(),
            most: MOST_BYTES,
        }),
        Unanswered::Number(14) => Refusal::Nesting,
        other => Refusal::unknown(other),
    })
}
