//! Why a call has no answer.

mod words;

pub(crate) use words::{counted, grouped};

use crate::image::Fault;
use crate::raw::Unanswered;

/// Why a call has no answer. Each has a number, which the C header and the README list too.
///
/// ```
/// # use bannelgo::grammar::{call, plus, range, Grammar};
/// # let grammar = Grammar::builder()
/// #     .rule("Number", plus(call("Digit")))
/// #     .rule("Digit", range(b'0', b'9'))
/// #     .build()?;
/// use bannelgo::{Refusal, Sheet};
///
/// let mut sheet = Sheet::open(&grammar, "123", 4)?;
/// match sheet.edit(3..3, "45") {
///     Err(Refusal::EditRoom { cap, .. }) => assert_eq!(cap, 4),
///     other => panic!("there is room for 4 bytes, and the answer is {other:?}"),
/// }
/// let refusal = sheet.edit(3..5, "").unwrap_err();
/// assert_eq!(refusal.number(), Some(9));
/// assert_eq!(
///     refusal.to_string(),
///     "the edit of bytes 3 to 5 ends behind the text, which has 3 bytes"
/// );
/// # Ok::<(), Box<dyn std::error::Error>>(())
/// ```
#[derive(Clone, Debug, PartialEq, Eq)]
#[non_exhaustive]
pub enum Refusal {
    /// 1 to 7: the image is not that of a lawful, well-formed grammar.
    Image {
        /// The number that the proved check gave.
        number: u8,
        /// Where the image is wrong, looked for after the check.
        fault: Option<Fault>,
    },
    /// 8: what is lent is too long or too short.
    Loan(LoanFault),
    /// 9: the edit's bytes are not in the text.
    EditRange {
        /// The edit's first byte.
        start: usize,
        /// The byte after the edit's last one.
        end: usize,
        /// The text's length.
        length: usize,
    },
    /// 10: the text would be longer than its room.
    EditRoom {
        /// The bytes that the edit takes out.
        removed: usize,
        /// The bytes that it puts in.
        inserted: usize,
        /// The text's length.
        length: usize,
        /// The room for the text.
        cap: usize,
    },
    /// 11: the grammar has no such rule, or the text no such position.
    Pair {
        /// The rule that was asked for.
        rule: usize,
        /// The position that was asked for.
        position: usize,
        /// The grammar's rules.
        rules: usize,
        /// The text's length, which is its last position.
        length: usize,
    },
    /// 12: the lent table holds a word that no reading leaves there. The table is all 0 afterwards.
    Records,
    /// 14: more than 4,096 evaluations lie inside each other. The table is all 0 afterwards.
    Nesting,
    /// 15: there are more rows than slots. The records of the reading are kept.
    Rows {
        /// The slots that were there.
        slots: usize,
    },
    /// No answer of the proved library: another one is linked. These are its words.
    Unknown(Vec<u64>),
}

/// Which condition of number 8 a loan fails.
#[derive(Clone, Copy, Debug, PartialEq, Eq)]
#[non_exhaustive]
pub enum LoanFault {
    /// The room for text is above 65,535 bytes.
    Cap {
        /// The room in bytes.
        cap: usize,
    },
    /// The text is longer than its room, or than the 65,535 bytes of a plain reading.
    Text {
        /// The text's length.
        length: usize,
        /// The most that it could have.
        most: usize,
    },
    /// The table has fewer words than rules × (cap + 1).
    Table {
        /// The words that are lent.
        words: usize,
        /// The words that are needed.
        needed: usize,
    },
}

impl Refusal {
    /// The number of the first question that the call fails; nothing for [`Refusal::Unknown`].
    pub fn number(&self) -> Option<u8> {
        match self {
            Refusal::Image { number, .. } => Some(*number),
            Refusal::Loan(_) => Some(8),
            Refusal::EditRange { .. } => Some(9),
            Refusal::EditRoom { .. } => Some(10),
            Refusal::Pair { .. } => Some(11),
            Refusal::Records => Some(12),
            Refusal::Nesting => Some(14),
            Refusal::Rows { .. } => Some(15),
            Refusal::Unknown(_) => None,
        }
    }

    pub(crate) fn unknown(unanswered: Unanswered) -> Refusal {
        Refusal::Unknown(match unanswered {
            Unanswered::Number(number) => vec![u64::from(number)],
            Unanswered::Unknown(words) => words,
        })
    }
}

impl std::error::Error for Refusal {}
