//! What refusals say.

use super::{LoanFault, Refusal};
use crate::image::{ring_in_words, star_in_words};
use crate::MOST_BYTES;
use std::fmt;

/// A number of things in words.
pub(crate) fn counted(number: usize, thing: &str) -> String {
    match number {
        1 => format!("1 {thing}"),
        _ => format!("{} {thing}s", grouped(number)),
    }
}

/// A count with commas, as the limits are written. A position has none, nor has the number of a rule or a
/// node.
pub(crate) fn grouped(count: usize) -> String {
    match count {
        0..=999 => count.to_string(),
        _ => format!("{},{:03}", grouped(count / 1_000), count % 1_000),
    }
}

impl fmt::Display for Refusal {
    fn fmt(&self, out: &mut fmt::Formatter<'_>) -> fmt::Result {
        match self {
            Refusal::Image { number, fault } => match fault {
                Some(fault) => write!(out, "{fault}"),
                None => out.write_str(&image_in_words(*number)),
            },
            Refusal::Loan(fault) => write!(out, "{fault}"),
            Refusal::EditRange { start, end, length } => {
                out.write_str(&range_in_words(*start, *end, *length))
            }
            Refusal::EditRoom {
                removed,
                inserted,
                length,
                cap,
            } => {
                let after = length.saturating_sub(*removed).saturating_add(*inserted);
                let (bytes, cap) = (counted(after, "byte"), grouped(*cap));
                write!(
                    out,
                    "the text would have {bytes}, and there is room for {cap}"
                )
            }
            Refusal::Pair { rule, rules, .. } if rule >= rules => {
                let rules = counted(*rules, "rule");
                write!(out, "there is no rule {rule}: the grammar has {rules}")
            }
            Refusal::Pair {
                position, length, ..
            } => {
                let bytes = counted(*length, "byte");
                write!(out, "there is no position {position}: the text has {bytes}")
            }
            Refusal::Records => out.write_str(RECORDS),
            Refusal::Nesting => out.write_str(NESTING),
            Refusal::Rows { slots } => {
                write!(out, "the match has more than {}", counted(*slots, "row"))
            }
            Refusal::Unknown(words) => write!(out, "{UNKNOWN}: it answered {words:x?}"),
        }
    }
}

const RECORDS: &str = "the lent table held a word that no reading of this text leaves there";
const NESTING: &str = "the text nests too deep: more than 4,096 evaluations inside each other";
const UNKNOWN: &str = "the linked library is not the proved one";

/// What an image with this number is, where nothing nearer is known.
fn image_in_words(number: u8) -> String {
    match number {
        1 => "the image is not of edition 1".to_string(),
        2 => "the image's counts are out of their limits".to_string(),
        3 => "the image's length is not the one that its header asks for".to_string(),
        4 => "a word of the image is not lawful".to_string(),
        5 => "a node of the image is not just once a root or a child".to_string(),
        6 => star_in_words("a rule"),
        _ => ring_in_words(&[]),
    }
}

fn range_in_words(start: usize, end: usize, length: usize) -> String {
    let text = format!("the text, which has {}", counted(length, "byte"));
    if start > length {
        format!("the edit starts at byte {start}, behind {text}")
    } else if end > length {
        format!("the edit of bytes {start} to {end} ends behind {text}")
    } else {
        format!("the edit ends at byte {end}, before its start at byte {start}")
    }
}

impl fmt::Display for LoanFault {
    fn fmt(&self, out: &mut fmt::Formatter<'_>) -> fmt::Result {
        match self {
            LoanFault::Cap { cap } => {
                let bytes = counted(*cap, "byte");
                write!(
                    out,
                    "there is room for {bytes} of text, and at most 65,535 are allowed"
                )
            }
            LoanFault::Text { length, most } => {
                let (bytes, room) = (counted(*length, "byte"), grouped(*most));
                match *most {
                    MOST_BYTES => {
                        write!(out, "the text has {bytes}, and at most {room} are allowed")
                    }
                    _ => write!(out, "the text has {bytes}, and there is room for {room}"),
                }
            }
            LoanFault::Table { words, needed } => {
                let (words, needed) = (counted(*words, "word"), grouped(*needed));
                write!(out, "the table has {words}, and {needed} are needed")
            }
        }
    }
}
