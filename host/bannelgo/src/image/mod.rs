//! The image check, and what is wrong with an image that it refuses.

mod fault;
mod outcomes;
mod ring;
mod words;

pub use fault::Fault;
pub(crate) use fault::{ring_in_words, star_in_words};
pub(crate) use words::Header;

use crate::raw;
use crate::refusal::Refusal;

/// Checks an image: whether it is that of a lawful, well-formed grammar. Every byte string has an
/// answer; a refusal is one of 1 to 7.
///
/// ```
/// let refusal = bannelgo::check_image(&[0x20, 0, 0, 0]).unwrap_err();
/// assert_eq!(refusal.number(), Some(1));
/// assert_eq!(refusal.to_string(), "the image is of edition 2 and not of edition 1");
/// ```
pub fn check_image(image: &[u8]) -> Result<(), Refusal> {
    match raw::check_image(image) {
        0 => Ok(()),
        number @ 1..=7 => Err(refused_image(number as u8, image)),
        word => Err(Refusal::Unknown(vec![word])),
    }
}

/// The refusal of an image that got a number from 1 to 7.
pub(crate) fn refused_image(number: u8, image: &[u8]) -> Refusal {
    let fault = Fault::found(number, image);
    Refusal::Image { number, fault }
}
