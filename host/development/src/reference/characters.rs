//! What any, kind 1, does at a position: "one character as RFC 3629 defines it, of 1 to 4 bytes".
//!
//! Which bytes are a character, and which can be continued to one, is asked of Rust's own `from_utf8`.

use std::str::from_utf8;

/// What any did.
#[derive(Clone, Copy, Debug, PartialEq, Eq)]
pub struct Looked {
    /// The length of the match; nothing where it failed.
    pub length: Option<usize>,
    /// How many bytes were looked at, the end counted as one.
    pub examined: usize,
}

impl Looked {
    /// There is no byte.
    pub const FAILED: Looked = Looked {
        length: None,
        examined: 1,
    };

    /// So many bytes are a character.
    pub fn character(bytes: usize) -> Looked {
        Looked {
            length: Some(bytes),
            examined: bytes,
        }
    }

    /// "A byte that begins no lawful character matches alone, with length 1."
    pub fn alone(examined: usize) -> Looked {
        Looked {
            length: Some(1),
            examined,
        }
    }
}

/// Any at a position, which is at most the text's length. "At the end it fails with examined 1."
#[inline]
pub fn any_at(text: &[u8], at: usize) -> Looked {
    match text.get(at) {
        None => Looked::FAILED,
        Some(byte) if byte.is_ascii() => Looked::character(1),
        Some(_) => any_of(&text[at..]),
    }
}

/// "Bytes are looked at from the first until the character is complete or one, or the end, can't
/// continue it; examined counts these."
fn any_of(rest: &[u8]) -> Looked {
    for examined in 1..=rest.len() {
        match from_utf8(&rest[..examined]) {
            Ok(_) => return Looked::character(examined),
            Err(error) if error.error_len().is_some() => return Looked::alone(examined),
            // No length: the bytes end inside a character.
            Err(_) => {}
        }
    }
    Looked::alone(rest.len() + 1)
}

/// Whether a character of the text begins before a place and ends behind it.
pub fn inside_character(text: &[u8], place: usize) -> bool {
    let around = |back: usize| any_at(text, place - back).length > Some(back);
    (1..=place.min(3)).any(around)
}
