//! Characters of 2 to 4 bytes, bytes that look like one and are none, and texts with both.

use super::letters::{letter, some_letters};
use crate::expr::{byte, Expr, Grammar};
use crate::rng::Rng;

/// The first and the last of 2, of 3 and of 4 bytes, and those beside the surrogates.
const BORDERS: [char; 8] = [
    '\u{80}',
    '\u{7FF}',
    '\u{800}',
    '\u{D7FF}',
    '\u{E000}',
    '\u{FFFF}',
    '\u{10000}',
    '\u{10FFFF}',
];

/// Some that names and sheets have.
const USUAL: [char; 6] = ['é', 'ü', 'Å', '€', '→', '𝄞'];

/// Surrogates, longer forms than needed, what is above the last character, and single bytes.
const UNLAWFUL: [&[u8]; 14] = [
    b"\xED\xA0\x80",
    b"\xED\xBF\xBF",
    b"\xC0\x80",
    b"\xC1\xBF",
    b"\xE0\x80\x80",
    b"\xE0\x9F\xBF",
    b"\xF0\x80\x80\x80",
    b"\xF0\x8F\xBF\xBF",
    b"\xF4\x90\x80\x80",
    b"\xF5\x80\x80\x80",
    b"\xFF",
    b"\xC2",
    b"\x80",
    b"\xBF",
];

/// A character of 2 to 4 bytes.
pub fn character(rng: &mut Rng) -> Vec<u8> {
    let char = match rng.below(3) {
        0 => *rng.pick(&BORDERS),
        1 => *rng.pick(&USUAL),
        _ => {
            let last = *rng.pick(&[0x7FF, 0xFFFF, 0x10_FFFF]);
            let number = rng.between(0x80, last) as u32;
            char::from_u32(number).unwrap_or('\u{FFFD}')
        }
    };
    char.to_string().into_bytes()
}

/// The beginning or the end of a character, or bytes that are unlawful in another way.
pub fn broken_character(rng: &mut Rng) -> Vec<u8> {
    let whole = character(rng);
    let (front, back) = whole.split_at(rng.between(1, whole.len() - 1));
    match rng.below(4) {
        0 | 1 => front.to_vec(),
        2 => back.to_vec(),
        _ => rng.pick(&UNLAWFUL).to_vec(),
    }
}

/// One byte of a character, or one that is in none.
pub fn byte_of_character(rng: &mut Rng) -> u8 {
    let drawn = match rng.below(2) {
        0 => character(rng),
        _ => broken_character(rng),
    };
    *rng.pick(&drawn)
}

/// So many bytes of letters, characters and broken ones; the last may be cut off.
fn some_characters(rng: &mut Rng, bytes: usize) -> Vec<u8> {
    let mut text = vec![];
    while text.len() < bytes {
        match rng.below(4) {
            0 => text.extend(character(rng)),
            1 => text.extend(broken_character(rng)),
            _ => text.push(letter(rng)),
        }
    }
    text.truncate(bytes);
    text
}

/// So many bytes: letters, or in one of three cases other characters too.
pub fn some_text(rng: &mut Rng, bytes: usize) -> Vec<u8> {
    match rng.below(3) {
        0 => some_characters(rng, bytes),
        _ => some_letters(rng, bytes),
    }
}

/// What may lie behind a text: zeros, letters, or bytes that would continue a character.
pub fn some_junk(rng: &mut Rng, bytes: usize) -> Vec<u8> {
    match rng.below(3) {
        0 => vec![0; bytes],
        1 => some_letters(rng, bytes),
        _ => (0..bytes).map(|_| rng.between(0x80, 0xBF) as u8).collect(),
    }
}

/// Makes some ranges of a grammar a byte of a character, or the bytes that can end one.
pub fn to_bytes_of_characters(rng: &mut Rng, grammar: &mut Grammar) {
    grammar.change_leaves(|leaf| {
        if let (Expr::Bytes(..), true) = (&leaf, rng.one_in(3)) {
            *leaf = match rng.below(2) {
                0 => byte(byte_of_character(rng)),
                _ => Expr::Bytes(0x80, 0xBF),
            };
        }
    });
}
