//! The library's functions over slices. Every loan and every number has an answer.

use super::{symbols, Fields};
use std::ops::Range;

/// The number of the first question that the image fails, 0 where it passes all.
pub fn check_image(image: &[u8]) -> u64 {
    // SAFETY: pointer and length are those of one slice, which is lent for the whole call.
    unsafe { symbols::bannelgo_check_image(image.as_ptr(), image.len()) }
}

/// The word of a plain reading, or the number of a refusal.
pub fn plain_reading(image: &[u8], text: &[u8]) -> u64 {
    // SAFETY: each pointer and length are those of one slice, which is lent for the whole call.
    unsafe {
        symbols::bannelgo_plain_reading(image.as_ptr(), image.len(), text.as_ptr(), text.len())
    }
}

/// Opens `text`: it is copied to `buffer`, whose rest becomes 0, and so does the table.
pub fn open(image: &[u8], text: &[u8], buffer: &mut [u8], table: &mut [u64]) -> Fields {
    // SAFETY: each pointer and length are those of one slice, which is lent for the whole call.
    unsafe {
        symbols::bannelgo_open(
            image.as_ptr(),
            image.len(),
            text.as_ptr(),
            text.len(),
            buffer.as_mut_ptr(),
            buffer.len(),
            table.as_mut_ptr(),
            table.len(),
        )
    }
}

/// These bytes of the text, which has `n`, give way to `replacement`.
pub fn edit(
    image: &[u8],
    buffer: &mut [u8],
    n: usize,
    table: &mut [u64],
    bytes: Range<usize>,
    replacement: &[u8],
) -> Fields {
    // SAFETY: each pointer and length are those of one slice, which is lent for the whole call.
    unsafe {
        symbols::bannelgo_edit(
            image.as_ptr(),
            image.len(),
            buffer.as_mut_ptr(),
            buffer.len(),
            n,
            table.as_mut_ptr(),
            table.len(),
            bytes.start,
            bytes.end,
            replacement.as_ptr(),
            replacement.len(),
        )
    }
}

/// Reads the first `n` bytes of `buffer`.
pub fn read(image: &[u8], buffer: &[u8], n: usize, table: &mut [u64]) -> Fields {
    // SAFETY: each pointer and length are those of one slice, which is lent for the whole call.
    unsafe {
        symbols::bannelgo_read(
            image.as_ptr(),
            image.len(),
            buffer.as_ptr(),
            buffer.len(),
            n,
            table.as_mut_ptr(),
            table.len(),
        )
    }
}

/// The word of the slot of a rule and a position.
pub fn look_up(
    image: &[u8],
    buffer: &[u8],
    n: usize,
    table: &[u64],
    rule: usize,
    position: usize,
) -> Fields {
    // SAFETY: each pointer and length are those of one slice, which is lent for the whole call.
    unsafe {
        symbols::bannelgo_look_up(
            image.as_ptr(),
            image.len(),
            buffer.as_ptr(),
            buffer.len(),
            n,
            table.as_ptr(),
            table.len(),
            rule,
            position,
        )
    }
}

/// Reads the first `n` bytes of `buffer` and writes the rows to `rows`, each a word.
pub fn list(image: &[u8], buffer: &[u8], n: usize, table: &mut [u64], rows: &mut [u64]) -> Fields {
    // SAFETY: each pointer and length are those of one slice, which is lent for the whole call.
    unsafe {
        symbols::bannelgo_list(
            image.as_ptr(),
            image.len(),
            buffer.as_ptr(),
            buffer.len(),
            n,
            table.as_mut_ptr(),
            table.len(),
            rows.as_mut_ptr(),
            rows.len(),
        )
    }
}
