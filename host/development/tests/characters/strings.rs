//! Byte strings: all of up to 3 bytes, and of 4 bytes those in which the last two are at borders.
//!
//! Behind each string lie two bytes that would continue a character. They are not lent.

use std::ops::RangeInclusive;
use std::thread;

/// The ends of the ranges of bytes that stand behind a first one, and the bytes beside them.
const BORDERS: [u8; 8] = [0x7F, 0x80, 0x8F, 0x90, 0x9F, 0xA0, 0xBF, 0xC0];

const BEHIND: u8 = 0xA0;

/// Gives `visit` the empty string and those that begin with one of these bytes, in two threads.
pub fn each_string(firsts: RangeInclusive<u8>, visit: impl Fn(&[u8]) + Sync) {
    visit(&[BEHIND; 2][..0]);
    let half = |odd: u8| {
        for first in firsts.clone().filter(|first| first % 2 == odd) {
            up_to_three(first, &visit);
            of_four(first, &visit);
        }
    };
    thread::scope(|scope| {
        scope.spawn(|| half(1));
        half(0);
    });
}

fn up_to_three(first: u8, visit: impl Fn(&[u8])) {
    visit(&[first, BEHIND, BEHIND][..1]);
    for second in 0..=255 {
        visit(&[first, second, BEHIND, BEHIND][..2]);
        for third in 0..=255 {
            visit(&[first, second, third, BEHIND, BEHIND][..3]);
        }
    }
}

/// Every second byte, with two bytes at borders.
fn of_four(first: u8, visit: impl Fn(&[u8])) {
    for second in 0..=255 {
        for third in BORDERS {
            for fourth in BORDERS {
                visit(&[first, second, third, fourth, BEHIND, BEHIND][..4]);
            }
        }
    }
}
