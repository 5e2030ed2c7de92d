//! A map from pairs that costs little: the standard one with a hash that multiplies.

use super::machine::Pair;
use std::collections::HashMap;
use std::hash::{BuildHasherDefault, Hasher};

pub type PairMap<T> = HashMap<Pair, T, BuildHasherDefault<Multiplying>>;

/// Fibonacci hashing: each number written is added and the sum multiplied by an odd constant.
#[derive(Default)]
pub struct Multiplying(u64);

impl Hasher for Multiplying {
    fn write(&mut self, bytes: &[u8]) {
        for &byte in bytes {
            self.write_u8(byte);
        }
    }

    fn write_u8(&mut self, number: u8) {
        self.write_u64(u64::from(number));
    }

    fn write_usize(&mut self, number: usize) {
        self.write_u64(number as u64);
    }

    fn write_u64(&mut self, number: u64) {
        let product = (self.0 ^ number).wrapping_mul(0x9E37_79B9_7F4A_7C15);
        self.0 = product ^ (product >> 32);
    }

    fn finish(&self) -> u64 {
        self.0
    }
}
