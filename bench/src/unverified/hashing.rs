//! A quick hash for small keys: the standard one is made to withstand chosen keys, which costs time here.

use std::collections::{HashMap, HashSet};
use std::hash::{BuildHasherDefault, Hasher};

/// An odd number that spreads bits.
const SPREAD: u64 = 0x9e37_79b9_7f4a_7c15;

/// The hash so far.
#[derive(Default)]
pub struct Mixer(u64);

impl Mixer {
    fn mix(&mut self, word: u64) {
        self.0 = (self.0.rotate_left(23) ^ word).wrapping_mul(SPREAD);
    }
}

impl Hasher for Mixer {
    fn finish(&self) -> u64 {
        self.0 ^ (self.0 >> 29)
    }

    fn write(&mut self, bytes: &[u8]) {
        for part in bytes.chunks(8) {
            let mut word = [0; 8];
            word[..part.len()].copy_from_slice(part);
            self.mix(u64::from_le_bytes(word));
        }
    }

    fn write_u32(&mut self, word: u32) {
        self.mix(u64::from(word));
    }

    fn write_usize(&mut self, word: usize) {
        self.mix(word as u64);
    }
}

pub type QuickMap<K, V> = HashMap<K, V, BuildHasherDefault<Mixer>>;
pub type QuickSet<K> = HashSet<K, BuildHasherDefault<Mixer>>;

/// A number that depends on a set of literals and not on their order.
pub fn of_set(codes: &[u32]) -> u32 {
    codes.iter().fold(0, |sum, &code| sum.wrapping_add(spread(code)))
}

fn spread(code: u32) -> u32 {
    (u64::from(code + 1).wrapping_mul(SPREAD) >> 32) as u32
}
