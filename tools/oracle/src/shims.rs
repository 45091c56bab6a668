//! What the three files ask of the crate around them, and no more.

use std::collections::HashMap;
use std::hash::{BuildHasherDefault, Hasher};

/// Stands for `rustc_hash`'s map. Every list taken from a map is sorted before use, so no answer depends on the hash.
pub type FxHashMap<K, V> = HashMap<K, V, BuildHasherDefault<FxHasher>>;

/// Numbers hash as in rustc-hash 2.1, to the bit: so a walk of the trie takes the time that it takes there. Bytes, which
/// only the seed list hashes, go in by eights.
#[derive(Default)]
pub struct FxHasher(u64);

impl Hasher for FxHasher {
    #[inline]
    fn write(&mut self, bytes: &[u8]) {
        for chunk in bytes.chunks(8) {
            let mut padded = [0; 8];
            padded[..chunk.len()].copy_from_slice(chunk);
            self.write_u64(u64::from_le_bytes(padded));
        }
    }

    #[inline]
    fn write_u8(&mut self, number: u8) {
        self.write_u64(number.into());
    }

    #[inline]
    fn write_u32(&mut self, number: u32) {
        self.write_u64(number.into());
    }

    #[inline]
    fn write_u64(&mut self, number: u64) {
        self.0 = self.0.wrapping_add(number).wrapping_mul(0xf135_7aea_2e62_a9c5);
    }

    #[inline]
    fn write_usize(&mut self, number: usize) {
        self.write_u64(number as u64);
    }

    // The map reads the low bits, and a product's good bits are the high ones.
    #[inline]
    fn finish(&self) -> u64 {
        self.0.rotate_left(26)
    }
}

/// How a corpus was cut: never known here, so it has no value.
#[derive(Clone, Debug)]
pub enum Recipe {}

pub mod corpus {
    /// The lent words in their order: none merged, none dropped.
    pub struct WordCounts(pub Vec<(Vec<u8>, u64)>);

    impl WordCounts {
        pub fn is_empty(&self) -> bool {
            self.0.is_empty()
        }

        pub fn iter(&self) -> impl Iterator<Item = (&[u8], u64)> + '_ {
            self.0.iter().map(|(word, frequency)| (word.as_slice(), *frequency))
        }

        pub fn recipe(&self) -> Option<&super::Recipe> {
            None
        }
    }
}

pub mod error {
    /// The two errors that training itself can give.
    pub enum TrainError {
        EmptyCorpus,
        VocabTooSmall { requested: usize, alphabet: usize },
    }
}
