//! What is lent to a build, as a caller keeps it: the slices of a cache, and the work slices of its trie.

use crate::corpus::SETTING;
use causeylark::slices::{Results, Work};

/// The four slices of a cache.
#[derive(Clone)]
pub struct Tables {
    pub offsets: Vec<u32>,
    pub starts: Vec<u32>,
    pub ids: Vec<u32>,
    pub spans: Vec<u32>,
}

impl Tables {
    /// Slots that suffice for whatever edges so many words of so many bytes have, as include/causeylark.h counts them.
    pub fn ample(words: usize, bytes: usize) -> Tables {
        Tables {
            offsets: vec![0; bytes + 2 * words],
            starts: vec![0; SETTING * bytes],
            ids: vec![0; SETTING * bytes],
            spans: vec![0; 4 * words],
        }
    }

    pub fn lent(&mut self) -> Results<'_> {
        Results {
            offsets: &mut self.offsets,
            starts: &mut self.starts,
            ids: &mut self.ids,
            spans: &mut self.spans,
        }
    }
}

/// The work slices of a trie with so many places, over so many pieces.
pub struct Places {
    keys: Vec<u64>,
    ends: Vec<u32>,
    table: Vec<u32>,
}

impl Places {
    pub fn of(places: usize, pieces: usize) -> Places {
        Places {
            keys: vec![0; places],
            ends: vec![0; places],
            table: vec![0; 2 * pieces],
        }
    }

    pub fn lent(&mut self) -> Work<'_> {
        Work {
            keys: &mut self.keys,
            ends: &mut self.ends,
            table: &mut self.table,
        }
    }
}
