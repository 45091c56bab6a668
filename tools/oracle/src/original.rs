//! The Rust of the source as a library: its trie, its builder, its cache, its cuts, its seed list and its training, for tools that
//! compare with them or measure them in one program. README.md says what is compiled.

#[cfg(mathematics = "ours")]
#[allow(dead_code)]
mod mathematics;
// Both have more than is asked of them here.
#[allow(dead_code)]
mod shims;
#[allow(dead_code, unused_imports)]
mod unigram;

// The original names `rustc_hash` as a crate. This crate stands in for it.
extern crate self as rustc_hash;
use shims::{corpus, error, FxHashMap, Recipe};

use unigram::probe::{Edge, Lattice as Algorithms, LatticeBuilder, LatticeCache, Lent, PieceTrie};
use unigram::{UnigramTrainer, UnigramTrainerBuilder};

/// The pieces, indexed for walking.
pub struct Trie(PieceTrie);

impl Trie {
    pub fn build(pieces: &[&str]) -> Trie {
        Trie(PieceTrie::build(pieces))
    }

    /// One word's best cut, straight from the builder: its score and its path, or none.
    pub fn cut(&self, setting: usize, word: &str, scores: &[f64]) -> Option<(f64, Vec<u32>)> {
        let mut builder = LatticeBuilder::default();
        builder.build(word, setting, &self.0);
        let mut path = Vec::new();
        let score = Algorithms::default().viterbi(builder.view(), scores, &mut path);
        (score != f64::NEG_INFINITY).then_some((score, path))
    }
}

/// Every word's lattice.
pub struct Cache(LatticeCache);

/// One word's lattice, copied: its edges as (start, end, id), and its n + 2 offsets.
#[derive(Clone, Debug, PartialEq, Eq)]
pub struct Lattice {
    pub edges: Vec<(u32, u32, u32)>,
    pub offsets: Vec<u32>,
}

impl Cache {
    /// As the trainer fills it: one builder for all words.
    pub fn build(setting: usize, words: &[&str], trie: &Trie) -> Cache {
        let mut builder = LatticeBuilder::default();
        let mut cache = LatticeCache::default();
        for word in words {
            builder.build(word, setting, &trie.0);
            cache.push(&builder);
        }
        Cache(cache)
    }

    pub fn retain(&mut self, remap: &[u32]) {
        self.0.retain(remap);
    }

    pub fn lattices(&self) -> Vec<Lattice> {
        let lattice = |index| {
            let Lent { edges, offsets, .. } = Lent::copied(self.0.view(index));
            Lattice { edges: edges.iter().map(|edge| (edge.start, edge.end, edge.piece)).collect(), offsets }
        };
        (0..self.0.len()).map(lattice).collect()
    }

    /// The sum over all cuts of each word, and to `emit` the piece and the expectation of every edge, as training asks: with
    /// one scratch for all words.
    pub fn expectations(&self, scores: &[f64], sums: &mut [f64], mut emit: impl FnMut(u32, f64)) {
        let mut scratch = Algorithms::default();
        for (index, sum) in sums.iter_mut().enumerate() {
            *sum = scratch.expectations(self.0.view(index), scores, &mut emit);
        }
    }

    /// The best score of each word, and all paths one after the other.
    pub fn viterbi(&self, scores: &[f64], sums: &mut [f64], paths: &mut Vec<u32>) {
        let mut scratch = Algorithms::default();
        for (index, sum) in sums.iter_mut().enumerate() {
            *sum = scratch.viterbi(self.0.view(index), scores, paths);
        }
    }

    /// The best score of each word without the piece that stands beside it.
    pub fn viterbi_excluding(&self, scores: &[f64], excluded: &[u32], sums: &mut [f64]) {
        let mut scratch = Algorithms::default();
        for (index, sum) in sums.iter_mut().enumerate() {
            *sum = scratch.viterbi_excluding(self.0.view(index), scores, excluded[index]);
        }
    }

    /// Which words have a cut.
    pub fn connected(&self) -> Vec<bool> {
        (0..self.0.len()).map(|index| self.0.view(index).is_connected()).collect()
    }
}

/// One word's lattice, which has to be well formed, and its cuts.
pub struct Word(Lent);

impl Word {
    pub fn lent(n: usize, edges: &[(u32, u32, u32)], offsets: &[u32]) -> Word {
        let edge = |&(start, end, piece): &(u32, u32, u32)| Edge { start, end, piece };
        Word(Lent { n, edges: edges.iter().map(edge).collect(), offsets: offsets.to_vec() })
    }

    /// Its score and its path, or none.
    pub fn viterbi(&self, scores: &[f64]) -> Option<(f64, Vec<u32>)> {
        let mut path = Vec::new();
        let score = Algorithms::default().viterbi(self.0.view(), scores, &mut path);
        (score != f64::NEG_INFINITY).then_some((score, path))
    }

    pub fn viterbi_excluding(&self, scores: &[f64], excluded: u32) -> f64 {
        Algorithms::default().viterbi_excluding(self.0.view(), scores, excluded)
    }

    pub fn is_connected(&self) -> bool {
        self.0.view().is_connected()
    }

    /// z and an entry an edge, in edge order; +0 where nothing is emitted.
    pub fn expectations(&self, scores: &[f64]) -> (f64, Vec<f64>) {
        self.0.expectations(scores)
    }
}

/// The settings that a seed list depends on; the others are the defaults.
pub struct Trainer(UnigramTrainer);

/// Each piece with its count, the scores, and how many pieces are required.
pub type Seeded = (Vec<(String, u64)>, Vec<f64>, usize);

impl Trainer {
    pub fn new(vocab: usize, seed: Option<usize>, length: usize, minimum: u64, specials: &[String]) -> Trainer {
        let settings = UnigramTrainerBuilder::new()
            .vocab_size(vocab)
            .max_piece_chars(length)
            .min_frequency(minimum)
            .special_tokens(specials.iter().cloned());
        Trainer(if let Some(size) = seed { settings.seed_size(size) } else { settings }.build())
    }

    pub fn seed(&self, words: &[(&str, u64)]) -> Seeded {
        self.0.seeded(words)
    }

    /// The tokens and their scores, with the default shrink factor and EM; none where training is refused.
    pub fn train(&self, words: &[(&str, u64)]) -> Option<(Vec<String>, Vec<f64>)> {
        let counted = |&(word, frequency): &(&str, u64)| (word.as_bytes().to_vec(), frequency);
        let words = corpus::WordCounts(words.iter().map(counted).collect());
        self.0.train(&words).ok().map(|vocabulary| vocabulary.into_parts())
    }
}
