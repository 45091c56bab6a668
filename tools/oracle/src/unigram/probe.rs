//! A child of the trainer's module, so that its private steps can be asked for one at a time.

pub(crate) use super::lattice::probe::{log_add, Lent};
pub(crate) use super::lattice::{Edge, Lattice, LatticeBuilder, LatticeCache};
pub(crate) use super::trie::PieceTrie;

use super::{piece_texts, Scratch, UnigramTrainer};

/// A piece and its count. Only `seed` fills the counts, and no later step reads them.
pub(crate) type Piece = (String, u64);

/// One word's lattice, straight from the builder.
pub(crate) fn lattice(length: usize, word: &str, pieces: &[String]) -> Lent {
    let mut builder = LatticeBuilder::default();
    builder.build(word, length, &PieceTrie::build(pieces));
    Lent::copied(builder.view())
}

/// The steps of `train`, each over lattices built afresh from the pieces it is given.
impl UnigramTrainer {
    /// Repeats one line of `train`, which gives the target no name of its own.
    pub(crate) fn target(&self) -> usize {
        self.config.vocab_size.saturating_sub(self.config.specials.len())
    }

    fn filled(&self, words: &[(&str, u64)], pieces: &[Piece], scratch: &mut Scratch) -> (PieceTrie, LatticeCache) {
        let trie = PieceTrie::build(&piece_texts(pieces));
        let mut cache = LatticeCache::default();
        self.fill_cache(words, &trie, &mut scratch.builder, &mut cache);
        (trie, cache)
    }

    /// Every word's lattice as built, then again after each remap.
    pub(crate) fn retained(&self, words: &[(&str, u64)], pieces: &[Piece], remaps: &[Vec<u32>]) -> Vec<Lent> {
        let (_, mut cache) = self.filled(words, pieces, &mut Scratch::default());
        let shown = |cache: &LatticeCache| -> Vec<Lent> {
            (0..cache.len()).map(|index| Lent::copied(cache.view(index))).collect()
        };
        let mut lattices = shown(&cache);
        for remap in remaps {
            cache.retain(remap);
            lattices.extend(shown(&cache));
        }
        lattices
    }

    pub(crate) fn seeded(&self, words: &[(&str, u64)]) -> (Vec<Piece>, Vec<f64>, usize) {
        self.seed(words, self.seed_pool(self.target()))
    }

    /// One EM pass.
    pub(crate) fn pass(&self, words: &[(&str, u64)], pieces: &[Piece], scores: &mut [f64]) {
        let mut scratch = Scratch::default();
        let (_, cache) = self.filled(words, pieces, &mut scratch);
        self.expectation_maximization(words, pieces, scores, &mut scratch.lattice, &cache);
    }

    pub(crate) fn lost(&self, words: &[(&str, u64)], pieces: &[Piece], scores: &[f64]) -> Vec<f64> {
        let mut scratch = Scratch::default();
        let (trie, cache) = self.filled(words, pieces, &mut scratch);
        self.losses(words, pieces, scores, &mut scratch, &cache, &trie)
    }

    pub(crate) fn pruned(
        &self,
        pieces: &mut Vec<Piece>,
        scores: &mut Vec<f64>,
        losses: &[f64],
        required: usize,
        keep: usize,
    ) -> Option<Vec<u32>> {
        self.prune(pieces, scores, losses, required, keep)
    }
}
