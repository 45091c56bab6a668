//! A child of the lattice's module, so that a lattice can be lent by a request and shown in an answer.

use super::{Edge, Lattice, LatticeView};

/// One word's lattice, owned: edges by end, then start, and n + 2 offsets.
pub(crate) struct Lent {
    pub n: usize,
    pub edges: Vec<Edge>,
    pub offsets: Vec<u32>,
}

impl Lent {
    pub(crate) fn copied(view: LatticeView<'_>) -> Self {
        Self { n: view.n, edges: view.edges.to_vec(), offsets: view.ends.to_vec() }
    }

    pub(crate) fn view(&self) -> LatticeView<'_> {
        LatticeView { edges: &self.edges, ends: &self.offsets, n: self.n }
    }

    /// z and an entry an edge, in edge order; +0 where nothing is emitted.
    ///
    /// `emit` is told the piece and not the edge, and one piece can have many edges. So the pass runs on the same
    /// lattice with every edge as a piece of its own, with its piece's score: the pass reads a piece for its score
    /// alone, so no bit changes. That is asserted: the lattice as lent must emit the same values in the same order.
    pub(crate) fn expectations(&self, scores: &[f64]) -> (f64, Vec<f64>) {
        let pieces: Vec<u32> = self.edges.iter().map(|edge| edge.piece).collect();
        let own = |(id, edge): (usize, &Edge)| Edge { piece: id as u32, ..*edge };
        let parted =
            Self { n: self.n, edges: self.edges.iter().enumerate().map(own).collect(), offsets: self.offsets.clone() };
        let spread: Vec<f64> = pieces.iter().map(|&piece| scores[piece as usize]).collect();

        let mut entries = vec![0.0; pieces.len()];
        let mut emitted = Vec::new();
        let z = Lattice::default().expectations(parted.view(), &spread, |id, value| {
            entries[id as usize] = value;
            emitted.push((pieces[id as usize], value.to_bits()));
        });

        let mut as_lent = Vec::new();
        let z_as_lent =
            Lattice::default().expectations(self.view(), scores, |piece, value| as_lent.push((piece, value.to_bits())));
        assert!(z.to_bits() == z_as_lent.to_bits() && emitted == as_lent);
        (z, entries)
    }
}

pub(crate) fn log_add(a: f64, b: f64) -> f64 {
    super::log_add(a, b)
}
