//! How a word is cut: the best cut, and how much every cut counts.
//!
//! Scores are lent, an entry a piece, each at zero or below; minus infinity is one too. A refusal says
//! which is not.

use crate::cache::Spans;
use crate::slices::{self, Pieces, Word, Work};
use crate::{Lattice, Refusal};

/// How a word is cut best.
#[derive(Clone, Debug, PartialEq)]
pub enum Cut {
    /// Into these pieces, first to last, with this score.
    Pieces {
        /// The ids of the pieces.
        ids: Vec<u32>,
        /// The sum of their scores, left to right.
        score: f64,
    },
    /// The word is empty: it has one cut, with no pieces and sum 0.
    EmptyWord,
    /// Not at all: why, with its number, place and name. [`Refusal::NoPath`] where no cut has a finite
    /// sum.
    Refused(Refusal),
}

/// How much every edge counts over all cuts.
#[derive(Clone, Debug, PartialEq)]
pub struct Expectations {
    /// The logarithm of the sum over all cuts; minus infinity where it is not finite.
    pub sum: f64,
    /// The expected count of each edge, in edge order; +0 where there is none.
    pub entries: Vec<f64>,
}

impl<'a> Lattice<'a> {
    fn word(self) -> Word<'a> {
        Word {
            offsets: self.offsets(),
            starts: self.starts(),
            ids: self.ids(),
            n: self.characters(),
        }
    }

    /// The best cut. Of equal ones, the earliest start at each position wins.
    pub fn viterbi(self, scores: &[f64]) -> Cut {
        let n = self.characters();
        let (mut best, mut back, mut ids) = (vec![0.0; n + 1], vec![0; n + 1], vec![0; n]);
        match slices::viterbi(self.word(), scores, &mut best, &mut back, &mut ids) {
            Err(refusal) => Cut::Refused(refusal),
            Ok(_) if n == 0 => Cut::EmptyWord,
            Ok((score, count)) => {
                ids.truncate(count);
                Cut::Pieces { ids, score }
            }
        }
    }

    /// The best score without ever using a piece; minus infinity where nothing else spells the word.
    ///
    /// # Errors
    ///
    /// A score that is missing, NaN or above zero is refused.
    pub fn viterbi_excluding(self, scores: &[f64], excluded: u32) -> Result<f64, Refusal> {
        let mut best = vec![0.0; self.characters() + 1];
        slices::viterbi_excluding(self.word(), scores, excluded, &mut best)
    }

    /// Whether there is a cut.
    pub fn is_connected(self) -> bool {
        let mut reach = vec![0; self.characters() + 1];
        // A cache holds well-formed lattices, and the room is lent, so nothing is refused.
        slices::is_connected(self.word(), &mut reach).is_ok_and(|cuts| cuts)
    }

    /// The expected count of every edge over all cuts.
    ///
    /// # Errors
    ///
    /// A score that is missing, NaN or above zero is refused.
    pub fn expectations(self, scores: &[f64]) -> Result<Expectations, Refusal> {
        let positions = self.characters() + 1;
        let (mut alpha, mut beta) = (vec![0.0; positions], vec![0.0; positions]);
        let mut entries = vec![0.0; self.starts().len()];
        let sum = slices::expectations(self.word(), scores, &mut alpha, &mut beta, &mut entries)?;
        Ok(Expectations { sum, entries })
    }
}

/// The best cut of one word over a list of pieces, with a score each. A piece's id is its index. Pieces of
/// more than `setting` characters, which is at most 32, have no edge.
///
/// This indexes all pieces, for one word. To cut many words, build a [`Cache`](crate::Cache).
pub fn cut(setting: usize, word: &[u8], pieces: &[&[u8]], scores: &[f64]) -> Cut {
    let known = Spans::of(pieces);
    let lent = Pieces {
        setting,
        text: &known.text,
        pieces: &known.numbers,
        scores,
    };
    let places = known.places();
    let (mut keys, mut ends, mut table) = (
        vec![0; places],
        vec![0; places],
        vec![0; 2 * pieces.len()],
    );
    let work = Work {
        keys: &mut keys,
        ends: &mut ends,
        table: &mut table,
    };
    // A character has a byte or more.
    let mut ids = vec![0; word.len().min(255)];
    match slices::cut(word, lent, &mut ids, work) {
        Err(refusal) => Cut::Refused(refusal),
        Ok(_) if word.is_empty() => Cut::EmptyWord,
        Ok((score, count)) => {
            ids.truncate(count);
            Cut::Pieces { ids, score }
        }
    }
}
