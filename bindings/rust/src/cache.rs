//! The lattices of a list of words, kept with the tables that they need.

use crate::slices::{self, Lent, Results, Work};
use crate::Refusal;

/// In a remap: the piece is gone.
pub const PRUNED: u32 = u32::MAX;

/// The most bytes of a text.
pub(crate) const TEXT_BYTES: usize = 1_048_576;

/// An edge of a word's lattice: a piece that spells the characters from `start` up to `end`.
#[derive(Clone, Copy, Debug, PartialEq, Eq)]
pub struct Edge {
    /// The position where it begins.
    pub start: u32,
    /// The position where it ends.
    pub end: u32,
    /// The piece's id.
    pub id: u32,
}

/// The lattices of a list of words over a list of pieces.
#[derive(Clone, Debug, PartialEq, Eq)]
pub struct Cache {
    offsets: Vec<u32>,
    starts: Vec<u32>,
    ids: Vec<u32>,
    spans: Vec<u32>,
    words: usize,
}

/// Many strings of bytes as spans of one text, and how many characters they have if they are UTF-8.
pub(crate) struct Spans {
    pub(crate) text: Vec<u8>,
    pub(crate) numbers: Vec<u32>,
    characters: usize,
}

impl Spans {
    pub(crate) fn of(strings: &[&[u8]]) -> Spans {
        let text = strings.concat();
        let begins = |byte: &&u8| **byte & 0xc0 != 0x80;
        let characters = text.iter().filter(begins).count();
        let mut numbers = Vec::with_capacity(2 * strings.len());
        let mut from = 0;
        for string in strings {
            // A text over 1,048,576 bytes is refused before these are read, so what saturates is never used.
            numbers.extend([from, string.len()].map(|n| u32::try_from(n).unwrap_or(u32::MAX)));
            from += string.len();
        }
        Spans {
            text,
            numbers,
            characters,
        }
    }

    /// Places for a trie of these: each distinct non-empty prefix has one, and the root, and as many
    /// places again are empty.
    pub(crate) fn places(&self) -> usize {
        2 * (self.characters + 1)
    }
}

impl Cache {
    /// Builds the lattices of the words. A piece's id is its index in `pieces`. Pieces of more than
    /// `setting` characters, which is at most 32, have no edge.
    ///
    /// # Errors
    ///
    /// What is bad is refused: a setting, the number of words, pieces or bytes, a word, a piece, or
    /// a piece that stands twice.
    pub fn build(setting: usize, words: &[&[u8]], pieces: &[&[u8]]) -> Result<Cache, Refusal> {
        let (spelt, known) = (Spans::of(words), Spans::of(pieces));
        let lent = Lent {
            setting,
            text: &spelt.text,
            words: &spelt.numbers,
            piece_text: &known.text,
            pieces: &known.numbers,
        };
        let places = known.places();
        let mut keys = vec![0; places];
        let mut ends = vec![0; places];
        let mut table = vec![0; 2 * pieces.len()];
        let mut cache = Cache {
            offsets: vec![0; spelt.characters + 2 * words.len()],
            starts: Vec::new(),
            ids: Vec::new(),
            spans: vec![0; 4 * words.len()],
            words: words.len(),
        };
        // A character begins up to `setting` edges, but few do. So a lower number is tried first.
        let characters = spelt.characters.min(TEXT_BYTES);
        let most = characters.saturating_mul(setting);
        let mut room = most.min(8 * characters);
        loop {
            (cache.starts, cache.ids) = (vec![0; room], vec![0; room]);
            let work = Work {
                keys: &mut keys,
                ends: &mut ends,
                table: &mut table,
            };
            match slices::build(lent, cache.results(), work) {
                Err(Refusal::NoRoom(3)) if room < most => room = most.min(2 * room),
                Err(refusal) => return Err(refusal),
                Ok(edges) => {
                    cache.cut(edges);
                    return Ok(cache);
                }
            }
        }
    }

    /// Drops the edges of pieces that are gone and renumbers the others: what is left is what
    /// [`Cache::build`] would build from the survivors. Gives the number of edges that are left.
    ///
    /// An entry of the remap for each piece: [`PRUNED`], or the count of survivors before it.
    ///
    /// # Errors
    ///
    /// A remap that has no entry for a piece of an edge, or a wrong one, is refused, and nothing is
    /// changed.
    pub fn retain(&mut self, remap: &[u32]) -> Result<usize, Refusal> {
        let words = self.words;
        let edges = slices::retain(self.results(), words, remap)?;
        self.cut(edges);
        Ok(edges)
    }

    /// How many words there are.
    pub fn len(&self) -> usize {
        self.words
    }

    /// Whether there is no word.
    pub fn is_empty(&self) -> bool {
        self.words == 0
    }

    /// How many edges all lattices have.
    pub fn edges(&self) -> usize {
        self.starts.len()
    }

    /// The lattice of the word at this index.
    pub fn word(&self, index: usize) -> Option<Lattice<'_>> {
        let &[from, to, at, n] = self.spans.chunks_exact(4).nth(index)? else {
            unreachable!("a chunk of four");
        };
        let [from, to, at, n] = [from, to, at, n].map(|number| number as usize);
        Some(Lattice {
            starts: &self.starts[from..to],
            ids: &self.ids[from..to],
            offsets: &self.offsets[at..at + n + 2],
        })
    }

    /// The lattices of all words, in their order.
    pub fn lattices(&self) -> impl Iterator<Item = Lattice<'_>> {
        (0..self.words).filter_map(|index| self.word(index))
    }

    fn results(&mut self) -> Results<'_> {
        Results {
            offsets: &mut self.offsets,
            starts: &mut self.starts,
            ids: &mut self.ids,
            spans: &mut self.spans,
        }
    }

    /// Gives back the slots that no edge uses.
    fn cut(&mut self, edges: usize) {
        for slots in [&mut self.starts, &mut self.ids] {
            slots.truncate(edges);
            slots.shrink_to_fit();
        }
    }
}

/// A word's lattice.
#[derive(Clone, Copy, Debug, PartialEq, Eq)]
pub struct Lattice<'a> {
    starts: &'a [u32],
    ids: &'a [u32],
    offsets: &'a [u32],
}

impl<'a> Lattice<'a> {
    /// How many characters the word has.
    pub fn characters(&self) -> usize {
        self.offsets.len() - 2
    }

    /// n + 2 offsets. The edges that end at p are those from offset p up to offset p + 1.
    pub fn offsets(&self) -> &'a [u32] {
        self.offsets
    }

    /// Where each edge begins.
    pub fn starts(&self) -> &'a [u32] {
        self.starts
    }

    /// Which piece each edge is.
    pub fn ids(&self) -> &'a [u32] {
        self.ids
    }

    /// The edges that end at a position, by start. Past the word's last position there are none.
    pub fn ending_at(self, end: usize) -> impl Iterator<Item = Edge> + 'a {
        let bounds = self.offsets.get(end..).and_then(|rest| rest.get(..2));
        let range = bounds.map_or(0..0, |two| two[0] as usize..two[1] as usize);
        range.map(move |edge| Edge {
            start: self.starts[edge],
            end: end as u32,
            id: self.ids[edge],
        })
    }

    /// All edges, by end and then by start.
    pub fn edges(self) -> impl Iterator<Item = Edge> + 'a {
        (0..=self.characters()).flat_map(move |end| self.ending_at(end))
    }
}
