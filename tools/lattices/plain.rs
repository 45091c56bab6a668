//! What should come, worked out from document 01's sentences in the plainest way: every stretch of a word is looked up in a
//! map of the spellings, every prefix is kept in a set, every lattice is read back edge by edge. Nothing here is shared with
//! the proved code or with the Rust original.

use crate::no::{no, No};
use std::collections::{BTreeMap, BTreeSet};

/// What is lent to be read.
#[derive(Clone, Debug)]
pub struct Lent {
    pub setting: usize,
    pub text: Vec<u8>,
    pub words: Vec<u32>,
    pub piece_text: Vec<u8>,
    pub pieces: Vec<u32>,
}

/// How many slots each table has.
#[derive(Clone, Debug, PartialEq, Eq)]
pub struct Sizes {
    pub offsets: usize,
    pub starts: usize,
    pub ids: usize,
    pub spans: usize,
    pub keys: usize,
    pub ends: usize,
    pub table: usize,
}

/// An edge: start, end, id.
pub type Edge = (u32, u32, u32);

/// A word's lattice: how many characters, and its edges, by end and then by start.
#[derive(Clone, Debug, PartialEq, Eq)]
pub struct Lattice {
    pub n: usize,
    pub edges: Vec<Edge>,
}

impl Lattice {
    /// Offset p counts the edges that end before p.
    pub fn offsets(&self) -> Vec<u32> {
        let before = |p: usize| self.edges.partition_point(|edge| (edge.1 as usize) < p);
        (0..self.n + 2).map(|p| before(p) as u32).collect()
    }
}

/// The four slices of a cache.
#[derive(Clone, Debug, Default, PartialEq, Eq)]
pub struct Cache {
    pub offsets: Vec<u32>,
    pub starts: Vec<u32>,
    pub ids: Vec<u32>,
    pub spans: Vec<u32>,
}

/// The lattices one after the other, and not a slot more.
pub fn laid(lattices: &[Lattice]) -> Cache {
    let mut cache = Cache::default();
    for lattice in lattices {
        let (from, at) = (cache.starts.len(), cache.offsets.len());
        cache.starts.extend(lattice.edges.iter().map(|edge| edge.0));
        cache.ids.extend(lattice.edges.iter().map(|edge| edge.2));
        cache.offsets.extend(lattice.offsets());
        cache
            .spans
            .extend([from, cache.starts.len(), at, lattice.n].map(|number| number as u32));
    }
    cache
}

/// The string that two numbers span, if it is inside its text and UTF-8.
fn spelt<'a>(text: &'a [u8], span: &[u32]) -> Result<&'a str, &'static str> {
    let (from, long) = (span[0] as usize, span[1] as usize);
    let bytes = text.get(from..from + long).ok_or("outside its text")?;
    std::str::from_utf8(bytes).map_err(|_| "not UTF-8")
}

fn boundaries(word: &str) -> Vec<usize> {
    word.char_indices()
        .map(|(at, _)| at)
        .chain([word.len()])
        .collect()
}

/// The distinct non-empty prefixes, and the root.
pub fn nodes<'a>(pieces: impl IntoIterator<Item = &'a str>) -> usize {
    let prefixes = |piece: &'a str| {
        boundaries(piece)
            .into_iter()
            .skip(1)
            .map(move |end| &piece[..end])
    };
    pieces
        .into_iter()
        .flat_map(prefixes)
        .collect::<BTreeSet<&str>>()
        .len()
        + 1
}

fn lattice(setting: usize, word: &str, ids: &BTreeMap<&str, usize>) -> Lattice {
    let at = boundaries(word);
    let mut edges = Vec::new();
    for end in 1..at.len() {
        for start in end.saturating_sub(setting)..end {
            if let Some(&id) = ids.get(&word[at[start]..at[end]]) {
                edges.push((start as u32, end as u32, id as u32));
            }
        }
    }
    Lattice {
        n: at.len() - 1,
        edges,
    }
}

pub fn lattices(setting: usize, words: &[&str], pieces: &[&str]) -> Vec<Lattice> {
    let ids = pieces
        .iter()
        .enumerate()
        .map(|(id, &piece)| (piece, id))
        .collect();
    words
        .iter()
        .map(|word| lattice(setting, word, &ids))
        .collect()
}

/// What build should answer: the lattices, or the first refusal that applies.
pub fn build(lent: &Lent, sizes: &Sizes) -> Result<Vec<Lattice>, No> {
    let words: Vec<&[u32]> = lent.words.chunks_exact(2).collect();
    let pieces: Vec<&[u32]> = lent.pieces.chunks_exact(2).collect();
    if lent.setting > 32 {
        return no(2, 3, "piece length");
    }
    let bounds = [
        (words.len() > 16_384, "room 0, words"),
        (pieces.len() > 1_048_576, "room 0, pieces"),
        (lent.text.len() > 1_048_576, "room 0, text"),
        (lent.piece_text.len() > 1_048_576, "room 0, piece text"),
        (sizes.table < 2 * pieces.len(), "room 0, table"),
    ];
    if let Some((_, why)) = bounds.into_iter().find(|bound| bound.0) {
        return no(7, 0, why);
    }
    let mut strings = Vec::new();
    for (index, word) in words.iter().enumerate() {
        match spelt(&lent.text, word) {
            _ if word[1] > 255 => return no(3, index, "too long"),
            Err(why) => return no(3, index, why),
            Ok(string) => strings.push(string),
        }
    }
    let mut spellings = Vec::new();
    for (id, piece) in pieces.iter().enumerate() {
        match spelt(&lent.piece_text, piece) {
            Err(why) => return no(14, id, why),
            Ok(spelling) => spellings.push(spelling),
        }
    }
    let mut ids = BTreeMap::new();
    for (id, &spelling) in spellings.iter().enumerate() {
        if ids.insert(spelling, id).is_some() {
            return no(
                15,
                id,
                if spelling.is_empty() {
                    "the empty one"
                } else {
                    "a spelling"
                },
            );
        }
    }
    if 2 * nodes(spellings) > sizes.keys.min(sizes.ends) {
        return no(7, 2, "room 2, places");
    }
    let lattices: Vec<Lattice> = strings
        .iter()
        .map(|word| lattice(lent.setting, word, &ids))
        .collect();
    let used = laid(&lattices);
    let slots = [
        (used.offsets.len() > sizes.offsets, "room 3, offsets"),
        (used.starts.len() > sizes.starts, "room 3, starts"),
        (used.ids.len() > sizes.ids, "room 3, ids"),
        (used.spans.len() > sizes.spans, "room 3, spans"),
    ];
    match slots.into_iter().find(|slot| slot.0) {
        Some((_, why)) => no(7, 3, why),
        None => Ok(lattices),
    }
}

/// The edges of n + 2 offsets and of as many starts as ids, or why they are not well formed. `unknown` says it of an id that is
/// not below `pieces`.
pub fn edges(
    offsets: &[u32],
    starts: &[u32],
    ids: &[u32],
    pieces: usize,
    unknown: &'static str,
) -> Result<Vec<Edge>, &'static str> {
    let n = offsets.len() - 2;
    if offsets[0] != 0 || offsets[n + 1] as usize != starts.len() {
        return Err("offsets not from 0 to the edge count");
    }
    if offsets.windows(2).any(|two| two[0] > two[1]) {
        return Err("offsets that fall");
    }
    let mut edges = Vec::new();
    for end in 0..=n {
        for edge in offsets[end] as usize..offsets[end + 1] as usize {
            if starts[edge] as usize >= end {
                return Err("a start not before its end");
            }
            if edge > offsets[end] as usize && starts[edge - 1] >= starts[edge] {
                return Err("starts that do not rise");
            }
            if ids[edge] as usize >= pieces {
                return Err(unknown);
            }
            edges.push((starts[edge], end as u32, ids[edge]));
        }
    }
    Ok(edges)
}

/// The lattice of a word of a cache, or why it is not well formed. `from` and `at` are where the words before end.
fn read(
    cache: &Cache,
    pieces: usize,
    word: usize,
    from: usize,
    at: usize,
) -> Result<Lattice, &'static str> {
    if cache.starts.len() != cache.ids.len() {
        return Err("starts and ids not equally many");
    }
    let span = cache.spans.get(4 * word..4 * word + 4).ok_or("no span")?;
    let [edges_from, edges_to, offsets_from, n] = [0, 1, 2, 3].map(|k| span[k] as usize);
    if (edges_from, offsets_from) != (from, at) {
        return Err("not where the word before ends");
    }
    let starts = cache
        .starts
        .get(edges_from..edges_to)
        .ok_or("edges outside their slices")?;
    let ids = &cache.ids[edges_from..edges_to];
    let offsets = cache
        .offsets
        .get(at..at + n + 2)
        .ok_or("offsets outside their slice")?;
    let edges = edges(offsets, starts, ids, pieces, "an id with no entry")?;
    Ok(Lattice { n, edges })
}

/// What retain should answer: the lattices that are left, or the first refusal that applies.
pub fn retain(cache: &Cache, words: usize, remap: &[u32]) -> Result<Vec<Lattice>, No> {
    let mut lattices = Vec::new();
    let (mut from, mut at) = (0, 0);
    for word in 0..words {
        match read(cache, remap.len(), word, from, at) {
            Err(why) => return no(9, word, why),
            Ok(lattice) => {
                from += lattice.edges.len();
                at += lattice.n + 2;
                lattices.push(lattice);
            }
        }
    }
    let mut survivors = 0;
    for (entry, &id) in remap.iter().enumerate() {
        match id {
            u32::MAX => {}
            _ if id == survivors => survivors += 1,
            _ => return no(13, entry, "neither"),
        }
    }
    for lattice in &mut lattices {
        lattice
            .edges
            .retain(|edge| remap[edge.2 as usize] != u32::MAX);
        lattice
            .edges
            .iter_mut()
            .for_each(|edge| edge.2 = remap[edge.2 as usize]);
    }
    Ok(lattices)
}
