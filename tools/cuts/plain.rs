//! When a call of cuts should say no, worked out from document 01's sentences in the plainest way. Nothing here is shared with
//! the proved code or with the Rust original.

use crate::no::{no, No};
use crate::plain::{edges, nodes, Edge};
use std::collections::BTreeSet;

/// One word's lattice and the scores, as they are lent.
#[derive(Clone, Debug)]
pub struct Lent {
    pub offsets: Vec<u32>,
    pub starts: Vec<u32>,
    pub ids: Vec<u32>,
    pub n: usize,
    pub scores: Vec<f64>,
}

/// How many slots each call is lent.
#[derive(Clone, Debug)]
pub struct Rooms {
    pub best: usize,
    pub back: usize,
    pub path: usize,
    pub reach: usize,
    pub alpha: usize,
    pub beta: usize,
    pub emitted: usize,
}

/// The edges of a lattice where ids below `pieces` have a score, or why it is not well formed.
fn read(lent: &Lent, pieces: usize) -> Result<Vec<Edge>, &'static str> {
    let (offsets, starts, ids) = (&lent.offsets, &lent.starts, &lent.ids);
    if offsets.len() < 2 || offsets.len() - 2 != lent.n {
        return Err("not n + 2 offsets");
    }
    if starts.len() != ids.len() {
        return Err("starts and ids not equally many");
    }
    edges(offsets, starts, ids, pieces, "an id with no score")
}

fn formed(lent: &Lent, pieces: usize) -> Result<Vec<Edge>, No> {
    read(lent, pieces).or_else(|why| no(9, 0, why))
}

/// 9, then 10.
fn scored(lent: &Lent) -> Result<Vec<Edge>, No> {
    let edges = formed(lent, lent.scores.len())?;
    for (id, score) in lent.scores.iter().enumerate() {
        if score.is_nan() {
            return no(10, id, "NaN");
        }
        if *score > 0.0 {
            return no(10, id, "above zero");
        }
    }
    Ok(edges)
}

/// 7 at 3: a work slice with no slot for each of the n + 1 positions.
fn positions(lent: &Lent, slots: usize, why: &'static str) -> Result<(), No> {
    if slots <= lent.n {
        return no(7, 3, why);
    }
    Ok(())
}

pub fn viterbi(lent: &Lent, rooms: &Rooms) -> Result<Vec<Edge>, No> {
    let edges = scored(lent)?;
    positions(lent, rooms.best, "room 3, best")?;
    positions(lent, rooms.back, "room 3, back")?;
    if rooms.path < lent.n {
        return no(7, 4, "room 4, path");
    }
    Ok(edges)
}

pub fn viterbi_excluding(lent: &Lent, rooms: &Rooms) -> Result<Vec<Edge>, No> {
    let edges = scored(lent)?;
    positions(lent, rooms.best, "room 3, best")?;
    Ok(edges)
}

pub fn is_connected(lent: &Lent, rooms: &Rooms) -> Result<Vec<Edge>, No> {
    // No score is lent, so any id has its piece.
    let edges = formed(lent, usize::MAX)?;
    positions(lent, rooms.reach, "room 3, reach")?;
    Ok(edges)
}

pub fn expectations(lent: &Lent, rooms: &Rooms) -> Result<Vec<Edge>, No> {
    let edges = scored(lent)?;
    positions(lent, rooms.alpha, "room 3, alpha")?;
    positions(lent, rooms.beta, "room 3, beta")?;
    if rooms.emitted < edges.len() {
        return no(7, 3, "room 3, entries");
    }
    Ok(edges)
}

/// A word, and the pieces over which it is cut, as they are lent.
#[derive(Clone, Debug)]
pub struct OneWord {
    pub setting: usize,
    pub word: Vec<u8>,
    pub text: Vec<u8>,
    pub pieces: Vec<u32>,
    pub scores: Vec<f64>,
}

/// How many slots the one-word cut is lent.
#[derive(Clone, Debug)]
pub struct WordRooms {
    pub path: usize,
    pub keys: usize,
    pub ends: usize,
    pub table: usize,
}

/// 7: fewer slots than are needed. Why, where it is one too few and where it is more.
fn room(place: usize, slots: usize, needed: usize, why: [&'static str; 2]) -> Result<(), No> {
    match needed.saturating_sub(slots) {
        0 => Ok(()),
        1 => no(7, place, why[0]),
        _ => no(7, place, why[1]),
    }
}

impl OneWord {
    /// How many pieces there are: an odd number at the end is ignored.
    fn count(&self) -> usize {
        self.pieces.len() / 2
    }

    /// Each piece's bytes, if it is inside its text.
    fn bytes(&self) -> impl Iterator<Item = Option<&[u8]>> {
        self.pieces
            .chunks_exact(2)
            .map(|span| (span[0] as usize, span[1] as usize))
            .map(|(from, long)| self.text.get(from..from + long))
    }

    /// The word, if it is UTF-8.
    pub fn spelt(&self) -> Option<&str> {
        std::str::from_utf8(&self.word).ok()
    }

    /// The pieces, if all can be read.
    pub fn spellings(&self) -> Option<Vec<&str>> {
        self.bytes()
            .map(|bytes| std::str::from_utf8(bytes?).ok())
            .collect()
    }

    fn good_setting(&self) -> Result<(), No> {
        match self.setting {
            0..=32 => Ok(()),
            _ => no(2, 3, "piece length"),
        }
    }

    fn bounded(&self, rooms: &WordRooms) -> Result<(), No> {
        match self.count() {
            many if many > 1_048_576 => no(7, 0, "room 0, pieces"),
            _ if self.text.len() > 1_048_576 => no(7, 0, "room 0, piece text"),
            many => room(
                0,
                rooms.table,
                2 * many,
                ["room 0, table by one", "room 0, table"],
            ),
        }
    }

    fn good_word(&self) -> Result<(), No> {
        match self.spelt() {
            _ if self.word.len() == 256 => no(3, 0, "too long by one"),
            _ if self.word.len() > 255 => no(3, 0, "too long"),
            None => no(3, 0, "not UTF-8"),
            Some(_) => Ok(()),
        }
    }

    fn good_pieces(&self) -> Result<(), No> {
        for (id, bytes) in self.bytes().enumerate() {
            match bytes.map(std::str::from_utf8) {
                None => return no(14, id, "outside its text"),
                Some(Err(_)) => return no(14, id, "not UTF-8"),
                Some(Ok(_)) => {}
            }
        }
        Ok(())
    }

    fn distinct(&self) -> Result<(), No> {
        let mut seen = BTreeSet::new();
        for (id, bytes) in self.bytes().enumerate() {
            match bytes {
                None => {}
                Some(bytes) if seen.insert(bytes) => {}
                Some([]) => return no(15, id, "the empty one"),
                Some(_) => return no(15, id, "a spelling"),
            }
        }
        Ok(())
    }

    /// "a score is NaN, above zero or (one-word cut) missing": of the scores of no piece too.
    fn good_scores(&self) -> Result<(), No> {
        for id in 0..self.scores.len().max(self.count()) {
            let own = id < self.count();
            match self.scores.get(id) {
                None => return no(10, id, "missing"),
                Some(score) if score.is_nan() && own => return no(10, id, "NaN"),
                Some(score) if score.is_nan() => return no(10, id, "NaN, of no piece"),
                Some(score) if *score > 0.0 && own => return no(10, id, "above zero"),
                Some(score) if *score > 0.0 => return no(10, id, "above zero, of no piece"),
                Some(_) => {}
            }
        }
        Ok(())
    }

    /// How many places are needed: the distinct non-empty prefixes and the root are at most half of them.
    pub fn places(&self) -> Option<usize> {
        let distinct: BTreeSet<&str> = self.spellings()?.into_iter().collect();
        Some(2 * nodes(distinct))
    }

    fn has_places(&self, rooms: &WordRooms) -> Result<(), No> {
        let places = self.places().unwrap_or(0);
        room(
            2,
            rooms.keys,
            places,
            ["room 2, keys by one", "room 2, keys"],
        )?;
        room(
            2,
            rooms.ends,
            places,
            ["room 2, ends by one", "room 2, ends"],
        )
    }

    fn has_slots(&self, rooms: &WordRooms) -> Result<(), No> {
        let n = self.spelt().map_or(0, |word| word.chars().count());
        room(4, rooms.path, n, ["room 4, path by one", "room 4, path"])
    }
}

/// "The one-word cut: 2 (piece length), 3 (too long or not UTF-8; place 0), 14, 15, 10, 7, 11, 12", with 7 at place 0 before 3:
/// up to 7, what applies of each. The first that does is to be given.
pub fn one_word(lent: &OneWord, rooms: &WordRooms) -> [Option<No>; 8] {
    [
        lent.good_setting(),
        lent.bounded(rooms),
        lent.good_word(),
        lent.good_pieces(),
        lent.distinct(),
        lent.good_scores(),
        lent.has_places(rooms),
        lent.has_slots(rooms),
    ]
    .map(Result::err)
}
