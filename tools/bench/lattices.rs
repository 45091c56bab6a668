//! How fast are the proved lattices beside the Rust original's?
//!
//! Over the words and pieces of corpus.rs. Both sides build the trie and every word's lattice, and then prune a quarter of the
//! pieces.
//!
//! All of it is one program and one thread. Rounds of all that is measured alternate; the median of each counts, and the
//! least is shown beside it. What the original has to allocate is part of its time, as it is part of what the wrapper for
//! Rust takes; the calls over slices are lent theirs: once the room that include/causeylark.h says always suffices, and once
//! exactly the room that the edges take, where they have to be counted before they are written. Caches that are pruned are
//! built before the clock starts.

use causeylark::slices::{self, Lent};
use std::hint::black_box;

mod clock;
mod corpus;
#[allow(dead_code)]
#[path = "../math/random.rs"]
mod random;
mod tables;

use clock::{median, timed};
use corpus::{pieces, spans, words, SETTING};
use random::Random;
use tables::{Places, Tables};

const ROUNDS: usize = 15;

/// Of each four pieces one is gone, the letters among them too.
fn quarter(random: &mut Random, pieces: usize) -> Vec<u32> {
    let mut remap = Vec::new();
    let (mut survivors, mut gone) = (0, 0);
    for id in 0..pieces {
        if id % 4 == 0 {
            gone = id + (random.bits() % 4) as usize;
        }
        remap.push(if id == gone {
            causeylark::PRUNED
        } else {
            survivors
        });
        survivors += u32::from(id != gone);
    }
    remap
}

impl Tables {
    /// As large as what the original has built, or left.
    fn like(theirs: &[original::Lattice]) -> Tables {
        let edges = theirs.iter().map(|lattice| lattice.edges.len()).sum();
        let offsets = theirs.iter().map(|lattice| lattice.offsets.len()).sum();
        Tables {
            offsets: vec![0; offsets],
            starts: vec![0; edges],
            ids: vec![0; edges],
            spans: vec![0; 4 * theirs.len()],
        }
    }

    /// Whether they begin with the original's lattices.
    fn hold(&self, theirs: &[original::Lattice]) -> bool {
        let offsets = theirs.iter().flat_map(|lattice| &lattice.offsets);
        let edges = || theirs.iter().flat_map(|lattice| &lattice.edges);
        offsets.zip(&self.offsets).all(|(a, b)| a == b)
            && edges()
                .zip(&self.starts)
                .all(|(edge, start)| edge.0 == *start)
            && edges().zip(&self.ids).all(|(edge, id)| edge.2 == *id)
    }
}

/// What is measured, and how long each round took, in seconds.
struct Row {
    name: &'static str,
    times: Vec<f64>,
}

impl Row {
    fn new(name: &'static str) -> Row {
        Row {
            name,
            times: Vec::new(),
        }
    }

    fn time<T>(&mut self, call: impl FnOnce() -> T) -> T {
        timed(&mut self.times, call)
    }

    fn show(&self, against: &Row) {
        let least = self.times.iter().copied().fold(f64::INFINITY, f64::min);
        let middle = median(&self.times);
        let ratio = middle / median(&against.times);
        println!(
            "{:<36}  {:8.2}  {:8.2}  {ratio:5.2}",
            self.name,
            1e3 * middle,
            1e3 * least
        );
    }
}

fn main() {
    let mut random = Random(1);
    let words = words(&mut random);
    let pieces = pieces(&words);
    let remap = quarter(&mut random, pieces.len());
    let word_texts: Vec<&str> = words.iter().map(String::as_str).collect();
    let piece_texts: Vec<&str> = pieces.iter().map(String::as_str).collect();
    let word_bytes: Vec<&[u8]> = words.iter().map(String::as_bytes).collect();
    let piece_bytes: Vec<&[u8]> = pieces.iter().map(String::as_bytes).collect();
    let ((text, word_spans), (piece_text, piece_spans)) = (spans(&words), spans(&pieces));
    let lent = Lent {
        setting: SETTING,
        text: &text,
        words: &word_spans,
        piece_text: &piece_text,
        pieces: &piece_spans,
    };

    let places = 2
        * (piece_texts
            .iter()
            .map(|piece| piece.chars().count())
            .sum::<usize>()
            + 1);
    let mut work = Places::of(places, pieces.len());
    let theirs = original::Cache::build(SETTING, &word_texts, &original::Trie::build(&piece_texts))
        .lattices();
    let mut ours = Tables::like(&theirs);
    let mut roomy = Tables::ample(words.len(), text.len());
    let edges = ours.starts.len();
    println!(
        "{} words, {} bytes, {} characters, {} pieces, {edges} edges, {places} places, {ROUNDS} rounds",
        words.len(),
        text.len(),
        word_texts
            .iter()
            .map(|word| word.chars().count())
            .sum::<usize>(),
        pieces.len(),
    );

    let [mut both, mut walked, mut ample, mut exact, mut wrapped] = [
        "original, trie and lattices",
        "original, lattices alone",
        "ours, slices lent, room for any",
        "ours, slices lent, exactly the room",
        "ours, by bindings/rust",
    ]
    .map(Row::new);
    let [mut pruned, mut retained] =
        ["original, a quarter pruned", "ours, a quarter pruned"].map(Row::new);
    for round in 0..=ROUNDS {
        let trie = both.time(|| original::Trie::build(black_box(&piece_texts)));
        let mut cache =
            walked.time(|| original::Cache::build(SETTING, black_box(&word_texts), &trie));
        // The sum of the two: a trie that is kept is walked as warm as one just built.
        *both.times.last_mut().unwrap() += walked.times.last().unwrap();
        for (row, tables) in [(&mut ample, &mut roomy), (&mut exact, &mut ours)] {
            let work = work.lent();
            let said = row.time(|| slices::build(black_box(lent), tables.lent(), work));
            assert_eq!(said, Ok(edges), "build");
        }
        let own = wrapped.time(|| {
            causeylark::Cache::build(SETTING, black_box(&word_bytes), black_box(&piece_bytes))
        });
        assert_eq!(own.map(|own| own.edges()), Ok(edges), "bindings");
        pruned.time(|| cache.retain(black_box(&remap)));
        let mut left = ours.clone();
        let said = retained.time(|| slices::retain(left.lent(), words.len(), black_box(&remap)));
        if round == 0 {
            // The first round warms up, and is looked at.
            for tables in [&roomy, &ours] {
                assert!(tables.hold(&theirs), "not the original's lattices");
            }
            let theirs = cache.lattices();
            assert_eq!(said, Ok(Tables::like(&theirs).starts.len()), "retain");
            assert!(left.hold(&theirs), "not the original's lattices, pruned");
            for row in [
                &mut both,
                &mut walked,
                &mut ample,
                &mut exact,
                &mut wrapped,
                &mut pruned,
                &mut retained,
            ] {
                row.times.clear();
            }
        }
    }
    println!(
        "{:<36}  {:>8}  {:>8}  {:>5}",
        "what", "median", "least, ms", "ratio"
    );
    for row in [&both, &walked, &ample, &exact, &wrapped] {
        row.show(&both);
    }
    for row in [&pruned, &retained] {
        row.show(&pruned);
    }
}
