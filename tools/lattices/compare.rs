//! Do the proved lattices, prunings and refusals agree with the Rust original, and with document 01?
//!
//! A case is a few words of eight scripts, a list of distinct pieces and a length setting. What the proved code builds has to
//! be what the original builds, edge for edge and offset for offset; so too after each of several prunings. Then what is
//! lent is damaged, and plain.rs works out what should come of it: the lattices again, or which refusal, at which place.
//!
//! After an accepted call the slots past those used are zeros. After a refusal the results are as they were. The work tables
//! hold zeros after every call, whatever they held before. One difference fails, and so does a kind that never came.
//!
//!     --cases N    how many, 100,000 if not said
//!     --seed N     the same seed makes the same cases

mod cases;
#[path = "../common/comparison.rs"]
mod comparison;
#[path = "../common/no.rs"]
mod no;
mod plain;
#[allow(dead_code)]
#[path = "../math/random.rs"]
mod random;

use cases::Case;
use causeylark::{slices, Refusal};
use comparison::{Call, ENOUGH};
use no::No;
use plain::{Cache, Lattice, Lent, Sizes};

/// What has to come at least once.
const KINDS: [Call; 34] = [
    ("build", 0, "accepted"),
    ("build", 0, "accepted, damaged"),
    ("build", 2, "piece length"),
    ("build", 3, "too long"),
    ("build", 3, "outside its text"),
    ("build", 3, "not UTF-8"),
    ("build", 7, "room 0, words"),
    ("build", 7, "room 0, pieces"),
    ("build", 7, "room 0, text"),
    ("build", 7, "room 0, piece text"),
    ("build", 7, "room 0, table"),
    ("build", 7, "room 2, places"),
    ("build", 7, "room 3, offsets"),
    ("build", 7, "room 3, starts"),
    ("build", 7, "room 3, ids"),
    ("build", 7, "room 3, spans"),
    ("build", 14, "outside its text"),
    ("build", 14, "not UTF-8"),
    ("build", 15, "a spelling"),
    ("build", 15, "the empty one"),
    ("retain", 0, "accepted"),
    ("retain", 0, "accepted, damaged"),
    ("retain", 9, "starts and ids not equally many"),
    ("retain", 9, "no span"),
    ("retain", 9, "not where the word before ends"),
    ("retain", 9, "edges outside their slices"),
    ("retain", 9, "offsets outside their slice"),
    ("retain", 9, "offsets not from 0 to the edge count"),
    ("retain", 9, "offsets that fall"),
    ("retain", 9, "a start not before its end"),
    ("retain", 9, "starts that do not rise"),
    ("retain", 9, "an id with no entry"),
    ("retain", 13, "neither"),
    ("original", 0, "built or pruned"),
];

#[derive(Default)]
struct Sums {
    edges: usize,
}

type Comparison = comparison::Comparison<Call, Sums>;

/// The list, and zeros behind it.
fn filled(front: &[u32], slots: usize) -> Vec<u32> {
    front
        .iter()
        .copied()
        .chain(std::iter::repeat(0))
        .take(slots)
        .collect()
}

fn filled_cache(lattices: &[Lattice], sizes: &Cache) -> Cache {
    let front = plain::laid(lattices);
    Cache {
        offsets: filled(&front.offsets, sizes.offsets.len()),
        starts: filled(&front.starts, sizes.starts.len()),
        ids: filled(&front.ids, sizes.ids.len()),
        spans: filled(&front.spans, sizes.spans.len()),
    }
}

fn lent_cache(cache: &mut Cache) -> slices::Results<'_> {
    slices::Results {
        offsets: &mut cache.offsets,
        starts: &mut cache.starts,
        ids: &mut cache.ids,
        spans: &mut cache.spans,
    }
}

impl Comparison {
    /// The answer, and what the slices hold after it.
    fn judge(
        &mut self,
        call: &'static str,
        good: &'static str,
        wanted: &Result<Vec<Lattice>, No>,
        said: Result<usize, Refusal>,
        before: &Cache,
        after: &Cache,
    ) {
        let edges = |lattices: &Vec<Lattice>| {
            lattices
                .iter()
                .map(|lattice| lattice.edges.len())
                .sum::<usize>()
        };
        self.sums.edges += said.unwrap_or(0);
        let wants = wanted.as_ref().map(edges).map_err(|no| *no);
        let why = self.answer(call, good, wants, said);
        let left = wanted
            .as_ref()
            .map_or(before.clone(), |lattices| filled_cache(lattices, before));
        if *after != left {
            self.difference(&format!("{call}, the slices after {why}"), left, after);
        }
    }

    /// Builds in tables that hold junk.
    fn build(&mut self, good: &'static str, lent: &Lent, sizes: &Sizes) -> Cache {
        let before = Cache {
            offsets: self.random.junk(sizes.offsets),
            starts: self.random.junk(sizes.starts),
            ids: self.random.junk(sizes.ids),
            spans: self.random.junk(sizes.spans),
        };
        let mut keys: Vec<u64> = (0..sizes.keys).map(|_| self.random.bits()).collect();
        let (mut ends, mut table) = (self.random.junk(sizes.ends), self.random.junk(sizes.table));
        let mut cache = before.clone();
        let said = slices::build(
            slices::Lent {
                setting: lent.setting,
                text: &lent.text,
                words: &lent.words,
                piece_text: &lent.piece_text,
                pieces: &lent.pieces,
            },
            lent_cache(&mut cache),
            slices::Work {
                keys: &mut keys,
                ends: &mut ends,
                table: &mut table,
            },
        );
        self.judge(
            "build",
            good,
            &plain::build(lent, sizes),
            said,
            &before,
            &cache,
        );
        if keys.iter().any(|&key| key != 0) || ends.iter().chain(&table).any(|&slot| slot != 0) {
            self.difference("build, a work table", "zeros", lent);
        }
        cache
    }

    fn retain(&mut self, good: &'static str, cache: &mut Cache, words: usize, remap: &[u32]) {
        let before = cache.clone();
        let said = slices::retain(lent_cache(cache), words, remap);
        self.judge(
            "retain",
            good,
            &plain::retain(&before, words, remap),
            said,
            &before,
            cache,
        );
    }

    /// The slices begin with the original's lattices.
    fn same(&mut self, cache: &Cache, original: &original::Cache) {
        self.count(("original", 0, "built or pruned"));
        let (mut from, mut at) = (0, 0);
        for (word, theirs) in original.lattices().iter().enumerate() {
            let (n, many) = (theirs.offsets.len() - 2, theirs.edges.len());
            let span = [from, from + many, at, n].map(|number| number as u32);
            let starts: Vec<u32> = theirs.edges.iter().map(|edge| edge.0).collect();
            let ids: Vec<u32> = theirs.edges.iter().map(|edge| edge.2).collect();
            let ours = (
                cache.spans.get(4 * word..4 * word + 4),
                cache.starts.get(from..from + many),
                cache.ids.get(from..from + many),
                cache.offsets.get(at..at + n + 2),
            );
            if ours
                != (
                    Some(&span[..]),
                    Some(&starts[..]),
                    Some(&ids[..]),
                    Some(&theirs.offsets[..]),
                )
            {
                self.difference("not the original's lattice", theirs, ours);
            }
            // The ends are not kept: the offsets say them.
            let ends: Vec<u32> = (0..=n)
                .flat_map(|p| vec![p as u32; (theirs.offsets[p + 1] - theirs.offsets[p]) as usize])
                .collect();
            if !theirs.edges.iter().map(|edge| edge.1).eq(ends) {
                self.difference(
                    "the original's ends are not those of its offsets",
                    theirs,
                    word,
                );
            }
            (from, at) = (from + many, at + n + 2);
        }
    }

    fn compare(&mut self) {
        let case = Case::new(&mut self.random);
        let words: Vec<&str> = case.words.iter().map(String::as_str).collect();
        let pieces: Vec<&str> = case.pieces.iter().map(String::as_str).collect();
        let lent = cases::lend(&mut self.random, &case);
        let used = plain::laid(&plain::lattices(case.setting, &words, &pieces));
        let nodes = plain::nodes(pieces.iter().copied());
        let sizes = cases::sizes(&mut self.random, &lent, &used, nodes, pieces.len());

        let mut cache = self.build("accepted", &lent, &sizes);
        let mut original =
            original::Cache::build(case.setting, &words, &original::Trie::build(&pieces));
        self.same(&cache, &original);
        let built = cache.clone();

        let mut left = pieces.len();
        for _ in 0..1 + self.random.below(4) {
            let (remap, survivors) = cases::remap(&mut self.random, left);
            self.retain("accepted", &mut cache, words.len(), &remap);
            original.retain(&remap);
            self.same(&cache, &original);
            left = survivors;
        }

        self.damaged_build(&lent, &sizes);
        self.damaged_retain(&built, words.len(), pieces.len());
        self.damaged_retain(&cache, words.len(), left);
    }

    fn damaged_build(&mut self, lent: &Lent, sizes: &Sizes) {
        let (mut lent, mut sizes) = (lent.clone(), sizes.clone());
        for _ in 0..self.random.pick(&[1, 1, 1, 2, 3]) {
            cases::damage_lent(&mut self.random, &mut lent, &mut sizes);
        }
        self.build("accepted, damaged", &lent, &sizes);
    }

    fn damaged_retain(&mut self, cache: &Cache, words: usize, pieces: usize) {
        let (mut cache, mut words) = (cache.clone(), words);
        let (mut remap, _) = cases::remap(&mut self.random, pieces);
        for _ in 0..self.random.pick(&[1, 1, 1, 2, 3]) {
            cases::damage_cache(&mut self.random, &mut cache, &mut words, &mut remap);
        }
        self.retain("accepted, damaged", &mut cache, words, &remap);
    }

    /// As many words and bytes as there may be, and one more of each.
    fn bounds(&mut self) {
        let (words, bytes) = (16_384, 1_048_576);
        let most = Lent {
            setting: 2,
            text: b"ab".iter().copied().cycle().take(bytes).collect(),
            words: (0..words)
                .flat_map(|word| [64 * word % (bytes as u32 - 255), word % 256])
                .collect(),
            piece_text: b"abba".iter().copied().cycle().take(bytes).collect(),
            pieces: vec![0, 1, 1, 1, 0, 2, 2, 2],
        };
        let edges = 2 * 255 * words as usize;
        let sizes = Sizes {
            offsets: 257 * words as usize,
            starts: edges,
            ids: edges,
            spans: 4 * words as usize,
            keys: 10,
            ends: 10,
            table: 2 * 1_048_577,
        };
        self.build("accepted", &most, &sizes);
        let more: [fn(&mut Lent); 4] = [
            |lent| lent.words.extend([0, 0]),
            |lent| lent.text.push(b'a'),
            |lent| lent.piece_text.push(b'a'),
            |lent| lent.pieces.resize(2 * 1_048_577, 0),
        ];
        for add in more {
            let mut lent = most.clone();
            add(&mut lent);
            self.build("accepted", &lent, &sizes);
        }
    }

    fn report(&mut self) {
        self.show(|(call, number, why)| format!("{call:<8}  {number:>2}  {why}"));
        self.demand(KINDS, ENOUGH);
        println!(
            "lattices: {} cases, {} edges, {} differences",
            self.cases, self.sums.edges, self.differences
        );
    }
}

fn main() {
    let mut comparison = Comparison::asked("lattices", 100_000);
    comparison.bounds();
    comparison.each_case(Comparison::compare);
    comparison.report();
    comparison.end();
}
