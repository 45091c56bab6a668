//! How fast are the proved cuts beside the Rust original's?
//!
//! Over the words and pieces of corpus.rs, with scores as a seed list has them: the logarithm of a piece's part of all edges.
//! Of every word: the expectations, the best cut, and the best score without the first piece of that cut.
//!
//! The original is compiled with our mathematics, which it calls as C functions, and again with its stock one. Ours is measured
//! three ways. The cores, as training calls them: the work slices are lent once for all words, and nothing is checked or
//! cleared. The calls of include/causeylark.h over the list of all 32,000 scores, of which every call looks at each. And the
//! same calls with each word's own pieces and their scores alone, as a caller with one word has them. The calls are lent n + 1
//! slots, which they clear.
//!
//! All of it is one program and one thread. The words are parted into parts of 128, and rounds of all that is measured
//! alternate part by part: the least of each part counts, and their sum is shown. So a machine that does other work besides
//! disturbs little. Every answer is compared with the original's in a first round, which does not count.
//!
//! Then the one-word cut, as one_word.rs says.

mod corpus;
mod one_word;
#[allow(dead_code)]
#[path = "../math/random.rs"]
mod random;
mod tables;

use causeylark::slices::{self, Word};
use causeylark::{Cache, Cut, Lattice};
use corpus::{pieces, words, SETTING};
use random::Random;
use std::cell::RefCell;
use std::collections::HashMap;
use std::hint::black_box;
use std::time::Instant;

const ROUNDS: usize = 31;
const PART: usize = 128;

/// The C functions of the library that `tools/native-staticlib bench_cuts` writes. What they require: the lattice is well
/// formed, the scores are at zero or below, and there is room.
mod cores {
    unsafe extern "C" {
        pub fn bench_expectations(
            offsets: *const u32,
            offset_count: usize,
            starts: *const u32,
            start_count: usize,
            ids: *const u32,
            id_count: usize,
            scores: *const f64,
            score_count: usize,
            alpha: *mut f64,
            alpha_slots: usize,
            beta: *mut f64,
            beta_slots: usize,
            emitted: *mut f64,
            emitted_slots: usize,
            n: usize,
        ) -> f64;
        pub fn bench_viterbi(
            offsets: *const u32,
            offset_count: usize,
            starts: *const u32,
            start_count: usize,
            ids: *const u32,
            id_count: usize,
            scores: *const f64,
            score_count: usize,
            best: *mut f64,
            best_slots: usize,
            back: *mut u32,
            back_slots: usize,
            path: *mut u32,
            path_slots: usize,
            n: usize,
        ) -> usize;
        pub fn bench_excluding(
            offsets: *const u32,
            offset_count: usize,
            starts: *const u32,
            start_count: usize,
            ids: *const u32,
            id_count: usize,
            scores: *const f64,
            score_count: usize,
            excluded: u32,
            best: *mut f64,
            best_slots: usize,
            n: usize,
        ) -> f64;
    }
}

/// Every word's answers: what its results hold stands where its edges, or its characters, stand among all.
#[derive(Clone)]
struct Answers {
    sums: Vec<f64>,
    entries: Vec<f64>,
    scores: Vec<f64>,
    paths: Vec<u32>,
    without: Vec<f64>,
}

impl Answers {
    fn of(words: usize, edges: usize) -> Answers {
        Answers {
            sums: vec![0.0; words],
            entries: vec![0.0; edges],
            scores: vec![0.0; words],
            paths: Vec::new(),
            without: vec![0.0; words],
        }
    }

    fn bits(&self) -> [Vec<u64>; 4] {
        [&self.sums, &self.entries, &self.scores, &self.without]
            .map(|floats| floats.iter().map(|float| float.to_bits()).collect())
    }
}

/// Slices that are lent to every word in turn.
struct Work {
    floats: Vec<f64>,
    more: Vec<f64>,
    numbers: Vec<u32>,
    path: Vec<u32>,
}

impl Work {
    fn of(slots: usize) -> Work {
        Work {
            floats: vec![0.0; slots],
            more: vec![0.0; slots],
            numbers: vec![0; slots],
            path: vec![0; slots],
        }
    }
}

/// Every word's lattice with the scores that it is lent, and the piece that it does without.
struct Lent<'a> {
    words: Vec<(Word<'a>, &'a [f64])>,
    excluded: Vec<u32>,
}

fn core_expectations(lent: &Lent<'_>, work: &mut Work, answers: &mut Answers) {
    let mut from = 0;
    for ((word, scores), sum) in lent.words.iter().zip(&mut answers.sums) {
        let to = from + word.starts.len();
        let emitted = &mut answers.entries[from..to];
        // SAFETY: each pointer and count is a slice. The lattices were built, and there is room for the longest word.
        *sum = unsafe {
            cores::bench_expectations(
                word.offsets.as_ptr(),
                word.offsets.len(),
                word.starts.as_ptr(),
                word.starts.len(),
                word.ids.as_ptr(),
                word.ids.len(),
                scores.as_ptr(),
                scores.len(),
                work.floats.as_mut_ptr(),
                work.floats.len(),
                work.more.as_mut_ptr(),
                work.more.len(),
                emitted.as_mut_ptr(),
                emitted.len(),
                word.n,
            )
        };
        from = to;
    }
}

fn core_viterbi(lent: &Lent<'_>, work: &mut Work, answers: &mut Answers) {
    answers.paths.clear();
    for ((word, scores), sum) in lent.words.iter().zip(&mut answers.scores) {
        // SAFETY: as above.
        let count = unsafe {
            cores::bench_viterbi(
                word.offsets.as_ptr(),
                word.offsets.len(),
                word.starts.as_ptr(),
                word.starts.len(),
                word.ids.as_ptr(),
                word.ids.len(),
                scores.as_ptr(),
                scores.len(),
                work.floats.as_mut_ptr(),
                work.floats.len(),
                work.numbers.as_mut_ptr(),
                work.numbers.len(),
                work.path.as_mut_ptr(),
                work.path.len(),
                word.n,
            )
        };
        *sum = work.floats[word.n];
        answers.paths.extend_from_slice(&work.path[..count]);
    }
}

fn core_excluding(lent: &Lent<'_>, work: &mut Work, answers: &mut Answers) {
    for (index, ((word, scores), sum)) in lent.words.iter().zip(&mut answers.without).enumerate() {
        // SAFETY: as above.
        *sum = unsafe {
            cores::bench_excluding(
                word.offsets.as_ptr(),
                word.offsets.len(),
                word.starts.as_ptr(),
                word.starts.len(),
                word.ids.as_ptr(),
                word.ids.len(),
                scores.as_ptr(),
                scores.len(),
                lent.excluded[index],
                work.floats.as_mut_ptr(),
                work.floats.len(),
                word.n,
            )
        };
    }
}

fn call_expectations(lent: &Lent<'_>, work: &mut Work, answers: &mut Answers) {
    let mut from = 0;
    for ((word, scores), sum) in lent.words.iter().zip(&mut answers.sums) {
        let (to, slots) = (from + word.starts.len(), word.n + 1);
        let (alpha, beta) = (&mut work.floats[..slots], &mut work.more[..slots]);
        *sum = slices::expectations(*word, scores, alpha, beta, &mut answers.entries[from..to])
            .unwrap();
        from = to;
    }
}

fn call_viterbi(lent: &Lent<'_>, work: &mut Work, answers: &mut Answers) {
    answers.paths.clear();
    for ((word, scores), sum) in lent.words.iter().zip(&mut answers.scores) {
        let slots = word.n + 1;
        let (best, back) = (&mut work.floats[..slots], &mut work.numbers[..slots]);
        let (score, count) = slices::viterbi(*word, scores, best, back, &mut work.path).unwrap();
        *sum = score;
        answers.paths.extend_from_slice(&work.path[..count]);
    }
}

fn call_excluding(lent: &Lent<'_>, work: &mut Work, answers: &mut Answers) {
    for (index, ((word, scores), sum)) in lent.words.iter().zip(&mut answers.without).enumerate() {
        let best = &mut work.floats[..word.n + 1];
        *sum = slices::viterbi_excluding(*word, scores, lent.excluded[index], best).unwrap();
    }
}

/// The original's calls, with whichever mathematics it was compiled.
macro_rules! original {
    ($name:ident) => {
        mod $name {
            use super::Answers;

            pub fn build(words: &[&str], pieces: &[&str]) -> ::$name::Cache {
                ::$name::Cache::build(super::SETTING, words, &::$name::Trie::build(pieces))
            }

            pub fn expectations(cache: &::$name::Cache, scores: &[f64], answers: &mut Answers) {
                let Answers { sums, entries, .. } = answers;
                let mut slot = 0;
                cache.expectations(scores, sums, |_, value| {
                    entries[slot] = value;
                    slot += 1;
                });
            }

            #[allow(dead_code)]
            pub fn viterbi(cache: &::$name::Cache, scores: &[f64], answers: &mut Answers) {
                answers.paths.clear();
                cache.viterbi(scores, &mut answers.scores, &mut answers.paths);
            }

            #[allow(dead_code)]
            pub fn excluding(
                cache: &::$name::Cache,
                scores: &[f64],
                excluded: &[u32],
                answers: &mut Answers,
            ) {
                cache.viterbi_excluding(scores, excluded, &mut answers.without);
            }
        }
    };
}
original!(original);
original!(stock);

/// A word's ids, renumbered from 0 as they come, and the scores of those alone.
#[derive(Default)]
struct Own {
    ids: Vec<u32>,
    scores: Vec<f64>,
    known: HashMap<u32, u32>,
}

fn own_pieces(cache: &Cache, scores: &[f64]) -> Vec<Own> {
    let of = |word: Lattice<'_>| {
        let mut own = Own::default();
        for id in word.ids() {
            let next = own.scores.len() as u32;
            let new = *own.known.entry(*id).or_insert(next);
            if new == next {
                own.scores.push(scores[*id as usize]);
            }
            own.ids.push(new);
        }
        own
    };
    cache.lattices().map(of).collect()
}

/// The words of a part: our cache of them and the original's, what is lent, and where answers go.
struct Part {
    cache: Cache,
    own: Vec<Own>,
    excluded: Vec<u32>,
    original: ::original::Cache,
    stock: ::stock::Cache,
    blank: Answers,
}

impl Part {
    fn of(words: &[String], pieces: &[String]) -> Part {
        let word_texts: Vec<&str> = words.iter().map(String::as_str).collect();
        let piece_texts: Vec<&str> = pieces.iter().map(String::as_str).collect();
        let word_bytes: Vec<&[u8]> = words.iter().map(String::as_bytes).collect();
        let piece_bytes: Vec<&[u8]> = pieces.iter().map(String::as_bytes).collect();
        let cache = Cache::build(SETTING, &word_bytes, &piece_bytes).unwrap();
        Part {
            blank: Answers::of(words.len(), cache.edges()),
            own: Vec::new(),
            excluded: Vec::new(),
            original: original::build(&word_texts, &piece_texts),
            stock: stock::build(&word_texts, &piece_texts),
            cache,
        }
    }

    /// With each word's own pieces, and the first piece of its best cut.
    fn scored(mut self, scores: &[f64]) -> Part {
        let first = |word: Lattice<'_>| match word.viterbi(scores) {
            Cut::Pieces { ids, .. } => ids[0],
            other => panic!("a word with no cut: {other:?}"),
        };
        self.excluded = self.cache.lattices().map(first).collect();
        self.own = own_pieces(&self.cache, scores);
        self
    }

    fn word(&self, index: usize) -> Word<'_> {
        let word = self.cache.word(index).unwrap();
        Word {
            offsets: word.offsets(),
            starts: word.starts(),
            ids: word.ids(),
            n: word.characters(),
        }
    }

    /// Each word's lattice with all scores.
    fn all<'a>(&'a self, scores: &'a [f64]) -> Lent<'a> {
        let words = (0..self.cache.len())
            .map(|index| (self.word(index), scores))
            .collect();
        Lent {
            words,
            excluded: self.excluded.clone(),
        }
    }

    /// Each word's lattice with its own scores.
    fn alone(&self) -> Lent<'_> {
        let word = |index: usize| {
            (
                Word {
                    ids: &self.own[index].ids,
                    ..self.word(index)
                },
                &self.own[index].scores[..],
            )
        };
        let excluded = self
            .excluded
            .iter()
            .zip(&self.own)
            .map(|(id, own)| own.known[id])
            .collect();
        Lent {
            words: (0..self.own.len()).map(word).collect(),
            excluded,
        }
    }
}

/// What is measured: a name, and a call on a part, by its number.
struct Row<'a> {
    name: &'static str,
    run: Box<dyn Fn(usize, &mut Answers) + 'a>,
}

impl<'a> Row<'a> {
    fn new(name: &'static str, run: impl Fn(usize, &mut Answers) + 'a) -> Row<'a> {
        let run = Box::new(run);
        Row { name, run }
    }

    fn time(&self, part: usize, answers: &mut Answers) -> f64 {
        let begun = Instant::now();
        (self.run)(part, black_box(answers));
        begun.elapsed().as_secs_f64()
    }
}

/// The rows of one call, the first of which is the original's with our mathematics: measured and compared. Answers go to a
/// copy of each part's blank ones.
fn measure(rows: &[Row<'_>], blanks: &[Answers]) -> Vec<f64> {
    let mut totals = vec![0.0; rows.len()];
    for (part, blank) in blanks.iter().enumerate() {
        let mut answers = vec![blank.clone(); rows.len()];
        let mut least = vec![f64::INFINITY; rows.len()];
        for round in 0..=ROUNDS {
            for ((row, answers), least) in rows.iter().zip(&mut answers).zip(&mut least) {
                let time = row.time(part, answers);
                *least = if round == 0 {
                    f64::INFINITY
                } else {
                    least.min(time)
                };
            }
        }
        for (row, other) in rows.iter().zip(&answers) {
            // Ids that are renumbered are other ids, but as many and with the same sums.
            let renumbered = row.name.contains("own scores");
            let alike = other.bits() == answers[0].bits()
                && other.paths.len() == answers[0].paths.len()
                && (renumbered || other.paths == answers[0].paths);
            assert!(
                alike || row.name.contains("stock"),
                "{}: not the original's answers",
                row.name
            );
        }
        totals
            .iter_mut()
            .zip(least)
            .for_each(|(total, least)| *total += least);
    }
    totals
}

fn show(rows: &[Row<'_>], totals: &[f64], edges: usize) {
    for (row, total) in rows.iter().zip(totals) {
        let (each, ratio) = (1e9 * total / edges as f64, total / totals[0]);
        println!(
            "{:<54}  {:8.2}  {each:7.2}  {ratio:6.2}",
            row.name,
            1e3 * total
        );
    }
}

/// The logarithm of each piece's part of all edges.
fn scores_of<'a>(lattices: impl Iterator<Item = Lattice<'a>>, pieces: usize) -> Vec<f64> {
    // An edge more of each piece than there is, so that none has the part 0.
    let mut counts = vec![1.0; pieces];
    lattices.for_each(|word| word.ids().iter().for_each(|id| counts[*id as usize] += 1.0));
    let total: f64 = counts.iter().sum();
    counts.iter().map(|count| f64::ln(count / total)).collect()
}

fn main() {
    let words = words(&mut Random(1));
    let pieces = pieces(&words);
    let parts: Vec<Part> = words
        .chunks(PART)
        .map(|words| Part::of(words, &pieces))
        .collect();

    let lattices = || parts.iter().flat_map(|part| part.cache.lattices());
    let scores = scores_of(lattices(), pieces.len());
    let slots = 1 + lattices().map(|word| word.characters()).max().unwrap();
    let characters: usize = lattices().map(|word| word.characters()).sum();
    let parts: Vec<Part> = parts.into_iter().map(|part| part.scored(&scores)).collect();

    let (parts, scores) = (&parts[..], &scores[..]);
    let edges: usize = parts.iter().map(|part| part.cache.edges()).sum();
    let own: usize = parts
        .iter()
        .flat_map(|part| &part.own)
        .map(|own| own.scores.len())
        .sum();
    println!(
        "{} words, {characters} characters, {} pieces, {edges} edges; {} pieces a word; {ROUNDS} rounds",
        words.len(),
        pieces.len(),
        own / words.len(),
    );
    println!(
        "{:<54}  {:>8}  {:>7}  {:>6}",
        "what", "least, ms", "ns/edge", "ratio"
    );

    let all: &Vec<Lent<'_>> = &parts.iter().map(|part| part.all(scores)).collect();
    let alone: &Vec<Lent<'_>> = &parts.iter().map(Part::alone).collect();
    let blanks: &Vec<Answers> = &parts.iter().map(|part| part.blank.clone()).collect();
    let work = &RefCell::new(Work::of(slots));
    let ours = |call: fn(&Lent<'_>, &mut Work, &mut Answers), lent| {
        let lent: &Vec<Lent<'_>> = lent;
        move |part: usize, answers: &mut Answers| {
            call(black_box(&lent[part]), &mut work.borrow_mut(), answers)
        }
    };
    let rows = [
        Row::new(
            "expectations, original, our mathematics",
            |part, answers| original::expectations(&parts[part].original, scores, answers),
        ),
        Row::new(
            "expectations, original, stock mathematics",
            |part, answers| stock::expectations(&parts[part].stock, scores, answers),
        ),
        Row::new("expectations, ours, core", ours(core_expectations, all)),
        Row::new(
            "expectations, ours, call, each word's own scores",
            ours(call_expectations, alone),
        ),
        Row::new(
            "expectations, ours, call, all scores",
            ours(call_expectations, all),
        ),
    ];
    show(&rows, &measure(&rows, blanks), edges);
    let rows = [
        Row::new("viterbi, original", |part, answers| {
            original::viterbi(&parts[part].original, scores, answers)
        }),
        Row::new("viterbi, ours, core", ours(core_viterbi, all)),
        Row::new(
            "viterbi, ours, call, each word's own scores",
            ours(call_viterbi, alone),
        ),
        Row::new("viterbi, ours, call, all scores", ours(call_viterbi, all)),
    ];
    show(&rows, &measure(&rows, blanks), edges);
    let rows = [
        Row::new("viterbi_excluding, original", |part, answers| {
            original::excluding(
                &parts[part].original,
                scores,
                &parts[part].excluded,
                answers,
            )
        }),
        Row::new("viterbi_excluding, ours, core", ours(core_excluding, all)),
        Row::new(
            "viterbi_excluding, ours, call, each word's own scores",
            ours(call_excluding, alone),
        ),
        Row::new(
            "viterbi_excluding, ours, call, all scores",
            ours(call_excluding, all),
        ),
    ];
    show(&rows, &measure(&rows, blanks), edges);
    one_word::both(&words, &pieces);
}
