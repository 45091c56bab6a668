//! Do the proved cuts, expectations and refusals agree with the Rust original, and with document 01?
//!
//! A case is a few words of eight scripts over a list of distinct pieces, and scores of one kind or of several. Each word's
//! lattice goes through the five calls. What they answer has to be what the original answers with our mathematics, bit for
//! bit: the best cut's score and path, the best score without a piece, whether there is a cut, the sum over all cuts and
//! every edge's expectation. Then what is lent is damaged, and plain.rs works out which refusal should come of it, at which
//! place; where none should, the original is asked again.
//!
//! Each word goes through the one-word cut too, over all pieces: whole, and then damaged. Where two refusals apply that stand
//! side by side in its order, the first has to come; that is counted as well.
//!
//! Slots that no answer fills are as they were, and all are after a refusal. The work slices hold zeros after every call,
//! whatever they held before. One difference fails, and so does a kind that never came.
//!
//!     --cases N    how many, 100,000 if not said
//!     --seed N     the same seed makes the same cases

#[allow(dead_code)]
#[path = "../lattices/cases.rs"]
mod cases;
#[path = "../common/comparison.rs"]
mod comparison;
mod cuts;
#[path = "../common/no.rs"]
mod no;
mod one_word;
#[allow(dead_code)]
#[path = "../lattices/plain.rs"]
mod plain;
#[allow(dead_code)]
#[path = "../math/random.rs"]
mod random;
#[path = "plain.rs"]
mod refusals;

use causeylark::slices::{self, Pieces, Word, Work};
use causeylark::Refusal;
use comparison::{Call, ENOUGH};
use no::No;
use plain::Edge;
use refusals::{Lent, OneWord, Rooms, WordRooms};

/// What has to come at least once.
const CALLS: [&str; 5] = ["viterbi", "excluding", "connected", "expectations", "short"];
/// Of every call.
const FORMED: [(u32, &str); 8] = [
    (0, "accepted"),
    (0, "accepted, damaged"),
    (9, "not n + 2 offsets"),
    (9, "starts and ids not equally many"),
    (9, "offsets not from 0 to the edge count"),
    (9, "offsets that fall"),
    (9, "a start not before its end"),
    (9, "starts that do not rise"),
];
const OTHERS: [(&str, u32, &str); 26] = [
    ("viterbi", 9, "an id with no score"),
    ("viterbi", 10, "NaN"),
    ("viterbi", 10, "above zero"),
    ("viterbi", 7, "room 3, best"),
    ("viterbi", 7, "room 3, back"),
    ("viterbi", 7, "room 4, path"),
    ("viterbi", 11, "no finite sum"),
    ("viterbi", 0, "an empty word"),
    ("short", 9, "an id with no score"),
    ("short", 10, "NaN"),
    ("short", 10, "above zero"),
    ("short", 7, "room 3, best"),
    ("short", 7, "room 3, back"),
    ("short", 7, "room 4, path"),
    ("short", 11, "no finite sum"),
    ("excluding", 9, "an id with no score"),
    ("excluding", 10, "NaN"),
    ("excluding", 10, "above zero"),
    ("excluding", 7, "room 3, best"),
    ("connected", 7, "room 3, reach"),
    ("expectations", 9, "an id with no score"),
    ("expectations", 10, "NaN"),
    ("expectations", 10, "above zero"),
    ("expectations", 7, "room 3, alpha"),
    ("expectations", 7, "room 3, beta"),
    ("expectations", 7, "room 3, entries"),
];
const ONE_WORD: &str = "one word";
/// Of the one-word cut.
const WHOLE: [(u32, &str); 30] = [
    (0, "accepted"),
    (0, "accepted, damaged"),
    (0, "accepted, half of the places taken"),
    (0, "accepted, more scores than pieces"),
    (0, "accepted, of 255 bytes"),
    (0, "an empty word"),
    (2, "piece length"),
    (7, "room 0, pieces"),
    (7, "room 0, piece text"),
    (7, "room 0, table"),
    (7, "room 0, table by one"),
    (3, "too long"),
    (3, "too long by one"),
    (3, "not UTF-8"),
    (14, "outside its text"),
    (14, "not UTF-8"),
    (15, "a spelling"),
    (15, "the empty one"),
    (10, "NaN"),
    (10, "NaN, of no piece"),
    (10, "above zero"),
    (10, "above zero, of no piece"),
    (10, "missing"),
    (7, "room 2, keys"),
    (7, "room 2, keys by one"),
    (7, "room 2, ends"),
    (7, "room 2, ends by one"),
    (7, "room 4, path"),
    (7, "room 4, path by one"),
    (11, "no finite sum"),
];
const BOTH: &str = "both apply";
/// Of the one-word cut: the refusal that came, where the next in its order applied too.
const ORDER: [(u32, &str); 8] = [
    (2, "and 7 at 0"),
    (7, "at 0, and 3"),
    (3, "and 14"),
    (14, "and 15"),
    (15, "and 10"),
    (10, "and 7 at 2"),
    (7, "at 2, and 7 at 4"),
    (7, "at 4, and 11"),
];
const NO_PATH: No = No {
    number: 11,
    place: 0,
    why: "no finite sum",
};

#[derive(Default)]
struct Sums {
    edges: usize,
    cuts: usize,
    one_word_cuts: usize,
}

type Comparison = comparison::Comparison<Call, Sums>;

/// What should come of a call: the sum, the count, and what its results begin with.
type Wanted<T> = Result<(f64, usize, Vec<T>), No>;

fn bits(floats: &[f64]) -> Vec<u64> {
    floats.iter().map(|float| float.to_bits()).collect()
}

fn zeros(floats: &[f64], numbers: &[u32]) -> bool {
    floats.iter().all(|float| float.to_bits() == 0) && numbers.iter().all(|&number| number == 0)
}

fn original(lent: &Lent, edges: &[Edge]) -> original::Word {
    original::Word::lent(lent.n, edges, &lent.offsets)
}

fn word(lent: &Lent) -> Word<'_> {
    Word {
        offsets: &lent.offsets,
        starts: &lent.starts,
        ids: &lent.ids,
        n: lent.n,
    }
}

/// The best cut, or the first refusal that applies.
fn best_cut(lent: &Lent, rooms: &Rooms) -> Wanted<u32> {
    let edges = refusals::viterbi(lent, rooms)?;
    match original(lent, &edges).viterbi(&lent.scores) {
        Some((score, path)) => Ok((score, path.len(), path)),
        None => Err(NO_PATH),
    }
}

/// What applies of each refusal of the one-word cut, and the original's cut. It is asked where no more is wrong than that
/// there is too little room.
fn one_cut(lent: &OneWord, rooms: &WordRooms) -> ([Option<No>; 9], Option<(f64, Vec<u32>)>) {
    let mut noes = [None; 9];
    noes[..8].copy_from_slice(&refusals::one_word(lent, rooms));
    if noes[..6].iter().any(Option::is_some) {
        return (noes, None);
    }
    let (word, pieces) = (lent.spelt().unwrap(), lent.spellings().unwrap());
    let cut = original::Trie::build(&pieces).cut(lent.setting, word, &lent.scores);
    noes[8] = cut.is_none().then_some(NO_PATH);
    (noes, cut)
}

impl Comparison {
    fn junk_floats(&mut self, slots: usize) -> Vec<f64> {
        (0..slots)
            .map(|_| f64::from_bits(self.random.bits()))
            .collect()
    }

    /// The answer, what its results hold after it, and whether the work slices are clear.
    fn judge<T: Copy + PartialEq + std::fmt::Debug>(
        &mut self,
        call: &'static str,
        good: &'static str,
        wanted: &Wanted<T>,
        said: Result<(f64, usize), Refusal>,
        results: (&[T], &[T]),
        clear: bool,
    ) {
        let wants = match wanted {
            Ok((sum, count, _)) => Ok((sum.to_bits(), *count)),
            Err(no) => Err(*no),
        };
        let says = said.map(|(sum, count)| (sum.to_bits(), count));
        let why = self.answer(call, good, wants, says);
        let (before, after) = results;
        let front = wanted.as_ref().map_or(&[][..], |(_, _, front)| front);
        let left: Vec<T> = front
            .iter()
            .chain(before.iter().skip(front.len()))
            .copied()
            .collect();
        if left != after {
            self.difference(&format!("{call}, the results after {why}"), left, after);
        }
        if !clear {
            self.difference(
                &format!("{call}, a work slice after {why}"),
                "zeros",
                "other",
            );
        }
    }

    fn viterbi(&mut self, good: &'static str, lent: &Lent, rooms: &Rooms) {
        let (mut best, mut back) = (self.junk_floats(rooms.best), self.random.junk(rooms.back));
        let before = self.random.junk(rooms.path);
        let mut path = before.clone();
        let said = slices::viterbi(word(lent), &lent.scores, &mut best, &mut back, &mut path);
        let wanted = best_cut(lent, rooms);
        self.sums.cuts += usize::from(wanted.is_ok());
        let good = if lent.n == 0 { "an empty word" } else { good };
        self.judge(
            CALLS[0],
            good,
            &wanted,
            said,
            (&before, &path),
            zeros(&best, &back),
        );
    }

    /// The same with 32 slots that hold zeros, by value.
    fn short(&mut self, good: &'static str, lent: &Lent, rooms: &Rooms) {
        let (mut best, mut back) = (self.junk_floats(rooms.best), self.random.junk(rooms.back));
        let short = slices::viterbi_short(word(lent), &lent.scores, &mut best, &mut back);
        let wanted = best_cut(lent, &Rooms { path: 32, ..*rooms });
        self.judge(
            CALLS[4],
            good,
            &wanted,
            short.answer,
            (&[0; 32], &short.ids),
            zeros(&best, &back),
        );
    }

    fn excluding(&mut self, good: &'static str, lent: &Lent, rooms: &Rooms) {
        let mut best = self.junk_floats(rooms.best);
        let far = self.random.bits() as u32;
        let near = self.random.below(lent.scores.len() + 1) as u32;
        let used = lent.ids.first().copied().unwrap_or(near);
        let excluded = self.random.pick(&[near, near, used, used, far]);
        let said = slices::viterbi_excluding(word(lent), &lent.scores, excluded, &mut best);
        let wanted = refusals::viterbi_excluding(lent, rooms).map(|edges| {
            let score = original(lent, &edges).viterbi_excluding(&lent.scores, excluded);
            (score, 0, Vec::<u32>::new())
        });
        let said = said.map(|score| (score, 0));
        self.judge(CALLS[1], good, &wanted, said, (&[], &[]), zeros(&best, &[]));
    }

    fn connected(&mut self, good: &'static str, lent: &Lent, rooms: &Rooms) {
        let mut reach = self.random.junk(rooms.reach);
        let said = slices::is_connected(word(lent), &mut reach);
        let wanted = refusals::is_connected(lent, rooms).map(|edges| {
            (
                0.0,
                usize::from(original(lent, &edges).is_connected()),
                Vec::<u32>::new(),
            )
        });
        let said = said.map(|cuts| (0.0, usize::from(cuts)));
        self.judge(
            CALLS[2],
            good,
            &wanted,
            said,
            (&[], &[]),
            zeros(&[], &reach),
        );
    }

    fn expectations(&mut self, good: &'static str, lent: &Lent, rooms: &Rooms) {
        let (mut alpha, mut beta) = (self.junk_floats(rooms.alpha), self.junk_floats(rooms.beta));
        let before = self.junk_floats(rooms.emitted);
        let mut emitted = before.clone();
        let said = slices::expectations(
            word(lent),
            &lent.scores,
            &mut alpha,
            &mut beta,
            &mut emitted,
        );
        let wanted = refusals::expectations(lent, rooms).map(|edges| {
            let (z, entries) = original(lent, &edges).expectations(&lent.scores);
            (z, 0, bits(&entries))
        });
        self.sums.edges += wanted.as_ref().map_or(0, |(_, _, entries)| entries.len());
        let said = said.map(|sum| (sum, 0));
        let clear = zeros(&alpha, &[]) && zeros(&beta, &[]);
        self.judge(
            CALLS[3],
            good,
            &wanted,
            said,
            (&bits(&before), &bits(&emitted)),
            clear,
        );
    }

    fn one_word(&mut self, good: &'static str, lent: &OneWord, rooms: &WordRooms) {
        let mut keys: Vec<u64> = (0..rooms.keys).map(|_| self.random.bits()).collect();
        let (mut ends, mut table) = (self.random.junk(rooms.ends), self.random.junk(rooms.table));
        let before = self.random.junk(rooms.path);
        let mut path = before.clone();
        let pieces = Pieces {
            setting: lent.setting,
            text: &lent.text,
            pieces: &lent.pieces,
            scores: &lent.scores,
        };
        let work = Work {
            keys: &mut keys,
            ends: &mut ends,
            table: &mut table,
        };
        let said = slices::cut(&lent.word, pieces, &mut path, work);
        let (noes, cut) = one_cut(lent, rooms);
        let first = noes.iter().position(Option::is_some);
        let wanted = match (first, cut) {
            (None, Some((score, path))) => Ok((score, path.len(), path)),
            (first, _) => Err(noes[first.unwrap()].unwrap()),
        };
        if let Some(step) = first.filter(|step| noes.get(step + 1).is_some_and(Option::is_some)) {
            let (number, why) = ORDER[step];
            self.count((BOTH, number, why));
        }
        self.sums.one_word_cuts += usize::from(wanted.is_ok());
        let good = match wanted {
            Err(_) => good,
            _ if lent.word.is_empty() => "an empty word",
            _ if lent.word.len() == 255 => "accepted, of 255 bytes",
            _ if lent.scores.len() > lent.pieces.len() / 2 => "accepted, more scores than pieces",
            _ if lent.places() == Some(rooms.keys.min(rooms.ends)) => {
                "accepted, half of the places taken"
            }
            _ => good,
        };
        let clear = keys.iter().all(|&key| key == 0) && zeros(&[], &ends) && zeros(&[], &table);
        self.judge(ONE_WORD, good, &wanted, said, (&before, &path), clear);
    }

    /// The one-word cut of each word, over the same pieces and scores.
    fn one_by_one(&mut self, case: &cases::Case, scores: Vec<f64>) {
        let (text, pieces) = cases::spans(&mut self.random, &case.pieces);
        let mut lent = OneWord {
            setting: case.setting,
            word: Vec::new(),
            text,
            pieces,
            scores,
        };
        let places = lent.places().unwrap();
        for word in &case.words {
            lent.word = word.clone().into_bytes();
            let mut rooms = one_word::rooms(&mut self.random, &lent, places);
            self.one_word("accepted", &lent, &rooms);
            let mut lent = lent.clone();
            for _ in 0..self.random.pick(&[1, 1, 2, 3]) {
                one_word::damage(&mut self.random, &mut lent, &mut rooms);
            }
            self.one_word("accepted, damaged", &lent, &rooms);
        }
    }

    fn all(&mut self, good: &'static str, lent: &Lent, rooms: &Rooms) {
        self.viterbi(good, lent, rooms);
        self.short(good, lent, rooms);
        self.excluding(good, lent, rooms);
        self.connected(good, lent, rooms);
        self.expectations(good, lent, rooms);
    }

    fn compare(&mut self) {
        let case = cases::Case::new(&mut self.random);
        let words: Vec<&str> = case.words.iter().map(String::as_str).collect();
        let pieces: Vec<&str> = case.pieces.iter().map(String::as_str).collect();
        let scores = cuts::scores(&mut self.random, &pieces);
        for lattice in plain::lattices(case.setting, &words, &pieces) {
            let lent = Lent {
                offsets: lattice.offsets(),
                starts: lattice.edges.iter().map(|edge| edge.0).collect(),
                ids: lattice.edges.iter().map(|edge| edge.2).collect(),
                n: lattice.n,
                scores: scores.clone(),
            };
            let rooms = cuts::rooms(&mut self.random, &lent);
            self.all("accepted", &lent, &rooms);
            let (mut lent, mut rooms) = (lent, rooms);
            for _ in 0..self.random.pick(&[1, 1, 1, 2, 3]) {
                cuts::damage(&mut self.random, &mut lent, &mut rooms);
            }
            self.all("accepted, damaged", &lent, &rooms);
        }
        self.one_by_one(&case, scores);
    }

    fn report(&mut self) {
        self.show(|(call, number, why)| format!("{call:<12}  {number:>2}  {why}"));
        let every = CALLS
            .iter()
            .flat_map(|call| FORMED.map(|(number, why)| (*call, number, why)));
        let whole = WHOLE.map(|(number, why)| (ONE_WORD, number, why));
        let order = ORDER.map(|(number, why)| (BOTH, number, why));
        self.demand(every.chain(OTHERS).chain(whole).chain(order), ENOUGH);
        println!(
            "cuts: {} cases, {} best cuts, {} edges with expectations, {} one-word cuts, {} differences",
            self.cases, self.sums.cuts, self.sums.edges, self.sums.one_word_cuts, self.differences
        );
    }
}

fn main() {
    let mut comparison = Comparison::asked("cuts", 100_000);
    comparison.each_case(Comparison::compare);
    comparison.report();
    comparison.end();
}
