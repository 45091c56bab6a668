//! The one-word cut of a 10-character word over 8,000 pieces: what it costs both ways.
//!
//! Whole: one call for one word. Ours checks, builds the trie of all pieces, the lattice and the best cut, and clears. It is
//! lent the places that always suffice, two for each character of the pieces and for the root, and then the places that the
//! trie needs; and the wrapper for Rust has to allocate what it lends. The original builds the trie, the lattice and the best
//! cut, and what it allocates is part of its time.
//!
//! With the trie built once: one cache of 16,384 such words, and the best cut of each. Ours is the two calls, of which each
//! best cut looks at all 8,000 scores; and again with the core in the place of the second, as training has it.

use crate::corpus::{boundaries, spans};
use crate::tables::{Places, Tables};
use crate::{call_viterbi, core_viterbi, original, scores_of};
use crate::{measure, Answers, Lent as Words, Row, Work as Slots, SETTING};
use causeylark::slices::{self, Lent, Pieces, Word};
use causeylark::{Cache, Cut};
use std::cell::RefCell;
use std::collections::BTreeSet;

const PIECES: usize = 8_000;
const CHARACTERS: usize = 10;
const WORDS: usize = 16_384;
/// Of these words so many are cut whole.
const WHOLE: usize = 32;

/// Distinct stretches of 10 characters of the words.
fn stretches(words: &[String]) -> Vec<&str> {
    let (mut stretches, mut seen) = (Vec::new(), BTreeSet::new());
    for word in words {
        for ends in boundaries(word).windows(CHARACTERS + 1) {
            let stretch = &word[ends[0]..ends[CHARACTERS]];
            if stretches.len() < WORDS && seen.insert(stretch) {
                stretches.push(stretch);
            }
        }
    }
    stretches
}

/// How many distinct non-empty prefixes the pieces have.
fn prefixes(pieces: &[&str]) -> usize {
    let mut distinct = BTreeSet::new();
    for piece in pieces {
        distinct.extend(boundaries(piece)[1..].iter().map(|end| &piece[..*end]));
    }
    distinct.len()
}

impl Tables {
    /// Each word's lattice with all scores.
    fn words<'a>(&'a self, scores: &'a [f64]) -> Words<'a> {
        let word = |span: &[u32]| {
            let [from, to, at, n] = [0, 1, 2, 3].map(|number| span[number] as usize);
            Word {
                offsets: &self.offsets[at..at + n + 2],
                starts: &self.starts[from..to],
                ids: &self.ids[from..to],
                n,
            }
        };
        Words {
            words: self
                .spans
                .chunks_exact(4)
                .map(|span| (word(span), scores))
                .collect(),
            excluded: Vec::new(),
        }
    }
}

fn answer(answers: &mut Answers, score: f64, path: &[u32]) {
    answers.scores[0] = score;
    answers.paths.clear();
    answers.paths.extend_from_slice(path);
}

fn show(rows: &[Row<'_>], totals: &[f64], words: usize) {
    for (row, total) in rows.iter().zip(totals) {
        let (each, ratio) = (1e6 * total / words as f64, total / totals[0]);
        println!("{:<54}  {each:8.2}  {ratio:6.2}", row.name);
    }
}

/// One call a word.
fn whole(words: &[&str], pieces: &[&str], scores: &[f64]) {
    let (text, numbers) = spans(pieces);
    let bytes: Vec<&[u8]> = pieces.iter().map(|piece| piece.as_bytes()).collect();
    let lent = Pieces {
        setting: SETTING,
        text: &text,
        pieces: &numbers,
        scores,
    };
    let ours = |places: usize| {
        let work = RefCell::new(Places::of(places, PIECES));
        move |word: usize, answers: &mut Answers| {
            let (mut work, mut path) = (work.borrow_mut(), [0; CHARACTERS]);
            let said = slices::cut(words[word].as_bytes(), lent, &mut path, work.lent());
            let (score, count) = said.unwrap();
            answer(answers, score, &path[..count]);
        }
    };
    let characters: usize = pieces.iter().map(|piece| piece.chars().count()).sum();
    let rows = [
        Row::new("one word whole, original", |word, answers| {
            let trie = ::original::Trie::build(pieces);
            let (score, path) = trie.cut(SETTING, words[word], scores).unwrap();
            answer(answers, score, &path);
        }),
        Row::new(
            "one word whole, ours, 2 x (characters + 1) places",
            ours(2 * (characters + 1)),
        ),
        Row::new(
            "one word whole, ours, 2 x (prefixes + 1) places",
            ours(2 * (prefixes(pieces) + 1)),
        ),
        Row::new(
            "one word whole, ours, wrapper",
            |word, answers| match causeylark::cut(SETTING, words[word].as_bytes(), &bytes, scores) {
                Cut::Pieces { ids, score } => answer(answers, score, &ids),
                other => panic!("a word with no cut: {other:?}"),
            },
        ),
    ];
    let blanks = vec![Answers::of(1, 0); words.len()];
    show(&rows, &measure(&rows, &blanks), words.len());
}

/// One trie for all words.
fn once(words: &[&str], pieces: &[&str], scores: &[f64]) {
    let ((text, numbers), (piece_text, piece_numbers)) = (spans(words), spans(pieces));
    let lent = Lent {
        setting: SETTING,
        text: &text,
        words: &numbers,
        piece_text: &piece_text,
        pieces: &piece_numbers,
    };
    let places = 2 * (prefixes(pieces) + 1);
    let ours = |cut: fn(&Words<'_>, &mut Slots, &mut Answers)| {
        let lends = RefCell::new((
            Places::of(places, PIECES),
            Tables::ample(words.len(), text.len()),
            Slots::of(CHARACTERS + 1),
        ));
        move |_: usize, answers: &mut Answers| {
            let (places, tables, slots) = &mut *lends.borrow_mut();
            slices::build(lent, tables.lent(), places.lent()).unwrap();
            cut(&tables.words(scores), slots, answers);
        }
    };
    let rows = [
        Row::new("one word of many, original", |_, answers| {
            original::viterbi(&original::build(words, pieces), scores, answers)
        }),
        Row::new("one word of many, ours, calls", ours(call_viterbi)),
        Row::new("one word of many, ours, call and core", ours(core_viterbi)),
    ];
    let blanks = [Answers::of(words.len(), 0)];
    show(&rows, &measure(&rows, &blanks), words.len());
}

/// Over the first of these pieces, with stretches of these words.
pub fn both(words: &[String], pieces: &[String]) {
    let words = stretches(words);
    let pieces: Vec<&str> = pieces[..PIECES].iter().map(String::as_str).collect();
    let word_bytes: Vec<&[u8]> = words.iter().map(|word| word.as_bytes()).collect();
    let piece_bytes: Vec<&[u8]> = pieces.iter().map(|piece| piece.as_bytes()).collect();
    let cache = Cache::build(SETTING, &word_bytes, &piece_bytes).unwrap();
    let scores = scores_of(cache.lattices(), PIECES);
    println!(
        "\n{} words of {CHARACTERS} characters, of which {WHOLE} are cut whole; {PIECES} pieces, {} characters, {} prefixes",
        words.len(),
        pieces.iter().map(|piece| piece.chars().count()).sum::<usize>(),
        prefixes(&pieces),
    );
    println!("{:<54}  {:>8}  {:>6}", "what", "us/word", "ratio");
    let some: Vec<&str> = words
        .iter()
        .step_by(words.len() / WHOLE)
        .take(WHOLE)
        .copied()
        .collect();
    whole(&some, &pieces, &scores);
    once(&words, &pieces, &scores);
}
