//! How fast is the proved seed list beside the Rust original's?
//!
//! Over lists as corpus.rs makes them, Latin, Thai and CJK: a quarter, half and all of 16,384 words, with frequencies that fall
//! as they do in a text. And over lists that are hard to sort: one letter repeated, and words that are prefixes of one another.
//! The settings are the defaults, once with length 16 and once with 32.
//!
//! Ours is all of `start`: settings, words and room are checked, repeats are looked for, and words that are not UTF-8 left out.
//! The original's is `seed` alone, with our mathematics. What it has to allocate is part of its time; ours is lent its slots,
//! exactly as many as the list needs before its cut. All of it is one program and one thread. Rounds alternate, and the median
//! of each counts. Every list is compared in a first round, which does not count.
//!
//!     --rounds N    how many, 5 if not said
//!     --quick       a quarter of the words alone

#[path = "../common/arguments.rs"]
mod arguments;
#[path = "../seeds/call.rs"]
mod call;
mod clock;
#[allow(dead_code)]
mod corpus;
#[allow(dead_code)]
#[path = "../math/random.rs"]
mod random;

use arguments::or_end;
use call::{Lent, Slots};
use clock::{median, timed};
use corpus::{spans, words_of, SCRIPTS, WORDS};
use random::Random;
use std::collections::BTreeSet;
use std::hint::black_box;

const VOCAB: usize = 8_000;
const MINIMUM: u64 = 2;
const LENGTHS: [usize; 2] = [16, 32];
const TEXT: usize = 1_048_576;

/// Distinct words in this order, as many as the bounds allow.
fn bounded(words: impl Iterator<Item = String>) -> Vec<String> {
    let (mut bytes, mut seen) = (0, BTreeSet::new());
    let fits = |word: &String| {
        bytes += word.len();
        bytes <= TEXT
    };
    let distinct = words.filter(|word| word.len() <= 255 && seen.insert(word.clone()));
    distinct.take_while(fits).take(WORDS).collect()
}

/// a, aa, aaa, .. up to 255 letters, and words of one and two letters.
fn one_letter() -> Vec<String> {
    let letters: Vec<char> = ('a'..='z')
        .chain('α'..='ω')
        .chain('а'..='я')
        .chain('一'..='丯')
        .collect();
    let pairs = || {
        letters
            .iter()
            .flat_map(|a| letters.iter().map(move |b| format!("{a}{b}")))
    };
    let ones = letters.iter().map(char::to_string);
    bounded(
        (1..=255)
            .map(|long| "a".repeat(long))
            .chain(ones)
            .chain(pairs()),
    )
}

/// Every prefix of words of 127 letters that differ in their first eight alone.
fn prefixes() -> Vec<String> {
    let word = |index: usize| -> String {
        let bit = |place: usize| if index >> place & 1 == 0 { 'a' } else { 'b' };
        (0..8).map(bit).collect::<String>() + &"a".repeat(119)
    };
    bounded((0..256).flat_map(|index| (1..=127).map(move |long| word(index)[..long].to_string())))
}

/// The first so many words, and frequencies as a text has them: the early words more often.
fn lent(words: &[String], length: usize) -> Lent {
    let (text, spans) = spans(words);
    let frequency = |index: usize| 1 + (words.len() / (1 + index)) as u64;
    Lent {
        vocab: VOCAB,
        seed: None,
        length,
        minimum: MINIMUM,
        em: 2,
        texts: Vec::new(),
        specials: Vec::new(),
        text,
        words: spans,
        frequencies: (0..words.len()).map(frequency).collect(),
    }
}

fn slots(words: usize, positions: usize, pieces: usize) -> Slots {
    let both = positions.max(pieces);
    Slots {
        kept: vec![0; 2 * words],
        counts: vec![0; words],
        chars: vec![0; positions],
        places: vec![0; 3 * positions],
        order: vec![0; both],
        work: vec![0; both],
        ranks: vec![0; both],
        pieces: vec![0; 2 * pieces],
        tallies: vec![0; pieces],
        scores: vec![0.0; pieces],
        table: vec![0; 2 * words],
    }
}

/// One line: both sides over one list.
fn measure(name: &str, words: &[String], length: usize, rounds: usize) -> f64 {
    let lent = lent(words, length);
    let counted: Vec<(&str, u64)> = words
        .iter()
        .map(String::as_str)
        .zip(lent.frequencies.iter().copied())
        .collect();
    let whole = original::Trainer::new(VOCAB, Some(usize::MAX), length, MINIMUM, &[]);
    let uncut = whole.seed(&counted).0.len();
    let trainer = original::Trainer::new(VOCAB, None, length, MINIMUM, &[]);
    let mut slots = slots(words.len(), lent.text.len(), uncut);
    let (mut ours, mut theirs) = (Vec::new(), Vec::new());
    for round in 0..=rounds {
        let (pieces, scores, required) = timed(&mut theirs, || trainer.seed(black_box(&counted)));
        let said = timed(&mut ours, || call::seed(black_box(&lent), &mut slots));
        if round == 0 {
            let wanted = call::Told {
                words: words.len(),
                pieces: pieces.len(),
                required,
            };
            assert_eq!(said, Ok(wanted), "how many");
            assert!(
                call::pieces(&lent, &slots, pieces.len()) == call::originals(&pieces, &scores),
                "not the original's list"
            );
            ours.clear();
            theirs.clear();
        }
    }
    let characters: usize = words.iter().map(|word| word.chars().count()).sum();
    let (ours, theirs) = (1e3 * median(&ours), 1e3 * median(&theirs));
    println!(
        "{name:<16}  {length:>2}  {:>6}  {characters:>9}  {uncut:>8}  {theirs:>9.1}  {ours:>9.1}  {:>5.2}",
        words.len(),
        ours / theirs
    );
    ours / theirs
}

/// The rounds, and whether only the small lists are measured.
fn arguments() -> Result<(usize, bool), String> {
    let (mut rounds, mut quick) = (5, false);
    let mut words = std::env::args().skip(1);
    while let Some(word) = words.next() {
        match word.as_str() {
            "--quick" => quick = true,
            "--rounds" => match words.next().and_then(|number| number.parse().ok()) {
                Some(number) if number > 0 => rounds = number,
                _ => return Err("bench-seed: --rounds N".to_string()),
            },
            _ => return Err(format!("bench-seed: --rounds N or --quick, and not {word}")),
        }
    }
    Ok((rounds, quick))
}

fn main() {
    let (rounds, quick) = or_end(arguments());
    let mut random = Random(1);
    let mut lists: Vec<(String, Vec<String>)> = Vec::new();
    for (name, script) in SCRIPTS {
        let words = bounded(words_of(&mut random, &[script]).into_iter());
        for (part, of) in [("quarter", 4), ("half", 2), ("all", 1)] {
            lists.push((
                format!("{name}, {part}"),
                words[..words.len() / of].to_vec(),
            ));
        }
    }
    lists.push(("one letter".to_string(), one_letter()));
    lists.push(("prefixes".to_string(), prefixes()));
    println!(
        "{:<16}  {:>2}  {:>6}  {:>9}  {:>8}  {:>9}  {:>9}  {:>5}; {rounds} rounds",
        "list", "n", "words", "chars", "uncut", "Rust, ms", "ours, ms", "ratio"
    );
    let mut worst: f64 = 0.0;
    for length in LENGTHS {
        for (name, words) in lists
            .iter()
            .filter(|(name, _)| !quick || name.ends_with("quarter"))
        {
            worst = worst.max(measure(name, words, length, rounds));
        }
    }
    println!("bench-seed: at most {worst:.2} of the original's time");
}
