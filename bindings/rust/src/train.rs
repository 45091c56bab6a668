//! Training: words with frequencies in, tokens with scores out.

use crate::cache::{Spans, TEXT_BYTES};
use crate::slices::{self, Corpus, Tokens, Training};
use crate::Refusal;
use std::collections::HashSet;

/// The most words.
const WORDS: usize = 16_384;

/// The most bytes of a word or a special.
const WORD_BYTES: usize = 255;

/// So many piece slots are lent at first if more could be needed: with the trie over them, 75 MB.
const FIRST_PIECES: usize = 1_048_576;

/// How to train. By default, as the library's own settings are.
#[derive(Clone, Copy, Debug, PartialEq)]
pub struct Settings {
    /// How many tokens there are to be, specials among them; at most 65,536.
    pub vocab_size: usize,
    /// How many pieces to begin with, at most 1,048,576; 16 times as many as there are to be if unset.
    pub seed_size: Option<usize>,
    /// The most characters of a piece, at most 32.
    pub max_piece_chars: usize,
    /// How often a piece of more than one character has to stand in the words.
    pub min_frequency: u64,
    /// The part of the pieces that a round keeps. With 1 or more, training may stall over its target.
    pub shrink_factor: f64,
    /// How many passes of EM a round has, at most 100; none counts as one.
    pub em_iterations: usize,
}

impl Default for Settings {
    fn default() -> Settings {
        Settings {
            vocab_size: 8_000,
            seed_size: None,
            max_piece_chars: 16,
            min_frequency: 2,
            shrink_factor: 0.75,
            em_iterations: 2,
        }
    }
}

/// What training gives.
#[derive(Clone, Debug, PartialEq)]
pub struct Trained {
    /// Every token with its score, by id: the specials with score 0, the required pieces, the others. All are UTF-8.
    pub tokens: Vec<(Vec<u8>, f64)>,
    /// How many of them are required: the pieces of one character.
    pub required: usize,
    /// Whether there are more of them than there were to be.
    pub stalled: bool,
}

/// How many slots suffice for the tables.
#[derive(Default)]
struct Room {
    words: usize,
    bytes: usize,
    offsets: usize,
    edges: usize,
    /// The most strings that the seed list can have before its cut, and the most after it.
    listed: usize,
    after_cut: usize,
    /// The most pieces that can be left, and the most bytes of one.
    left: usize,
    long: usize,
}

/// How many substrings of 1 to `length` characters stand in a word of n.
fn substrings(n: usize, length: usize) -> usize {
    let longest = n.min(length);
    longest * (n + 1) - longest * (longest + 1) / 2
}

impl Room {
    /// For settings and words within the bounds.
    fn of(settings: Settings, words: &[(&[u8], u64)], text: &[u8], specials: usize) -> Room {
        let length = settings.max_piece_chars.max(1);
        let (mut offsets, mut edges, mut longer) = (0, 0, 0.0);
        for (word, frequency) in words {
            let n = String::from_utf8_lossy(word).chars().count();
            let spelt = substrings(n, length);
            offsets += n + 2;
            edges += spelt;
            // Over all places where it stands, a string that reaches the minimum adds 1 or more to this sum.
            let share = *frequency as f64 / settings.min_frequency.max(1) as f64;
            longer += (spelt - n) as f64 * share.min(1.0);
        }
        let single = String::from_utf8_lossy(text)
            .chars()
            .collect::<HashSet<_>>()
            .len();
        let target = settings.vocab_size.saturating_sub(specials);
        let after_cut = settings
            .seed_size
            .unwrap_or(16 * target)
            .max(target)
            .max(single);
        Room {
            words: words.len(),
            bytes: text.len(),
            offsets,
            edges,
            listed: single + longer as usize + 1,
            after_cut,
            // Only a factor of 1 or more leaves more pieces than the target.
            left: if settings.shrink_factor >= 1.0 {
                after_cut
            } else {
                target
            },
            long: WORD_BYTES.min(4 * length),
        }
    }

    /// The trie's places, with so many piece slots: a prefix of a piece that is listed is a string of the list before
    /// its cut.
    fn places(&self, pieces: usize) -> usize {
        2 * (pieces.min(self.long * self.after_cut) + 1)
    }

    /// Trains with so many piece slots.
    fn train(&self, corpus: Corpus<'_>, pieces: usize) -> Result<Trained, Refusal> {
        let both = pieces.max(self.bytes);
        let places = self.places(pieces);
        let left = self.left.min(pieces);
        let tokens = corpus.specials.len() / 2 + left;
        let mut bytes = vec![0; corpus.special_text.len() + self.long * left];
        let (mut spans, mut scores) = (vec![0; 2 * tokens], vec![0.0; tokens]);
        let told = slices::train(
            corpus,
            Training {
                kept: &mut vec![0; 2 * self.words],
                counts: &mut vec![0; self.words],
                table: &mut vec![0; 2 * self.words],
                chars: &mut vec![0; self.bytes],
                places: &mut vec![0; 3 * self.bytes],
                order: &mut vec![0; both],
                work: &mut vec![0; both],
                ranks: &mut vec![0; both],
                pieces: &mut vec![0; 2 * pieces],
                tallies: &mut vec![0; pieces],
                scores: &mut vec![0.0; pieces],
                expected: &mut vec![0.0; pieces],
                keys: &mut vec![0; places],
                ends: &mut vec![0; places],
                offsets: &mut vec![0; self.offsets],
                starts: &mut vec![0; self.edges],
                ids: &mut vec![0; self.edges],
                spans: &mut vec![0; 4 * self.words],
            },
            Tokens {
                bytes: &mut bytes,
                spans: &mut spans,
                scores: &mut scores,
            },
        )?;
        let spelt = |span: &[u32]| bytes[span[0] as usize..][..span[1] as usize].to_vec();
        Ok(Trained {
            tokens: spans
                .chunks_exact(2)
                .map(spelt)
                .zip(scores)
                .take(told.tokens)
                .collect(),
            required: told.required,
            stalled: told.stalled,
        })
    }
}

/// Trains on words, each with its frequency. Words that are not UTF-8 are skipped.
///
/// # Errors
///
/// What is bad is refused, the first that applies: a setting, more than 16,384 words or 1,048,576 bytes, a
/// word, a word that stands twice, too much to count, nothing to train on, a vocabulary with no room for
/// every character.
pub fn train(
    settings: Settings,
    words: &[(&[u8], u64)],
    specials: &[&[u8]],
) -> Result<Trained, Refusal> {
    let spelt = Spans::of(&words.iter().map(|(word, _)| *word).collect::<Vec<_>>());
    let known = Spans::of(specials);
    let corpus = Corpus {
        settings,
        special_text: &known.text,
        specials: &known.numbers,
        text: &spelt.text,
        words: &spelt.numbers,
        frequencies: &words
            .iter()
            .map(|(_, frequency)| *frequency)
            .collect::<Vec<_>>(),
    };
    // What is over the bounds is refused before a table is asked for, so none is lent.
    let within = words.len() <= WORDS
        && spelt.text.len() <= TEXT_BYTES
        && settings.vocab_size <= 65_536
        && settings.seed_size.unwrap_or(0) <= 1_048_576
        && settings.max_piece_chars <= 32;
    let room = if within {
        Room::of(settings, words, &spelt.text, specials.len())
    } else {
        Room::default()
    };
    let mut pieces = room.listed.min(FIRST_PIECES);
    loop {
        match room.train(corpus, pieces) {
            Err(Refusal::NoRoom(1)) if pieces < room.listed => pieces = room.listed.min(4 * pieces),
            answer => return answer,
        }
    }
}
