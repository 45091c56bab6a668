//! When a seed list should be refused, worked out from document 01's sentences in the plainest way: every stretch of a word
//! is counted in a map. Nothing here is shared with the proved code or with the Rust original.

use crate::call::{part, Lent, Slots};
use crate::no::{no, No};
use std::collections::{BTreeMap, BTreeSet};

/// A lent word: its begin, its bytes' count and its frequency. "the shorter of both lists counts"
pub type Word = (u32, u32, u64);

pub fn words(lent: &Lent) -> Vec<Word> {
    let spans = lent.words.chunks_exact(2);
    spans
        .zip(&lent.frequencies)
        .map(|(span, frequency)| (span[0], span[1], *frequency))
        .collect()
}

fn settings(lent: &Lent) -> Result<(), No> {
    if lent.vocab > 65_536 {
        return no(2, 1, "vocab");
    }
    if lent.seed.is_some_and(|seed| seed > 1_048_576) {
        return no(2, 2, "seed");
    }
    if lent.length > 32 {
        return no(2, 3, "piece length");
    }
    if lent.em > 100 {
        return no(2, 4, "EM");
    }
    let specials = lent.specials.chunks_exact(2);
    if specials.len() > 256 {
        return no(2, 5, "more than 256 specials");
    }
    for span in specials {
        match part(&lent.texts, span[0], span[1]) {
            None => return no(2, 5, "a special outside its text"),
            Some(bytes) if bytes.len() > 255 => return no(2, 5, "a special over 255 bytes"),
            Some(bytes) if std::str::from_utf8(bytes).is_err() => {
                return no(2, 5, "a special not UTF-8")
            }
            Some(_) => {}
        }
    }
    Ok(())
}

/// "word count, lent piece count or text over the bounds"; where a slice by word or by position is too short, they are.
fn bounds(lent: &Lent, slots: &Slots) -> Result<(), No> {
    let words = words(lent);
    if words.len() > 16_384 {
        return no(7, 0, "more than 16,384 words");
    }
    if lent.text.len() > 1_048_576 {
        return no(7, 0, "a text over 1,048,576 bytes");
    }
    let by_word = [
        slots.kept.len() / 2,
        slots.counts.len(),
        slots.table.len() / 2,
    ];
    if by_word.iter().any(|slots| *slots < words.len()) {
        return no(7, 0, "a slot a word too few");
    }
    let bytes: u64 = words.iter().map(|(_, bytes, _)| u64::from(*bytes)).sum();
    let by_position = [
        slots.chars.len(),
        slots.places.len() / 3,
        slots.order.len(),
        slots.work.len(),
        slots.ranks.len(),
    ];
    if by_position.iter().any(|slots| *slots < lent.text.len()) {
        return no(7, 0, "a slot a byte of the text too few");
    }
    if by_position.iter().any(|slots| (*slots as u64) < bytes) {
        return no(7, 0, "a slot a byte of the words too few");
    }
    Ok(())
}

/// Every word's bytes, if all are good and no two are equal.
fn corpus<'a>(lent: &'a Lent, words: &[Word]) -> Result<Vec<&'a [u8]>, No> {
    let mut spelt = Vec::new();
    for (index, (begin, bytes, frequency)) in words.iter().enumerate() {
        match part(&lent.text, *begin, *bytes) {
            _ if *frequency == 0 => return no(3, index, "frequency 0"),
            _ if *bytes > 255 => return no(3, index, "a word over 255 bytes"),
            None => return no(3, index, "a word outside the text"),
            Some(word) => spelt.push(word),
        }
    }
    let mut seen = BTreeSet::new();
    match spelt.iter().position(|word| !seen.insert(*word)) {
        Some(index) => no(4, index, "a repeated word"),
        None => Ok(spelt),
    }
}

/// How many pieces the list has before its cut: the characters, and the strings of 2 up to the length setting that reach the
/// minimum.
pub fn uncut(lent: &Lent, words: &[(&str, u64)]) -> usize {
    let mut counts: BTreeMap<Vec<char>, u64> = BTreeMap::new();
    for (word, frequency) in words {
        let characters: Vec<char> = word.chars().collect();
        for start in 0..characters.len() {
            for long in 1..=lent.length.max(1).min(characters.len() - start) {
                *counts
                    .entry(characters[start..start + long].to_vec())
                    .or_default() += frequency;
            }
        }
    }
    let counts = counts.iter();
    counts
        .filter(|(piece, count)| piece.len() == 1 || **count >= lent.minimum)
        .count()
}

/// "the piece slots (the shortest per-piece slice)"
fn piece_slots(slots: &Slots) -> usize {
    let by_piece = [
        slots.order.len(),
        slots.work.len(),
        slots.ranks.len(),
        slots.pieces.len() / 2,
        slots.tallies.len(),
        slots.scores.len(),
    ];
    by_piece.into_iter().min().unwrap_or(0)
}

/// The words that are UTF-8, each as it is lent and as a text, or the first refusal that applies.
pub fn accepted<'a>(lent: &'a Lent, slots: &Slots) -> Result<Vec<(Word, &'a str)>, No> {
    settings(lent)?;
    bounds(lent, slots)?;
    let words = words(lent);
    let spelt = corpus(lent, &words)?;
    let texts: Vec<(Word, &str)> = words
        .iter()
        .zip(spelt)
        .filter_map(|(word, spelt)| Some((*word, std::str::from_utf8(spelt).ok()?)))
        .collect();
    let weight = |(word, text): &(Word, &str)| u128::from(word.2) * text.chars().count() as u128;
    if texts.iter().map(weight).sum::<u128>() > 1 << 48 {
        return no(5, 0, "W over 2^48");
    }
    if texts.is_empty() {
        return no(
            6,
            0,
            if words.is_empty() {
                "no word"
            } else {
                "none UTF-8"
            },
        );
    }
    let counted: Vec<(&str, u64)> = texts.iter().map(|(word, text)| (*text, word.2)).collect();
    if uncut(lent, &counted) > piece_slots(slots) {
        return no(7, 1, "the list before its cut");
    }
    Ok(texts)
}
