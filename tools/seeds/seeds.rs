//! Random word lists and settings, how much is lent, and how what is lent is damaged.

use crate::call::{Lent, Slots};
use crate::cases::{other, repeat, script, shorten, spans, spoil, spoil_byte, word};
use crate::random::Random;
use crate::refusals as plain;
use std::collections::BTreeSet;

/// Distinct words over few letters, so that their strings repeat; once in ten, one that is not UTF-8 among them.
fn words(random: &mut Random) -> Vec<Vec<u8>> {
    let letters: Vec<char> = (0..1 + random.below(2))
        .flat_map(|_| script(random))
        .collect();
    let many = random.pick(&[1, 1, 2, 4, 8, 12]);
    let words: BTreeSet<Vec<u8>> = (0..many)
        .map(|_| word(random, &letters).into_bytes())
        .collect();
    let mut words: Vec<Vec<u8>> = words.into_iter().collect();
    if random.once_in(10) {
        words.push(
            random
                .pick(&[
                    &b"\xed\xa0\x80"[..],
                    b"a\xff",
                    b"\xc0\x80",
                    b"\xf4\x90\x80\x80",
                ])
                .to_vec(),
        );
    }
    random.shuffle(&mut words);
    words
}

fn specials(random: &mut Random) -> Vec<&'static str> {
    let many = random.pick(&[0, 0, 0, 1, 3, 4]);
    ["<s>", "", "<s>", "ก"][..many].to_vec()
}

/// Pools that are smaller than most lists, and larger.
pub fn lend(random: &mut Random) -> Lent {
    let (texts, special_spans) = {
        let specials = specials(random);
        spans(random, &specials)
    };
    let spelt = words(random);
    let most = random.pick(&[1, 2, 3, 100, 1 << 32, 1 << 40]);
    let (text, word_spans) = spans(random, &spelt);
    let mut frequencies: Vec<u64> = spelt.iter().map(|_| 1 + random.bits() % most).collect();
    // "the shorter of both lists counts"
    if random.once_in(8) {
        frequencies.push(random.bits());
    }
    Lent {
        vocab: random.pick(&[0, 1, 5, 20, 60, 300, 8_000, 65_536]),
        seed: random.pick(&[
            None,
            None,
            None,
            Some(0),
            Some(3),
            Some(10),
            Some(40),
            Some(1_048_576),
        ]),
        length: random.below(33),
        minimum: random.pick(&[0, 1, 2, 2, 3, 200, 1 << 40, u64::MAX]),
        em: random.pick(&[0, 2, 100]),
        texts,
        specials: special_spans,
        text,
        words: word_spans,
        frequencies,
    }
}

/// How many slots each slice has.
#[derive(Clone, Debug)]
pub struct Rooms {
    pub kept: usize,
    pub counts: usize,
    pub chars: usize,
    pub places: usize,
    pub order: usize,
    pub work: usize,
    pub ranks: usize,
    pub pieces: usize,
    pub tallies: usize,
    pub scores: usize,
    pub table: usize,
}

/// Exactly what is needed, or some slots more.
pub fn rooms(random: &mut Random, lent: &Lent) -> Rooms {
    let words = plain::words(lent);
    let bytes: usize = words.iter().map(|word| word.1 as usize).sum();
    let positions = bytes.max(lent.text.len());
    let spelt = |&(begin, bytes, frequency): &plain::Word| {
        let part = crate::call::part(&lent.text, begin, bytes)?;
        Some((std::str::from_utf8(part).ok()?, frequency))
    };
    let spelt: Vec<(&str, u64)> = words.iter().filter_map(spelt).collect();
    let pieces = plain::uncut(lent, &spelt);
    let exactly = random.once_in(2);
    let mut more = |used: usize| {
        used + if exactly {
            0
        } else {
            random.pick(&[0, 1, 2, 9])
        }
    };
    Rooms {
        kept: more(2 * words.len()),
        counts: more(words.len()),
        chars: more(positions),
        places: more(3 * positions),
        order: more(positions.max(pieces)),
        work: more(positions.max(pieces)),
        ranks: more(positions.max(pieces)),
        pieces: more(2 * pieces),
        tallies: more(pieces),
        scores: more(pieces),
        table: more(2 * words.len()),
    }
}

/// Slots that hold numbers of every size, so that nothing that was there before can be taken for a result.
pub fn slots(random: &mut Random, rooms: &Rooms) -> Slots {
    let (kept, chars) = (random.junk(rooms.kept), random.junk(rooms.chars));
    let places = random.junk(rooms.places);
    let (order, work) = (random.junk(rooms.order), random.junk(rooms.work));
    let (pieces, table) = (random.junk(rooms.pieces), random.junk(rooms.table));
    let scores = random
        .numbers(rooms.scores)
        .into_iter()
        .map(f64::from_bits)
        .collect();
    Slots {
        kept,
        counts: random.numbers(rooms.counts),
        chars,
        places,
        order,
        work,
        ranks: random.numbers(rooms.ranks),
        pieces,
        tallies: random.numbers(rooms.tallies),
        scores,
        table,
    }
}

/// Gives a word the span of another, or one more word the empty span.
fn repeat_word(random: &mut Random, lent: &mut Lent) {
    repeat(random, &mut lent.words);
    let many = lent.frequencies.len().max(lent.words.len() / 2);
    lent.frequencies.resize(many, 1);
}

/// A word of 255 bytes, or of one or two more, and room for it.
fn lengthen(random: &mut Random, lent: &mut Lent, rooms: &mut Rooms) {
    lent.words.truncate(lent.words.len() / 2 * 2);
    let many = lent.words.len() / 2;
    let long = random.pick(&[255, 256, 257]);
    lent.words.extend([lent.text.len() as u32, long]);
    lent.text.extend((0..long).map(|_| b'a'));
    lent.frequencies.insert(many.min(lent.frequencies.len()), 1);
    *rooms = self::rooms(random, lent);
}

/// Frequencies at the bound of W and beyond.
fn weigh(random: &mut Random, lent: &mut Lent) {
    if !lent.frequencies.is_empty() {
        let word = random.below(lent.frequencies.len());
        let characters = 1 + random.below(40) as u64;
        let full = (1 << 48) / characters;
        lent.frequencies[word] =
            random.pick(&[full, full + 1, 1 << 48, (1 << 48) + 1, u64::MAX, full - 1]);
    }
}

fn spoil_special(random: &mut Random, lent: &mut Lent) {
    match random.below(5) {
        0 => spoil(random, &mut lent.specials),
        1 => spoil_byte(random, &mut lent.texts),
        2 => lent.specials.resize(2 * random.pick(&[256, 257, 300]), 0),
        3 => {
            lent.specials.truncate(lent.specials.len() / 2 * 2);
            lent.specials
                .extend([lent.texts.len() as u32, random.pick(&[255, 256])]);
            lent.texts.resize(lent.texts.len() + 256, b'a');
        }
        _ => lent.texts.truncate(random.below(lent.texts.len() + 1)),
    }
}

/// More than the bounds: it takes long, so it is rare.
fn exceed(random: &mut Random, lent: &mut Lent, rooms: &mut Rooms) {
    match random.below(4) {
        0 => {
            lent.words.resize(2 * 16_385, 0);
            lent.frequencies.resize(16_385, 1);
        }
        1 => {
            lent.words.resize(2 * 16_384, 0);
            lent.frequencies.resize(16_385, 1);
        }
        2 => lent.text.resize(1_048_577, b'a'),
        _ => lent.text.resize(1_048_576, b'a'),
    }
    *rooms = self::rooms(
        random,
        &Lent {
            length: 0,
            ..lent.clone()
        },
    );
}

/// Damages what is lent. It may still be good, and it may be bad in another way than was meant.
pub fn damage(random: &mut Random, lent: &mut Lent, rooms: &mut Rooms) {
    match random.below(30) {
        0 => lent.vocab = random.pick(&[65_536, 65_537, usize::MAX]),
        1 => lent.seed = Some(random.pick(&[1_048_576, 1_048_577, usize::MAX])),
        2 => lent.length = random.pick(&[32, 33, 255, usize::MAX]),
        3 => lent.em = random.pick(&[100, 101, usize::MAX]),
        4 | 5 => spoil_special(random, lent),
        6 => spoil(random, &mut lent.words),
        // One byte more or less, and no more than there is room for: outside the text, or another word.
        7 | 8 if lent.words.len() > 1 => {
            let word = random.below(lent.words.len() / 2);
            lent.words[2 * word] = other(random, lent.words[2 * word]);
        }
        9 | 10 => {
            if !lent.frequencies.is_empty() {
                let word = random.below(lent.frequencies.len());
                lent.frequencies[word] = 0;
            }
        }
        11 | 12 => spoil_byte(random, &mut lent.text),
        13 | 14 => repeat_word(random, lent),
        15 => lengthen(random, lent, rooms),
        16 | 17 => weigh(random, lent),
        18 => {
            lent.words.truncate(random.pick(&[0, 1, 2]));
        }
        19 => lent
            .frequencies
            .truncate(random.below(lent.frequencies.len() + 1)),
        20 => {
            let by_word = [&mut rooms.kept, &mut rooms.counts, &mut rooms.table];
            let slot = random.below(by_word.len());
            shorten(random, by_word.into_iter().nth(slot).unwrap());
        }
        21 | 22 => {
            let by_position = [
                &mut rooms.chars,
                &mut rooms.places,
                &mut rooms.order,
                &mut rooms.work,
                &mut rooms.ranks,
            ];
            let slot = random.below(by_position.len());
            shorten(random, by_position.into_iter().nth(slot).unwrap());
        }
        23..=26 => {
            let by_piece = [&mut rooms.pieces, &mut rooms.tallies, &mut rooms.scores];
            let slot = random.below(by_piece.len());
            shorten(random, by_piece.into_iter().nth(slot).unwrap());
        }
        27 => {
            // All words are another script's, or no text at all.
            lent.text.iter_mut().for_each(|byte| *byte = 0xff);
        }
        _ if random.once_in(40) => exceed(random, lent, rooms),
        _ => lent.text.truncate(random.below(lent.text.len() + 1)),
    }
}
