//! How much is lent to the one-word cut, and how what is lent is damaged.

use crate::cases::{cut, repeat, shorten, spoil, spoil_byte};
use crate::cuts::{score, spoil_score};
use crate::random::Random;
use crate::refusals::{OneWord, WordRooms};

/// What is needed, and some slots more: where none is more, the nodes of the trie are exactly half of its places.
pub fn rooms(random: &mut Random, lent: &OneWord, places: usize) -> WordRooms {
    let mut more = |needed: usize| needed + random.pick(&[0, 0, 0, 1, 9]);
    WordRooms {
        path: more(lent.spelt().map_or(0, |word| word.chars().count())),
        keys: more(places),
        ends: more(places),
        table: more(lent.pieces.len() / 2 * 2),
    }
}

/// A word of 255 bytes or of more: its own letters again, and then others.
fn lengthen(random: &mut Random, lent: &mut OneWord, rooms: &mut WordRooms) {
    let long = random.pick(&[255, 255, 256, 257, 511, 70_000]);
    let own = lent.word.clone();
    while !own.is_empty() && lent.word.len() + own.len() <= long {
        lent.word.extend(&own);
    }
    lent.word.resize(long, b'a');
    rooms.path += long;
}

/// Scores of no piece, at times a bad one among them.
fn lengthen_scores(random: &mut Random, scores: &mut Vec<f64>) {
    let own = scores.len();
    for _ in 0..1 + random.below(3) {
        let kind = random.below(10);
        scores.push(score(random, kind, ""));
    }
    if random.once_in(2) {
        spoil_score(random, &mut scores[own..]);
    }
}

/// The bounds, or one more than them: it takes long, so it is rare.
fn exceed(random: &mut Random, lent: &mut OneWord, rooms: &mut WordRooms) {
    let many = random.pick(&[1_048_576, 1_048_577]);
    if random.once_in(2) {
        lent.text.resize(many, b'a');
    } else {
        lent.pieces.resize(2 * many, 0);
        rooms.table = lent.pieces.len();
    }
}

/// Damages what is lent. It may still be good, and it may be bad in another way than was meant.
pub fn damage(random: &mut Random, lent: &mut OneWord, rooms: &mut WordRooms) {
    match random.below(15) {
        0 => lent.setting = random.pick(&[33, 34, 255, usize::MAX, 32]),
        1 => shorten(random, &mut rooms.table),
        2 => lengthen(random, lent, rooms),
        3 => spoil_byte(random, &mut lent.word),
        4 => spoil(random, &mut lent.pieces),
        5 => spoil_byte(random, &mut lent.text),
        6 | 7 => {
            repeat(random, &mut lent.pieces);
            rooms.table = rooms.table.max(lent.pieces.len());
        }
        8 => spoil_score(random, &mut lent.scores),
        9 => cut(random, &mut lent.scores),
        10 => lengthen_scores(random, &mut lent.scores),
        11 => shorten(random, &mut rooms.keys),
        12 => shorten(random, &mut rooms.ends),
        13 => shorten(random, &mut rooms.path),
        _ if random.once_in(30) => exceed(random, lent, rooms),
        _ => lent.text.truncate(random.below(lent.text.len() + 1)),
    }
}
