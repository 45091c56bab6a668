//! Scores of every kind, how much is lent, and how what is lent is damaged.

use crate::cases::{cut, shorten, spoil};
use crate::random::Random;
use crate::refusals::{Lent, Rooms};

/// A score of one kind: zeros of both signs, minus infinity, huge, the least there are, few values so that cuts tie, and
/// such as training has.
pub fn score(random: &mut Random, kind: usize, piece: &str) -> f64 {
    let unit = (random.bits() >> 11) as f64 / (1u64 << 53) as f64;
    match kind {
        0 => -12.0 * unit,
        1 => -1.0,
        2 => -(1.0 + random.below(3) as f64),
        3 => random.pick(&[0.0, -0.0]),
        4 => random.pick(&[-1.7e308, -1e308, -1e300, -1e16]),
        5 => -f64::from_bits(random.bits() >> 44),
        6 => random.pick(&[f64::NEG_INFINITY, -1021.0, -800.0 * unit]),
        // Every cut of a word has the same sum.
        7 => -0.5 * piece.chars().count() as f64,
        8 => (1.0 + 50.0 * unit).ln() - 9.0,
        // Any bits of a number at zero or below.
        _ => match -f64::from_bits(random.bits()).abs() {
            number if number.is_nan() => f64::NEG_INFINITY,
            number => number,
        },
    }
}

/// An entry a piece: one kind for all, or one for each.
pub fn scores(random: &mut Random, pieces: &[&str]) -> Vec<f64> {
    let (kind, mixed) = (random.below(10), random.once_in(5));
    pieces
        .iter()
        .map(|piece| {
            let kind = if mixed { random.below(10) } else { kind };
            score(random, kind, piece)
        })
        .collect()
}

/// What is needed, and some slots more.
pub fn rooms(random: &mut Random, lent: &Lent) -> Rooms {
    let mut more = |needed: usize| needed + random.pick(&[0, 0, 0, 1, 9]);
    Rooms {
        best: more(lent.n + 1),
        back: more(lent.n + 1),
        path: more(lent.n),
        reach: more(lent.n + 1),
        alpha: more(lent.n + 1),
        beta: more(lent.n + 1),
        emitted: more(lent.starts.len()),
    }
}

pub fn spoil_score(random: &mut Random, scores: &mut [f64]) {
    if !scores.is_empty() {
        let id = random.below(scores.len());
        let any = f64::from_bits(random.bits());
        let nan = f64::from_bits(0x7ff0_0000_0000_0001 | random.bits());
        scores[id] = random.pick(&[f64::NAN, nan, 5e-324, 1.0, f64::INFINITY, any, 0.0, -0.0]);
    }
}

/// Damages what is lent. It may still be good, and it may be bad in another way than was meant.
pub fn damage(random: &mut Random, lent: &mut Lent, rooms: &mut Rooms) {
    match random.below(19) {
        0 | 1 => spoil(random, &mut lent.offsets),
        2 | 3 => spoil(random, &mut lent.starts),
        4 => spoil(random, &mut lent.ids),
        5 => cut(random, &mut lent.offsets),
        6 => {
            cut(random, &mut lent.starts);
            if random.once_in(2) {
                lent.ids.truncate(lent.starts.len());
            }
        }
        7 => cut(random, &mut lent.ids),
        8 => lent.offsets.extend(lent.offsets.last().copied()),
        9 => {
            lent.n = random.pick(&[
                lent.n + 1,
                lent.n.saturating_sub(1),
                0,
                usize::MAX,
                usize::MAX - 1,
            ])
        }
        10 => cut(random, &mut lent.scores),
        11 | 12 => spoil_score(random, &mut lent.scores),
        13 => shorten(random, &mut rooms.best),
        14 => shorten(random, &mut rooms.back),
        15 => shorten(random, &mut rooms.path),
        16 => shorten(random, &mut rooms.reach),
        17 => {
            shorten(random, &mut rooms.alpha);
            if random.once_in(2) {
                (rooms.alpha, rooms.beta) = (rooms.beta, rooms.alpha);
            }
        }
        _ => shorten(random, &mut rooms.emitted),
    }
}
