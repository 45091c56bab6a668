//! How fast is the proved training beside the Rust original's?
//!
//! Over lists as corpus.rs makes them, Latin and Thai: a quarter, half and all of 16,384 words, with frequencies that fall as they
//! do in a text, and vocabularies of 2,000 and 8,000. The other settings are the defaults.
//!
//! Ours is all of the wrapper's `train`, checks, allocation and clearing with it. The original's is `train`, with our mathematics
//! and with the standard library's. All of it is one program and one thread. Rounds alternate, and the median of each counts.
//! Every token and every score bit is compared with the original's with our mathematics in a first round, which does not count.
//!
//!     --rounds N    how many, 3 if not said

#[path = "../common/arguments.rs"]
mod arguments;
mod clock;
#[allow(dead_code)]
mod corpus;
#[allow(dead_code)]
#[path = "../math/random.rs"]
mod random;

use arguments::or_end;
use causeylark::{train, Settings};
use clock::{median, timed};
use corpus::{words_of, SCRIPTS, WORDS};
use random::Random;
use std::hint::black_box;

const VOCABULARIES: [usize; 2] = [2_000, 8_000];
const MINIMUM: u64 = 2;
const LENGTH: usize = 16;

/// Trains both ways, and gives our time in the original's, with our mathematics and with the stock one.
fn measure(name: &str, words: &[(&str, u64)], vocab_size: usize, rounds: usize) -> (f64, f64) {
    let settings = Settings {
        vocab_size,
        min_frequency: MINIMUM,
        max_piece_chars: LENGTH,
        ..Settings::default()
    };
    let bytes: Vec<(&[u8], u64)> = words
        .iter()
        .map(|(word, often)| (word.as_bytes(), *often))
        .collect();
    let original = original::Trainer::new(vocab_size, None, LENGTH, MINIMUM, &[]);
    let stock = stock::Trainer::new(vocab_size, None, LENGTH, MINIMUM, &[]);

    let trained = train(settings, &bytes, &[]).expect("words and settings in bounds");
    let (tokens, scores) = original.train(words).expect("words and room for letters");
    let same = |((token, score), (wanted, bits)): ((&Vec<u8>, &f64), (&String, &f64))| {
        token == wanted.as_bytes() && score.to_bits() == bits.to_bits()
    };
    let ours = trained.tokens.iter().map(|(token, score)| (token, score));
    assert!(
        trained.tokens.len() == tokens.len() && ours.zip(tokens.iter().zip(&scores)).all(same),
        "not the original's tokens"
    );

    let mut times = [vec![], vec![], vec![]];
    for _ in 0..rounds {
        // What is made is dropped before the clock stops.
        timed(&mut times[0], || {
            drop(black_box(train(settings, &bytes, &[])))
        });
        timed(&mut times[1], || drop(black_box(original.train(words))));
        timed(&mut times[2], || drop(black_box(stock.train(words))));
    }
    let [ours, theirs, stock] = times.map(|times| 1e3 * median(&times));
    println!(
        "{name:<14}  {vocab_size:>5}  {:>6}  {ours:>8.0}  {theirs:>8.0}  {:>5.2}  {stock:>8.0}  {:>5.2}",
        words.len(),
        ours / theirs,
        ours / stock
    );
    (ours / theirs, ours / stock)
}

fn rounds() -> Result<usize, String> {
    let mut words = std::env::args().skip(1);
    match (
        words.next().as_deref(),
        words.next().map(|number| number.parse()),
    ) {
        (None, _) => Ok(3),
        (Some("--rounds"), Some(Ok(number))) if number > 0 => Ok(number),
        _ => Err("bench-train: --rounds N".to_string()),
    }
}

fn main() {
    let rounds = or_end(rounds());
    println!(
        "{:<14}  {:>5}  {:>6}  {:>8}  {:>8}  {:>5}  {:>8}  {:>5}; {rounds} rounds, in ms",
        "list", "vocab", "words", "ours", "Rust", "ratio", "stock", "ratio"
    );
    let mut random = Random(1);
    let mut worst: (f64, f64) = (0.0, 0.0);
    for (script, syllables) in &SCRIPTS[..2] {
        let list = words_of(&mut random, &[*syllables]);
        // The k-th word stands about 16,384 / k times in the text.
        let often = (1..)
            .map(|rank| (WORDS / rank) as u64)
            .map(|often| often.max(1));
        let words: Vec<(&str, u64)> = list.iter().map(String::as_str).zip(often).collect();
        for (part, of) in [("quarter", 4), ("half", 2), ("all", 1)] {
            for vocab in VOCABULARIES {
                let (ours, stock) = measure(
                    &format!("{script}, {part}"),
                    &words[..WORDS / of],
                    vocab,
                    rounds,
                );
                worst = (worst.0.max(ours), worst.1.max(stock));
            }
        }
    }
    println!(
        "bench-train: at most {:.2} of the original's time with our mathematics, {:.2} with the stock one",
        worst.0, worst.1
    );
}
