//! Causeylark for Rust: the proved library, with its slices lent by the wrapper.
//!
//! The lattices of words over pieces, and their pruning:
//!
//! ```
//! use causeylark::{Cache, PRUNED};
//!
//! let mut cache = Cache::build(16, &[b"aba"], &[b"a", b"b", b"ab", b"ba"])?;
//! assert_eq!(cache.word(0).unwrap().offsets(), [0, 0, 1, 3, 5]);
//! assert_eq!(cache.retain(&[0, PRUNED, 1, 2])?, 4);
//! # Ok::<(), causeylark::Refusal>(())
//! ```
//!
//! How a word is cut, over scores at zero or below, an entry a piece:
//!
//! ```
//! use causeylark::{Cache, Cut};
//!
//! let cache = Cache::build(16, &[b"aba"], &[b"a", b"b", b"ab", b"ba"])?;
//! let cut = cache.word(0).unwrap().viterbi(&[-1.0, -1.0, -2.0, -2.0]);
//! assert_eq!(cut, Cut::Pieces { ids: vec![0, 3], score: -3.0 });
//! # Ok::<(), causeylark::Refusal>(())
//! ```
//!
//! One word by itself, where nothing to cut and nothing that could spell it are told apart:
//!
//! ```
//! use causeylark::{cut, Cut, Refusal};
//!
//! let (pieces, scores) = ([&b"a"[..], b"b", b"ab", b"ba"], [-1.0, -1.0, -2.0, -2.0]);
//! assert_eq!(cut(16, b"aba", &pieces, &scores), Cut::Pieces { ids: vec![0, 3], score: -3.0 });
//! assert_eq!(cut(16, b"", &pieces, &scores), Cut::EmptyWord);
//! assert_eq!(cut(16, b"abc", &pieces, &scores), Cut::Refused(Refusal::NoPath));
//! ```
//!
//! Tokens with scores, trained on words with frequencies:
//!
//! ```
//! use causeylark::{train, Settings};
//!
//! let settings = Settings { vocab_size: 4, ..Settings::default() };
//! let trained = train(settings, &[(b"aba", 2)], &[b"<pad>"])?;
//! assert_eq!(trained.tokens[0], (b"<pad>".to_vec(), 0.0));
//! assert_eq!((trained.tokens.len(), trained.required), (4, 2));
//! # Ok::<(), causeylark::Refusal>(())
//! ```
//!
//! And the mathematics, of which docs/MATH.md fixes every bit: [`exp`], [`ln`], [`ln_1p`].
#![warn(missing_docs)]

pub mod c;
mod cache;
mod cuts;
mod refusal;
pub mod slices;
mod train;

pub use cache::{Cache, Edge, Lattice, PRUNED};
pub use cuts::{cut, Cut, Expectations};
pub use refusal::Refusal;
pub use train::{train, Settings, Trained};

/// e^x.
pub fn exp(x: f64) -> f64 {
    c::causeylark_exp(x)
}

/// ln x.
pub fn ln(x: f64) -> f64 {
    c::causeylark_ln(x)
}

/// ln(1 + y).
pub fn ln_1p(y: f64) -> f64 {
    c::causeylark_ln_1p(y)
}

/// How many bytes at the front of a text are UTF-8 by RFC 3629: all of them, or those before the
/// first byte that begins no character.
pub fn utf8_valid_up_to(text: &[u8]) -> usize {
    // SAFETY: a slice is a pointer and a length of bytes that may be read.
    unsafe { c::causeylark_utf8_valid_up_to(text.as_ptr(), text.len()) }
}
