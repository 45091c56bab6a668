//! The calls of lattices, of cuts and of training over lent slices, as they are, and safe: for those
//! who keep their own tables. include/causeylark.h says what each slice holds. [`Cache`](crate::Cache),
//! [`Lattice`](crate::Lattice) and [`train`](crate::train()) lend them for everyone else.

use crate::{c, Refusal, Settings};

/// What a call of lattices reads: words and pieces as spans of their texts.
#[derive(Clone, Copy, Debug)]
pub struct Lent<'a> {
    /// The piece length setting, at most 32 characters.
    pub setting: usize,
    /// The bytes of the words.
    pub text: &'a [u8],
    /// Two numbers a word: where its bytes begin in the text, and how many they are.
    pub words: &'a [u32],
    /// The bytes of the pieces.
    pub piece_text: &'a [u8],
    /// Two numbers a piece, as for words.
    pub pieces: &'a [u32],
}

/// The four slices of a cache.
#[derive(Debug)]
pub struct Results<'a> {
    /// n + 2 a word.
    pub offsets: &'a mut [u32],
    /// An edge each.
    pub starts: &'a mut [u32],
    /// An edge each.
    pub ids: &'a mut [u32],
    /// Four numbers a word: edges from, edges to, offsets from, n.
    pub spans: &'a mut [u32],
}

/// The work slices. They may hold anything, and are zero after every call.
#[derive(Debug)]
pub struct Work<'a> {
    /// The trie's places.
    pub keys: &'a mut [u64],
    /// The trie's places.
    pub ends: &'a mut [u32],
    /// Two slots a piece.
    pub table: &'a mut [u32],
}

/// Builds the lattices of words over pieces, and gives the number of edges.
pub fn build(lent: Lent<'_>, results: Results<'_>, work: Work<'_>) -> Result<usize, Refusal> {
    let mut told = [0];
    // SAFETY: each pointer and count is a slice, and no two that are written to overlap.
    let number = unsafe {
        c::causeylark_build(
            lent.setting,
            lent.text.as_ptr(),
            lent.text.len(),
            lent.words.as_ptr(),
            lent.words.len(),
            lent.piece_text.as_ptr(),
            lent.piece_text.len(),
            lent.pieces.as_ptr(),
            lent.pieces.len(),
            results.offsets.as_mut_ptr(),
            results.offsets.len(),
            results.starts.as_mut_ptr(),
            results.starts.len(),
            results.ids.as_mut_ptr(),
            results.ids.len(),
            results.spans.as_mut_ptr(),
            results.spans.len(),
            work.keys.as_mut_ptr(),
            work.keys.len(),
            work.ends.as_mut_ptr(),
            work.ends.len(),
            work.table.as_mut_ptr(),
            work.table.len(),
            told.as_mut_ptr(),
            told.len(),
        )
    };
    answer(number, told[0])
}

/// Prunes a cache of so many words in place, and gives the number of edges that are left.
pub fn retain(cache: Results<'_>, words: usize, remap: &[u32]) -> Result<usize, Refusal> {
    let mut told = [0];
    // SAFETY: each pointer and count is a slice, and no two that are written to overlap.
    let number = unsafe {
        c::causeylark_retain(
            cache.offsets.as_mut_ptr(),
            cache.offsets.len(),
            cache.starts.as_mut_ptr(),
            cache.starts.len(),
            cache.ids.as_mut_ptr(),
            cache.ids.len(),
            cache.spans.as_mut_ptr(),
            cache.spans.len(),
            words,
            remap.as_ptr(),
            remap.len(),
            told.as_mut_ptr(),
            told.len(),
        )
    };
    answer(number, told[0])
}

fn answer(number: u32, told: u64) -> Result<usize, Refusal> {
    match Refusal::of(number, told) {
        // What is counted stands in slots of a slice, so the count is a usize.
        None => Ok(told as usize),
        Some(refusal) => Err(refusal),
    }
}

/// One word's lattice, as a call of cuts reads it.
#[derive(Clone, Copy, Debug, PartialEq, Eq)]
pub struct Word<'a> {
    /// n + 2 of them.
    pub offsets: &'a [u32],
    /// An edge each.
    pub starts: &'a [u32],
    /// An edge each.
    pub ids: &'a [u32],
    /// How many characters the word has.
    pub n: usize,
}

/// The best cut: its score and how many pieces it has, whose ids stand in front of the path. The
/// path has a slot a character, and the work slices, `best` and `back`, have one more each.
pub fn viterbi(
    word: Word<'_>,
    scores: &[f64],
    best: &mut [f64],
    back: &mut [u32],
    path: &mut [u32],
) -> Result<(f64, usize), Refusal> {
    let (mut sum, mut told) = ([0.0], [0]);
    // SAFETY: each pointer and count is a slice, and no two that are written to overlap.
    let number = unsafe {
        c::causeylark_viterbi(
            word.offsets.as_ptr(),
            word.offsets.len(),
            word.starts.as_ptr(),
            word.starts.len(),
            word.ids.as_ptr(),
            word.ids.len(),
            word.n,
            scores.as_ptr(),
            scores.len(),
            best.as_mut_ptr(),
            best.len(),
            back.as_mut_ptr(),
            back.len(),
            path.as_mut_ptr(),
            path.len(),
            sum.as_mut_ptr(),
            sum.len(),
            told.as_mut_ptr(),
            told.len(),
        )
    };
    answer(number, told[0]).map(|count| (sum[0], count))
}

/// A short word's best cut by value.
#[derive(Clone, Copy, Debug, PartialEq)]
pub struct Short {
    /// Its score and how many pieces it has, or why there is none.
    pub answer: Result<(f64, usize), Refusal>,
    /// The ids of the pieces. Unused ids are 0, and so are all where there is no cut.
    pub ids: [u32; 32],
}

/// The best cut of a word of at most 32 characters, with its path by value. A longer word is refused by
/// `NoRoom(4)`. The work slices have n + 1 slots each.
pub fn viterbi_short(word: Word<'_>, scores: &[f64], best: &mut [f64], back: &mut [u32]) -> Short {
    // SAFETY: each pointer and count is a slice, and no two that are written to overlap.
    let short = unsafe {
        c::causeylark_viterbi_short(
            word.offsets.as_ptr(),
            word.offsets.len(),
            word.starts.as_ptr(),
            word.starts.len(),
            word.ids.as_ptr(),
            word.ids.len(),
            word.n,
            scores.as_ptr(),
            scores.len(),
            best.as_mut_ptr(),
            best.len(),
            back.as_mut_ptr(),
            back.len(),
        )
    };
    Short {
        answer: answer(short.number, short.told).map(|count| (short.score, count)),
        ids: short.ids,
    }
}

/// The best score without a piece, minus infinity where nothing else spells the word. The work slice
/// has n + 1 slots.
pub fn viterbi_excluding(
    word: Word<'_>,
    scores: &[f64],
    excluded: u32,
    best: &mut [f64],
) -> Result<f64, Refusal> {
    let (mut sum, mut told) = ([0.0], [0]);
    // SAFETY: each pointer and count is a slice, and no two that are written to overlap.
    let number = unsafe {
        c::causeylark_viterbi_excluding(
            word.offsets.as_ptr(),
            word.offsets.len(),
            word.starts.as_ptr(),
            word.starts.len(),
            word.ids.as_ptr(),
            word.ids.len(),
            word.n,
            scores.as_ptr(),
            scores.len(),
            excluded,
            best.as_mut_ptr(),
            best.len(),
            sum.as_mut_ptr(),
            sum.len(),
            told.as_mut_ptr(),
            told.len(),
        )
    };
    answer(number, told[0]).map(|_| sum[0])
}

/// Whether there is a cut. The work slice has n + 1 slots.
pub fn is_connected(word: Word<'_>, reach: &mut [u32]) -> Result<bool, Refusal> {
    let mut told = [0];
    // SAFETY: each pointer and count is a slice, and no two that are written to overlap.
    let number = unsafe {
        c::causeylark_is_connected(
            word.offsets.as_ptr(),
            word.offsets.len(),
            word.starts.as_ptr(),
            word.starts.len(),
            word.ids.as_ptr(),
            word.ids.len(),
            word.n,
            reach.as_mut_ptr(),
            reach.len(),
            told.as_mut_ptr(),
            told.len(),
        )
    };
    answer(number, told[0]).map(|cuts| cuts == 1)
}

/// The logarithm of the sum over all cuts, minus infinity where it is not finite; and in front of
/// `emitted` the expected count of every edge. The work slices have n + 1 slots each.
pub fn expectations(
    word: Word<'_>,
    scores: &[f64],
    alpha: &mut [f64],
    beta: &mut [f64],
    emitted: &mut [f64],
) -> Result<f64, Refusal> {
    let (mut sum, mut told) = ([0.0], [0]);
    // SAFETY: each pointer and count is a slice, and no two that are written to overlap.
    let number = unsafe {
        c::causeylark_expectations(
            word.offsets.as_ptr(),
            word.offsets.len(),
            word.starts.as_ptr(),
            word.starts.len(),
            word.ids.as_ptr(),
            word.ids.len(),
            word.n,
            scores.as_ptr(),
            scores.len(),
            alpha.as_mut_ptr(),
            alpha.len(),
            beta.as_mut_ptr(),
            beta.len(),
            emitted.as_mut_ptr(),
            emitted.len(),
            sum.as_mut_ptr(),
            sum.len(),
            told.as_mut_ptr(),
            told.len(),
        )
    };
    answer(number, told[0]).map(|_| sum[0])
}

/// The pieces over which one word is cut: spans of their text, with a score each.
#[derive(Clone, Copy, Debug)]
pub struct Pieces<'a> {
    /// The piece length setting, at most 32 characters.
    pub setting: usize,
    /// The bytes of the pieces.
    pub text: &'a [u8],
    /// Two numbers a piece: where its bytes begin in the text, and how many they are.
    pub pieces: &'a [u32],
    /// A score each, at zero or below.
    pub scores: &'a [f64],
}

/// The score of the best cut of one word, and how many pieces it has; their ids stand in front of `path`,
/// which has a slot for each character of the word.
pub fn cut(
    word: &[u8],
    pieces: Pieces<'_>,
    path: &mut [u32],
    work: Work<'_>,
) -> Result<(f64, usize), Refusal> {
    let (mut sum, mut told) = ([0.0], [0]);
    // SAFETY: each pointer and count is a slice, and no two that are written to overlap.
    let number = unsafe {
        c::causeylark_cut(
            pieces.setting,
            word.as_ptr(),
            word.len(),
            pieces.text.as_ptr(),
            pieces.text.len(),
            pieces.pieces.as_ptr(),
            pieces.pieces.len(),
            pieces.scores.as_ptr(),
            pieces.scores.len(),
            path.as_mut_ptr(),
            path.len(),
            work.keys.as_mut_ptr(),
            work.keys.len(),
            work.ends.as_mut_ptr(),
            work.ends.len(),
            work.table.as_mut_ptr(),
            work.table.len(),
            sum.as_mut_ptr(),
            sum.len(),
            told.as_mut_ptr(),
            told.len(),
        )
    };
    answer(number, told[0]).map(|count| (sum[0], count))
}

/// What training reads: settings, specials and words as spans of their texts, and a frequency a word.
#[derive(Clone, Copy, Debug)]
pub struct Corpus<'a> {
    /// How to train.
    pub settings: Settings,
    /// The bytes of the specials.
    pub special_text: &'a [u8],
    /// Two numbers a special: where its bytes begin in their text, and how many they are.
    pub specials: &'a [u32],
    /// The bytes of the words.
    pub text: &'a [u8],
    /// Two numbers a word, as for specials.
    pub words: &'a [u32],
    /// A number a word, from 1.
    pub frequencies: &'a [u64],
}

/// The work slices of training. They may hold anything, and are zero after every call.
#[derive(Debug)]
pub struct Training<'a> {
    /// Two slots a word: the words that are UTF-8.
    pub kept: &'a mut [u32],
    /// A slot a word: their frequencies.
    pub counts: &'a mut [u64],
    /// Two slots a word.
    pub table: &'a mut [u32],
    /// A slot a byte of the text, and of all words together.
    pub chars: &'a mut [u32],
    /// Three such slots.
    pub places: &'a mut [u32],
    /// Such a slot, and one a piece.
    pub order: &'a mut [u32],
    /// Such a slot, and one a piece.
    pub work: &'a mut [u32],
    /// Such a slot, and one a piece.
    pub ranks: &'a mut [u64],
    /// Two slots a piece.
    pub pieces: &'a mut [u32],
    /// A slot a piece.
    pub tallies: &'a mut [u64],
    /// A slot a piece.
    pub scores: &'a mut [f64],
    /// A slot a piece.
    pub expected: &'a mut [f64],
    /// The trie's places.
    pub keys: &'a mut [u64],
    /// The trie's places.
    pub ends: &'a mut [u32],
    /// n + 2 a word.
    pub offsets: &'a mut [u32],
    /// An edge each.
    pub starts: &'a mut [u32],
    /// An edge each.
    pub ids: &'a mut [u32],
    /// Four numbers a word.
    pub spans: &'a mut [u32],
}

/// The results of training.
#[derive(Debug)]
pub struct Tokens<'a> {
    /// The bytes of all tokens, one after the other.
    pub bytes: &'a mut [u8],
    /// Two numbers a token: where its bytes begin, and how many they are.
    pub spans: &'a mut [u32],
    /// A score a token.
    pub scores: &'a mut [f64],
}

/// What training tells beside its tokens.
#[derive(Clone, Copy, Debug, PartialEq, Eq)]
pub struct Told {
    /// How many tokens there are, specials among them.
    pub tokens: usize,
    /// How many pieces are required: those of one character.
    pub required: usize,
    /// Whether training stopped over target.
    pub stalled: bool,
}

/// Trains on words. The tokens stand in front of the results, specials first.
pub fn train(corpus: Corpus<'_>, work: Training<'_>, tokens: Tokens<'_>) -> Result<Told, Refusal> {
    let settings = corpus.settings;
    let mut told = [0; 3];
    // SAFETY: each pointer and count is a slice, and no two that are written to overlap.
    let number = unsafe {
        c::causeylark_train(
            settings.vocab_size,
            u32::from(settings.seed_size.is_some()),
            settings.seed_size.unwrap_or(0),
            settings.max_piece_chars,
            settings.min_frequency,
            settings.shrink_factor,
            settings.em_iterations,
            corpus.special_text.as_ptr(),
            corpus.special_text.len(),
            corpus.specials.as_ptr(),
            corpus.specials.len(),
            corpus.text.as_ptr(),
            corpus.text.len(),
            corpus.words.as_ptr(),
            corpus.words.len(),
            corpus.frequencies.as_ptr(),
            corpus.frequencies.len(),
            work.kept.as_mut_ptr(),
            work.kept.len(),
            work.counts.as_mut_ptr(),
            work.counts.len(),
            work.table.as_mut_ptr(),
            work.table.len(),
            work.chars.as_mut_ptr(),
            work.chars.len(),
            work.places.as_mut_ptr(),
            work.places.len(),
            work.order.as_mut_ptr(),
            work.order.len(),
            work.work.as_mut_ptr(),
            work.work.len(),
            work.ranks.as_mut_ptr(),
            work.ranks.len(),
            work.pieces.as_mut_ptr(),
            work.pieces.len(),
            work.tallies.as_mut_ptr(),
            work.tallies.len(),
            work.scores.as_mut_ptr(),
            work.scores.len(),
            work.expected.as_mut_ptr(),
            work.expected.len(),
            work.keys.as_mut_ptr(),
            work.keys.len(),
            work.ends.as_mut_ptr(),
            work.ends.len(),
            work.offsets.as_mut_ptr(),
            work.offsets.len(),
            work.starts.as_mut_ptr(),
            work.starts.len(),
            work.ids.as_mut_ptr(),
            work.ids.len(),
            work.spans.as_mut_ptr(),
            work.spans.len(),
            tokens.bytes.as_mut_ptr(),
            tokens.bytes.len(),
            tokens.spans.as_mut_ptr(),
            tokens.spans.len(),
            tokens.scores.as_mut_ptr(),
            tokens.scores.len(),
            told.as_mut_ptr(),
            told.len(),
        )
    };
    answer(number, told[0]).map(|tokens| Told {
        tokens,
        required: told[1] as usize,
        stalled: told[2] == 1,
    })
}
