//! The C functions of the libraries that `tools/native-staticlib export` and `tools/native-staticlib
//! export_train` write to target/native, as include/causeylark.h declares them.
//!
//! Nothing is demanded of numbers, so the functions of numbers are safe. The others are unsafe for
//! one reason: a pointer and a count have to be a slice.

/// What `causeylark_viterbi_short` returns.
#[repr(C)]
#[derive(Clone, Copy, Debug, PartialEq)]
pub struct Short {
    /// The score; +0 after a refusal.
    pub score: f64,
    /// How many pieces, or the refusal's place.
    pub told: u64,
    /// 0, or the refusal's number.
    pub number: u32,
    /// The pieces; unused ids are 0.
    pub ids: [u32; 32],
}

unsafe extern "C" {
    /// e^x.
    pub safe fn causeylark_exp(x: f64) -> f64;
    /// ln x.
    pub safe fn causeylark_ln(x: f64) -> f64;
    /// ln(1 + y).
    pub safe fn causeylark_ln_1p(y: f64) -> f64;

    /// How many bytes at the front are UTF-8.
    pub fn causeylark_utf8_valid_up_to(text: *const u8, bytes: usize) -> usize;

    /// Builds the lattices of words over pieces.
    pub fn causeylark_build(
        setting: usize,
        text: *const u8,
        text_bytes: usize,
        words: *const u32,
        word_numbers: usize,
        piece_text: *const u8,
        piece_text_bytes: usize,
        pieces: *const u32,
        piece_numbers: usize,
        offsets: *mut u32,
        offset_slots: usize,
        starts: *mut u32,
        start_slots: usize,
        ids: *mut u32,
        id_slots: usize,
        spans: *mut u32,
        span_slots: usize,
        keys: *mut u64,
        key_slots: usize,
        ends: *mut u32,
        end_slots: usize,
        table: *mut u32,
        table_slots: usize,
        told: *mut u64,
        told_slots: usize,
    ) -> u32;

    /// Prunes a cache in place.
    pub fn causeylark_retain(
        offsets: *mut u32,
        offset_slots: usize,
        starts: *mut u32,
        start_slots: usize,
        ids: *mut u32,
        id_slots: usize,
        spans: *mut u32,
        span_slots: usize,
        words: usize,
        remap: *const u32,
        entries: usize,
        told: *mut u64,
        told_slots: usize,
    ) -> u32;

    /// The best cut of one word's lattice.
    pub fn causeylark_viterbi(
        offsets: *const u32,
        offset_count: usize,
        starts: *const u32,
        start_count: usize,
        ids: *const u32,
        id_count: usize,
        n: usize,
        scores: *const f64,
        score_count: usize,
        best: *mut f64,
        best_slots: usize,
        back: *mut u32,
        back_slots: usize,
        path: *mut u32,
        path_slots: usize,
        sum: *mut f64,
        sum_slots: usize,
        told: *mut u64,
        told_slots: usize,
    ) -> u32;

    /// The best cut of a lattice of at most 32 characters, by value.
    pub fn causeylark_viterbi_short(
        offsets: *const u32,
        offset_count: usize,
        starts: *const u32,
        start_count: usize,
        ids: *const u32,
        id_count: usize,
        n: usize,
        scores: *const f64,
        score_count: usize,
        best: *mut f64,
        best_slots: usize,
        back: *mut u32,
        back_slots: usize,
    ) -> Short;

    /// The best score of one word's lattice without a piece.
    pub fn causeylark_viterbi_excluding(
        offsets: *const u32,
        offset_count: usize,
        starts: *const u32,
        start_count: usize,
        ids: *const u32,
        id_count: usize,
        n: usize,
        scores: *const f64,
        score_count: usize,
        excluded: u32,
        best: *mut f64,
        best_slots: usize,
        sum: *mut f64,
        sum_slots: usize,
        told: *mut u64,
        told_slots: usize,
    ) -> u32;

    /// Whether one word's lattice has a cut.
    pub fn causeylark_is_connected(
        offsets: *const u32,
        offset_count: usize,
        starts: *const u32,
        start_count: usize,
        ids: *const u32,
        id_count: usize,
        n: usize,
        reach: *mut u32,
        reach_slots: usize,
        told: *mut u64,
        told_slots: usize,
    ) -> u32;

    /// The expected count of every edge of one word's lattice, and the sum over all cuts.
    pub fn causeylark_expectations(
        offsets: *const u32,
        offset_count: usize,
        starts: *const u32,
        start_count: usize,
        ids: *const u32,
        id_count: usize,
        n: usize,
        scores: *const f64,
        score_count: usize,
        alpha: *mut f64,
        alpha_slots: usize,
        beta: *mut f64,
        beta_slots: usize,
        emitted: *mut f64,
        emitted_slots: usize,
        sum: *mut f64,
        sum_slots: usize,
        told: *mut u64,
        told_slots: usize,
    ) -> u32;

    /// The best cut of one word over a list of pieces.
    pub fn causeylark_cut(
        setting: usize,
        word: *const u8,
        word_bytes: usize,
        spellings: *const u8,
        spelling_bytes: usize,
        pieces: *const u32,
        piece_numbers: usize,
        scores: *const f64,
        score_count: usize,
        path: *mut u32,
        path_slots: usize,
        keys: *mut u64,
        key_slots: usize,
        ends: *mut u32,
        end_slots: usize,
        table: *mut u32,
        table_slots: usize,
        sum: *mut f64,
        sum_slots: usize,
        told: *mut u64,
        told_slots: usize,
    ) -> u32;

    /// Trains on words with frequencies.
    pub fn causeylark_train(
        vocab_size: usize,
        seed_flag: u32,
        seed_size: usize,
        max_piece_chars: usize,
        min_frequency: u64,
        shrink_factor: f64,
        em_iterations: usize,
        special_text: *const u8,
        special_bytes: usize,
        specials: *const u32,
        special_numbers: usize,
        text: *const u8,
        text_bytes: usize,
        words: *const u32,
        word_numbers: usize,
        frequencies: *const u64,
        frequency_count: usize,
        kept: *mut u32,
        kept_slots: usize,
        counts: *mut u64,
        count_slots: usize,
        table: *mut u32,
        table_slots: usize,
        chars: *mut u32,
        char_slots: usize,
        places: *mut u32,
        place_slots: usize,
        order: *mut u32,
        order_slots: usize,
        work: *mut u32,
        work_slots: usize,
        ranks: *mut u64,
        rank_slots: usize,
        pieces: *mut u32,
        piece_slots: usize,
        tallies: *mut u64,
        tally_slots: usize,
        scores: *mut f64,
        score_slots: usize,
        expected: *mut f64,
        expected_slots: usize,
        keys: *mut u64,
        key_slots: usize,
        ends: *mut u32,
        end_slots: usize,
        offsets: *mut u32,
        offset_slots: usize,
        starts: *mut u32,
        start_slots: usize,
        ids: *mut u32,
        id_slots: usize,
        spans: *mut u32,
        span_slots: usize,
        bytes: *mut u8,
        byte_slots: usize,
        tokens: *mut u32,
        token_slots: usize,
        token_scores: *mut f64,
        token_score_slots: usize,
        told: *mut u64,
        told_slots: usize,
    ) -> u32;
}
