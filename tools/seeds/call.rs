//! The proved seed list, by the C function of the library that `tools/native-staticlib bench_seed` writes.

unsafe extern "C" {
    fn bench_seed(
        vocab_size: usize,
        flag: u32,
        seed: usize,
        max_piece_chars: usize,
        min_frequency: u64,
        em_iterations: usize,
        texts: *const u8,
        text_count: usize,
        specials: *const u32,
        special_count: usize,
        text: *const u8,
        byte_count: usize,
        words: *const u32,
        word_count: usize,
        frequencies: *const u64,
        frequency_count: usize,
        kept: *mut u32,
        kept_slots: usize,
        counts: *mut u64,
        count_slots: usize,
        chars: *mut u32,
        char_slots: usize,
        places: *mut u32,
        place_slots: usize,
        order: *mut u32,
        order_slots: usize,
        work: *mut u32,
        work_slots: usize,
        ranks: *mut u64,
        rank_slots: usize,
        pieces: *mut u32,
        piece_slots: usize,
        tallies: *mut u64,
        tally_slots: usize,
        scores: *mut f64,
        score_slots: usize,
        table: *mut u32,
        table_slots: usize,
        told: *mut u64,
        told_slots: usize,
    ) -> u32;
}

/// What is lent to be read: the settings, the specials and the words, as spans of their texts.
#[derive(Clone, Debug)]
pub struct Lent {
    pub vocab: usize,
    pub seed: Option<usize>,
    pub length: usize,
    pub minimum: u64,
    pub em: usize,
    pub texts: Vec<u8>,
    pub specials: Vec<u32>,
    pub text: Vec<u8>,
    pub words: Vec<u32>,
    pub frequencies: Vec<u64>,
}

/// What is lent to be written.
#[derive(Clone, Debug)]
pub struct Slots {
    pub kept: Vec<u32>,
    pub counts: Vec<u64>,
    pub chars: Vec<u32>,
    pub places: Vec<u32>,
    pub order: Vec<u32>,
    pub work: Vec<u32>,
    pub ranks: Vec<u64>,
    pub pieces: Vec<u32>,
    pub tallies: Vec<u64>,
    pub scores: Vec<f64>,
    pub table: Vec<u32>,
}

/// How many words are UTF-8, how many pieces there are, how many of them are required.
#[derive(Clone, Copy, Debug, PartialEq, Eq)]
pub struct Told {
    pub words: usize,
    pub pieces: usize,
    pub required: usize,
}

/// The seed list in front of the slots, or the refusal's number and place.
pub fn seed(lent: &Lent, slots: &mut Slots) -> Result<Told, (u32, u64)> {
    let mut told = [u64::MAX; 3];
    // Each slice is a pointer and a count of its own, and nothing is demanded of a caller.
    let number = unsafe {
        bench_seed(
            lent.vocab,
            u32::from(lent.seed.is_some()),
            lent.seed.unwrap_or(0),
            lent.length,
            lent.minimum,
            lent.em,
            lent.texts.as_ptr(),
            lent.texts.len(),
            lent.specials.as_ptr(),
            lent.specials.len(),
            lent.text.as_ptr(),
            lent.text.len(),
            lent.words.as_ptr(),
            lent.words.len(),
            lent.frequencies.as_ptr(),
            lent.frequencies.len(),
            slots.kept.as_mut_ptr(),
            slots.kept.len(),
            slots.counts.as_mut_ptr(),
            slots.counts.len(),
            slots.chars.as_mut_ptr(),
            slots.chars.len(),
            slots.places.as_mut_ptr(),
            slots.places.len(),
            slots.order.as_mut_ptr(),
            slots.order.len(),
            slots.work.as_mut_ptr(),
            slots.work.len(),
            slots.ranks.as_mut_ptr(),
            slots.ranks.len(),
            slots.pieces.as_mut_ptr(),
            slots.pieces.len(),
            slots.tallies.as_mut_ptr(),
            slots.tallies.len(),
            slots.scores.as_mut_ptr(),
            slots.scores.len(),
            slots.table.as_mut_ptr(),
            slots.table.len(),
            told.as_mut_ptr(),
            told.len(),
        )
    };
    if number != 0 {
        return Err((number, told[0]));
    }
    let [words, pieces, required] = told.map(|number| number as usize);
    Ok(Told {
        words,
        pieces,
        required,
    })
}

/// The bytes of a span, if it stands in its text.
pub fn part(text: &[u8], begin: u32, bytes: u32) -> Option<&[u8]> {
    let (begin, bytes) = (begin as usize, bytes as usize);
    text.get(begin..begin.checked_add(bytes)?)
}

/// Each piece in front of the slots as its bytes, its count and its score's bits. A span outside the text has none.
pub type Piece<'a> = (Option<&'a [u8]>, u64, u64);

pub fn pieces<'a>(lent: &'a Lent, slots: &Slots, count: usize) -> Vec<Piece<'a>> {
    let spans = slots.pieces.chunks_exact(2);
    let rest = slots.tallies.iter().zip(&slots.scores);
    spans
        .zip(rest)
        .take(count)
        .map(|(span, (count, score))| (part(&lent.text, span[0], span[1]), *count, score.to_bits()))
        .collect()
}

/// The same of the original's list.
pub fn originals<'a>(pieces: &'a [(String, u64)], scores: &[f64]) -> Vec<Piece<'a>> {
    let scores = scores.iter().map(|score| score.to_bits());
    pieces
        .iter()
        .zip(scores)
        .map(|((piece, count), score)| (Some(piece.as_bytes()), *count, score))
        .collect()
}
