//! Random words, pieces and remaps, how they are lent, and how what is lent is damaged.

use crate::plain::{Cache, Lent, Sizes};
use crate::random::Random;

/// Latin, Cyrillic, Greek, Thai, Lao, Arabic, CJK, emoji.
const SCRIPTS: [&str; 8] = [
    "abcdefgh",
    "абвгдежз",
    "αβγδεζηθ",
    "กขคงจฉะา",
    "ກຂຄງຈສະາ",
    "ابتثجحخد",
    "一丁七万三上下不",
    "😀😁😂🤣😃😄🚀👍",
];

impl Random {
    /// A number below this one.
    pub fn below(&mut self, count: usize) -> usize {
        (self.bits() % count as u64) as usize
    }

    pub fn once_in(&mut self, count: usize) -> bool {
        self.below(count) == 0
    }

    pub fn pick<T: Copy>(&mut self, from: &[T]) -> T {
        from[self.below(from.len())]
    }

    /// Numbers of every size, so that nothing that was there before can be taken for a result.
    pub fn numbers(&mut self, slots: usize) -> Vec<u64> {
        (0..slots).map(|_| self.bits() >> self.below(64)).collect()
    }

    /// The same in 32 bits.
    pub fn junk(&mut self, slots: usize) -> Vec<u32> {
        self.numbers(slots)
            .iter()
            .map(|number| *number as u32)
            .collect()
    }

    pub fn shuffle<T>(&mut self, items: &mut [T]) {
        for last in (1..items.len()).rev() {
            items.swap(last, self.below(last + 1));
        }
    }
}

/// Words over few letters, so that their substrings repeat; and distinct pieces.
pub struct Case {
    pub setting: usize,
    pub words: Vec<String>,
    pub pieces: Vec<String>,
}

impl Case {
    pub fn new(random: &mut Random) -> Case {
        let letters: Vec<char> = (0..1 + random.below(2))
            .flat_map(|_| script(random))
            .collect();
        let words: Vec<String> = (0..random.below(7))
            .map(|_| word(random, &letters))
            .collect();
        let pieces = pieces(random, &words, &letters);
        Case {
            setting: random.below(33),
            words,
            pieces,
        }
    }
}

/// A script's first letters.
pub fn script(random: &mut Random) -> Vec<char> {
    let many = 1 + random.below(8);
    random.pick(&SCRIPTS).chars().take(many).collect()
}

/// At most 255 bytes.
pub fn word(random: &mut Random, letters: &[char]) -> String {
    let most = random.pick(&[0, 1, 2, 3, 8, 8, 20, 40, 255]);
    let mut word = String::new();
    for _ in 0..random.below(most + 1) {
        let letter = random.pick(letters);
        if word.len() + letter.len_utf8() <= 255 {
            word.push(letter);
        }
    }
    word
}

/// Distinct: all of the letters or some, substrings of the words, strangers, and at times the empty piece.
fn pieces(random: &mut Random, words: &[String], letters: &[char]) -> Vec<String> {
    let all = random.below(10) < 7;
    let mut pieces = Vec::new();
    for letter in letters {
        if all || random.below(10) < 7 {
            pieces.push(letter.to_string());
        }
    }
    let spelt: Vec<&String> = words.iter().filter(|word| !word.is_empty()).collect();
    for _ in 0..random.pick(&[0, 5, 20, 60]) {
        if spelt.is_empty() {
            break;
        }
        let characters: Vec<char> = random.pick(&spelt).chars().collect();
        let most = random.pick(&[2, 4, 34]);
        let (start, long) = (random.below(characters.len()), 1 + random.below(most));
        pieces.push(characters.iter().skip(start).take(long).collect());
    }
    for _ in 0..random.below(4) {
        let letters = script(random);
        pieces.push(word(random, &letters));
    }
    if random.once_in(10) {
        pieces.push(String::new());
    }
    pieces.sort();
    pieces.dedup();
    random.shuffle(&mut pieces);
    pieces
}

/// Each piece pruned, or given the count of survivors before it. With the count of survivors.
pub fn remap(random: &mut Random, pieces: usize) -> (Vec<u32>, usize) {
    let lives = random.pick(&[0, 10, 50, 90, 100]);
    let mut survivors = 0;
    let mut entry = |_| {
        if random.below(100) >= lives {
            return u32::MAX;
        }
        survivors += 1;
        survivors - 1
    };
    let remap = (0..pieces).map(&mut entry).collect();
    (remap, survivors as usize)
}

/// The strings as spans of a text: in any order, at times with bytes between that belong to none, or sharing bytes.
pub fn spans(random: &mut Random, strings: &[impl AsRef<[u8]>]) -> (Vec<u8>, Vec<u32>) {
    let (apart, shared) = (random.once_in(2), random.once_in(2));
    let mut order: Vec<usize> = (0..strings.len()).collect();
    random.shuffle(&mut order);
    let (mut text, mut numbers) = (Vec::new(), vec![0; 2 * strings.len()]);
    for index in order {
        let bytes = strings[index].as_ref();
        if apart {
            text.extend((0..random.below(3)).map(|_| random.bits() as u8));
        }
        let stands = |text: &[u8]| text.windows(bytes.len()).position(|part| part == bytes);
        let found = if shared && !bytes.is_empty() {
            stands(&text)
        } else {
            None
        };
        let from = found.unwrap_or(text.len());
        if found.is_none() {
            text.extend(bytes);
        }
        (numbers[2 * index], numbers[2 * index + 1]) = (from as u32, bytes.len() as u32);
    }
    // "an odd number at the end is ignored"
    if random.once_in(4) {
        numbers.push(random.bits() as u32);
    }
    (text, numbers)
}

pub fn lend(random: &mut Random, case: &Case) -> Lent {
    let (text, words) = spans(random, &case.words);
    let (piece_text, pieces) = spans(random, &case.pieces);
    Lent {
        setting: case.setting,
        text,
        words,
        piece_text,
        pieces,
    }
}

/// What is used, and some slots more. Once in three, instead of what is used, as many edges and offsets as words of so many
/// bytes can have: those are not counted before they are written.
pub fn sizes(random: &mut Random, lent: &Lent, used: &Cache, nodes: usize, pieces: usize) -> Sizes {
    let (mut edges, mut offsets) = (used.starts.len(), used.offsets.len());
    if random.once_in(3) {
        let words = lent.words.chunks_exact(2);
        let bytes: usize = words.clone().map(|span| span[1] as usize).sum();
        (edges, offsets) = (lent.setting * bytes, bytes + 2 * words.len());
    }
    let mut more = |used: usize| used + random.pick(&[0, 0, 1, 2, 9]);
    let edges = more(edges);
    Sizes {
        offsets: more(offsets),
        // Equally many, or retain refuses what was built.
        starts: edges,
        ids: edges,
        spans: more(used.spans.len()),
        keys: more(2 * nodes),
        ends: more(2 * nodes),
        table: more(2 * pieces),
    }
}

/// A number near this one, or far from it.
pub fn other(random: &mut Random, number: u32) -> u32 {
    let far = random.bits() as u32;
    random.pick(&[
        number.wrapping_add(1),
        number.wrapping_sub(1),
        number ^ 1,
        0,
        1,
        u32::MAX,
        far,
    ])
}

/// Puts another number into a slot, if there is one.
pub fn spoil(random: &mut Random, slots: &mut [u32]) {
    if !slots.is_empty() {
        let slot = random.below(slots.len());
        slots[slot] = other(random, slots[slot]);
    }
}

pub fn spoil_byte(random: &mut Random, bytes: &mut [u8]) {
    if !bytes.is_empty() {
        let byte = random.below(bytes.len());
        bytes[byte] = random.pick(&[0x80, 0xc0, 0xe0, 0xed, 0xf4, 0xff, b'a']);
    }
}

pub fn shorten(random: &mut Random, slots: &mut usize) {
    *slots -= random.pick(&[1, 1, 2, 20, usize::MAX]).min(*slots);
}

/// Gives a word or a piece the span of another, or one more of them the empty span.
pub fn repeat(random: &mut Random, numbers: &mut Vec<u32>) {
    numbers.truncate(numbers.len() / 2 * 2);
    let many = numbers.len() / 2;
    if many > 0 && random.below(3) > 0 {
        let (from, to) = (random.below(many), random.below(many));
        numbers.copy_within(2 * from..2 * from + 2, 2 * to);
    } else {
        numbers.extend([0, 0]);
    }
}

/// A word of 255 bytes, or of one or two more.
fn lengthen(random: &mut Random, lent: &mut Lent) {
    lent.words.truncate(lent.words.len() / 2 * 2);
    let long = random.pick(&[255, 256, 257]);
    lent.words.extend([lent.text.len() as u32, long]);
    lent.text.extend((0..long).map(|_| b'a'));
}

/// More than the bounds: it takes long, so it is rare.
fn exceed(random: &mut Random, lent: &mut Lent, sizes: &mut Sizes) {
    match random.below(4) {
        0 => lent.words.resize(2 * 16_385, 0),
        1 => lent.text.resize(1_048_577, b'a'),
        2 => lent.piece_text.resize(1_048_577, b'a'),
        _ => {
            lent.pieces.resize(2 * 1_048_577, 0);
            sizes.table = lent.pieces.len();
        }
    }
}

/// Damages what is lent to build. It may still be good, and it may be bad in another way than was meant.
pub fn damage_lent(random: &mut Random, lent: &mut Lent, sizes: &mut Sizes) {
    match random.below(17) {
        0 => lent.setting = random.pick(&[33, 34, 255, usize::MAX, 32]),
        1 => spoil(random, &mut lent.words),
        2 => spoil_byte(random, &mut lent.text),
        3 => lengthen(random, lent),
        4 => spoil(random, &mut lent.pieces),
        5 => spoil_byte(random, &mut lent.piece_text),
        6 | 7 => repeat(random, &mut lent.pieces),
        8 => repeat(random, &mut lent.words),
        9 => shorten(random, &mut sizes.keys),
        10 => shorten(random, &mut sizes.ends),
        11 => shorten(random, &mut sizes.starts),
        12 => shorten(random, &mut sizes.ids),
        13 => shorten(random, &mut sizes.offsets),
        14 => shorten(random, &mut sizes.spans),
        15 => shorten(random, &mut sizes.table),
        _ if random.once_in(20) => exceed(random, lent, sizes),
        _ => lent.text.truncate(random.below(lent.text.len() + 1)),
    }
}

/// Takes slots from the end.
pub fn cut<T>(random: &mut Random, slots: &mut Vec<T>) {
    let mut long = slots.len();
    shorten(random, &mut long);
    slots.truncate(long);
}

/// Damages what is lent to retain. It may still be good.
pub fn damage_cache(
    random: &mut Random,
    cache: &mut Cache,
    words: &mut usize,
    remap: &mut Vec<u32>,
) {
    match random.below(12) {
        0 => spoil(random, &mut cache.offsets),
        1 => spoil(random, &mut cache.starts),
        2 => spoil(random, &mut cache.ids),
        3 => spoil(random, &mut cache.spans),
        4 => cut(random, &mut cache.offsets),
        5 => cut(random, &mut cache.starts),
        6 => {
            cut(random, &mut cache.ids);
            if random.once_in(2) {
                cache.starts.truncate(cache.ids.len());
            }
        }
        7 => cut(random, &mut cache.spans),
        8 => *words = random.pick(&[*words + 1, words.saturating_sub(1), 0, usize::MAX]),
        9 => cut(random, remap),
        10 => remap.push(other(random, 0)),
        _ => spoil(random, remap),
    }
}
