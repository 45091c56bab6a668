//! What is measured on: 16,384 words, Latin and Thai, over 32,000 pieces: their letters, and of their substrings those with the
//! most characters in all, as a seed list has them.

use crate::random::Random;
use std::collections::{BTreeSet, HashMap};

pub const WORDS: usize = 16_384;
pub const PIECES: usize = 32_000;
pub const SETTING: usize = 16;

const LATIN: [&str; 24] = [
    "the", "fan", "rat", "tles", "when", "it", "is", "warm", "cool", "er", "ing", "ed", "power",
    "sup", "ply", "no", "ise", "board", "re", "set", "s", "un", "driv", "es",
];
const THAI: [&str; 24] = [
    "พัด",
    "ลม",
    "มี",
    "เสียง",
    "ดัง",
    "เมื่อ",
    "ร้อน",
    "เย็น",
    "แรง",
    "ไฟ",
    "ตก",
    "จอ",
    "ภาพ",
    "ดับ",
    "เอง",
    "ไม่",
    "ทำ",
    "งาน",
    "ติด",
    "ช้า",
    "หลัง",
    "เปิด",
    "ปิด",
    "ได้",
];

const CJK: [&str; 24] = [
    "风扇", "响", "热", "冷", "电", "源", "主板", "屏幕", "开", "关", "机", "不", "能", "启动",
    "慢", "声音", "大", "了", "后", "自", "动", "灭", "修", "好",
];

/// A script's syllables, and how many more than two a word has, at most, counted from 1.
pub type Script = ([&'static str; 24], usize);

/// Latin words are short, Thai ones long, as notes have them.
pub const SCRIPTS: [(&str, Script); 3] = [
    ("Latin", (LATIN, 4)),
    ("Thai", (THAI, 8)),
    ("CJK", (CJK, 8)),
];

/// Distinct words of syllables, the early ones of a script more often, half of them Latin and half Thai.
pub fn words(random: &mut Random) -> Vec<String> {
    words_of(random, &[SCRIPTS[0].1, SCRIPTS[1].1])
}

/// The same of these scripts.
pub fn words_of(random: &mut Random, scripts: &[Script]) -> Vec<String> {
    let mut below = |count: usize| (random.bits() % count as u64) as usize;
    let (mut words, mut seen) = (Vec::new(), BTreeSet::new());
    while words.len() < WORDS {
        let (syllables, most) = scripts[below(scripts.len())];
        let count = 2 + below(most);
        let word: String = (0..count)
            .map(|_| syllables[below(24).min(below(24))])
            .collect();
        if word.len() <= 255 && seen.insert(word.clone()) {
            words.push(word);
        }
    }
    words
}

/// Where each character of a word begins, and where the last one ends.
pub fn boundaries(word: &str) -> Vec<usize> {
    let starts = word.char_indices().map(|(at, _)| at);
    starts.chain([word.len()]).collect()
}

/// The strings one after the other, and two numbers each: where its bytes begin, and how many they are.
pub fn spans<S: AsRef<str>>(strings: &[S]) -> (Vec<u8>, Vec<u32>) {
    let (mut text, mut numbers) = (Vec::new(), Vec::new());
    for string in strings.iter().map(AsRef::as_ref) {
        numbers.extend([text.len() as u32, string.len() as u32]);
        text.extend(string.as_bytes());
    }
    (text, numbers)
}

/// The letters, then the substrings of 2 to 16 characters that have the most characters in all, then by their bytes.
pub fn pieces(words: &[String]) -> Vec<String> {
    let mut counts: HashMap<&str, usize> = HashMap::new();
    let mut letters = BTreeSet::new();
    for word in words {
        let at = boundaries(word);
        for start in 0..at.len() - 1 {
            letters.insert(&word[at[start]..at[start + 1]]);
            for end in start + 2..at.len().min(start + SETTING + 1) {
                *counts.entry(&word[at[start]..at[end]]).or_default() += 1;
            }
        }
    }
    let mut longer: Vec<(usize, &str)> = counts
        .iter()
        .map(|(piece, count)| (count * piece.chars().count(), *piece))
        .collect();
    longer.sort_by(|a, b| b.0.cmp(&a.0).then(a.1.cmp(b.1)));
    letters
        .into_iter()
        .chain(longer.into_iter().map(|(_, piece)| piece))
        .take(PIECES)
        .map(String::from)
        .collect()
}
