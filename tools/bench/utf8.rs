//! How fast does the proved decoder go through a text, beside std::str::from_utf8?
//!
//! The text is mixed: words of eight scripts in a random order, so that no branch can be learnt by heart, with spaces
//! between, 4 MB in all. Both take the whole of it in one call. Rounds alternate, and the best of each counts.

#[allow(dead_code)]
#[path = "../math/random.rs"]
mod random;

use random::Random;
use std::hint::black_box;
use std::time::Instant;

const ROUNDS: usize = 60;
const BYTES: usize = 4_000_000;

/// The least that passes, in MB/s.
const TARGET: f64 = 300.0;

/// Latin, Cyrillic, Greek, Thai, Lao, Arabic, CJK, emoji.
const SCRIPTS: [&str; 8] = [
    "the fan rattles when it is warm",
    "вентилятор гремит на холоде",
    "ο ανεμιστήρας κάνει θόρυβο",
    "พัดลมมีเสียงดังเมื่อร้อน",
    "ພັດລົມມີສຽງດັງເວລາຮ້ອນ",
    "المروحة تصدر صوتا عاليا",
    "风扇 在 温暖时 会发出 声音",
    "🔥🧊 🔊 💻 🖥️",
];

fn mixed() -> String {
    let mut random = Random(1);
    let mut pick = |count: usize| (random.bits() % count as u64) as usize;
    let mut text = String::with_capacity(BYTES + 64);
    while text.len() < BYTES {
        let words: Vec<&str> = SCRIPTS[pick(SCRIPTS.len())].split(' ').collect();
        text.push_str(words[pick(words.len())]);
        text.push(' ');
    }
    text
}

fn best(seconds: &mut f64, call: impl FnOnce() -> usize) -> usize {
    let begun = Instant::now();
    let valid = black_box(call());
    *seconds = seconds.min(begun.elapsed().as_secs_f64());
    valid
}

fn main() {
    let text = mixed().into_bytes();
    let [mut theirs, mut ours] = [f64::INFINITY; 2];
    for _ in 0..ROUNDS {
        let a = best(&mut theirs, || {
            match std::str::from_utf8(black_box(&text)) {
                Ok(whole) => whole.len(),
                Err(error) => error.valid_up_to(),
            }
        });
        let b = best(&mut ours, || causeylark::utf8_valid_up_to(black_box(&text)));
        assert_eq!((a, b), (text.len(), text.len()));
    }
    let rate = |seconds: f64| text.len() as f64 / seconds / 1e6;
    let verdict = if rate(ours) < TARGET { "FAIL" } else { "PASS" };
    println!("std::str::from_utf8  {:6.0} MB/s", rate(theirs));
    println!(
        "ours                 {:6.0} MB/s, at least {TARGET}: {verdict}",
        rate(ours)
    );
    if verdict == "FAIL" {
        std::process::exit(1);
    }
}
