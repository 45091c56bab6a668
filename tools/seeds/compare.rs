//! Do the proved seed lists and refusals agree with the Rust original, and with document 01?
//!
//! A case is a few distinct words of eight scripts with frequencies, and settings: lengths 0 to 32, minimum 0, 1, 2 and huge,
//! pools smaller and larger than the list. The list has to be the original's with our mathematics, bit for bit: pieces, counts,
//! scores and how many are required; and beside it the words that are UTF-8, with their frequencies. Half of the cases lend
//! exactly the slots that are needed. Then what is lent is damaged, and plain.rs works out which refusal should come of it, at
//! which place; where none should, the original is asked again. One difference fails, and so does a kind that never came.
//!
//!     --cases N    how many, 20,000 if not said
//!     --seed N     the same seed makes the same cases

mod call;
#[allow(dead_code)]
#[path = "../lattices/cases.rs"]
mod cases;
#[allow(dead_code)]
#[path = "../common/comparison.rs"]
mod comparison;
#[path = "../common/no.rs"]
mod no;
#[path = "plain.rs"]
mod refusals;
// What tools/lattices/cases.rs is written over.
#[allow(dead_code)]
#[path = "../lattices/plain.rs"]
mod plain;
#[allow(dead_code)]
#[path = "../math/random.rs"]
mod random;
mod seeds;

use call::{Lent, Told};
use comparison::ENOUGH;
use seeds::Rooms;

/// What has to come at least once.
const KINDS: [Kind; 26] = [
    (0, "accepted, whole"),
    (0, "accepted, cut"),
    (0, "accepted, damaged, whole"),
    (0, "accepted, damaged, cut"),
    (2, "vocab"),
    (2, "seed"),
    (2, "piece length"),
    (2, "EM"),
    (2, "more than 256 specials"),
    (2, "a special outside its text"),
    (2, "a special over 255 bytes"),
    (2, "a special not UTF-8"),
    (3, "frequency 0"),
    (3, "a word over 255 bytes"),
    (3, "a word outside the text"),
    (4, "a repeated word"),
    (5, "W over 2^48"),
    (6, "no word"),
    (6, "none UTF-8"),
    (7, "a slot a word too few"),
    (7, "a slot a byte of the text too few"),
    (7, "a slot a byte of the words too few"),
    (7, "the list before its cut"),
    (0, "exactly full"),
    (7, "one over"),
    (0, "a word not UTF-8 left out"),
];
/// These take long, so they are rare.
const RARE: [Kind; 2] = [
    (7, "more than 16,384 words"),
    (7, "a text over 1,048,576 bytes"),
];
const ENOUGH_FOR_RARE: usize = 20_000;

/// A refusal's number or 0, and why.
type Kind = (u32, &'static str);

#[derive(Default)]
struct Sums {
    lists: usize,
    pieces: usize,
}

type Comparison = comparison::Comparison<Kind, Sums>;

impl Comparison {
    /// The original's list against what the slots hold.
    fn accepted(
        &mut self,
        good: [&'static str; 2],
        lent: &Lent,
        slots: &call::Slots,
        words: &[(refusals::Word, &str)],
        told: Told,
    ) {
        let specials = lent.specials.chunks_exact(2);
        let special = |span: &[u32]| {
            String::from_utf8(call::part(&lent.texts, span[0], span[1])?.to_vec()).ok()
        };
        let specials: Vec<String> = specials.filter_map(special).collect();
        let trainer =
            original::Trainer::new(lent.vocab, lent.seed, lent.length, lent.minimum, &specials);
        let counted: Vec<(&str, u64)> = words.iter().map(|(word, text)| (*text, word.2)).collect();
        let (pieces, scores, required) = trainer.seed(&counted);
        let wants = Told {
            words: words.len(),
            pieces: pieces.len(),
            required,
        };
        if wants != told {
            return self.difference("how many", wants, told);
        }
        let (wants, found) = (
            call::originals(&pieces, &scores),
            call::pieces(lent, slots, told.pieces),
        );
        if wants != found {
            self.difference("the list", wants, found);
        }
        let kept: Vec<u32> = words
            .iter()
            .flat_map(|(word, _)| [word.0, word.1])
            .collect();
        let counts: Vec<u64> = words.iter().map(|(word, _)| word.2).collect();
        if slots.kept[..2 * told.words] != kept || slots.counts[..told.words] != counts {
            self.difference("the words", (kept, counts), (&slots.kept, &slots.counts));
        }
        let uncut = refusals::uncut(lent, &counted);
        self.sums.lists += 1;
        self.sums.pieces += pieces.len();
        self.count((0, good[usize::from(uncut > pieces.len())]));
        if uncut == slots.tallies.len() {
            self.count((0, "exactly full"));
        }
        if words.len() < refusals::words(lent).len() {
            self.count((0, "a word not UTF-8 left out"));
        }
    }

    fn ask(&mut self, good: [&'static str; 2], lent: &Lent, rooms: &Rooms) {
        let mut slots = seeds::slots(&mut self.random, rooms);
        let wanted = refusals::accepted(lent, &slots);
        let said = call::seed(lent, &mut slots);
        match (wanted, said) {
            (Ok(words), Ok(told)) => self.accepted(good, lent, &slots, &words, told),
            (Err(no), said) => {
                self.count((no.number, no.why));
                if Err((no.number, no.place)) != said {
                    self.difference("a refusal", no, said);
                }
            }
            (Ok(_), said) => self.difference("no refusal", "accepted", said),
        }
    }

    /// One piece more than there are slots for.
    fn one_over(&mut self, lent: &Lent, rooms: &Rooms) {
        let mut slots = seeds::slots(&mut self.random, rooms);
        let Ok(words) = refusals::accepted(lent, &slots) else {
            return;
        };
        let counted: Vec<(&str, u64)> = words.iter().map(|(word, text)| (*text, word.2)).collect();
        let Some(one_less) = refusals::uncut(lent, &counted).checked_sub(1) else {
            return;
        };
        match self.random.below(3) {
            0 => slots.pieces.truncate(2 * one_less + self.random.below(2)),
            1 => slots.tallies.truncate(one_less),
            _ => slots.scores.truncate(one_less),
        }
        self.count((7, "one over"));
        let said = call::seed(lent, &mut slots);
        if said != Err((7, 1)) {
            self.difference("one over", "NoRoom at 1", said);
        }
    }

    fn compare(&mut self) {
        let mut lent = seeds::lend(&mut self.random);
        let mut rooms = seeds::rooms(&mut self.random, &lent);
        self.ask(["accepted, whole", "accepted, cut"], &lent, &rooms);
        self.one_over(&lent, &rooms);
        for _ in 0..self.random.pick(&[1, 1, 1, 2, 3]) {
            seeds::damage(&mut self.random, &mut lent, &mut rooms);
        }
        self.ask(
            ["accepted, damaged, whole", "accepted, damaged, cut"],
            &lent,
            &rooms,
        );
    }

    fn report(&mut self) {
        self.show(|(number, why)| format!("{number:>2}  {why}"));
        self.demand(KINDS, ENOUGH);
        self.demand(RARE, ENOUGH_FOR_RARE);
        println!(
            "seeds: {} cases, {} lists, {} pieces, {} differences",
            self.cases, self.sums.lists, self.sums.pieces, self.differences
        );
    }
}

fn main() {
    let mut comparison = Comparison::asked("seeds", 20_000);
    comparison.each_case(Comparison::compare);
    comparison.report();
    comparison.end();
}
