//! Document 01's examples of cuts, and a refusal of each kind, through the safe wrapper.

mod common;

use causeylark::{c, cut, slices, Cache, Cut, Refusal};

const PIECES: [&[u8]; 4] = [b"a", b"b", b"ab", b"ba"];
const SCORES: [f64; 4] = [-1.0, -1.0, -2.0, -2.0];

fn aba() -> Cache {
    Cache::build(16, &[b"aba"], &PIECES).unwrap()
}

fn pieces(ids: &[u32], score: f64) -> Cut {
    let ids = ids.to_vec();
    Cut::Pieces { ids, score }
}

/// Scores -1 -1 -2 -2: aba gives 0, 3 and -3.
#[test]
fn the_earliest_start_wins() {
    assert_eq!(
        aba().word(0).unwrap().viterbi(&SCORES),
        pieces(&[0, 3], -3.0)
    );
}

/// Word ab, only a and b, each -1.7e308: NoPath; with ab at -3: that piece.
#[test]
fn no_finite_sum() {
    let cache = Cache::build(16, &[b"ab"], &PIECES[..3]).unwrap();
    let word = cache.word(0).unwrap();
    assert_eq!(
        word.viterbi(&[-1.7e308, -1.7e308, -3.0]),
        pieces(&[2], -3.0)
    );
    let two = Cache::build(16, &[b"ab"], &PIECES[..2]).unwrap();
    assert_eq!(
        two.word(0).unwrap().viterbi(&[-1.7e308; 2]),
        Cut::Refused(Refusal::NoPath)
    );
}

#[test]
fn the_empty_word() {
    let cache = Cache::build(16, &[b""], &PIECES).unwrap();
    let word = cache.word(0).unwrap();
    assert_eq!(word.viterbi(&SCORES), Cut::EmptyWord);
    assert!(word.is_connected());
    let expected = word.expectations(&SCORES).unwrap();
    assert_eq!((expected.sum, expected.entries), (0.0, vec![]));
}

#[test]
fn without_a_piece() {
    let cache = Cache::build(16, &[b"ab"], &PIECES).unwrap();
    let without = |id| {
        cache
            .word(0)
            .unwrap()
            .viterbi_excluding(&[-1.0, -1.0, -5.0, -1.0], id)
    };
    assert_eq!(
        [0, 1, 2, 9].map(without),
        [Ok(-5.0), Ok(-5.0), Ok(-2.0), Ok(-2.0)]
    );
    let alone = Cache::build(16, &[b"a"], &PIECES[..1]).unwrap();
    assert_eq!(
        alone.word(0).unwrap().viterbi_excluding(&[-1.0], 0),
        Ok(f64::NEG_INFINITY)
    );
}

#[test]
fn connected() {
    let cache = Cache::build(16, &[b"ab", b"ac", b"cab"], &PIECES).unwrap();
    let all: Vec<bool> = cache.lattices().map(|word| word.is_connected()).collect();
    assert_eq!(all, [true, false, false]);
}

/// Three cuts of one score each: every edge's count is in thirds, and the sum is ln 3 more than the score.
#[test]
fn expectations_are_shares() {
    let expected = aba().word(0).unwrap().expectations(&SCORES).unwrap();
    assert!((expected.sum - (3f64.ln() - 3.0)).abs() < 1e-9);
    for (entry, thirds) in expected.entries.iter().zip([2.0, 1.0, 1.0, 1.0, 2.0]) {
        assert!((3.0 * entry - thirds).abs() < 1e-9, "{entry}");
    }
    let cache = Cache::build(16, &[b"ac"], &PIECES).unwrap();
    let none = cache.word(0).unwrap().expectations(&SCORES).unwrap();
    assert_eq!((none.sum, none.entries), (f64::NEG_INFINITY, vec![0.0]));
}

#[test]
fn refusals() {
    let cache = aba();
    let word = cache.word(0).unwrap();
    let refused = |scores: &[f64], refusal| {
        assert_eq!(word.viterbi(scores), Cut::Refused(refusal));
        assert_eq!(word.viterbi_excluding(scores, 0), Err(refusal));
        assert_eq!(word.expectations(scores), Err(refusal));
    };
    refused(&SCORES[..3], Refusal::BadLattice(0));
    refused(&[-1.0, f64::NAN, -2.0, 1.0], Refusal::BadScore(1));
    refused(&[-1.0, -1.0, -2.0, -2.0, 5e-324], Refusal::BadScore(4));
    assert_eq!(
        word.viterbi(&[f64::NEG_INFINITY; 4]),
        Cut::Refused(Refusal::NoPath)
    );
    let Cut::Refused(refusal) = word.viterbi(&[0.5; 4]) else {
        panic!("a score above zero");
    };
    assert_eq!(
        (refusal.name(), refusal.number(), refusal.place()),
        ("BadScore", 10, 0)
    );
}

/// Slices lent by hand: each room one slot short, and what is kept.
#[test]
fn lent_by_hand() {
    let word = slices::Word {
        offsets: &[0, 0, 1, 3, 5],
        starts: &[0, 0, 1, 1, 2],
        ids: &[0, 2, 1, 3, 0],
        n: 3,
    };
    let call = |best: usize, back: usize, path: usize| {
        let (mut best, mut back, mut path) = (vec![1.5; best], vec![7; back], vec![9; path]);
        let said = slices::viterbi(word, &SCORES, &mut best, &mut back, &mut path);
        assert!(best.iter().all(|slot| slot.to_bits() == 0) && back.iter().all(|&slot| slot == 0));
        (said, path)
    };
    assert_eq!(call(3, 4, 3), (Err(Refusal::NoRoom(3)), vec![9; 3]));
    assert_eq!(call(4, 3, 0), (Err(Refusal::NoRoom(3)), vec![]));
    assert_eq!(call(4, 4, 2), (Err(Refusal::NoRoom(4)), vec![9; 2]));
    assert_eq!(call(9, 5, 4), (Ok((-3.0, 2)), vec![0, 3, 9, 9]));
    assert_eq!(
        slices::is_connected(word, &mut [7; 3]),
        Err(Refusal::NoRoom(3))
    );
    assert_eq!(
        slices::is_connected(slices::Word { n: 2, ..word }, &mut [7; 9]),
        Err(Refusal::BadLattice(0))
    );
    let (mut alpha, mut beta, mut emitted) = ([1.5; 4], [1.5; 4], [7.0; 6]);
    let short = slices::expectations(word, &SCORES, &mut alpha, &mut beta, &mut emitted[..4]);
    assert_eq!((short, emitted), (Err(Refusal::NoRoom(3)), [7.0; 6]));
    let long = slices::expectations(word, &SCORES, &mut alpha, &mut beta, &mut emitted);
    assert!(long.is_ok() && emitted[4] < 1.0 && emitted[5] == 7.0);
    assert_eq!((alpha, beta), ([0.0; 4], [0.0; 4]));
}

/// By value, for words of at most 32 characters.
#[test]
fn short_words() {
    let chain = |n: u32| -> (Vec<u32>, Vec<u32>) {
        (
            (0..n + 2).map(|p| p.saturating_sub(1)).collect(),
            (0..n).collect(),
        )
    };
    for n in [0, 1, 31, 32, 33] {
        let ((offsets, starts), ids) = (chain(n), vec![1; n as usize]);
        let n = n as usize;
        let word = slices::Word {
            offsets: &offsets,
            starts: &starts,
            ids: &ids,
            n,
        };
        let (mut best, mut back) = (vec![1.5; n + 1], vec![7; n + 1]);
        let short = slices::viterbi_short(word, &[-9.0, -0.5], &mut best, &mut back);
        let (mut path, mut wanted) = ([0; 32], Err(Refusal::NoRoom(4)));
        if n <= 32 {
            path[..n].fill(1);
            wanted = Ok((-0.5 * n as f64, n));
        }
        assert_eq!(
            short,
            slices::Short {
                answer: wanted,
                ids: path
            }
        );
        assert!(best.iter().all(|slot| slot.to_bits() == 0) && back.iter().all(|&slot| slot == 0));
    }
}

/// The C function itself: with no slot nothing is told and no sum given, and no slot but the first is written to.
#[test]
fn told_and_sum_are_as_long_as_the_caller_likes() {
    for slots in 0..3 {
        let (mut told, mut sum) = ([7; 2], [7.0; 2]);
        let (offsets, edge, score) = ([0, 0, 1], [0], [-2.0]);
        let mut best = [1.0; 2];
        // SAFETY: each pointer and count is a slice, and no two overlap.
        let said = unsafe {
            c::causeylark_viterbi_excluding(
                offsets.as_ptr(),
                3,
                edge.as_ptr(),
                1,
                edge.as_ptr(),
                1,
                1,
                score.as_ptr(),
                1,
                5,
                best.as_mut_ptr(),
                2,
                sum.as_mut_ptr(),
                slots,
                told.as_mut_ptr(),
                slots,
            )
        };
        let first = if slots == 0 { (7, 7.0) } else { (0, -2.0) };
        assert_eq!((said, told, sum), (0, [first.0, 7], [first.1, 7.0]));
    }
}

#[test]
fn a_refusal_is_a_sentence() {
    let said = Refusal::BadScore(3).to_string();
    assert_eq!(
        said,
        "BadScore, number 10, at place 3: the score of piece 3 is NaN, above zero or missing."
    );
    for refusal in [Refusal::NoPath, Refusal::NoRoom(4), Refusal::BadLattice(0)] {
        common::is_a_sentence(refusal);
    }
}

#[test]
fn one_word_is_cut_or_refused_in_order() {
    let pieces = [&b"a"[..], b"b", b"ab", b"ba"];
    let scores = [-1.0, -1.0, -2.0, -2.0];
    let best = Cut::Pieces {
        ids: vec![0, 3],
        score: -3.0,
    };
    assert_eq!(cut(16, b"aba", &pieces, &scores), best);
    assert_eq!(cut(16, b"", &pieces, &scores), Cut::EmptyWord);
    assert_eq!(cut(16, b"", &[], &[]), Cut::EmptyWord);
    let refused = |setting, word: &[u8], pieces: &[&[u8]], scores: &[f64]| {
        match cut(setting, word, pieces, scores) {
            Cut::Refused(refusal) => (refusal.number(), refusal.place()),
            other => panic!("{other:?}"),
        }
    };
    let long = [b'a'; 256];
    // Each call has what the next ones are refused for, too.
    assert_eq!(refused(33, &long, &[b"\xff", b"\xff"], &[]), (2, 3));
    assert_eq!(refused(32, &long, &[b"\xff", b"\xff"], &[]), (3, 0));
    assert_eq!(refused(32, b"\xc0\x80", &[b"\xff", b"\xff"], &[]), (3, 0));
    assert_eq!(refused(32, &long[1..], &[b"a", b"\xff", b"a"], &[]), (14, 1));
    assert_eq!(refused(32, b"c", &[b"a", b"b", b"a"], &[]), (15, 2));
    assert_eq!(refused(32, b"c", &[b"a", b"b"], &[-1.0, f64::NAN]), (10, 1));
    assert_eq!(refused(32, b"c", &[b"a", b"b"], &[-1.0]), (10, 1));
    assert_eq!(refused(32, b"c", &[b"a"], &[-1.0, 1.0]), (10, 1));
    assert_eq!(refused(32, b"c", &[b"a"], &[-1.0]), (11, 0));
    assert_eq!(refused(32, b"ab", &pieces[..2], &[-1.7e308; 2]), (11, 0));
    let that = Cut::Pieces {
        ids: vec![2],
        score: -3.0,
    };
    assert_eq!(cut(32, b"ab", &pieces[..3], &[-1.7e308, -1.7e308, -3.0]), that);
}
