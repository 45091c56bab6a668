//! Document 01's sample of training, a refusal of each kind, and slices lent by hand, through the safe wrapper.

mod common;

use causeylark::slices::{self, Corpus, Tokens, Told, Training};
use causeylark::{train, Refusal, Settings, Trained};

fn vocab(vocab_size: usize) -> Settings {
    Settings {
        vocab_size,
        ..Settings::default()
    }
}

fn refused(settings: Settings, words: &[(&[u8], u64)], specials: &[&[u8]]) -> (u32, u64) {
    let refusal = train(settings, words, specials).unwrap_err();
    common::is_a_sentence(refusal);
    (refusal.number(), refusal.place())
}

/// One word of one letter, a vocabulary of 1.
#[test]
fn the_sample() {
    let trained = train(vocab(1), &[(b"a", 1)], &[]);
    let tokens = vec![(b"a".to_vec(), 0.0)];
    assert_eq!(
        trained,
        Ok(Trained {
            tokens,
            required: 1,
            stalled: false
        })
    );
}

fn spellings(trained: &Trained) -> Vec<&str> {
    let spelt = |token| std::str::from_utf8(token).unwrap();
    trained
        .tokens
        .iter()
        .map(|(token, _)| spelt(token))
        .collect()
}

/// Words aba twice: a, b, aba, ab, ba is the seed list, and with a minimum of 3 it is a, b.
#[test]
fn the_seed_list_is_pruned() {
    let words: [(&[u8], u64); 1] = [(b"aba", 2)];
    let all = train(vocab(9), &words, &[b"<pad>", b"<pad>"]).unwrap();
    assert_eq!(
        spellings(&all),
        ["<pad>", "<pad>", "a", "b", "aba", "ab", "ba"]
    );
    assert_eq!(
        (all.required, all.stalled, all.tokens[1].1),
        (2, false, 0.0)
    );
    let three = Settings {
        min_frequency: 3,
        ..vocab(9)
    };
    assert_eq!(spellings(&train(three, &words, &[]).unwrap()), ["a", "b"]);
    assert_eq!(train(vocab(3), &words, &[]).unwrap().tokens.len(), 3);
    let kept = Settings {
        shrink_factor: 1.0,
        ..vocab(3)
    };
    let stalled = train(kept, &words, &[]).unwrap();
    assert_eq!((stalled.tokens.len(), stalled.stalled), (5, true));
}

/// Words that are not UTF-8 are skipped; the empty word is a word.
#[test]
fn words_without_pieces() {
    let trained = train(vocab(9), &[(b"\xff", 5), (b"", 5)], &[]).unwrap();
    assert_eq!((trained.tokens.len(), trained.required), (0, 0));
}

#[test]
fn refusals_in_order() {
    let long = [b'a'; 256];
    let heavy = 1 << 48;
    // Each call has what the next ones are refused for, too.
    let words: [(&[u8], u64); 5] = [
        (b"a", heavy),
        (&long, 1),
        (b"b", 0),
        (b"a", 1),
        (b"cc", heavy),
    ];
    let bad = Settings {
        seed_size: Some(1_048_577),
        max_piece_chars: 33,
        em_iterations: 101,
        ..vocab(65_537)
    };
    assert_eq!(refused(bad, &words, &[b"\xff"]), (2, 1));
    let bad = Settings {
        vocab_size: 65_536,
        ..bad
    };
    assert_eq!(refused(bad, &words, &[b"\xff"]), (2, 2));
    let bad = Settings {
        seed_size: None,
        ..bad
    };
    assert_eq!(refused(bad, &words, &[b"\xff"]), (2, 3));
    let bad = Settings {
        max_piece_chars: 32,
        ..bad
    };
    assert_eq!(refused(bad, &words, &[b"\xff"]), (2, 4));
    let bad = Settings {
        em_iterations: 100,
        ..bad
    };
    assert_eq!(refused(bad, &words, &[b"\xff"]), (2, 5));
    assert_eq!(refused(bad, &words, &[&long]), (2, 5));
    assert_eq!(refused(bad, &words, &[&b"s"[..]; 257]), (2, 5));
    let many: Vec<String> = (0..16_385).map(|word| word.to_string()).collect();
    let many: Vec<(&[u8], u64)> = many.iter().map(|word| (word.as_bytes(), 0)).collect();
    assert_eq!(refused(bad, &many, &[]), (7, 0));
    assert_eq!(refused(bad, &words, &[]), (3, 1));
    assert_eq!(refused(bad, &words[2..], &[]), (3, 0));
    assert_eq!(refused(bad, &[words[0], words[3], words[4]], &[]), (4, 1));
    assert_eq!(refused(bad, &[words[0], words[4]], &[]), (5, 0));
    assert_eq!(refused(bad, &[], &[]), (6, 0));
    assert_eq!(refused(bad, &[(b"\xff", 1)], &[]), (6, 0));
    assert_eq!(refused(vocab(3), &[(b"abc", 1)], &[b"s"]), (8, 4));
    assert_eq!(refused(vocab(0), &[(b"abc", 1)], &[b"s"]), (8, 4));
    assert_eq!(
        train(vocab(1), &[(b"a", heavy)], &[]).map(|trained| trained.required),
        Ok(1)
    );
}

/// More strings stand in these words, all of them often enough, than piece slots are lent at first.
#[test]
fn more_room_is_lent() {
    let mut state = 1u32;
    let mut letter = || {
        state = state.wrapping_mul(1_664_525).wrapping_add(1_013_904_223);
        b'a' + (state >> 24) as u8 % 26
    };
    let long: Vec<[u8; 255]> = (0..160).map(|_| [0; 255].map(|_| letter())).collect();
    let words: Vec<(&[u8], u64)> = long.iter().map(|word| (&word[..], 2)).collect();
    let settings = Settings {
        max_piece_chars: 32,
        ..vocab(60)
    };
    let trained = train(settings, &words, &[]).unwrap();
    assert_eq!((trained.tokens.len(), trained.required), (60, 26));
}

/// The tables of one call, each of so many slots, full of something. The last three are results.
struct Tables(Vec<Vec<u32>>, Vec<Vec<u64>>, Vec<Vec<f64>>, Vec<u8>);

/// Slots of: kept, counts, table, chars, places, order, work, ranks, pieces, tallies, scores, expected, keys, ends,
/// offsets, starts, ids, spans, bytes, tokens, token scores.
const ENOUGH: [usize; 21] = [
    2, 1, 2, 3, 9, 5, 5, 5, 10, 5, 5, 5, 12, 12, 5, 6, 6, 4, 6, 8, 4,
];

/// Trains aba of frequency 2 to three pieces and a special, with tables of so many slots.
fn by_hand(slots: [usize; 21]) -> (Result<Told, Refusal>, Tables) {
    let [kept, counts, table, chars, places, order, work, ranks, pieces, tallies, scores, expected, keys, ends, offsets, starts, ids, spans, bytes, tokens, token_scores] =
        slots;
    let u32s = [
        kept, table, chars, places, order, work, pieces, ends, offsets, starts, ids, spans, tokens,
    ];
    let mut all = Tables(
        u32s.map(|slots| vec![7; slots]).to_vec(),
        [counts, ranks, tallies, keys]
            .map(|slots| vec![7; slots])
            .to_vec(),
        [scores, expected, token_scores]
            .map(|slots| vec![7.0; slots])
            .to_vec(),
        vec![7; bytes],
    );
    let Tables(numbers, wide, floats, bytes) = &mut all;
    let [kept, table, chars, places, order, work, pieces, ends, offsets, starts, ids, spans, tokens] =
        &mut numbers[..]
    else {
        unreachable!()
    };
    let [counts, ranks, tallies, keys] = &mut wide[..] else {
        unreachable!()
    };
    let [scores, expected, token_scores] = &mut floats[..] else {
        unreachable!()
    };
    let corpus = Corpus {
        settings: vocab(4),
        special_text: b"s",
        specials: &[0, 1],
        text: b"aba",
        words: &[0, 3],
        frequencies: &[2],
    };
    let told = slices::train(
        corpus,
        Training {
            kept,
            counts,
            table,
            chars,
            places,
            order,
            work,
            ranks,
            pieces,
            tallies,
            scores,
            expected,
            keys,
            ends,
            offsets,
            starts,
            ids,
            spans,
        },
        Tokens {
            bytes,
            spans: tokens,
            scores: token_scores,
        },
    );
    (told, all)
}

/// Each table one slot short: which room it is. The work slices are zero after every call, and the results untouched.
#[test]
fn lent_by_hand() {
    let (told, Tables(numbers, _, floats, bytes)) = by_hand(ENOUGH);
    let accepted = Told {
        tokens: 4,
        required: 2,
        stalled: false,
    };
    assert_eq!(told, Ok(accepted));
    assert_eq!(
        (&bytes[..3], &numbers[12][..4], floats[2][0]),
        (&b"sab"[..], &[0, 1, 1, 1][..], 0.0)
    );
    let rooms = [
        0, 0, 0, 0, 0, 1, 1, 1, 1, 1, 1, 1, 2, 2, 3, 3, 3, 3, 4, 4, 4,
    ];
    for (table, room) in rooms.into_iter().enumerate() {
        let mut slots = ENOUGH;
        slots[table] -= 1;
        let (told, Tables(numbers, wide, floats, bytes)) = by_hand(slots);
        assert_eq!(told, Err(Refusal::NoRoom(room)), "table {table}");
        assert!(
            numbers[..12].iter().flatten().all(|&slot| slot == 0),
            "table {table}"
        );
        assert!(
            wide.iter().flatten().all(|&slot| slot == 0),
            "table {table}"
        );
        assert!(
            floats[..2]
                .iter()
                .flatten()
                .all(|&slot| slot.to_bits() == 0),
            "table {table}"
        );
        assert!(
            numbers[12].iter().all(|&slot| slot == 7) && floats[2].iter().all(|&slot| slot == 7.0)
        );
        assert!(bytes.iter().all(|&slot| slot == 7), "table {table}");
    }
}
