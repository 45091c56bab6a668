//! Document 01's examples of lattices, and a refusal of each kind, through the safe wrapper.

mod common;

use causeylark::{c, slices, Cache, Edge, Lattice, Refusal, PRUNED};

const PIECES: [&[u8]; 4] = [b"a", b"b", b"ab", b"ba"];

/// (start, end, id) of each edge.
fn edges(lattice: Lattice<'_>) -> Vec<(u32, u32, u32)> {
    lattice
        .edges()
        .map(|Edge { start, end, id }| (start, end, id))
        .collect()
}

fn build(words: &[&[u8]], pieces: &[&[u8]]) -> Result<Cache, Refusal> {
    Cache::build(16, words, pieces)
}

#[test]
fn aba() {
    let cache = build(&[b"aba"], &PIECES).unwrap();
    let word = cache.word(0).unwrap();
    assert_eq!(
        edges(word),
        [(0, 1, 0), (0, 2, 2), (1, 2, 1), (1, 3, 3), (2, 3, 0)]
    );
    assert_eq!(word.offsets(), [0, 0, 1, 3, 5]);
    assert_eq!((word.characters(), cache.len(), cache.edges()), (3, 1, 5));
    assert_eq!(word.ending_at(2).count(), 2);
    assert_eq!(
        (
            word.ending_at(4).count(),
            word.ending_at(usize::MAX).count()
        ),
        (0, 0)
    );
    assert!(cache.word(1).is_none());
}

#[test]
fn b_pruned() {
    let mut cache = build(&[b"aba"], &PIECES).unwrap();
    assert_eq!(cache.retain(&[0, PRUNED, 1, 2]), Ok(4));
    let word = cache.word(0).unwrap();
    assert_eq!(edges(word), [(0, 1, 0), (0, 2, 1), (1, 3, 2), (2, 3, 0)]);
    assert_eq!(word.offsets(), [0, 0, 1, 2, 4]);
    assert_eq!(cache, build(&[b"aba"], &[b"a", b"ab", b"ba"]).unwrap());
}

#[test]
fn empty_word() {
    let cache = build(&[b"", b"a", b""], &PIECES).unwrap();
    let shown: Vec<_> = cache
        .lattices()
        .map(|word| (edges(word), word.offsets()))
        .collect();
    assert_eq!(
        shown,
        [
            (vec![], &[0, 0][..]),
            (vec![(0, 1, 0)], &[0, 0, 1]),
            (vec![], &[0, 0])
        ]
    );
}

#[test]
fn nothing_at_all() {
    let mut cache = build(&[], &[]).unwrap();
    assert!(cache.is_empty() && cache.edges() == 0);
    assert_eq!(cache.retain(&[]), Ok(0));
}

#[test]
fn characters_and_not_bytes() {
    let cache = build(
        &["ไทย🔥".as_bytes()],
        &["ท".as_bytes(), "ย🔥".as_bytes(), b""],
    )
    .unwrap();
    assert_eq!(edges(cache.word(0).unwrap()), [(1, 2, 0), (2, 4, 1)]);
}

#[test]
fn length_setting() {
    let edges = |setting| Cache::build(setting, &[b"aba"], &PIECES).unwrap().edges();
    assert_eq!([0, 1, 2, 32].map(edges), [0, 3, 5, 5]);
}

#[test]
fn more_edges_than_are_tried_first() {
    let spelt = [b'a'; 255];
    let pieces: Vec<&[u8]> = (1..=32).map(|length| &spelt[..length]).collect();
    let cache = Cache::build(32, &[&spelt], &pieces).unwrap();
    assert_eq!(cache.edges(), 32 * 255 - 31 * 32 / 2);
}

#[test]
fn build_refuses() {
    let long = [b'a'; 256];
    let many = vec![&b"a"[..]; 16_385];
    let text = vec![&long[..255]; 4_113];
    assert_eq!(
        Cache::build(33, &many, &PIECES),
        Err(Refusal::BadSetting(3))
    );
    assert_eq!(build(&many, &PIECES), Err(Refusal::NoRoom(0)));
    assert_eq!(build(&text, &PIECES), Err(Refusal::NoRoom(0)));
    assert_eq!(build(&[b"a", &long], &PIECES), Err(Refusal::BadWord(1)));
    assert_eq!(
        build(&[b"a", b"\xed\xa0\x80"], &[b"\xff"]),
        Err(Refusal::BadWord(1))
    );
    assert_eq!(
        build(&[b"a"], &[b"a", b"a", b"\xff"]),
        Err(Refusal::BadPiece(2))
    );
    assert_eq!(
        build(&[b"a"], &[b"a", b"", b"b", b"a", b""]),
        Err(Refusal::RepeatedPiece(3))
    );
}

#[test]
fn retain_refuses_and_changes_nothing() {
    let built = build(&[b"", b"aba"], &PIECES).unwrap();
    let mut cache = built.clone();
    // Piece 3 has an edge and no entry; then entries that are not the count before them.
    assert_eq!(cache.retain(&[0, 1, 2]), Err(Refusal::BadLattice(1)));
    assert_eq!(cache.retain(&[0, PRUNED, 2, 3]), Err(Refusal::BadRemap(2)));
    assert_eq!(cache.retain(&[1, 0, 2, 3]), Err(Refusal::BadRemap(0)));
    assert_eq!(cache, built);
}

/// The slices of aba as lent by hand, with room to spare.
#[test]
fn lent_by_hand() {
    let lent = slices::Lent {
        setting: 16,
        text: b"aba",
        words: &[0, 3, 9],
        piece_text: b"abba",
        pieces: &[0, 1, 1, 1, 0, 2, 2, 2],
    };
    let (mut offsets, mut starts, mut ids, mut spans) = ([7; 8], [7; 6], [7; 6], [7; 5]);
    let (mut keys, mut ends, mut table) = ([7; 10], [7; 10], [7; 8]);
    let mut call = |keys: &mut [u64], offsets: &mut [u32]| {
        let results = slices::Results {
            offsets,
            starts: &mut starts,
            ids: &mut ids,
            spans: &mut spans,
        };
        let said = slices::build(
            lent,
            results,
            slices::Work {
                keys,
                ends: &mut ends,
                table: &mut table,
            },
        );
        (said, starts, ids, spans, ends, table)
    };
    // The root and a, b, ab, ba: five, so ten places.
    assert_eq!(
        call(&mut keys[..9], &mut offsets),
        (
            Err(Refusal::NoRoom(2)),
            [7; 6],
            [7; 6],
            [7; 5],
            [0; 10],
            [0; 8]
        )
    );
    assert_eq!(
        call(&mut keys, &mut offsets[..4]).0,
        Err(Refusal::NoRoom(3))
    );
    let (said, starts, ids, spans, ends, table) = call(&mut keys, &mut offsets);
    assert_eq!(
        (said, offsets, keys, ends, table),
        (Ok(5), [0, 0, 1, 3, 5, 0, 0, 0], [0; 10], [0; 10], [0; 8])
    );
    assert_eq!(
        (starts, ids, spans),
        ([0, 0, 1, 1, 2, 0], [0, 2, 1, 3, 0, 0], [0, 5, 0, 3, 0])
    );
}

/// The C function itself: with no slot nothing is told, and no slot but the first is written to.
#[test]
fn told_is_as_long_as_the_caller_likes() {
    for (remap, number, place) in [([0, u32::MAX], 0, 0), ([1, 0], 13, 0)] {
        for slots in 0..3 {
            let mut told = [7; 2];
            let (mut cache, mut spans) = ([[0; 2]; 3], [0; 4]);
            let [offsets, starts, ids] = &mut cache;
            // SAFETY: each pointer and count is a slice, and no two overlap.
            let said = unsafe {
                c::causeylark_retain(
                    offsets.as_mut_ptr(),
                    2,
                    starts.as_mut_ptr(),
                    2,
                    ids.as_mut_ptr(),
                    2,
                    spans.as_mut_ptr(),
                    4,
                    1,
                    remap.as_ptr(),
                    2,
                    told.as_mut_ptr(),
                    slots,
                )
            };
            let first = if slots == 0 { 7 } else { place };
            assert_eq!((said, told), (number, [first, 7]));
        }
    }
}

#[test]
fn a_refusal_is_a_sentence() {
    let said = Refusal::BadWord(12).to_string();
    assert_eq!(said, "BadWord, number 3, at place 12: word 12 is over 255 bytes, outside the text, not UTF-8 where it has to be, or of frequency 0.");
    for refusal in [
        Refusal::NoRoom(0),
        Refusal::NoRoom(2),
        Refusal::NoRoom(3),
        Refusal::BadPiece(1),
        Refusal::RepeatedPiece(4),
    ] {
        common::is_a_sentence(refusal);
    }
}

#[test]
fn numbers_of_refusals() {
    use Refusal::*;
    let all = [
        BadSetting(3),
        BadWord(1),
        NoRoom(2),
        BadLattice(4),
        BadRemap(5),
        BadPiece(6),
        RepeatedPiece(7),
    ];
    assert_eq!(all.map(Refusal::number), [2, 3, 7, 9, 13, 14, 15]);
    assert_eq!(all.map(Refusal::place), [3, 1, 2, 4, 5, 6, 7]);
}

#[test]
fn mathematics() {
    assert_eq!(
        (
            causeylark::exp(0.0),
            causeylark::ln(1.0),
            causeylark::ln_1p(0.0)
        ),
        (1.0, 0.0, 0.0)
    );
    assert_eq!(causeylark::ln(-1.0).to_bits(), 0x7ff8_0000_0000_0000);
}

#[test]
fn utf8() {
    assert_eq!(causeylark::utf8_valid_up_to("aไ".as_bytes()), 4);
    assert_eq!(causeylark::utf8_valid_up_to(b"a\xed\xa0\x80"), 1);
    assert_eq!(causeylark::utf8_valid_up_to(b""), 0);
}
