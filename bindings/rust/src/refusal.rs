//! Why a call said no.

use std::fmt;

/// Why a call said no, with its place. Nothing was done.
#[derive(Clone, Copy, Debug, PartialEq, Eq)]
#[non_exhaustive]
pub enum Refusal {
    /// 2: a setting is beyond its bound. 1: the vocabulary, 2: the seed, 3: the piece length, 4: EM, 5: the
    /// specials.
    BadSetting(u64),
    /// 3: the word at this index is over 255 bytes or outside the text. Where lattices are built or a word is
    /// cut: or not UTF-8. In training: or has frequency 0.
    BadWord(u64),
    /// 4: the word at this index has equal bytes to an earlier one.
    RepeatedWord(u64),
    /// 5: frequencies times characters are over 2^48 in all.
    TooHeavy,
    /// 6: there is no word, or none is UTF-8.
    EmptyCorpus,
    /// 7: there is no room. 0: more words, pieces or bytes than the bounds. 1: the piece slots. 2: the trie's
    /// places. 3: the lattices' slots, or a word's n + 1 positions. 4: the path's slots, or the tokens'.
    NoRoom(u64),
    /// 8: the vocabulary is smaller than this: the required pieces and the specials.
    VocabTooSmall(u64),
    /// 9: the lattice of the word at this index is not well formed, or a piece of it has no score.
    BadLattice(u64),
    /// 10: the score of the piece of this id is NaN or above zero, or missing where one word is cut.
    BadScore(u64),
    /// 11: no cut has a finite sum.
    NoPath,
    /// 13: this entry is neither [`PRUNED`](crate::PRUNED) nor the count of survivors before it.
    BadRemap(u64),
    /// 14: the piece of this id is outside its text, or not UTF-8.
    BadPiece(u64),
    /// 15: the piece of this id is spelt as an earlier one.
    RepeatedPiece(u64),
}

impl Refusal {
    /// The refusal that a call's answer and what it told stand for, or none where it was accepted.
    pub(crate) fn of(number: u32, place: u64) -> Option<Refusal> {
        Some(match number {
            0 => return None,
            2 => Refusal::BadSetting(place),
            3 => Refusal::BadWord(place),
            4 => Refusal::RepeatedWord(place),
            5 => Refusal::TooHeavy,
            6 => Refusal::EmptyCorpus,
            7 => Refusal::NoRoom(place),
            8 => Refusal::VocabTooSmall(place),
            9 => Refusal::BadLattice(place),
            10 => Refusal::BadScore(place),
            11 => Refusal::NoPath,
            13 => Refusal::BadRemap(place),
            14 => Refusal::BadPiece(place),
            15 => Refusal::RepeatedPiece(place),
            _ => unreachable!("no call answers {number}"),
        })
    }

    /// Its number.
    pub fn number(self) -> u32 {
        match self {
            Refusal::BadSetting(_) => 2,
            Refusal::BadWord(_) => 3,
            Refusal::RepeatedWord(_) => 4,
            Refusal::TooHeavy => 5,
            Refusal::EmptyCorpus => 6,
            Refusal::NoRoom(_) => 7,
            Refusal::VocabTooSmall(_) => 8,
            Refusal::BadLattice(_) => 9,
            Refusal::BadScore(_) => 10,
            Refusal::NoPath => 11,
            Refusal::BadRemap(_) => 13,
            Refusal::BadPiece(_) => 14,
            Refusal::RepeatedPiece(_) => 15,
        }
    }

    /// Its place.
    pub fn place(self) -> u64 {
        match self {
            Refusal::BadSetting(place)
            | Refusal::BadWord(place)
            | Refusal::RepeatedWord(place)
            | Refusal::NoRoom(place)
            | Refusal::VocabTooSmall(place)
            | Refusal::BadLattice(place)
            | Refusal::BadScore(place)
            | Refusal::BadRemap(place)
            | Refusal::BadPiece(place)
            | Refusal::RepeatedPiece(place) => place,
            Refusal::TooHeavy | Refusal::EmptyCorpus | Refusal::NoPath => 0,
        }
    }

    /// Its name.
    pub fn name(self) -> &'static str {
        match self {
            Refusal::BadSetting(_) => "BadSetting",
            Refusal::BadWord(_) => "BadWord",
            Refusal::RepeatedWord(_) => "RepeatedWord",
            Refusal::TooHeavy => "TooHeavy",
            Refusal::EmptyCorpus => "EmptyCorpus",
            Refusal::NoRoom(_) => "NoRoom",
            Refusal::VocabTooSmall(_) => "VocabTooSmall",
            Refusal::BadLattice(_) => "BadLattice",
            Refusal::BadScore(_) => "BadScore",
            Refusal::NoPath => "NoPath",
            Refusal::BadRemap(_) => "BadRemap",
            Refusal::BadPiece(_) => "BadPiece",
            Refusal::RepeatedPiece(_) => "RepeatedPiece",
        }
    }
}

impl fmt::Display for Refusal {
    fn fmt(&self, to: &mut fmt::Formatter<'_>) -> fmt::Result {
        write!(
            to,
            "{}, number {}, at place {}: ",
            self.name(),
            self.number(),
            self.place()
        )?;
        match self {
            Refusal::BadSetting(1) => write!(to, "the vocabulary setting is over 65,536."),
            Refusal::BadSetting(2) => write!(to, "the seed setting is over 1,048,576."),
            Refusal::BadSetting(4) => write!(to, "the EM setting is over 100."),
            Refusal::BadSetting(5) => {
                write!(to, "there are over 256 specials, or one is over 255 bytes, outside its text, or not UTF-8.")
            }
            Refusal::BadSetting(_) => write!(to, "the piece length setting is over 32."),
            Refusal::BadWord(word) => write!(
                to,
                "word {word} is over 255 bytes, outside the text, not UTF-8 where it has to be, or of frequency 0."
            ),
            Refusal::RepeatedWord(word) => write!(to, "word {word} is spelt as an earlier word."),
            Refusal::TooHeavy => write!(to, "frequencies times characters are over 2^48 in all."),
            Refusal::EmptyCorpus => write!(to, "there is no word, or none is UTF-8."),
            Refusal::NoRoom(0) => {
                write!(to, "there are more words, pieces or bytes of text than the bounds.")
            }
            Refusal::NoRoom(1) => write!(to, "the seed list before its cut exceeds the piece slots."),
            Refusal::NoRoom(2) => write!(to, "the prefixes of the pieces exceed half of the trie's places."),
            Refusal::NoRoom(4) => {
                write!(to, "the path has fewer slots than the word has characters, or the tokens exceed theirs.")
            }
            Refusal::NoRoom(_) => write!(to, "the lattices exceed the slots that were lent."),
            Refusal::VocabTooSmall(needed) => {
                write!(to, "the vocabulary has to have {needed} tokens or more: each character and each special.")
            }
            Refusal::BadLattice(word) => write!(to, "the lattice of word {word} is not well formed."),
            Refusal::BadScore(id) => write!(to, "the score of piece {id} is NaN, above zero or missing."),
            Refusal::NoPath => write!(to, "no cut has a finite sum."),
            Refusal::BadRemap(entry) => write!(
                to,
                "entry {entry} of the remap is neither the mark of a pruned piece nor the count of survivors before it."
            ),
            Refusal::BadPiece(id) => write!(to, "piece {id} is outside its text, or not UTF-8."),
            Refusal::RepeatedPiece(id) => write!(to, "piece {id} is spelt as an earlier piece."),
        }
    }
}

impl std::error::Error for Refusal {}
