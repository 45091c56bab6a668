"""Causeylark for Python: the proved library by way of ctypes, with its tables lent by this wrapper.

Words with frequencies in, tokens with scores out; and how a word is cut over pieces with scores. What is bad is refused by a
number and a place. It needs nothing but the standard library.
"""

import ctypes
from dataclasses import dataclass, field
from array import array

from library import BYTES, F64, U32, U64

# Document 01's bounds.
WORDS, WORD_BYTES, TEXT_BYTES = 16_384, 255, 1_048_576
VOCAB, SEED, LENGTH, EM, SPECIALS = 65_536, 1_048_576, 32, 100, 256
# How many times the target the seed is, where its size is not set.
SEED_MULTIPLE = 16

NAMES = {
    2: "BadSetting", 3: "BadWord", 4: "RepeatedWord", 5: "TooHeavy", 6: "EmptyCorpus", 7: "NoRoom", 8: "VocabTooSmall",
    9: "BadLattice", 10: "BadScore", 11: "NoPath", 12: "PathBroken", 13: "BadRemap", 14: "BadPiece", 15: "RepeatedPiece",
}  # fmt: skip


class Refused(Exception):
    """Why a call said no: its number and its place. Nothing was done."""

    def __init__(self, number, place):
        super().__init__(number, place)
        self.number, self.place = number, place

    @property
    def name(self):
        return NAMES.get(self.number, "?")

    def __str__(self):
        return f"{self.name}, number {self.number}, at place {self.place}"


@dataclass(frozen=True)
class Settings:
    """The settings of training, by default as document 01 has them."""

    vocab: int = 8_000
    seed: "int | None" = None
    length: int = 16
    minimum: int = 2
    shrink: float = 0.75
    em: int = 2
    specials: "tuple[bytes, ...]" = ()

    def target(self):
        """How many pieces there are to be."""
        return max(0, self.vocab - len(self.specials))

    def pool(self):
        """How many pieces the seed list is cut to, unless there are more characters."""
        return max(self.target(), SEED_MULTIPLE * self.target() if self.seed is None else self.seed)

    def within(self):
        """Whether tables may be lent by these numbers. Where they may not, the library says why."""
        return self.vocab <= VOCAB and (self.seed or 0) <= SEED and self.length <= LENGTH and len(self.specials) <= SPECIALS


@dataclass(frozen=True)
class Trained:
    """What training gave: tokens with scores, specials first; how many pieces are required; whether it stopped over target."""

    tokens: "list[tuple[bytes, float]]" = field(repr=False)
    specials: int
    required: int
    stalled: bool


def lent(of, content):
    """A slice to lend, with its count: of bytes, of numbers in an array of this width, or of so many zeros. It never stands
    at NULL, however short it is."""
    if isinstance(content, int) or not content:
        slots = content or 0
        return (of * max(1, slots))(), slots
    own = bytearray(content) if isinstance(content, bytes) else content
    return (of * len(content)).from_buffer(own), len(content)


def spelt(strings):
    """Strings of bytes as one text, and two numbers each: where it begins, how many bytes it has."""
    text, numbers, begin = b"".join(strings), array("I"), 0
    for string in strings:
        # A text over the bound is refused before these are read, so what does not fit is never used.
        numbers.extend((min(begin, 0xFFFFFFFF), min(len(string), 0xFFFFFFFF)))
        begin += len(string)
    return text, numbers


def characters(text):
    """The characters of a text. What is not UTF-8 has none that count."""
    return text.decode(errors="replace")


def substrings(n, length):
    """How many substrings of 1 to `length` characters stand in a word of n."""
    longest = min(n, length)
    return longest * (n + 1) - longest * (longest + 1) // 2


class Room:
    """How many slots suffice for the tables of training. Of piece slots that is `most_pieces`, and fewer may do."""

    # So many are lent at first if more could be needed: with the trie over them, 75 MB.
    FIRST_PIECES = 1_048_576

    def __init__(self, text, words, settings):
        self.words, self.bytes, self.length = len(words), len(text), max(1, settings.length)
        self.specials = len(settings.specials)
        self.offsets = self.edges = 0
        longer = 0.0
        for word, frequency in words:
            n = len(characters(word))
            spelt_in_it = substrings(n, self.length)
            self.offsets += n + 2
            self.edges += spelt_in_it
            # Over all places where it stands, a string that reaches the minimum adds 1 or more to this sum.
            longer += (spelt_in_it - n) * min(1.0, frequency / max(1, settings.minimum))
        single = len(set(characters(text)))
        self.most_pieces = single + int(longer) + 1
        self.after_cut = max(settings.pool(), single)
        # Only a factor of 1 or more leaves more pieces than the target.
        self.left = self.after_cut if settings.shrink >= 1 else settings.target()
        self.special_bytes = sum(map(len, settings.specials))

    def tables(self, pieces):
        """The work slices and the results in the order of causeylark_train, with so many piece slots."""
        both = max(self.bytes, pieces)
        # A prefix of a piece that is listed is a string of the list before its cut.
        places = 2 * (min(pieces, self.length * self.after_cut) + 1)
        left = min(self.left, pieces)
        tokens = self.specials + left
        token_bytes = self.special_bytes + left * min(WORD_BYTES, 4 * self.length)
        work = [
            (U32, 2 * self.words), (U64, self.words), (U32, 2 * self.words),
            (U32, self.bytes), (U32, 3 * self.bytes), (U32, both), (U32, both), (U64, both),
            (U32, 2 * pieces), (U64, pieces), (F64, pieces), (F64, pieces),
            (U64, places), (U32, places),
            (U32, self.offsets), (U32, self.edges), (U32, self.edges), (U32, 4 * self.words),
        ]  # fmt: skip
        results = [(BYTES, token_bytes), (U32, 2 * tokens), (F64, tokens)]
        return [lent(of, slots) for of, slots in work], [lent(of, slots) for of, slots in results]


def number(value):
    """A number as it is passed on: what 64 bits do not hold is beyond every bound as well."""
    return min(value, 2**64 - 1)


def flat(slices):
    """Slices as arguments: a pointer and a count each."""
    return [argument for pair in slices for argument in pair]


def train(library, words, settings=Settings()):
    """Trains on words, pairs of bytes and a frequency. Raises Refused."""
    special_text, specials = spelt(settings.specials)
    text, spans = spelt([word for word, _ in words])
    frequencies = array("Q", (number(frequency) for _, frequency in words))
    given = flat(
        [lent(BYTES, special_text), lent(U32, specials), lent(BYTES, text), lent(U32, spans), lent(U64, frequencies)]
    )
    numbers = [
        number(settings.vocab), int(settings.seed is not None), number(settings.seed or 0),
        number(settings.length), number(settings.minimum), settings.shrink, number(settings.em),
    ]  # fmt: skip
    # What is over the bounds is refused before a table is asked for, so none is lent.
    fits = len(words) <= WORDS and len(text) <= TEXT_BYTES and settings.within()
    room = Room(text, words, settings) if fits else Room(b"", [], Settings(vocab=0))
    pieces = min(room.most_pieces, Room.FIRST_PIECES)
    while True:
        work, results = room.tables(pieces)
        (told, slots) = lent(U64, 3)
        answer = library.causeylark_train(*numbers, *given, *flat(work), *flat(results), told, slots)
        if (answer, told[0]) == (7, 1) and pieces < room.most_pieces:
            pieces = min(room.most_pieces, 4 * pieces)
        elif answer:
            raise Refused(answer, told[0])
        else:
            return Trained(read(results, told[0]), len(settings.specials), told[1], bool(told[2]))


def read(results, count):
    """So many tokens with their scores, out of the results."""
    (octets, _), (numbers, _), (scores, _) = results
    spans = numbers[: 2 * count]
    text = ctypes.string_at(octets, spans[-2] + spans[-1]) if count else b""
    spelling = (text[begin : begin + long] for begin, long in zip(spans[::2], spans[1::2]))
    return list(zip(spelling, scores[:count]))


class Cutter:
    """Cuts words over pieces with scores, pairs of bytes and a number. The tables are lent again for every word."""

    def __init__(self, library, length, pieces):
        self.library, self.length = library, number(length)
        text, spans = spelt([piece for piece, _ in pieces])
        places = 2 * (len(characters(text)) + 1)
        self.pieces = flat([lent(BYTES, text), lent(U32, spans), lent(F64, array("d", (score for _, score in pieces)))])
        self.path = lent(U32, WORD_BYTES)
        self.work = flat([lent(U64, places), lent(U32, places), lent(U32, 2 * len(pieces))])
        self.sum, self.told = lent(F64, 1), lent(U64, 1)

    def cut(self, word):
        """The indices of the pieces of the best cut, and its score. Raises Refused; NoPath where nothing spells the word."""
        answer = self.library.causeylark_cut(
            self.length, *lent(BYTES, word), *self.pieces, *self.path, *self.work, *self.sum, *self.told
        )
        told = self.told[0][0]
        if answer:
            raise Refused(answer, told)
        return self.path[0][:told], self.sum[0][0]


def valid_up_to(library, line):
    """How many bytes at the front of a line are UTF-8."""
    return library.causeylark_utf8_valid_up_to(*lent(BYTES, line))
