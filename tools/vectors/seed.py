#!/usr/bin/env python3
"""Writes tools/vectors/seed.in, the word lists that tools/replay.py has the library make seed lists of, and seed.out, what has to
come back. The head of `Seed` in tools/replay.py has the grammar of both.

    python3 tools/vectors/seed.py            # needs target/oracle/ours/oracle: see tools/oracle/README.md
    python3 tools/vectors/seed.py --check    # writes nothing, and fails where the files in the tree are others

Every list in seed.out is the Rust's: the oracle's answer to one `seed` request a case. The words and settings are drawn from SEED:
eight scripts, lengths 0, 1, 2, 3, 16 and 32, minimum 0, 1, 2 and huge, pools smaller and larger than the list. The first cases are
document 01's, aba of frequency 2 with minimum 2 and 3.

The refusals are worked out here, from document 01's table: the Rust has few of them. Half of the drawn cases lend exactly the
piece slots that the list needs before its cut, and some lend one less.

The lists are also made here, by document 01's item 8, but for the scores, which need our ln. --check takes those from seed.out where
there is no oracle. Where there is one, all have to agree."""

import random
import sys

sys.dont_write_bytecode = True

from common import VECTORS, ask_oracle, checks, frame, number, store, utf8  # noqa: E402
from vectors import SCRIPTS, ask, hexed, items, line, listed  # noqa: E402

# What the cases are drawn from. Another text draws others.
SEED = "seed_vectors 1"
CASES = 560
LENGTHS = (0, 1, 2, 3, 16, 16, 32)
MINIMUMS = (0, 1, 2, 2, 3, 2**64 - 1)
# The slots that a case lends where it does not say, and how many times the target the seed is where its size is not set.
PIECES, POSITIONS, MULTIPLE = 1024, 2048, 16
# The numbers of document 01's table.
BAD_SETTING, BAD_WORD, REPEATED_WORD, TOO_HEAVY, EMPTY_CORPUS, NO_ROOM = 2, 3, 4, 5, 6, 7


class Case:
    """What is lent: settings, words with their frequencies, and how many slots for pieces and positions."""

    shrink, em = "3fe8000000000000", 2

    def __init__(self, words, length=16, minimum=2, vocab=8000, seed=None, specials=(), pieces=PIECES, positions=POSITIONS):
        self.words, self.length, self.minimum, self.vocab, self.seed = list(words), length, minimum, vocab, seed
        self.specials, self.pieces, self.positions = list(specials), pieces, positions

    def target(self):
        return max(0, self.vocab - len(self.specials))

    def pool(self):
        return max(self.target(), MULTIPLE * self.target() if self.seed is None else self.seed)


# The list, by document 01's item 8.


def counted(case):
    """How often each string of 1 up to the length setting stands in the words; characters always."""
    counts = {}
    for word, frequency in case.words:
        text = utf8(word) or ""
        for start in range(len(text)):
            for end in range(start + 1, min(len(text), start + max(1, case.length)) + 1):
                counts[text[start:end]] = counts.get(text[start:end], 0) + frequency
    return counts


def by_worth(counts, texts):
    """'by count times characters falling, then bytes'"""
    return sorted(texts, key=lambda text: (-counts[text] * len(text), text.encode()))


def uncut(case):
    """The characters, and the strings that reach the minimum, each in order; and the counts."""
    counts = counted(case)
    characters = by_worth(counts, (text for text in counts if len(text) == 1))
    strings = by_worth(counts, (text for text in counts if len(text) > 1 and counts[text] >= case.minimum))
    return characters, strings, counts


def bad_words(pairs):
    """The first refusal that applies to words with their frequencies, with the lowest place."""
    for index, (word, frequency) in enumerate(pairs):
        if frequency == 0 or len(word) > 255:
            return BAD_WORD, index
    words = [word for word, _ in pairs]
    for index, word in enumerate(words):
        if word in words[:index]:
            return REPEATED_WORD, index
    if sum(frequency * len(utf8(word) or "") for word, frequency in pairs) > 2**48:
        return TOO_HEAVY, 0
    if all(utf8(word) is None for word in words):
        return EMPTY_CORPUS, 0
    return None


def refusal(case):
    """The first that applies, with the lowest place."""
    bounds = case.vocab > 65536, (case.seed or 0) > 1048576, case.length > 32, False, len(case.specials) > 256
    if any(bounds):
        return BAD_SETTING, bounds.index(True) + 1
    size = sum(len(word) for word, _ in case.words)
    if size > case.positions:
        return NO_ROOM, 0
    if said := bad_words(case.words):
        return said
    characters, strings, _ = uncut(case)
    if len(characters) + len(strings) > case.pieces:
        return NO_ROOM, 1
    return None


def told(case):
    """The required count, and each piece with its count."""
    characters, strings, counts = uncut(case)
    pieces = characters + strings[: max(0, case.pool() - len(characters))]
    return len(characters), [(piece, counts[piece]) for piece in pieces]


# The oracle.


def settings(case):
    seed = "unset" if case.seed is None else case.seed
    return line(case.vocab, seed, case.length, case.minimum, case.shrink, case.em, listed(case.specials, hexed))


def request(case):
    words = [f"{frequency}:{hexed(word)}" for word, frequency in case.words if utf8(word) is not None]
    return line("seed", settings(case), listed(words))


def heard(answer):
    required, pieces, counts, scores = answer.split(" ")
    texts = ["" if piece == "-" else bytes.fromhex(piece).decode() for piece in items(pieces)]
    return (int(required), list(zip(texts, map(int, items(counts)), strict=True))), items(scores)


# Lines.


def lines_in(case):
    unset = case.seed is None
    settings = number(4, case.vocab) + number(1, not unset) + number(4, case.seed or 0) + number(1, case.length)
    yield frame(0x21, settings + number(8, case.minimum) + number(4, case.pieces, case.positions))
    for special in case.specials:
        yield frame(0x22, special.encode())
    for word, frequency in case.words:
        yield frame(0x23, number(8, frequency) + word)
    yield frame(0x26)


def lines_out(case, said, answer, scores):
    if said:
        yield f"31{said[0]:02x}{said[1]:08x}{0:08x}{0:08x}\n"
        return
    required, pieces = answer
    yield f"310000000000{len(pieces):08x}{required:08x}\n"
    for (piece, count), score in zip(pieces, scores, strict=True):
        yield f"32{count:016x}{score}{piece.encode().hex()}\n"


# Cases.


def drawn(rng, index):
    script = SCRIPTS[index % len(SCRIPTS)]
    alphabet = script[: rng.choice((1, 2, 3, 5, 8))]
    if rng.random() < 0.15:
        alphabet += rng.choice(SCRIPTS)[:2]
    longest = rng.choice((1, 3, 6, 8, 10, 40 if index % 40 == 0 else 7))
    words = {"".join(rng.choice(alphabet) for _ in range(rng.randint(0, longest))) for _ in range(rng.randint(1, 8))}
    most = rng.choice((1, 2, 3, 100, 2**40))
    lent = [(word.encode(), rng.randint(1, most)) for word in sorted(sorted(words), key=lambda word: rng.random())]
    if rng.random() < 0.1:
        lent.insert(rng.randint(0, len(lent)), (b"\xed\xa0\x80", rng.choice((1, 2**64 - 1))))
    case = Case(lent, rng.choice(LENGTHS), rng.choice(MINIMUMS))
    case.vocab = rng.choice((0, 1, 5, 20, 20, 60, 8000, 8000))
    case.seed = rng.choice((None, None, 0, 3, 10, 30))
    case.specials = ["<s>", "", "<s>"][: rng.choice((0, 0, 0, 1, 3))]
    if not refusal(case) and rng.random() < 0.5:
        characters, strings, _ = uncut(case)
        case.pieces = max(0, len(characters) + len(strings) - (index % 7 == 0))
    return case


def refused():
    a = (b"a", 1)
    yield Case([a], vocab=65537)
    yield Case([a], vocab=65536)
    yield Case([a], seed=1048577, length=33)
    yield Case([a], seed=1048576)
    yield Case([a], length=33)
    yield Case([a], length=32, specials=["x"] * 257)
    yield Case([a, (b"b", 0), (b"a", 0)])
    yield Case([(b"a" * 256, 1)])
    yield Case([(b"a" * 255, 1), (b"\xff" * 256, 1)])
    yield Case([a, (b"b", 1), a, (b"b", 1)])
    yield Case([(b"\xff", 1), (b"", 1), (b"\xff", 1)])
    yield Case([(b"", 1), a, (b"", 1)])
    yield Case([(b"a", 2**48)])
    yield Case([(b"a", 2**48), (b"", 2**64 - 1), (b"\xc0\x80", 2**64 - 1)])
    yield Case([(b"a", 2**48 + 1)])
    yield Case([(b"ab", 2**47), (b"a", 1)])
    yield Case([(b"a", 2**64 - 1), (b"b" * 255, 2**64 - 1)])
    yield Case([])
    yield Case([(b"\xff", 1), (b"\xfe", 1)])
    yield Case([(b"", 1)])
    yield Case([(b"aba", 2)], pieces=5)
    yield Case([(b"aba", 2)], pieces=4)
    yield Case([(b"aba", 2)], pieces=4, vocab=2)
    yield Case([(b"aba", 2)], positions=3)
    yield Case([(b"aba", 2)], positions=2)


def make_cases():
    yield Case([(b"aba", 2)], minimum=2)
    yield Case([(b"aba", 2)], minimum=3)
    yield from refused()
    rng = random.Random(SEED)
    for index in range(CASES):
        yield drawn(rng, index)


def stored():
    """The scores in seed.out, case by case, for where there is no oracle."""
    cases = []
    for said in VECTORS.joinpath("seed.out").read_text().splitlines():
        if said.startswith("31"):
            cases.append([])
        else:
            cases[-1].append(said[18:34])
    return cases


def main(arguments):
    check = checks(arguments, __doc__)
    cases = list(make_cases())
    said = [refusal(case) for case in cases]
    own = [None if no else told(case) for case, no in zip(cases, said)]
    accepted = [index for index, no in enumerate(said) if not no]
    oracle = ask_oracle("seed", check)
    if oracle:
        scores = [[] for _ in cases]
        for index, answer in zip(accepted, ask("ours", [request(cases[index]) for index in accepted]), strict=True):
            rust, scores[index] = heard(answer)
            if rust != own[index]:
                sys.exit(f"seed: document 01 and the Rust differ at {request(cases[index])}")
    else:
        scores = stored()
    lines = [line for case in cases for line in lines_in(case)]
    answers = [line for each in zip(cases, said, own, scores, strict=True) for line in lines_out(*each)]
    store("seed", {VECTORS / "seed.in": "".join(lines), VECTORS / "seed.out": "".join(answers)}, check)
    pieces = sum(len(answer[1]) for answer in own if answer)
    done = f"{'agree' if check else 'written'}, {'with the Rust' if oracle else 'with no oracle at hand'}"
    print(f"seed: {len(accepted)} lists, {pieces} pieces, {len(cases) - len(accepted)} refused {done}")


if __name__ == "__main__":
    main(sys.argv[1:])
