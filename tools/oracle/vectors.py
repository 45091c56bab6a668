#!/usr/bin/env python3
"""Writes a vectors file of one family to standard output: requests and the oracle's answers.

The same family, seed, count and mathematics give the same file.
"""

import argparse
import math
import random
import struct
import subprocess
import sys

sys.dont_write_bytecode = True
import build

SCRIPTS = [
    "abcdefgh",
    "абвгдежз",
    "αβγδεζηθ",
    "กขคงจฉะา",
    "ກຂຄງຈສະາ",
    "ابتثجحخد",
    "一丁七万三上下不",
    "😀😁😂🤣😃😄🚀👍",
]
LENGTHS = (0, 1, 2, 16, 32)
PRUNED = 2**32 - 1


def ask(mathematics, requests):
    """The oracle's answers, one a request."""
    oracle = build.TARGET / mathematics / "oracle"
    text = "".join(request + "\n" for request in requests)
    return subprocess.run([oracle], input=text, stdout=subprocess.PIPE, text=True, check=True).stdout.splitlines()


# How fields are written. README.md has the grammar.


def line(*fields):
    return " ".join(str(field) for field in fields)


def bits(value):
    return "7ff8000000000000" if math.isnan(value) else struct.pack(">d", value).hex()


def listed(items, write=str):
    return ",".join(write(item) for item in items) or "."


def hexed(text):
    return (text if isinstance(text, bytes) else text.encode()).hex() or "-"


def items(field, mark=","):
    """What `listed` wrote."""
    return [] if field == "." else field.split(mark)


def counted(words):
    return listed(words, lambda word: f"{word[1]}:{hexed(word[0])}")


# What is lent.


def make_word(rng, letters, most=None):
    """At most 255 bytes, and at most `most` letters."""
    most = rng.choice((0, 1, 2, 3, 8, 8, 20, 40, 255)) if most is None else most
    widest = max(len(letter.encode()) for letter in letters)
    return "".join(rng.choice(letters) for _ in range(min(rng.randint(0, most), 255 // widest)))


def make_words(rng, count, most=None):
    """Distinct words of a script or two, with few letters, so that their substrings repeat."""
    letters = "".join(rng.choice(SCRIPTS)[: rng.randint(1, 8)] for _ in range(rng.randint(1, 2)))
    return list(dict.fromkeys(make_word(rng, letters, most) for _ in range(count)))


def make_pieces(rng, words):
    """Distinct: substrings of the words, all of their letters or not, strangers, and at times the empty piece."""
    letters = sorted(set("".join(words)))
    pieces = letters if rng.random() < 0.7 else [letter for letter in letters if rng.random() < 0.7]
    for word in filter(None, (rng.choice(words) for _ in range(rng.choice((0, 5, 20, 60))))):
        start = rng.randrange(len(word))
        pieces.append(word[start : start + rng.randint(1, rng.choice((2, 4, 33)))])
    pieces += [make_word(rng, rng.choice(SCRIPTS)) for _ in range(rng.randint(0, 3))]
    if rng.random() < 0.1:
        pieces.append("")
    pieces = list(dict.fromkeys(pieces))
    rng.shuffle(pieces)
    return pieces


def make_scores(rng, count):
    """At or below zero, as every score has to be; one kind for all, or a kind for each."""
    kinds = (
        lambda: rng.uniform(-12, 0),
        lambda: -1.0,
        lambda: float(-rng.randint(1, 3)),
        lambda: rng.choice((0.0, -0.0)),
        lambda: rng.choice((-1.7e308, -1e308, -1e300, -1e16)),
        lambda: -5e-324 * rng.randint(0, 2**20),
        lambda: math.log(rng.randint(1, 50) / 1000),
        lambda: rng.choice((-math.inf, -1021.0, rng.uniform(-800, 0))),
    )
    if rng.random() < 0.2:
        return [rng.choice(kinds)() for _ in range(count)]
    kind = rng.choice(kinds)
    return [kind() for _ in range(count)]


def make_remap(rng, count):
    """Each piece pruned or given the count of survivors before it."""
    pruned = rng.choice((0, 0.1, 0.5, 0.9, 1))
    remap, survivors = [], 0
    for _ in range(count):
        lives = rng.random() >= pruned
        remap.append(survivors if lives else PRUNED)
        survivors += lives
    return remap, survivors


def make_settings(rng):
    """Plain half the time, else with the ends of every range."""
    plain = rng.random() < 0.5
    either = lambda usual, ends: rng.choice(usual if plain else usual + ends)
    specials = [make_word(rng, rng.choice(SCRIPTS)) for _ in range(either((0, 0, 1), (3,)))]
    return line(
        either((10, 16, 20, 24, 32), (0, 1, 64, 65536)),
        either(("unset", 100), (0, 20, 1048576)),
        either((2, 16, 16, 32), (0, 1)),
        either((1, 2), (0, 3, 10, 2**64 - 1)),
        bits(either((0.75, 0.75, 0.9), (0.99, 1 - 2**-53, 0.0, -0.0, -1.0, 5e-324, math.nan, 1.0, 2.0, math.inf))),
        either((1, 2), (0, 5)),
        listed(specials, hexed),
    )


def make_corpus(rng):
    """Words and frequencies. Each shape has fewer than 1,024 substrings, so that the program `train` has the room."""
    shape = rng.choice(((1, 40), (2, 24), (5, 16), (12, 12), (24, 8), (100, 3)))
    most = rng.choice((1, 3, 100, 10**6, 2**39))
    return [(word, rng.randint(1, most)) for word in make_words(rng, *shape)]


def neighbours(value):
    return (value, math.nextafter(value, -math.inf), math.nextafter(value, math.inf))


# The families. Each gives requests; `ask` is for those that build on an answer.


def math_family(rng, count, ask):
    ends = (0.0, -0.0, 0.5, -0.5, 1.0, -1.0, 2.0, math.log(2), -math.log(2), 2.0**-54, 2.0**-1022, 5e-324)
    ends += (700.0, -700.0, 709.78, -708.4, 745.14, -745.13, -745.14, 746.0, -746.0)
    ends += (1.7e308, -1.7e308, math.inf, -math.inf, math.nan)
    ways = (
        lambda: struct.unpack(">d", rng.getrandbits(64).to_bytes(8, "big"))[0],
        lambda: rng.uniform(-750, 750),
        lambda: rng.uniform(-40, 0),
        lambda: rng.uniform(0, 1),
        lambda: rng.random() ** 40,
        lambda: rng.randint(1, 1000) / rng.randint(1000, 10**6),
        lambda: rng.choice(neighbours(rng.randint(-(2**16), 2**16) / rng.choice((64, 128, 256)))),
    )
    values = [near for end in ends for near in neighbours(end)] + [rng.choice(ways)() for _ in range(count)]
    return [line(verb, bits(value)) for value in values for verb in ("exp", "ln", "ln_1p")]


def log_add_family(rng, count, ask):
    ends = (-math.inf, 0.0, -0.0, -5e-324, -1.0, math.nextafter(-1.0, 0), -36.7, -37.5, -745.2, -1021.0, -1.7e308, 0.7)
    pairs = [(a, b) for a in ends for b in ends]
    for _ in range(count):
        a = rng.choice((rng.uniform(-50, 5), *make_scores(rng, 1)))
        pairs.append((a, rng.choice((a, a - rng.uniform(0, 60), a + rng.random(), *make_scores(rng, 1)))))
    return [line("log_add", bits(a), bits(b)) for a, b in pairs]


def lattice_family(rng, count, ask):
    for _ in range(count):
        words = make_words(rng, 3)
        yield line("lattice", rng.choice(LENGTHS), hexed(words[0]), listed(make_pieces(rng, words), hexed))


def retain_family(rng, count, ask):
    for _ in range(count):
        words = make_words(rng, rng.randint(1, 6))
        pieces = make_pieces(rng, words)
        remaps, survivors = [], len(pieces)
        for _ in range(rng.randint(1, 4) if pieces else 0):
            remap, survivors = make_remap(rng, survivors)
            remaps.append(listed(remap))
        fields = listed(words, hexed), listed(pieces, hexed), "/".join(remaps) or "."
        yield line("retain", rng.choice(LENGTHS), *fields)


def free_lattice(rng):
    """A well-formed lattice that need not come from any word, and its count of pieces."""
    n, pieces = rng.randint(0, 12), rng.randint(1, 9)
    edges, offsets = [], [0]
    for end in range(n + 1):
        starts = [start for start in range(end) if rng.random() < 0.4]
        edges += [f"{start}:{end}:{rng.randrange(pieces)}" for start in starts]
        offsets.append(len(edges))
    return line(n, listed(edges), listed(offsets)), pieces


def cut_family(rng, count, ask):
    free = [free_lattice(rng) for _ in range(count // 4)]
    requests = list(lattice_family(rng, count - len(free), ask))
    pieces = [len(items(request.split(" ")[3])) for request in requests]
    for lattice, pieces in free + list(zip(ask(requests), pieces)):
        scores = listed(make_scores(rng, pieces), bits)
        yield line("connected", lattice)
        yield line("expectations", lattice, scores)
        yield line("viterbi", lattice, scores)
        yield line("viterbi_excluding", lattice, scores, rng.randint(0, pieces))


def seed_family(rng, count, ask):
    return [line("seed", make_settings(rng), counted(make_corpus(rng))) for _ in range(count)]


def round_family(rng, count, ask):
    """EM and losses over pieces as seeded, with the seed's scores or others; and pruning."""
    requests = list(seed_family(rng, count, ask))
    for request, answer in zip(requests, ask(requests)):
        _, _, _, length, *_, words = request.split(" ")
        required, pieces, _, scores = answer.split(" ")
        count = len(items(pieces))
        if rng.random() < 0.7:
            scores = listed(make_scores(rng, count), bits)
        yield line("em", length, words, pieces, scores)
        yield line("losses", length, words, pieces, scores)
        losses = [rng.choice((0.0, 1.0, rng.uniform(0, 100), 5e-324, 1e308, math.inf)) for _ in range(count)]
        keep = rng.randint(int(required), count + 1)
        yield line("prune", required, keep, pieces, scores, listed(losses, bits))


def train_family(rng, count, ask):
    for _ in range(count):
        words = make_corpus(rng) if rng.random() < 0.97 else []
        if rng.random() < 0.1:
            words.insert(rng.randint(0, len(words)), (rng.choice((b"\xff", b"a\xed\xa0\x80", b"\xc0\x80")), 7))
        yield line("train", make_settings(rng), counted(words))


FAMILIES = {name.removesuffix("_family"): made for name, made in list(globals().items()) if name.endswith("_family")}


def pairs(family, seed, count, mathematics):
    """The requests of a family and their answers."""
    asked = lambda requests: ask(mathematics, requests)
    requests = list(FAMILIES[family](random.Random(f"{family} {seed}"), count, asked))
    return list(zip(requests, asked(requests), strict=True))


def main():
    parser = argparse.ArgumentParser(description=__doc__, formatter_class=argparse.RawDescriptionHelpFormatter)
    parser.add_argument("family", choices=FAMILIES)
    parser.add_argument("--seed", type=int, default=1)
    parser.add_argument("--count", type=int, default=100, help="of cases; a case can make several requests")
    parser.add_argument("--stock", action="store_true", help="ask the oracle built with stock mathematics")
    options = parser.parse_args()
    mathematics = "stock" if options.stock else "ours"
    stock = " --stock" if options.stock else ""
    print("# Answers of the Rust that this repository ports. tools/oracle/README.md has the grammar. Made by")
    print(f"# python3 tools/oracle/vectors.py {options.family} --seed {options.seed} --count {options.count}{stock}")
    for made in (build.TARGET / mathematics / "made.txt").read_text().splitlines():
        print(f"# {made}")
    for request, answer in pairs(options.family, options.seed, options.count, mathematics):
        print(f"request {request}\nanswer {answer}")


if __name__ == "__main__":
    main()
