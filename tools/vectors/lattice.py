#!/usr/bin/env python3
"""Writes tools/vectors/lattice.in, the caches that tools/replay.py has the library build and prune, and lattice.out, what has to
come back. The head of `Lattice` in tools/replay.py has the grammar of both.

    python3 tools/vectors/lattice.py            # needs target/oracle/ours/oracle: see tools/oracle/README.md
    python3 tools/vectors/lattice.py --check    # writes nothing, and fails where the files in the tree are others

Every lattice in lattice.out is the Rust's: the oracle's answer to one `retain` request a case. The words, pieces and remaps are
drawn from SEED. The first case is document 01's, aba over a, b, ab, ba, then with b pruned. Half of the drawn cases lend
exactly the slots that they need, no more.

The refusals are worked out here, from document 01's table and its "Building a cache checks ..": the Rust has none. After each
the cache is told again, so that lattice.out shows it unchanged. More than 1,048,576 pieces are not tried: tools/rust.py lattices
does that. The last line of lattice.in breaks the rules of frames, and lattice.out ends with BadFrame at that line.

The lattices are also made here, by document 01's sentence of when an edge exists. lattice.in needs the number of edges, and --check
compares lattice.out with these where there is no oracle. Where there is one, all three have to agree."""

import random
import sys

sys.dont_write_bytecode = True

from common import VECTORS, ask_oracle, checks, frame, number, store  # noqa: E402
from vectors import PRUNED, SCRIPTS, ask, hexed, items, line, listed, make_pieces, make_remap, make_word  # noqa: E402

# What the cases are drawn from. Another text draws others.
SEED = "lattice_vectors 1"
CASES = 168
SETTINGS = (0, 1, 2, 16, 16, 32, 32)
# The slots that a case lends where it does not say.
ROOM = dict(offsets=32768, starts=32768, ids=32768, spans=65536, keys=16384, ends=16384, table=8192)
BOUND = 1048576
# The numbers of document 01's table.
BAD_FRAME, BAD_SETTING, BAD_WORD, NO_ROOM, BAD_LATTICE, BAD_REMAP, BAD_PIECE, REPEATED_PIECE = 1, 2, 3, 7, 9, 13, 14, 15


class Span:
    """Words or pieces that have no bytes of their own, only a place in the text."""

    def __init__(self, begin, size, times=1):
        self.begin, self.size, self.times = begin, size, times


class Case:
    """A case: what is lent, and the refusal, if any, that it must get. Steps are remaps and their refusals."""

    def __init__(self, words, pieces, setting=16, refusal=None, steps=(), exact=False, **room):
        self.words, self.pieces, self.setting, self.refusal = words, pieces, setting, refusal
        self.steps = [step if isinstance(step, tuple) else (step, None) for step in steps]
        self.room = {"text": len(joined(words)), "piece_text": len(joined(pieces))} | ROOM
        if not refusal:
            self.told = told(self)
        if exact:
            self.room |= needed(self)
        self.room |= room


# Lattices, by document 01.


def joined(entries):
    """The text that the words or the pieces of a case stand in."""
    return b"".join(entry for entry in entries if isinstance(entry, bytes))


def spelled(entries):
    """The words or the pieces, where all are within their text."""
    text, each = joined(entries), []
    for entry in entries:
        spans = isinstance(entry, Span)
        each += [text[entry.begin : entry.begin + entry.size]] * entry.times if spans else [entry]
    return [entry.decode() for entry in each]


def lattice(word, pieces, setting):
    """'An edge exists exactly when a piece of 1 character up to the length setting spells it.' 'Edges by end, then start.'"""
    ids = {piece: id for id, piece in enumerate(pieces) if 1 <= len(piece) <= setting}
    spans = [(start, end) for end in range(len(word) + 1) for start in range(end)]
    return len(word), [(start, end, ids[word[start:end]]) for start, end in spans if word[start:end] in ids]


def retained(lattice, remap):
    n, edges = lattice
    return n, [(start, end, remap[id]) for start, end, id in edges if remap[id] != PRUNED]


def told(case):
    """Every word's lattice as built, then after each remap. A refused one changes nothing."""
    pieces = spelled(case.pieces)
    states = [[lattice(word, pieces, case.setting) for word in spelled(case.words)]]
    for remap, refusal in case.steps:
        states.append(states[-1] if refusal else [retained(lattice, remap) for lattice in states[-1]])
    return states


def needed(case):
    """The least room that a case is accepted with."""
    edges = sum(len(edges) for _, edges in case.told[0])
    pieces = spelled(case.pieces)
    prefixes = {piece[:length] for piece in pieces for length in range(len(piece) + 1)} | {""}
    words = len(case.told[0])
    offsets = sum(n + 2 for n, _ in case.told[0])
    trie = {"keys": 2 * len(prefixes), "ends": 2 * len(prefixes), "table": 2 * len(pieces)}
    return trie | {"offsets": offsets, "starts": edges, "ids": edges, "spans": 4 * words}


# The same, by the Rust.


def request(case):
    remaps = "/".join(listed(remap) for remap, refusal in case.steps if not refusal)
    words, pieces = (listed(spelled(entries), hexed) for entries in (case.words, case.pieces))
    return line("retain", case.setting, words, pieces, remaps or ".")


def heard(case, answer):
    """What `told` makes, from the oracle's answer. The oracle's offsets have to be those of its edges."""
    fields = answer.split(" ") if answer else []
    each = []
    for n, edges, offsets in zip(fields[::3], fields[1::3], fields[2::3], strict=True):
        each.append((int(n), [tuple(map(int, edge.split(":"))) for edge in items(edges)]))
        if list(map(int, items(offsets))) != offsets_of(each[-1]):
            sys.exit(f"lattice: offsets {offsets} of edges {edges}")
    words = len(case.told[0])
    states = [each[:words]]
    for remap, refusal in case.steps:
        if not refusal:
            each = each[words:]
        states.append(each[:words])
    return states


def offsets_of(lattice):
    n, edges = lattice
    return [0] + [sum(end <= position for _, end, _ in edges) for position in range(n + 1)]


# Lines.


def entries_in(entries, kind):
    for entry in entries:
        if isinstance(entry, Span):
            yield frame(kind + 2, number(4, entry.begin, entry.size, entry.times))
        else:
            yield frame(kind, entry)


def lines_in(case):
    names = ("text", "piece_text", "offsets", "starts", "ids", "spans", "keys", "ends", "table")
    yield frame(0x21, number(1, case.setting) + number(4, *(case.room[name] for name in names)))
    yield from entries_in(case.words, 0x22)
    yield from entries_in(case.pieces, 0x23)
    yield frame(0x26)
    for remap, _ in case.steps:
        yield frame(0x27, number(4, *remap))


def lines_out(refusal, cache):
    """An answer, and the cache as it then stands."""
    number_of, place = refusal or (0, sum(len(edges) for _, edges in cache))
    yield f"31{number_of:02x}{place:08x}\n"
    edge, offset = 0, 0
    for n, edges in cache:
        span = number(2, edge, edge + len(edges), offset, n)
        starts, ids = (number(1, *(e[0] for e in edges)), number(2, *(e[2] for e in edges)))
        yield "32" + (span + number(2, *offsets_of((n, edges))) + starts + ids).hex() + "\n"
        edge, offset = edge + len(edges), offset + n + 2


def texts(cases, answers):
    """What goes in and what comes back. A refused build leaves the cache of the case before."""
    asked, answered, cache = [], [], []
    for case, states in zip(cases, answers, strict=True):
        asked += lines_in(case)
        if case.refusal:
            answered += lines_out(case.refusal, cache)
            continue
        for refusal, cache in zip([None] + [refusal for _, refusal in case.steps], states, strict=True):
            answered += lines_out(refusal, cache)
    asked.append("2200014A\n")
    answered.append(f"31{BAD_FRAME:02x}{len(asked):08x}\n")
    return {VECTORS / "lattice.in": "".join(asked), VECTORS / "lattice.out": "".join(answered)}


# Cases.

ABA = [b"aba"]
AB = [b"a", b"b", b"ab", b"ba"]


def drawn(rng, index):
    """Words of a script, or of two, with few letters, so that their substrings repeat."""
    letters = SCRIPTS[index % len(SCRIPTS)][: rng.randint(1, 8)]
    if rng.random() < 0.3:
        letters += rng.choice(SCRIPTS)[: rng.randint(1, 3)]
    words = [make_word(rng, letters) for _ in range(rng.randint(10, 19))]
    pieces = make_pieces(rng, words)
    steps, left = [], len(pieces)
    for _ in range(rng.randint(1, 4) if pieces else 0):
        remap, left = make_remap(rng, left)
        steps.append(remap)
    words, pieces = ([text.encode() for text in texts] for texts in (words, pieces))
    return Case(words, pieces, SETTINGS[index // len(SCRIPTS) % len(SETTINGS)], steps=steps, exact=rng.random() < 0.5)


def plain():
    """Accepted cases at the ends of what is allowed."""
    yield Case([], AB, steps=[[0, PRUNED, 1, 2], []])
    yield Case([b"", b"a", b""], [b""])
    yield Case(ABA * 3, [])
    yield Case(ABA, AB, 0, steps=[[PRUNED] * 4])
    yield Case(ABA, AB, 32, steps=[[0, 1, 2, 3], [0, 1, 2, 3, 4, PRUNED, 5], [PRUNED] * 4])
    long = [b"a" * 300, b"a" * 32, b"a" * 33, "😀".encode()]
    yield Case([b"a" * 255, "😀".encode() * 63], long, 32, steps=[[PRUNED, 0, 1, 2]])
    yield Case([b"\xf4\x8f\xbf\xbf", b"\x00"], [b"\x00", b"\xf4\x8f\xbf\xbf"])
    # words and pieces that share bytes, and an empty one at the very end of its text
    yield Case([b"abab", Span(1, 3), Span(0, 2, 3), Span(4, 0)], [b"aba", Span(0, 2), Span(1, 1), Span(3, 0)], exact=True)
    yield Case(ABA, AB, text=BOUND, piece_text=BOUND)
    yield Case([], [], 0, keys=2, ends=2, offsets=0, starts=0, ids=0, spans=0, table=0)
    yield Case(ABA, AB, exact=True)


def pruned():
    """Remaps that are refused, between some that are not."""
    steps = [
        ([], (BAD_LATTICE, 0)),
        ([0], (BAD_LATTICE, 1)),
        ([7], (BAD_LATTICE, 1)),
        ([0, 1, 2], (BAD_LATTICE, 2)),
        ([1, 2, 3, 4], (BAD_REMAP, 0)),
        ([0, 0, 1, 2], (BAD_REMAP, 1)),
        ([0, 1, 3, 2], (BAD_REMAP, 2)),
        ([PRUNED, 0, PRUNED, 2], (BAD_REMAP, 3)),
        ([0, 1, 2, PRUNED - 1], (BAD_REMAP, 3)),
        ([0, 1, 2, 3, 5], (BAD_REMAP, 4)),
        [0, PRUNED, 1, 2],
        ([0, PRUNED, 0], (BAD_REMAP, 2)),
        [0, PRUNED, 1],
        ([0], (BAD_LATTICE, 2)),
        [PRUNED, PRUNED],
        ([5], (BAD_REMAP, 0)),
        [],
    ]
    yield Case([b"a", b"ab", b"aba"], AB, steps=steps)


def refused():
    """Builds that are refused, in the order of the checks; each time a later check would refuse too."""
    bad, mixed = b"\xed\xa0\x80", [b"a", b"\xff", b"a"]
    for setting in (33, 255):
        yield Case([bad], mixed, setting, (BAD_SETTING, 3), keys=0, starts=0)
    yield Case([bad], mixed, refusal=(NO_ROOM, 0), text=BOUND + 1)
    yield Case([bad], mixed, refusal=(NO_ROOM, 0), piece_text=BOUND + 1)
    yield Case([bad], mixed, refusal=(NO_ROOM, 0), table=5)
    yield Case([bad, Span(0, 0, 16384)], mixed, refusal=(NO_ROOM, 0))
    yield Case([Span(0, 0, 16384)], [], refusal=(NO_ROOM, 3), spans=65535)
    for word in (b"a" * 256, bad, b"\xc0\x80", b"\xf4\x90\x80\x80", b"a\x80", "€".encode()[:2]):
        yield Case([b"a", b"", word, b"\xff"], mixed, refusal=(BAD_WORD, 2), keys=0, starts=0)
    outside = Span(3, 1), Span(4, 0), Span(0, 4), Span(PRUNED, PRUNED), Span(PRUNED, 2), Span(1, 256)
    for span in outside + (Span(1, 1), Span(0, 1)):
        yield Case(["éa".encode(), span], mixed, refusal=(BAD_WORD, 1), keys=0)
    yield Case(ABA, AB, refusal=(BAD_WORD, 0), text=2)
    for piece in (bad, b"\xc0\x80", b"\xf4\x90\x80\x80", b"a\x80", "€".encode()[:2]):
        yield Case(ABA, [b"a", b"a", piece, b"\xff"], refusal=(BAD_PIECE, 2), keys=0, starts=0)
    for span in outside[:-1] + (Span(1, 1), Span(0, 1)):
        yield Case(ABA, ["éa".encode(), Span(2, 1), Span(2, 1), span], refusal=(BAD_PIECE, 3), keys=0)
    yield Case(ABA, AB, refusal=(BAD_PIECE, 3), piece_text=5)
    yield Case(ABA, [b"a", b"b", b"b", b"a"], refusal=(REPEATED_PIECE, 2), keys=0, starts=0)
    yield Case(ABA, [b"a", b"b", b"ab", b"a"], refusal=(REPEATED_PIECE, 3), keys=0, starts=0)
    yield Case(ABA, [b"", b"b", b""], refusal=(REPEATED_PIECE, 2), keys=0, starts=0)
    yield Case(ABA, [b"ab", b"a", Span(0, 1)], 0, (REPEATED_PIECE, 2), keys=0, starts=0)
    yield Case(ABA, [b"a" * 33, b"a" * 33], 1, (REPEATED_PIECE, 1), keys=0, starts=0)
    for room in ({"keys": 9}, {"ends": 9}, {"keys": 0}, {"ends": 0}):
        yield Case(ABA, AB, 0, (NO_ROOM, 2), starts=0, ids=0, offsets=0, spans=0, **room)
    yield Case([], [], refusal=(NO_ROOM, 2), keys=1, ends=1)
    yield Case(ABA, ["กข".encode(), "กค".encode()], refusal=(NO_ROOM, 2), keys=7)
    for room in ({"starts": 4}, {"ids": 4}, {"starts": 0}, {"ids": 0}, {"offsets": 4}, {"spans": 3}, {"offsets": 0}):
        yield Case(ABA, AB, refusal=(NO_ROOM, 3), **room)
    yield Case([b"", b""], [], refusal=(NO_ROOM, 3), offsets=3, keys=2, ends=2)


def make_cases():
    rng = random.Random(SEED)
    yield Case(ABA, AB, steps=[[0, PRUNED, 1, 2]])
    yield from (drawn(rng, index) for index in range(CASES))
    yield from plain()
    yield from pruned()
    # a small cache, which each refused build leaves as it is
    yield Case(ABA, AB)
    yield from refused()
    yield Case(ABA, AB, steps=[[0, PRUNED, 1, 2]], exact=True)


def main(arguments):
    check = checks(arguments, __doc__)
    cases = list(make_cases())
    own = [None if case.refusal else case.told for case in cases]
    oracle = ask_oracle("lattice", check)
    if oracle:
        accepted = [case for case in cases if not case.refusal]
        answers = dict(zip(map(id, accepted), ask("ours", map(request, accepted)), strict=True))
        rust = [None if case.refusal else heard(case, answers[id(case)]) for case in cases]
        for case, states, others in zip(cases, own, rust):
            if states != others:
                sys.exit(f"lattice: document 01 and the Rust differ at {request(case)}")
    store("lattice", texts(cases, rust if oracle else own), check)
    words = sum(len(states[0]) for states in own if states)
    said = "with the Rust's answers" if oracle else "with no oracle at hand"
    print(f"lattice: {len(cases)} cases, {words} words {'agree' if check else 'written'}, {said}")


if __name__ == "__main__":
    main(sys.argv[1:])
