#!/usr/bin/env python3
"""Replays stored vectors through the proved library, by ctypes, and compares what it answers with what is stored.

    python3 tools/replay.py                   # lattice, cut and seed
    python3 tools/replay.py cut seed          # those that are named

tools/vectors/NAME.in says what is lent to each call, and NAME.out what has to come back. tools/vectors/NAME.py makes both, and says
what they hold and whose answers they are. Lattices and cuts are asked of the library that ./causeylark loads, and seed lists of
bench_seed, which gives what training does not. A library that is missing is built first, which takes `rt` and `cc`.

In and out are lower-case hexadecimal, most significant byte first, one frame a line, each ended by 0a. A frame in is a kind u8, the
number of its bytes u16, and those bytes. Out has no count of bytes, and a number too wide for its digits is shown as the widest that
fits, which no good answer holds. `Lattice`, `Cut` and `Seed` say which kinds there are. A line that breaks these rules ends the run:
it is told with refusal 1 and its number, from 1.

Every slot that is lent to be written holds another number than zero first, but for a cache that is there already. What no stored line
shows is looked at here: that builds leave zeros in their work slices and past the cache, that a refusal changes no result, and that
nothing behind a lent slice is touched."""

import ctypes
import re
import struct
import sys
from array import array
from collections import Counter
from itertools import zip_longest
from pathlib import Path

ROOT = Path(__file__).resolve().parents[1]
sys.path.insert(0, str(ROOT / "bindings/python"))
sys.dont_write_bytecode = True

import library  # noqa: E402
from causeylark import Settings, flat, lent  # noqa: E402
from library import BYTES, SIZE, U32, U64, slices  # noqa: E402

VECTORS = ROOT / "tools/vectors"
FRAME = re.compile(r"([0-9a-f]{2})([0-9a-f]{4})((?:[0-9a-f]{2})*)\n")
# A float is lent and read as its bits, so that none is changed on the way.
BITS = U64
BAD_FRAME = 1
# What slots hold before a call. As a sum 7 is above zero, and nothing that is told is so great: no good answer.
FILL, UNTOLD = 7, 2**64 - 1


class Short(ctypes.Structure):
    """struct causeylark_short."""

    _fields_ = [("score", BITS), ("told", U64), ("number", U32), ("ids", U32 * 32)]


# As include/causeylark.h and crates/bench_seed declare them. A word's lattice is its offsets, starts, ids and n.
WORD = [*slices(U32, U32, U32), SIZE]
EXPORTED = {
    "causeylark_build": (U32, [SIZE, *slices(BYTES, U32, BYTES, U32, U32, U32, U32, U32, U64, U32, U32, U64)]),
    "causeylark_retain": (U32, [*slices(U32, U32, U32, U32), SIZE, *slices(U32, U64)]),
    "causeylark_viterbi": (U32, [*WORD, *slices(BITS, BITS, U32, U32, BITS, U64)]),
    "causeylark_viterbi_short": (Short, [*WORD, *slices(BITS, BITS, U32)]),
    "causeylark_viterbi_excluding": (U32, [*WORD, *slices(BITS), U32, *slices(BITS, BITS, U64)]),
    "causeylark_is_connected": (U32, [*WORD, *slices(U32, U64)]),
    "causeylark_expectations": (U32, [*WORD, *slices(BITS, BITS, BITS, BITS, BITS, U64)]),
}
SEEDED = {
    "bench_seed": (
        U32,
        [SIZE, U32, SIZE, SIZE, U64, SIZE]
        + slices(BYTES, U32, BYTES, U32, U64)
        + slices(U32, U64, U32, U32, U32, U32, U64)
        + slices(U32, U64, BITS, U32, U64),
    )
}


class Broken(Exception):
    """A line that breaks the rules of frames."""


class Wrong(Exception):
    """What a call left that it must not leave, and that no stored line shows."""


def demand(holds, what):
    if not holds:
        raise Wrong(what)


def frame(line):
    """The kind of a line's frame, and its bytes."""
    found = FRAME.fullmatch(line)
    if not found or len(found[3]) != 2 * int(found[2], 16):
        raise Broken
    return int(found[1], 16), bytes.fromhex(found[3])


def numbers(form, body):
    """The numbers that bytes hold, all of them, in struct's letters."""
    try:
        return struct.unpack(">" + form, body)
    except struct.error as reason:
        raise Broken from reason


def shown(width, *values):
    """Numbers in so many digits each."""
    return "".join(f"{min(value, 16**width - 1):0{width}x}" for value in values)


class Slots:
    """Slots to be written, each with a number in it. One more stands behind them, which no call may touch."""

    def __init__(self, of, count, fill=FILL):
        self.all, self.count, self.fill = lent(of, array(of._type_, [fill]) * (count + 1))[0], count, fill

    def held(self):
        """What the slots hold after a call."""
        demand(self.all[self.count] == self.fill, "a call wrote behind a slice")
        return self.all[: self.count]

    def zero(self):
        return not any(self.held())


def lend(*tables):
    """Slots as arguments."""
    return flat((table.all, table.count) for table in tables)


class Strings:
    """Words, pieces or specials: a text, and two numbers each, where its bytes begin and how many they are."""

    def __init__(self):
        self.text, self.spans = bytearray(), array("I")

    def add(self, string):
        self.spans.extend((len(self.text), len(string)))
        self.text += string

    def lend(self, size=None):
        """The text as arguments, cut or filled up to a size, and the spans."""
        size = len(self.text) if size is None else size
        return flat([lent(BYTES, bytes(self.text[:size].ljust(size, b"\xff"))), lent(U32, self.spans)])


class Lattice:
    """Builds caches, prunes them, and tells every number of them. In:

        21  length setting u8, then u32 each how much is lent: text bytes, piece text bytes, offsets, starts, ids, spans, keys,
            ends, table. A case begins: no word and no piece.
        22  word: its bytes.
        23  piece: its bytes.
        24  word spans, with no bytes of their own: begin u32, bytes u32, how often u32.
        25  piece spans, likewise.
        26  nothing. The cache is built.
        27  remap: entries u32. The cache is pruned.

    Out, after each 26 and 27:

        31  refusal u8 (0 none), edges or the refusal's place u32.
        32  for each word of the cache, as it now stands, after a refusal too: its span u16 each (edges from, edges to, offsets
            from, n), its n + 2 offsets u16, its starts u8, its ids u16."""

    TABLES = ("offsets", "starts", "ids", "spans")
    MOST = 65_536

    def __init__(self, loaded):
        self.library, self.counts, self.cached = loaded, Counter(), 0
        # One cache for all cases: what is lent is the front of each table, and a refused build leaves what was there.
        self.tables = [Slots(U32, self.MOST) for _ in self.TABLES]

    def take(self, kind, body):
        if kind == 0x21:
            self.setting, self.text, self.piece_text, *room = numbers("B9I", body)
            self.room, self.work = room[:4], room[4:]
            self.strings = Strings(), Strings()
            if max(self.room) > self.MOST:
                raise Broken
        elif kind in (0x22, 0x23):
            self.strings[kind - 0x22].add(body)
        elif kind in (0x24, 0x25):
            begin, size, times = numbers("3I", body)
            self.strings[kind - 0x24].spans.extend((begin, size) * times)
        elif kind == 0x26 and not body:
            yield from self.build()
        elif kind == 0x27:
            yield from self.prune(numbers(f"{len(body) // 4}I", body))
        else:
            raise Broken

    def cache(self):
        """The front of each table, as arguments."""
        return flat((table.all, count) for table, count in zip(self.tables, self.room))

    def build(self):
        words, pieces = self.strings
        work = [Slots(of, count) for of, count in zip((U64, U32, U32), self.work)]
        given = self.setting, *words.lend(self.text), *pieces.lend(self.piece_text)
        call = lambda told: self.library.causeylark_build(*given, *self.cache(), *lend(*work, told))
        yield from self.answer("builds", call, len(words.spans) // 2)
        demand(all(table.zero() for table in work), "a work slice is not zero after a build")

    def prune(self, remap):
        given = self.cached, *lent(U32, array("I", remap))
        call = lambda told: self.library.causeylark_retain(*self.cache(), *given, *lend(told))
        yield from self.answer("prunings", call, self.cached)

    def answer(self, what, call, words):
        """Makes a call that leaves a cache of so many words where it is accepted, and tells the cache."""
        before, told = [bytes(table.all) for table in self.tables], Slots(U64, 1, UNTOLD)
        number = call(told)
        (edges,) = told.held()
        self.counts[what, bool(number)] += 1
        if not number:
            self.cached = words
        *_, offsets, n = [0, -2] + self.tables[3].all[: 4 * self.cached]
        used = offsets + n + 2, edges, edges, 4 * words
        for name, table, old, count, end in zip(self.TABLES, self.tables, before, self.room, used):
            now, kept = bytes(table.all), 0 if number else 4 * count
            past = now[4 * end : 4 * count]
            demand(now[kept:] == old[kept:], f"{name} changed by a refusal, or behind what is lent")
            demand(number or past == bytes(len(past)), f"{name} are not zero past those used")
        yield "31" + shown(2, number) + shown(8, edges)
        yield from map(self.word, range(self.cached))

    def word(self, index):
        offsets, starts, ids, spans = (table.all for table in self.tables)
        low, high, first, n = span = spans[4 * index : 4 * index + 4]
        edges = shown(4, *offsets[first : first + n + 2]) + shown(2, *starts[low:high]) + shown(4, *ids[low:high])
        return "32" + shown(4, *span) + edges

    def bad(self, line):
        return "31" + shown(2, BAD_FRAME) + shown(8, line)

    def said(self):
        each = (f"{self.counts[what, False]} {what}, {self.counts[what, True]} refused" for what in ("builds", "prunings"))
        return "; ".join(each)


class Cut:
    """Makes every call of cuts on one word's lattice after the other. In:

        41  scores: bits u64 each. They hold until the next 41.
        42  lattice: n u32, excluded piece u32; how many offsets, starts and ids u16 each; how many slots of best, back, path,
            reach, alpha, beta and the entries are lent u16 each; the offsets u16, the starts u8, the ids u8.

    Out, after each 42, a line for each call: a kind u8, refusal u8 (0 none), what is told u16, sum bits (zeros where none is given),
    and u8 1 where the work slices hold zeros, which they did not before. What is told is the count, or the refusal's place.

        51  viterbi; then every slot of the path u8, ee where nothing was written.
        52  viterbi_short, with as many ids u8 as there are offsets, at most all 32.
        53  viterbi_excluding.
        54  is_connected, which tells 1 where there is a cut.
        55  expectations; then the bits of every slot of the entries, 401d000000000000 where nothing was written."""

    PATH, ENTRY = 0xEE, 0x401D000000000000

    def __init__(self, loaded):
        self.library, self.counts, self.scores = loaded, Counter(), array("Q")

    def take(self, kind, body):
        if kind == 0x41:
            self.scores = array("Q", numbers(f"{len(body) // 8}Q", body))
        elif kind == 0x42:
            n, excluded, *counts = numbers("2I10H", body[:28])
            offsets, starts, ids, *room = counts
            each = array("I", numbers(f"{offsets}H{starts}B{ids}B", body[28:]))
            ends = each[:offsets], each[offsets : offsets + starts], each[offsets + starts :]
            yield from self.calls([*flat(lent(U32, part) for part in ends), n], offsets, excluded, room)
        else:
            raise Broken

    def calls(self, word, offsets, excluded, room):
        best, back, path, reach, alpha, beta, emitted = room
        scored = [*word, *lent(BITS, self.scores)]
        self.counts["lattices"] += 1
        yield self.call(0x51, "viterbi", scored, [(BITS, best), (U32, back)], Slots(U32, path, self.PATH), 2)
        yield self.short(scored, offsets, [Slots(BITS, best), Slots(U32, back)])
        yield self.call(0x53, "viterbi_excluding", [*scored, excluded], [(BITS, best)])
        yield self.call(0x54, "is_connected", word, [(U32, reach)], summed=False)
        yield self.call(0x55, "expectations", scored, [(BITS, alpha), (BITS, beta)], Slots(BITS, emitted, self.ENTRY), 16)

    def call(self, kind, name, given, work, result=None, width=0, summed=True):
        """One call, with such work slices, and with a result that is shown in so many digits a slot."""
        work, results = [Slots(*each) for each in work], [result] if result else []
        told, sums = Slots(U64, 1, UNTOLD), [Slots(BITS, 1)] if summed else []
        number = getattr(self.library, "causeylark_" + name)(*given, *lend(*work, *results, *sums, told))
        left = [table.held()[0] for table in sums]
        if number:
            demand(left in ([], [FILL]), f"{name} changed the sum, and was refused")
        slots = [value for table in results for value in table.held()]
        return self.line(kind, number, told.held()[0], 0 if number or not left else left[0], work, shown(width, *slots))

    def short(self, scored, offsets, work):
        short = self.library.causeylark_viterbi_short(*scored, *lend(*work))
        demand(not any(short.ids[0 if short.number else short.told :]), "viterbi_short left ids that are not used")
        return self.line(0x52, short.number, short.told, short.score, work, shown(2, *short.ids[: min(offsets, 32)]))

    def line(self, kind, number, told, total, work, more):
        self.counts["refused"] += bool(number)
        clean = all(table.zero() for table in work)
        return shown(2, kind, number) + shown(4, told) + shown(16, total) + shown(2, clean) + more

    def bad(self, line):
        return shown(2, 0x50, BAD_FRAME) + shown(4, line) + shown(16, 0) + shown(2, 1)

    def said(self):
        return f"{self.counts['lattices']} lattices, {5 * self.counts['lattices']} calls, {self.counts['refused']} refused"


class Seed:
    """Makes seed lists, and tells every piece of them. In:

        21  vocab u32, seed flag u8, seed u32, length u8, minimum u64; then u32 each how many pieces and how many positions have
            slots. A case begins: no special and no word. The shrink factor and EM are the defaults, and change no list.
        22  special: its bytes.
        23  word: frequency u64, its bytes.
        26  nothing. The list is made.

    Out, after each 26:

        31  refusal u8 (0 none), the refusal's place u32, pieces u32, required u32; zeros behind the place of a refusal.
        32  for each piece, in order: count u64, score bits, its bytes.

    A line that breaks the rules is told as 30, with zeros behind it."""

    # Slots that every case has.
    WORDS, POSITIONS = 64, 2048

    def __init__(self, loaded):
        self.library, self.counts = loaded, Counter()

    def take(self, kind, body):
        if kind == 0x21:
            *self.settings, self.pieces, self.positions = numbers("IBIBQ2I", body)
            self.specials, self.words, self.frequencies = Strings(), Strings(), array("Q")
        elif kind == 0x22:
            self.specials.add(body)
        elif kind == 0x23:
            self.frequencies.extend(numbers("Q", body[:8]))
            self.words.add(body[8:])
        elif kind == 0x26 and not body:
            yield from self.seed()
        else:
            raise Broken

    def seed(self):
        words, many, positions, pieces = self.WORDS, self.POSITIONS, self.positions, self.pieces
        tables = [(U32, 2 * words), (U64, words), (U32, positions), (U32, 3 * positions), (U32, many), (U32, many), (U64, many)]
        tables += [(U32, 2 * pieces), (U64, pieces), (BITS, pieces), (U32, 2 * words)]
        lists, told = [Slots(*each) for each in tables], Slots(U64, 3, UNTOLD)
        given = *self.specials.lend(), *self.words.lend(), *lent(U64, self.frequencies)
        number = self.library.bench_seed(*self.settings, Settings.em, *given, *lend(*lists, told))
        *_, spans, tallies, scores, _ = [slots.held() for slots in lists]
        place, count, required = (told.held()[0], 0, 0) if number else (0, *told.held()[1:])
        self.counts["refused" if number else "lists"] += 1
        yield "31" + shown(2, number) + shown(8, place, count, required)
        for begin, size, tally, score in list(zip(spans[::2], spans[1::2], tallies, scores))[:count]:
            self.counts["pieces"] += 1
            demand(begin + size <= len(self.words.text), "a piece is outside the text")
            yield "32" + shown(16, tally, score) + self.words.text[begin : begin + size].hex()

    def bad(self, line):
        return shown(2, 0x30, BAD_FRAME) + shown(8, line, 0, 0)

    def said(self):
        return ", ".join(f"{self.counts[what]} {what}" for what in ("lists", "pieces", "refused"))


# Each with the functions that it calls, its shared library, and the crates that this is linked of.
USERS = EXPORTED, library.SHARED, library.CRATES
REPLAYS = {
    "lattice": (Lattice, *USERS),
    "cut": (Cut, *USERS),
    "seed": (Seed, SEEDED, library.NATIVE / "libbench_seed.so", ("bench_seed",)),
}


def lines_of(name, end):
    """The lines of a stored file, each with its line end."""
    text = VECTORS.joinpath(name + end).read_bytes().decode("latin-1")
    return re.findall("[^\n]*\n|[^\n]+", text)


def answered(replay, name):
    """The lines that the library answers."""
    for number, line in enumerate(lines_of(name, ".in"), 1):
        try:
            for answer in replay.take(*frame(line)):
                yield answer + "\n"
        except Broken:
            yield replay.bad(number) + "\n"
            return
        except Wrong as reason:
            raise Wrong(f"line {number} of {name}.in: {reason}") from reason


def run(name):
    """Replays one file. The first line that is another ends it."""
    kind, *which = REPLAYS[name]
    replay, same = kind(library.load(tell, *which)), 0
    for answer, stored in zip_longest(answered(replay, name), lines_of(name, ".out")):
        if answer != stored:
            raise Wrong(f"line {same + 1} of {name}.out is\n{stored or 'no line'!r}\nand answered is\n{answer or 'no line'!r}")
        same += 1
    if not same:
        raise Wrong("nothing is stored")
    print(f"replay: {name}: {replay.said()}, {same} lines as stored")


def tell(text, keep=False):
    if keep:
        print(f"replay: {text}", flush=True)


def main(names):
    if not set(names) <= set(REPLAYS):
        sys.exit(__doc__)
    for name in names or REPLAYS:
        try:
            run(name)
        except (Wrong, library.Unavailable, OSError) as reason:
            sys.exit(f"replay: {name}: {reason}")


if __name__ == "__main__":
    main(sys.argv[1:])
