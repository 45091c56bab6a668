#!/usr/bin/env python3
"""Writes tools/vectors/cut.in, the lattices and scores that tools/replay.py has the library cut, and cut.out, what has to come back.
The head of `Cut` in tools/replay.py has the grammar of both.

    python3 tools/vectors/cut.py            # needs target/oracle/ours/oracle: see tools/oracle/README.md
    python3 tools/vectors/cut.py --check    # writes nothing, and fails where the files in the tree are others

Every path, score, sum and share in cut.out is the Rust's with our mathematics: the oracle's answers to `viterbi`,
`viterbi_excluding`, `connected` and `expectations`. The lattices are those of drawn words of eight scripts over drawn pieces,
and drawn ones that come from no word. Their scores are of every kind: see `KINDS`. The first cases are document 01's.

The refusals are worked out here, from document 01's table and its "Viterbi checks 9, 10, 7, 11, 12": the Rust has none. So are
best cuts, by its sentence on ties, and whether there is a cut; where there is an oracle, both have to agree. Where there is
none, --check takes the sums and the shares from the file, and compares the rest. The last line of cut.in breaks the rules of
frames, and cut.out ends with BadFrame at that line."""

import math
import random
import sys

sys.dont_write_bytecode = True

from common import VECTORS, ask_oracle, checks, frame, number, store  # noqa: E402
from lattice import lattice, offsets_of  # noqa: E402
from vectors import SCRIPTS, ask, bits, items, line, listed, make_pieces, make_word  # noqa: E402

# What the cases are drawn from. Another text draws others.
SEED = "cut_vectors 1"
FAMILIES, FREE = 150, 260
SETTINGS = (1, 2, 16, 32)
# The numbers of document 01's table.
BAD_FRAME, NO_ROOM, BAD_LATTICE, BAD_SCORE, NO_PATH = 1, 7, 9, 10, 11
EDGES, RESULTS = 3, 4
# What the slots hold that nothing is written to.
PATH_SLOT, ENTRY_SLOT = 0xEE, 7.25
ID_BOUND = 2**32
ROOMS = ("best", "back", "path", "reach", "alpha", "beta", "emitted")

# Every kind of score; each gives one.
KINDS = (
    lambda rng: rng.uniform(-12, 0),
    lambda rng: -1.0,
    lambda rng: float(-rng.randint(1, 3)),
    lambda rng: rng.choice((0.0, -0.0)),
    lambda rng: rng.choice((-1.7e308, -1e308, -1e300, -1e16)),
    lambda rng: -5e-324 * rng.randint(0, 2**20),
    lambda rng: math.log(rng.randint(1, 50) / 1000),
    lambda rng: rng.choice((-math.inf, -1021.0, rng.uniform(-800, 0))),
    lambda rng: rng.choice((-0.25, -0.5, -0.75, -1.0)),
)


class Cut:
    """A lattice with its scores and what is lent beside it. All five calls are made."""

    def __init__(self, n, edges, scores, excluded=0, **other):
        self.n, self.edges, self.scores, self.excluded = n, edges, scores, excluded
        self.offsets = other.pop("offsets", None) or offsets_of((n, edges))
        self.starts = other.pop("starts", None) or [start for start, _, _ in edges]
        self.ids = other.pop("ids", None) or [id for _, _, id in edges]
        self.n = other.pop("said", n)
        self.room = dict.fromkeys(ROOMS, n + 1) | {"path": n, "emitted": len(edges)} | other

    def refused(self, *rooms, bound=None):
        """Why a call that is lent these slots says no before its work: 9, 10, 7 at 3. `bound` for a call without scores."""
        if not formed(self, ID_BOUND if bound else len(self.scores)):
            return BAD_LATTICE, 0
        bad = [id for id, score in enumerate(self.scores) if not score <= 0]
        if bad and not bound:
            return BAD_SCORE, bad[0]
        if any(self.room[room] < (len(self.starts) if room == "emitted" else self.n + 1) for room in rooms):
            return NO_ROOM, EDGES
        return None

    def sound(self):
        return formed(self, len(self.scores)) and all(score <= 0 for score in self.scores)


def formed(cut, pieces):
    """Document 01: "A lattice is well formed when it has n+2 offsets, rising from 0 to the edge count" and so on."""
    offsets, starts, ids = cut.offsets, cut.starts, cut.ids
    if len(offsets) != cut.n + 2 or offsets[0] != 0 or offsets[-1] != len(starts) or len(starts) != len(ids):
        return False
    if any(low > high for low, high in zip(offsets, offsets[1:])) or any(id >= pieces for id in ids):
        return False
    ending = [starts[low:high] for low, high in zip(offsets, offsets[1:])]
    rising = lambda starts: all(a < b for a, b in zip(starts, starts[1:]))
    return all(rising(starts) and all(start < end for start in starts) for end, starts in enumerate(ending))


# The answers, by document 01.


def best(cut, excluded=None):
    """The greatest sum, and its path: "the earliest start at each position wins ties"."""
    sums, paths = [0.0], [[]]
    for end in range(1, cut.n + 1):
        top, path = -math.inf, None
        for edge in range(cut.offsets[end], cut.offsets[end + 1]):
            start, id = cut.starts[edge], cut.ids[edge]
            if id != excluded and sums[start] + cut.scores[id] > top:
                top, path = sums[start] + cut.scores[id], paths[start] + [id]
        sums.append(top)
        paths.append(path)
    return sums[cut.n], paths[cut.n]


def connected(cut):
    reached = {0}
    for end in range(1, cut.n + 1):
        if reached & set(cut.starts[cut.offsets[end] : cut.offsets[end + 1]]):
            reached.add(end)
    return cut.n in reached


def own(cut):
    """What the oracle answers to `asked`, without the shares."""
    if not cut.sound():
        return None
    score, path = best(cut)
    viterbi = "none" if score == -math.inf else f"{bits(score)} {listed(path)}"
    return [viterbi, bits(best(cut, cut.excluded)[0]), str(connected(cut)).lower()]


# The same, by the Rust.


def asked(cut):
    ends = [end for end in range(cut.n + 1) for _ in range(cut.offsets[end], cut.offsets[end + 1])]
    edges = listed(zip(cut.starts, ends, cut.ids), lambda edge: ":".join(map(str, edge)))
    lent, scores = line(cut.n, edges, listed(cut.offsets)), listed(cut.scores, bits)
    yield line("viterbi", lent, scores)
    yield line("viterbi_excluding", lent, scores, cut.excluded)
    yield line("connected", lent)
    yield line("expectations", lent, scores)


# Lines.


def lines_in(cuts):
    before = None
    for cut in cuts:
        scores = b"".join(bytes.fromhex(score if isinstance(score, str) else bits(score)) for score in payloads(cut))
        if scores != before:
            yield frame(0x41, scores)
            before = scores
        head = number(4, cut.n, cut.excluded) + number(2, len(cut.offsets), len(cut.starts), len(cut.ids))
        head += number(2, *(cut.room[room] for room in ROOMS))
        yield frame(0x42, head + number(2, *cut.offsets) + number(1, *cut.starts) + number(1, *cut.ids))


def payloads(cut):
    """The scores; a NaN as one of several patterns."""
    nans = ("7ff8000000000000", "fff8000000000000", "7ff0000000000001", "ffffffffffffffff")
    return [nans[id % 4] if math.isnan(score) else score for id, score in enumerate(cut.scores)]


def answer(kind, refusal, told=0, total=None, more=""):
    if refusal:
        return f"{kind:02x}{refusal[0]:02x}{refusal[1]:04x}{0:016x}01{more}\n"
    return f"{kind:02x}00{told:04x}{total or '0' * 16}01{more}\n"


def lines_out(cut, rust):
    """A line for each of the five calls."""
    viterbi, without, linked, sums = rust or (None, None, None, None)
    for kind, slots, unused in ((0x51, cut.room["path"], PATH_SLOT), (0x52, 32, 0)):
        refusal = cut.refused("best", "back") or ((NO_ROOM, RESULTS) if slots < cut.n else None)
        if not refusal and viterbi == "none":
            refusal = NO_PATH, 0
        score, path = (None, []) if refusal else viterbi.split(" ")
        path = list(map(int, items(path))) if path else []
        shown = (path + [unused] * slots)[: slots if kind == 0x51 else min(len(cut.offsets), 32)]
        yield answer(kind, refusal, len(path), score, number(1, *shown).hex())
    yield answer(0x53, cut.refused("best"), 0, without)
    yield answer(0x54, cut.refused("reach", bound=True), int((linked or str(connected_if(cut)).lower()) == "true"))
    refusal = cut.refused("alpha", "beta", "emitted")
    z, shares = (None, ".") if refusal else sums.split(" ")
    entries = items(shares) + [bits(ENTRY_SLOT)] * cut.room["emitted"]
    yield answer(0x55, refusal, 0, z, "".join(entries[: cut.room["emitted"]]))


def connected_if(cut):
    """Of a lattice that only calls with scores refuse."""
    return formed(cut, ID_BOUND) and connected(cut)


def texts(cuts, answers):
    asked, answered = list(lines_in(cuts)), []
    for cut, rust in zip(cuts, answers, strict=True):
        answered += lines_out(cut, rust)
    asked.append("4200014A\n")
    answered.append(answer(0x50, (BAD_FRAME, len(asked))))
    return {VECTORS / "cut.in": "".join(asked), VECTORS / "cut.out": "".join(answered)}


# Cases.

ABA = 3, [(0, 1, 0), (0, 2, 2), (1, 2, 1), (1, 3, 3), (2, 3, 0)]


def examples():
    """Document 01's: aba by 0, 3 and -3; ab of two pieces that sum to no finite number, and with a third; the empty word."""
    yield Cut(*ABA, [-1.0, -1.0, -2.0, -2.0])
    yield Cut(2, [(0, 1, 0), (1, 2, 1)], [-1.7e308] * 2)
    yield Cut(2, [(0, 1, 0), (0, 2, 2), (1, 2, 1)], [-1.7e308, -1.7e308, -3.0], 2)
    yield Cut(0, [], [])
    yield Cut(0, [], [-1.0], emitted=2, path=3)


def make_scores(rng, count):
    """One kind for all, or a kind for each."""
    kind = rng.choice(KINDS)
    return [(rng.choice(KINDS) if rng.random() < 0.2 else kind)(rng) for _ in range(count)]


def spare(rng, cut):
    """Slots beyond those that are needed, some of the time."""
    if rng.random() < 0.4:
        for room in ROOMS:
            cut.room[room] += rng.choice((0, 0, 1, 3))
    return cut


def of_words(rng, index):
    """Words of a script over one list of pieces and one list of scores."""
    letters = SCRIPTS[index % len(SCRIPTS)][: rng.randint(1, 8)]
    most = rng.choice((0, 1, 2, 3, 5, 8, 8, 12, 20))
    words = [make_word(rng, letters, most) for _ in range(12)]
    if index % 15 == 0:
        words.append("".join(rng.choice(letters) for _ in range(255 // len(letters[0].encode()))))
    pieces = make_pieces(rng, words)[: 40 if index % 15 else 12]
    # every fourth time a score by length, so that all cuts of a word are equal
    scores = make_scores(rng, len(pieces)) if index % 4 else [-0.5 * len(piece) for piece in pieces]
    for word in words:
        n, edges = lattice(word, pieces, SETTINGS[index // len(SCRIPTS) % len(SETTINGS)])
        yield spare(rng, Cut(n, edges, scores, rng.randint(0, len(pieces))))


def free(rng):
    """A well-formed lattice that need not come from any word."""
    n, pieces = rng.randint(0, 10), rng.randint(1, 9)
    dense = rng.choice((0.2, 0.4, 0.9))
    spans = [(start, end) for end in range(n + 1) for start in range(end) if rng.random() < dense]
    edges = [(start, end, rng.randrange(pieces)) for start, end in spans]
    return spare(rng, Cut(n, edges, make_scores(rng, pieces), rng.choice((0, pieces, 2**32 - 1))))


def bad_lattices():
    """aba, one number after the other damaged; with a bad score, and no room, behind it."""
    n, edges = ABA
    offsets, starts, ids = [0, 0, 1, 3, 5], [0, 0, 1, 1, 2], [0, 2, 1, 3, 0]
    damaged = [dict(offsets=other) for other in ([0, 0, 1, 3], [0, 0, 1, 3, 5, 5], [0, 0, 1, 3, 4], [0, 0, 1, 3, 6])]
    damaged += [dict(offsets=other) for other in ([1, 0, 1, 3, 5], [0, 1, 1, 3, 5], [0, 0, 4, 3, 5], [0, 0, 1, 65535, 5])]
    damaged += [dict(starts=other) for other in ([1, 0, 1, 1, 2], [0, 1, 1, 1, 2], [0, 1, 0, 1, 2], [0, 0, 1, 1, 3], [0, 0, 1, 1])]
    damaged += [dict(ids=other) for other in ([0, 2, 1, 4, 0], [255, 2, 1, 3, 0], [0, 2, 1, 3], [0, 2, 1, 3, 0, 0])]
    damaged += [dict(said=other) for other in (0, 2, 4, 2**32 - 1)]
    for damage in damaged:
        yield Cut(n, edges, [-1.0, -1.0, -2.0, -2.0], **damage)
        yield Cut(n, edges, [-1.0, math.nan, -2.0, 2.0], best=0, path=0, reach=0, alpha=0, **damage)
    yield Cut(n, edges, [-1.0, -1.0, -2.0])
    yield Cut(n, edges, [])
    yield Cut(0, [], [], offsets=[0])
    yield Cut(0, [], [], offsets=[0, 1])


def bad_scores():
    """NaN of any sign and payload, above zero by the least there is, plus infinity; of a piece that no edge has, too."""
    n, edges = ABA
    for bad in (math.nan, math.inf, 5e-324, 1.0):
        for id in range(6):
            scores = [-1.0, -1.0, -2.0, -2.0, -0.0, -math.inf]
            scores[id] = bad
            yield Cut(n, edges, scores)
            yield Cut(n, edges, scores[:id] + [bad] * (6 - id), best=0, path=0, beta=0)
            yield Cut(0, [], scores)


def no_rooms(rng):
    """Each room one slot short, or empty; lattices of several sizes."""
    scores = [-1.0, -1.0, -2.0, -2.0]
    chain = lambda n: (n, [(p, p + 1, 0) for p in range(n)])
    for n, edges in (ABA, chain(1), chain(31), chain(32), chain(33), chain(255)):
        yield Cut(n, edges, scores)
        for room in ROOMS:
            least = len(edges) if room == "emitted" else n if room == "path" else n + 1
            for slots in {least - 1, 0}:
                yield Cut(n, edges, scores, **{room: slots})
        yield Cut(n, edges, scores, path=0, back=n)
        yield Cut(n, edges, [-math.inf] * 4, path=n - 1)
    yield Cut(0, [], scores, best=0)
    yield Cut(0, [], scores, back=0, alpha=0)
    yield Cut(0, [], scores, reach=0, beta=0)
    yield Cut(2, [(0, 2, 0)], [-math.inf])
    yield Cut(2, [(0, 1, 0)], [-1.0])
    yield Cut(32, [], [-1.0])
    yield Cut(33, [], [-1.0])


def make_cuts():
    rng = random.Random(SEED)
    yield from examples()
    for index in range(FAMILIES):
        yield from of_words(rng, index)
    for _ in range(FREE):
        yield free(rng)
    yield from bad_lattices()
    yield from bad_scores()
    yield from no_rooms(rng)
    yield from examples()


def stored(cuts):
    """The sums and the shares that the file has, as the oracle would answer them: for a run without one."""
    lines = VECTORS.joinpath("cut.out").read_text().splitlines()[4::5]
    if len(lines) != len(cuts):
        sys.exit("cut: tools/vectors/cut.out has another number of lattices")
    for cut, text in zip(cuts, lines):
        shares = text[26 : 26 + 16 * len(cut.starts)]
        yield f"{text[8:24]} {listed(shares[at : at + 16] for at in range(0, len(shares), 16))}"


def main(arguments):
    check = checks(arguments, __doc__)
    cuts = list(make_cuts())
    mine = [own(cut) for cut in cuts]
    oracle = ask_oracle("cut", check)
    if oracle:
        sound = [cut for cut in cuts if cut.sound()]
        answers = iter(ask("ours", [request for cut in sound for request in asked(cut)]))
        rust = [[next(answers) for _ in range(4)] if cut.sound() else None for cut in cuts]
        for cut, said, others in zip(cuts, mine, rust):
            if said and said != others[:3]:
                sys.exit(f"cut: document 01 and the Rust differ at {list(asked(cut))}: {said}, {others[:3]}")
    else:
        rust = [said and [*said, shares] for said, shares in zip(mine, stored(cuts))]
    store("cut", texts(cuts, rust), check)
    edges = sum(len(cut.starts) for cut in cuts if cut.sound())
    ties = sum(tied(cut) for cut in cuts if cut.sound())
    refused = sum(cut.refused(*ROOMS[:2]) is not None or cut.refused(*ROOMS[4:]) is not None for cut in cuts)
    none = sum(said == "none" for said, *_ in filter(None, rust))
    said = "with the Rust's answers" if oracle else "with no oracle at hand"
    print(
        f"cut: {len(cuts)} lattices, {edges} edges, {ties} with ties, {none} with no path, {refused} refused "
        f"{'agree' if check else 'written'}, {said}"
    )


def tied(cut):
    """Whether some position has two best edges."""
    sums = [0.0]
    found = False
    for end in range(1, cut.n + 1):
        offered = [sums[cut.starts[k]] + cut.scores[cut.ids[k]] for k in range(cut.offsets[end], cut.offsets[end + 1])]
        sums.append(max(offered, default=-math.inf))
        found |= sums[-1] > -math.inf and offered.count(sums[-1]) > 1
    return found


if __name__ == "__main__":
    main(sys.argv[1:])
