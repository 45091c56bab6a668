#!/usr/bin/env python3
"""The oracle's own tests, over every oracle that is built. Needs SPLINTR_SRC. The exit status tells."""

import math
import pathlib
import random
import struct
import sys

sys.dont_write_bytecode = True
import build
import vectors
from vectors import bits, items, line, listed

DEFAULTS = "16 2 3fe8000000000000 2 ."  # piece length, minimum, shrink factor, EM, specials

# Beside README.md's examples: the rest of document 01's, then the edges of the grammar.
EXAMPLES = [
    ("lattice 0 616261 61,62,6162,6261", "3 . 0,0,0,0,0"),
    ("lattice 16 - 61", "0 . 0,0"),
    ("lattice 16 61 61,-,61", "1 0:1:2 0,0,1"),
    ("connected 0 . 0,0", "true"),
    (f"viterbi 2 0:1:0,0:2:2,1:2:1 0,0,1,3 {listed((-1.7e308, -1.7e308, -3), bits)}", f"{bits(-3)} 2"),
    ("viterbi 0 . 0,0 .", f"{bits(0.0)} ."),
    ("expectations 0 . 0,0 .", f"{bits(0.0)} ."),
    (f"expectations 1 0:1:0 0,0,1 {bits(-math.inf)}", f"{bits(-math.inf)} {bits(0.0)}"),
    (f"losses 16 2:61 61 {bits(-1)}", bits(math.inf)),
    (f"losses 16 2:6162 61,62,6162 {listed((0.0, 0.0, -0.0), bits)}", listed((0.0, 0.0, 0.0), bits)),
    (f"train 0 unset {DEFAULTS} 1:-", "0 0 target . ."),
    (f"train 9 unset {DEFAULTS} .", "EmptyCorpus"),
    ("retain 16 . 61 .", ""),
    ("retain 16 6162 61,62 0", "panic"),
    ("", "error: no verb  with 0 fields"),
    ("exp 3FF0000000000000", "error: not lower-case hexadecimal: 3FF0000000000000"),
    ("exp 3ff0", "error: not 16 digits: 3ff0"),
    ("lattice 16 ff 61", "error: not UTF-8: ff"),
    ("lattice 256 61 61", "error: not a number in range: 256"),
    ("connected 18446744073709551615 . 0", "error: not a well-formed lattice"),
    ("connected 1 1:1:0 0,0,1", "error: not a well-formed lattice"),
    ("connected 2 0:2:0,0:2:1 0,0,0,2", "error: not a well-formed lattice"),
    ("connected 1 0:1 0,0,1", "error: not start:end:id: 0:1"),
    ("em 16 61 61 bff0000000000000", "error: no frequency: 61"),
    ("em 16 5:61 61,62 .", "error: 2 pieces with 0 scores"),
    ("train 9 1:61", "error: 1 settings, not 7"),
]

# Where the bits depend on the mathematics: the first fields alone. aba of frequency 2; three a, all kept; abcd,
# with seven of its ten substrings kept.
BEGINNINGS = [
    ("seed 8000 unset 16 2 3fe8000000000000 2 . 2:616261", "2 61,62,616261,6162,6261 4,2,2,2,2"),
    ("seed 8000 unset 16 3 3fe8000000000000 2 . 2:616261", "2 61,62 4,2"),
    ("train 2 9 16 2 3ff0000000000000 2 . 2:616161", "0 1 stalled 61,6161,616161"),
    ("train 7 10 16 2 3fe8000000000000 2 . 2:61626364", "0 4 target 61,62,63,64,61626364,616263,626364"),
]


def fail(what, *shown):
    sys.exit("\n".join(["check.py: " + what, *map(str, shown)]))


def readme():
    """The examples of README.md."""
    lines = (pathlib.Path(__file__).parent / "README.md").read_text().splitlines()
    marked = lambda mark: [text[6:] for text in lines if text.startswith(f"    {mark} ")]
    return list(zip(marked(">"), marked("<"), strict=True))


def examples(mathematics):
    wanted = readme() + EXAMPLES + [(request, beginning + " ") for request, beginning in BEGINNINGS]
    exact = len(wanted) - len(BEGINNINGS)
    answers = vectors.ask(mathematics, [request for request, _ in wanted])
    for index, ((request, want), answer) in enumerate(zip(wanted, answers, strict=True)):
        if not (answer == want if index < exact else answer.startswith(want)):
            fail("an example", request, answer, want)


def families(mathematics):
    """The same seed gives the same vectors, and every request is a good one."""
    for family in vectors.FAMILIES:
        first = vectors.pairs(family, 7, 30, mathematics)
        if first != vectors.pairs(family, 7, 30, mathematics):
            fail("a family differs from itself", family)
        for request, answer in first:
            if answer.startswith(("error", "panic")):
                fail("a bad request", request, answer)


def retained(mathematics):
    """After any number of remaps, a cache is the lattices of the survivors, built afresh."""
    for request, answer in vectors.pairs("retain", 8, 300, mathematics):
        _, length, words, pieces, remaps = request.split(" ")
        stages = [items(pieces)]
        for remap in items(remaps, "/"):
            kept = [piece for piece, new in zip(stages[-1], items(remap), strict=True) if int(new) != vectors.PRUNED]
            stages.append(kept)
        afresh = [line("lattice", length, word, listed(stage)) for stage in stages for word in items(words)]
        if " ".join(vectors.ask(mathematics, afresh)) != answer:
            fail("retained is not built afresh", request, answer)


def summed(mathematics):
    """Every cut covers n characters, so the edges' lengths times their entries sum to n."""
    floats = lambda field: [struct.unpack(">d", bytes.fromhex(item))[0] for item in items(field)]
    tried = 0
    for request, answer in vectors.pairs("cut", 9, 300, mathematics):
        verb, n, edges, *_ = request.split(" ")
        if verb != "expectations":
            continue
        (z,), entries = map(floats, answer.split(" "))
        spans = [int(end) - int(start) for start, end, _ in (edge.split(":") for edge in items(edges))]
        total = sum(span * entry for span, entry in zip(spans, entries, strict=True))
        # A sum as large as 1e300 has no digits below 1, so a moderate z alone can tell.
        tried += z > -1e4
        if abs(total - int(n)) > 1e-6 * int(n) if z > -1e4 else z == -math.inf and any(entries):
            fail("expectations do not sum to n", request, answer, total)
    if tried < 50:
        fail("too few expectations tried", tried)


def required(mathematics):
    """`train` tells the required count from its tokens; the Rust's own is in the answer of `seed`."""
    trained = vectors.pairs("train", 10, 200, mathematics)
    seeded = vectors.ask(mathematics, ["seed" + request.removeprefix("train") for request, _ in trained])
    for (request, answer), seed in zip(trained, seeded, strict=True):
        told = len(answer.split(" ")) == 5 and not seed.startswith("error: not UTF-8")
        if told and answer.split(" ")[1] != seed.split(" ")[0]:
            fail("the required count", request, answer, seed)


def guard():
    """The edit is refused where it would touch another call, miss one, or could not be undone."""
    source = build.read_source()
    for mathematics in ("ours", "stock"):
        for name, text in source.items():
            if build.undo(name, build.prepare(name, text, mathematics), mathematics) != text:
                fail("not undone", name)
    sixth = lambda call: lambda text: text + f"\nfn sixth(x: f64) -> f64 {{\n    {call}\n}}\n"
    doctored = [
        ("lattice.rs", sixth("x.exp()")),
        ("trie.rs", sixth("x.ln()")),
        ("mod.rs", sixth("x.sqrt()")),
        ("mod.rs", sixth("f64::ln(x)")),
        ("mod.rs", sixth("x.causeylark_ln()")),
        ("lattice.rs", lambda text: text.replace("marginal.exp()", "marginal")),
        ("lattice.rs", lambda text: text.replace("marginal.exp()", "z.exp()")),
        ("mod.rs", lambda text: text.replace("fn seed(", "fn sown(")),
    ]
    for name, doctor in doctored:
        assert doctor(source[name]) != source[name]
        try:
            build.prepare(name, doctor(source[name]), "ours")
        except build.Refused:
            continue
        fail("a doctored file is not refused", name)


def main():
    try:
        guard()
    except (build.Refused, OSError) as reason:
        fail(str(reason))
    built = [name for name in ("stock", "ours") if (build.TARGET / name / "oracle").exists()]
    if not built:
        fail("no oracle is built")
    for mathematics in built:
        for check in (examples, families, retained, summed, required):
            check(mathematics)
    print("good:", ", ".join(built))


if __name__ == "__main__":
    main()
