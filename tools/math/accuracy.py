#!/usr/bin/env python3
"""How near to the truth are exp, ln and ln_1p, and do their bounds hold?

    python3 tools/math/accuracy.py -- COMMAND ..

COMMAND is a filter program over the code under test. It reads lines `E`,
`L` or `P` (exp, ln, ln_1p), a space, and the 16 digits of an argument's
bits; it answers each with a line of the 16 digits of the result's bits.
tools/math/filter.rs is such a program over the reference.

The truth comes from decimal arithmetic with 40 digits. An error above 2^-36
fails. The bounds and exact values of docs/MATH.md, and its worked examples,
are checked at every argument they speak of, in whole numbers. The largest
errors that docs/MATH.md lists are those that this tool prints.
"""

import decimal
import math
import random
import re
import subprocess
import sys
import time
from dataclasses import dataclass
from decimal import Decimal
from pathlib import Path

from tables import bits

ROOT = Path(__file__).resolve().parents[2]
NAMES = {"E": "exp", "L": "ln", "P": "ln_1p"}
ERROR_LIMIT = Decimal(2) ** -36
SHOWN = 10

decimal.setcontext(
    decimal.Context(prec=40, Emin=decimal.MIN_EMIN, Emax=decimal.MAX_EMAX)
)

SIGN = 1 << 63
INFINITY = bits(math.inf)
NAN = 0x7FF8000000000000
ZERO, ONE, MINUS_ONE = bits(0.0), bits(1.0), bits(-1.0)

# Whole numbers count units of 2^-1074, so every f64 is one of them.
UNIT = 1 << 1074
DECIMAL_UNIT = Decimal(UNIT)
SLACK = UNIT >> 40


def is_nan(pattern):
    return pattern & ~SIGN > INFINITY


def is_finite(pattern):
    return pattern & ~SIGN < INFINITY


def units(pattern):
    """A finite f64 as a whole number of 2^-1074."""
    field, size = pattern >> 52 & 0x7FF, pattern & (1 << 52) - 1
    if field:
        size = (size | 1 << 52) << field - 1
    return -size if pattern & SIGN else size


def number(pattern):
    """A finite f64 to 40 digits."""
    return Decimal(units(pattern)) / DECIMAL_UNIT


# Arguments: the same in every run, dense where a step could go wrong.


def around(pattern):
    """A pattern and its neighbours, of both signs."""
    near = [pattern, pattern + 1] + ([pattern - 1] if pattern else [])
    return near + [one | SIGN for one in near]


def shared_arguments(source):
    """Patterns that every function is asked."""
    for field in range(2048):  # powers of two, the ends of f64, some NaNs
        yield from around(field << 52)
    for place in range(52):  # subnormals of every length
        yield from around(1 << place)
        for _ in range(20):
            yield source.getrandbits(place + 1)
    for j in range(8 * 128):  # grid points
        yield from around(bits(j / 128))
    for end in (700.0, 708.3964185322641, 709.782712893384, 745.0, 746.0):
        yield from around(bits(end))
    yield from around(NAN)
    for _ in range(3000):
        yield source.getrandbits(64)


def uniform(source, count, low, high):
    return (bits(source.uniform(low, high)) for _ in range(count))


def small(source, count, depth):
    """Numbers from 2^-depth to 1, evenly over their exponents."""
    return (
        bits(math.ldexp(1 + source.random(), -1 - source.randrange(depth)))
        for _ in range(count)
    )


def arguments():
    """The questions: (letter, pattern), each once."""
    source = random.Random(1)
    shared = list(shared_arguments(source))
    own = {"E": [], "L": [], "P": []}
    own["E"] += uniform(source, 15_000, -1, 0)
    own["E"] += uniform(source, 15_000, -40, 0)
    own["E"] += uniform(source, 15_000, -700, 700)
    for j in range(187):  # where exp goes to the next entry of hi
        own["E"] += around(bits(4.0 * j))
    own["L"] += uniform(source, 15_000, 0.5, 1)
    own["L"] += uniform(source, 15_000, 0, 1)
    own["L"] += small(source, 10_000, 1022)
    own["L"] += (ONE - one for one in range(1, 2000))
    own["P"] += uniform(source, 20_000, 0, 1)
    own["P"] += small(source, 10_000, 64)
    own["P"] += uniform(source, 5_000, 1, 100)
    own["L"] += uniform(source, 5_000, 63 / 64, 1)  # where its bounds are tight
    return {(letter, one): None for letter in own for one in shared + own[letter]}


def examples():
    """The worked examples of docs/MATH.md: (letter, pattern) and result."""
    letters = {name: letter for letter, name in NAMES.items()}
    row = re.compile(
        r"^\| (exp|ln|ln_1p) \|.*\| `([0-9a-f]{16})` \|.*\| `([0-9a-f]{16})` \|$", re.M
    )
    found = row.findall((ROOT / "docs/MATH.md").read_text(encoding="utf-8"))
    if len(found) < 12:
        sys.exit("accuracy: docs/MATH.md has lost its worked examples")
    return {
        (letters[name], int(argument, 16)): int(result, 16)
        for name, argument, result in found
    }


def ask(command, questions):
    """What the filter program answers: patterns in order."""
    lines = "".join(f"{letter} {one:016x}\n" for letter, one in questions)
    done = subprocess.run(command, input=lines.encode(), stdout=subprocess.PIPE)
    answers = done.stdout.decode().split("\n")
    if done.returncode or len(answers) != len(questions) + 1 or answers.pop():
        sys.exit(f"accuracy: the filter gave status {done.returncode}")
    if not all(re.fullmatch("[0-9a-f]{16}", answer) for answer in answers):
        sys.exit("accuracy: the filter gave a line that is no bit pattern")
    return [int(answer, 16) for answer in answers]


# What must hold.

EXACT = {
    ("E", ZERO): ONE,
    ("E", SIGN): ONE,
    ("E", INFINITY): INFINITY,
    ("E", INFINITY | SIGN): ZERO,
    ("L", ONE): ZERO,
    ("L", ZERO): INFINITY | SIGN,
    ("L", SIGN): INFINITY | SIGN,
    ("L", INFINITY): INFINITY,
    ("P", ZERO): ZERO,
    ("P", SIGN): ZERO,
    ("P", MINUS_ONE): INFINITY | SIGN,
    ("P", INFINITY): INFINITY,
}


def exact(letter, argument):
    """The result's bits where they are fixed, else None."""
    # Patterns above that of -0 are numbers below zero; so too with -1.
    below_zero = letter == "L" and argument > SIGN
    below_minus_one = letter == "P" and argument > MINUS_ONE
    if is_nan(argument) or below_zero or below_minus_one:
        return NAN
    return EXACT.get((letter, argument))


def bounds(letter, x, r):
    """Each bound that speaks of x, and whether the result r keeps it."""
    if letter == "E":
        if x <= 0:
            yield "0 <= exp <= 1", 0 <= r <= UNIT
        if -UNIT <= x <= 0:
            yield "1 + x <= exp", UNIT + x <= r + SLACK
            yield "exp <= 1 + x + x²/2", 2 * UNIT * (r - SLACK - UNIT - x) <= x * x
    elif letter == "L":
        if 0 < x <= UNIT:
            yield "-745 <= ln <= 0", -745 * UNIT <= r <= 0
        if UNIT <= 2 * x <= 2 * UNIT:
            yield "1 - 1/x <= ln", UNIT * (x - UNIT) <= x * (r + SLACK)
            yield "ln <= x - 1", r <= x - UNIT + SLACK
    elif 0 <= x <= UNIT:
        yield "y - y²/2 <= ln_1p", 2 * UNIT * (x - r - SLACK) <= x * x
        yield "ln_1p <= y", r <= x + SLACK


def error(letter, argument, result):
    """The error of a finite result: relative for exp, else absolute."""
    x = number(argument)
    if letter == "E":
        truth = x.exp()
        return abs(number(result) - truth) / truth
    return abs(number(result) - (x if letter == "L" else 1 + x).ln())


def faults(letter, argument, result, wanted):
    """What is wrong with one result apart from its error: texts."""
    if wanted is not None and result != wanted:
        yield f"is not {wanted:016x}"
    if result == SIGN:
        yield "is -0"
    if is_finite(argument) and is_finite(result):
        for bound, kept in bounds(letter, units(argument), units(result)):
            if not kept:
                yield f"breaks {bound}"
    elif is_finite(argument) and wanted is None:
        # Only exp may overflow, and only above the range of its error.
        may_overflow = letter == "E" and units(argument) > 700 * UNIT
        if result != INFINITY or not may_overflow:
            yield "is not finite"


@dataclass
class Range:
    """Arguments whose errors are limited, and the largest error among them."""

    letter: str
    words: str
    low: int
    high: int
    measured: int = 0
    largest: Decimal = Decimal(0)
    at: int = ZERO

    def holds(self, letter, argument):
        return letter == self.letter and self.low <= units(argument) <= self.high

    def add(self, size, argument):
        self.measured += 1
        if size > self.largest:
            self.largest, self.at = size, argument

    def report(self):
        kind = "relative" if self.letter == "E" else "absolute"
        power = math.log2(self.largest) if self.largest else -math.inf
        print(
            f"accuracy: {NAMES[self.letter]}, {self.words}: largest error"
            f" 2^{power:.2f} {kind} at {self.at:016x}, of {self.measured} measured"
        )


def ranges():
    """Where errors are measured. The ends are whole numbers of 2^-1074."""
    largest = units(INFINITY - 1)
    return [
        Range("E", "-700 to 700", -700 * UNIT, 700 * UNIT),
        Range("L", "above zero", 1, largest),
        Range("L", "1/2 to 2", UNIT // 2, 2 * UNIT),
        Range("P", "from zero", 0, largest),
        Range("P", "0 to 1", 0, UNIT),
    ]


def main(words):
    if len(words) < 2 or words[0] != "--":
        sys.exit(__doc__)
    begun = time.monotonic()
    worked = examples()
    questions = list(worked | arguments())
    answers = ask(words[1:], questions)

    wrong = []
    measures = ranges()
    for (letter, argument), result in zip(questions, answers):
        wanted = worked.get((letter, argument), exact(letter, argument))
        found = list(faults(letter, argument, result, wanted))
        if is_finite(argument) and is_finite(result):
            within = [one for one in measures if one.holds(letter, argument)]
            if within:
                size = error(letter, argument, result)
                for one in within:
                    one.add(size, argument)
                if size > ERROR_LIMIT:
                    found.append("has an error above 2^-36")
        wrong += (f"{NAMES[letter]} {argument:016x}: {result:016x} {f}" for f in found)

    for one in measures:
        one.report()
    for line in wrong[:SHOWN]:
        print(line)
    print(
        f"accuracy: {len(questions)} arguments, {len(wrong)} faults,"
        f" {time.monotonic() - begun:.1f} s"
    )
    if wrong:
        sys.exit(1)


if __name__ == "__main__":
    main(sys.argv[1:])
