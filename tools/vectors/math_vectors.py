#!/usr/bin/env python3
"""Writes crates/math_vectors/stdin, questions for the filter math_vectors, and the stdout that it must write.

    python3 tools/vectors/math_vectors.py

The questions are the worked examples of docs/MATH.md and every fiftieth of those that tools/math/accuracy.py asks. The
answers are those of the reference, tools/math/reference.rs, which is written from docs/MATH.md and not from the proved
code; so this needs rustc, and the program that replays them does not."""

import itertools
import subprocess
import sys
from pathlib import Path

ROOT = Path(__file__).resolve().parents[2]
sys.path.insert(0, str(ROOT / "tools/math"))

import accuracy  # noqa: E402

EVERY = 50


def main():
    chosen = itertools.islice(accuracy.arguments(), 0, None, EVERY)
    questions = list(accuracy.examples() | dict.fromkeys(chosen))
    answers = accuracy.ask([sys.executable, str(ROOT / "tools/rust.py"), "filter"], questions)
    crate = ROOT / "crates/math_vectors"
    crate.joinpath("stdin").write_text("".join(f"{letter} {one:016x}\n" for letter, one in questions))
    crate.joinpath("stdout").write_text("".join(f"{answer:016x}\n" for answer in answers))
    print(f"math_vectors: {len(questions)} questions")


if __name__ == "__main__":
    main()
