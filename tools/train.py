#!/usr/bin/env python3
"""Runs the program `train`, one input after the other, and compares what it prints.

    python3 tools/train.py cases                       # those of crates/train/cases, which tools/vectors/train.py makes
    python3 tools/train.py drawn --cases 2000          # drawn inputs; needs target/oracle/ours/oracle
    python3 tools/train.py hostile --cases 2000        # inputs that are no frames, or were, or are very long
    python3 tools/train.py cases -- COMMAND            # runs another program

Each run has to end with status 0 and write nothing to standard error. What it prints is compared with the model of
tools/vectors/train.py byte for byte; a hostile input that is in order all the same needs the oracle for that, and without one only
the form of the answer is looked at. Hostile inputs of 64 MB and more are run in an address space of 64 MB, so that
memory that grows with the input would end the run.

The program is crates/train/out/train, proved first if it has changed, as tools/run does it."""

import argparse
import os
import random
import re
import resource
import subprocess
import sys
import time
from concurrent.futures import ThreadPoolExecutor
from pathlib import Path

ROOT = Path(__file__).resolve().parents[1]
sys.path.insert(0, str(ROOT / "tools/vectors"))
sys.dont_write_bytecode = True

import importlib.util  # noqa: E402

spec = importlib.util.spec_from_file_location("train_vectors", ROOT / "tools/vectors/train.py")
model = importlib.util.module_from_spec(spec)
spec.loader.exec_module(model)

ANSWER = re.compile(r"11[0-9a-f]{32}\n(12[0-9a-f]{26}([0-9a-f]{2})*\n)*13[0-9a-f]{8}\n")


def program():
    """The command that runs crates/train/out/train. A run with no input proves and builds it."""
    folder, nothing = ROOT / "crates/train", subprocess.DEVNULL
    if subprocess.run(["rt", "run"], cwd=folder, stdin=nothing, stdout=nothing, stderr=nothing).returncode:
        sys.exit("train: the program is not proved: see rt check in crates/train")
    return [str(folder / "out/train")]


def run(command, data, limit=None):
    """What the program prints; or what is wrong with the run."""
    bound = (lambda: resource.setrlimit(resource.RLIMIT_AS, (limit, limit))) if limit else None
    done = subprocess.run(command, input=data, stdout=subprocess.PIPE, stderr=subprocess.PIPE, preexec_fn=bound)
    if done.returncode or done.stderr:
        return f"status {done.returncode}, on standard error {done.stderr[:200]!r}"
    return done.stdout.decode("latin-1")


def compare(command, named, outputs, limit=None):
    """Runs every input; ends at the first that prints something else. None is an output that takes an oracle."""
    refused = 0
    with ThreadPoolExecutor(os.cpu_count()) as pool:
        prints = pool.map(lambda each: run(command, each[1], limit), named)
        for (name, data), wanted, printed in zip(named, outputs, prints, strict=True):
            if printed != wanted and (wanted is not None or not ANSWER.fullmatch(printed)):
                kept = ROOT / "target/train.in"
                kept.parent.mkdir(exist_ok=True)
                kept.write_bytes(data)
                sys.exit(f"train: {name}: printed\n{printed[:400]}\nand not\n{(wanted or '')[:400]}\nthe input is target/train.in")
            refused += printed[2:4] != "00"
    return refused


def cases(command, _):
    named = list(model.stored(model.FILE.read_text()))
    refused = compare(command, [each[:2] for each in named], [each[2] for each in named])
    return len(named), refused


def batches(command, options, make):
    done = refused = 0
    while done < options.cases:
        size = min(500, options.cases - done)
        rng = random.Random(f"{options.command} {options.seed} {done}")
        named = [(f"{options.command} {done + index}", make(rng)) for index in range(size)]
        refused += compare(command, named, model.expect([data for _, data in named]))
        done += size
    return done, refused


def drawn(command, options):
    return batches(command, options, model.drawn)


def noise(rng):
    """Bytes of all kinds, or digits and line ends, or an input with a few changes."""
    kind = rng.random()
    if kind < 0.15:
        return rng.randbytes(rng.choice((1, 10, 100, 1000, 100000)))
    if kind < 0.3:
        return bytes(rng.choice(b"0123456789abcdef\n") for _ in range(rng.choice((1, 70, 600, 5000))))
    if kind < 0.4:
        heads = (model.first(specials=rng.choice((0, 1, 65535))), b"0200", b"03" + b"0" * 18, b"0400000000", b"", b"01", b"ff")
        return model.joined(rng.choice(heads) for _ in range(rng.choice((1, 5, 400))))
    data = model.drawn(rng)
    for _ in range(rng.choice((1, 1, 1, 2, 5))):
        data = model.mutated(rng, data)
    return data


def giants():
    """Lines of megabytes, and megabytes of lines."""
    head = model.first()
    yield "a line of 64 MB", b"0" * 2**26
    yield "a line of 64 MB behind the 01", head + b"\n" + b"a" * 2**26 + b"\n" + model.count(0) + b"\n"
    yield "64 MB of line ends", b"\n" * 2**26
    yield "64 MB of NULs", b"\0" * 2**26
    yield "a million words", model.joined([head, *[model.word(b"%06d" % k) for k in range(10**6)], model.count(10**6)])
    yield "a million words, and one more counted", model.joined([head, *[model.word(b"%06d" % k) for k in range(10**6)], model.count(10**6 + 1)])
    yield "65,535 specials of 255 bytes", model.joined([model.first(specials=65535), *[model.special(b"s" * 255)] * 65535, model.word(b"a"), model.count(1)])
    yield "a million lines after the 04", model.make([(b"a", 1)]) + model.count(1) * 10**6


def hostile(command, options):
    done, refused = batches(command, options, noise)
    small = run([*command], b"")
    if small != model.refused(1, 1):
        sys.exit(f"train: the empty input prints {small}")
    named = list(giants())
    refused += compare(command, named, model.expect([data for _, data in named]), 2**26)
    return done + len(named), refused


def main():
    words = sys.argv[1:]
    command = None
    if "--" in words:
        command, words = words[words.index("--") + 1 :], words[: words.index("--")]
    parser = argparse.ArgumentParser(description=__doc__, formatter_class=argparse.RawDescriptionHelpFormatter)
    parser.add_argument("command", choices=("cases", "drawn", "hostile"))
    parser.add_argument("--cases", type=int, default=2000)
    parser.add_argument("--seed", type=int, default=1)
    options = parser.parse_args(words)
    if options.command == "drawn" and not model.has_oracle():
        sys.exit("train: there is no target/oracle/ours/oracle: see tools/oracle/README.md")
    began = time.time()
    done, refused = {"cases": cases, "drawn": drawn, "hostile": hostile}[options.command](command or program(), options)
    print(f"train: {options.command}: {done} inputs, {refused} refused, {time.time() - began:.0f} s")


if __name__ == "__main__":
    main()
