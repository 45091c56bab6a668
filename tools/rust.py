#!/usr/bin/env python3
"""Compile a tool that is written in Rust, and run it.

    python3 tools/rust.py bindings [--library FILE]      the tests and the example of bindings/rust
    python3 tools/rust.py compare [--library FILE]       bits against docs/MATH.md's law
    python3 tools/rust.py lattices [--library FILE] [--cases N] [--seed N]
                                                         lattices and refusals against the Rust original
    python3 tools/rust.py cuts [--library FILE] [--cases N] [--seed N]
                                                         cuts, the one-word cut, expectations and refusals
                                                         against the Rust original
    python3 tools/rust.py seeds [--library FILE] [--cases N] [--seed N]
                                                         seed lists and refusals against the Rust original; it needs
                                                         tools/native-staticlib bench_seed too
    python3 tools/rust.py bench-math [--library FILE]    speed against libm
    python3 tools/rust.py bench-utf8 [--library FILE]    speed against std::str::from_utf8
    python3 tools/rust.py bench-lattices [--library FILE]
                                                         speed against the Rust original
    python3 tools/rust.py bench-cuts [--library FILE]    the same of cuts, the one-word cut and expectations; it
                                                         needs tools/native-staticlib bench_cuts too
    python3 tools/rust.py bench-seed [--library FILE] [--rounds N]
                                                         the same of seed lists; it needs bench_seed as seeds does
    python3 tools/rust.py bench-train [--library FILE] [--rounds N]
                                                         the same of training, which is compared bit for bit
    python3 tools/rust.py filter                         the reference as a filter

The library is the static library with the proved code, which
tools/native-staticlib export writes. It is looked for in target/native if none is
named. That of training, which tools/native-staticlib export_train writes, is
looked for there. The Rust original is compiled from the folder that SPLINTR_SRC names, as
tools/oracle/README.md says. Other arguments go to the tool.
"""

import argparse
import subprocess
import sys
from pathlib import Path

ROOT = Path(__file__).resolve().parents[1]
OUT = ROOT / "target/tools"
RUSTC = ["rustc", "--edition", "2021", "-C", "opt-level=3", "-D", "warnings"]

# Tool: its programs, each a source and the kind of what it links, which says
# what the kind before it says and more: nothing, the proved code by way of
# bindings/rust, the Rust original too. More libraries of proved code follow by
# name. A source in a folder tests/ is a program of tests.
ALONE, PROVED, ORIGINAL = range(3)
BINDINGS = [f"bindings/rust/{name}.rs" for name in ("tests/lattices", "tests/cuts", "tests/training", "examples/aba")]
TOOLS = {
    "bindings": (BINDINGS, PROVED),
    "compare": (["tools/math/compare.rs"], PROVED),
    "lattices": (["tools/lattices/compare.rs"], ORIGINAL),
    "cuts": (["tools/cuts/compare.rs"], ORIGINAL),
    "seeds": (["tools/seeds/compare.rs"], ORIGINAL, "bench_seed"),
    "bench-math": (["tools/bench/math.rs"], PROVED),
    "bench-utf8": (["tools/bench/utf8.rs"], PROVED),
    "bench-lattices": (["tools/bench/lattices.rs"], ORIGINAL),
    "bench-cuts": (["tools/bench/cuts.rs"], ORIGINAL, "bench_cuts"),
    "bench-seed": (["tools/bench/seed.rs"], ORIGINAL, "bench_seed"),
    "bench-train": (["tools/bench/train.rs"], ORIGINAL),
    "filter": (["tools/math/filter.rs"], ALONE),
}


def library(named, name="export"):
    """The static library that is named, or that of this name in target/native."""
    place = Path(named).resolve() if named else ROOT / f"target/native/lib{name}.a"
    if place.is_file():
        return place
    sys.exit(f"rust: no library at {place}")


def originals():
    """The arguments that link the Rust original, built by the oracle's own script: with our mathematics under its own name,
    and as `stock` with the standard library's."""
    sys.dont_write_bytecode = True
    sys.path.insert(0, str(ROOT / "tools/oracle"))
    import build

    try:
        built = {"original": build.original("ours"), "stock": build.original("stock")}
    except (build.Refused, OSError, subprocess.CalledProcessError) as reason:
        sys.exit(f"rust: {reason}")
    return [word for name, rlib in built.items() for word in ("--extern", f"{name}={rlib}")]


def rustc(out, source, *more):
    out.parent.mkdir(parents=True, exist_ok=True)
    if subprocess.run([*RUSTC, *more, "-o", str(out), str(ROOT / source)]).returncode:
        sys.exit("rust: rustc failed")
    return out


def linked(kind, named, more):
    """The arguments that link what a tool of this kind needs, and more libraries by name."""
    arguments = []
    if kind >= PROVED:
        archives = [library(named), library(None, "export_train")]
        bindings = OUT / "libcauseylark.rlib"
        rustc(bindings, "bindings/rust/src/lib.rs", "--crate-name", "causeylark", "--crate-type", "rlib")
        arguments += ["--extern", f"causeylark={bindings}"]
        arguments += [word for archive in archives for word in ("-C", f"link-arg={archive}")]
    if kind >= ORIGINAL:
        arguments += originals()
    return arguments + [word for name in more for word in ("-C", f"link-arg={library(None, name)}")]


def compile_tool(tool, named):
    """Compile one tool. Its program stands at target/tools/TOOL; where it has
    more than one, at target/tools/TOOL-NAME."""
    sources, kind, *more = TOOLS[tool]
    arguments = linked(kind, named, more)
    programs = []
    for source in map(Path, sources):
        program = OUT / (tool if len(sources) == 1 else f"{tool}-{source.stem}")
        test = ["--test"] if source.parent.name == "tests" else []
        programs.append(rustc(program, source, *arguments, *test))
    return programs


def main():
    parser = argparse.ArgumentParser(description=__doc__, formatter_class=argparse.RawDescriptionHelpFormatter)
    parser.add_argument("tool", choices=TOOLS)
    parser.add_argument("--library", metavar="FILE")
    chosen, more = parser.parse_known_args()
    for program in compile_tool(chosen.tool, chosen.library):
        ended = subprocess.run([program, *more]).returncode
        if ended:
            sys.exit(ended)


if __name__ == "__main__":
    main()
