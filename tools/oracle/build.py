#!/usr/bin/env python3
"""Builds the oracle from the three Rust files in the folder that SPLINTR_SRC names.

They are compiled as they are, but for an edit that is undone and compared before anything is built: the five calls of
the mathematics get our names, and a last line lets a module of ours look in.
"""

import argparse
import hashlib
import os
import pathlib
import platform
import re
import shutil
import subprocess
import sys

ROOT = pathlib.Path(__file__).resolve().parents[2]
TARGET = ROOT / "target" / "oracle"

# The files of the source as they were when README.md was written.
SHA256 = {
    "mod.rs": "ce1b78248e7a6069e842774d50ae0d5b10c3a0c1039e50d67d612346e5a5ea12",
    "lattice.rs": "79adfc80ee788e074c19a7778b304d188f17ef61c08028b22553d4780d0987b5",
    "trie.rs": "f1298d854bdae7ed83e9ef78420ba67a46bf36e3c89dd63ab6f22f1de47c69f1",
}

# Every call of the mathematics, by file: the function that makes it, the call, its line.
CALLS = {
    "mod.rs": [
        ("seed", "ln", ".map(|(_, count)| (*count as f64 / total).ln())"),
        ("expectation_maximization", "ln", "(*count / total).ln()"),
    ],
    "lattice.rs": [
        ("log_add", "exp", "hi + (lo - hi).exp().ln_1p()"),
        ("log_add", "ln_1p", "hi + (lo - hi).exp().ln_1p()"),
        ("expectations", "exp", "emit(edge.piece, marginal.exp());"),
    ],
    "trie.rs": [],
}
CALL = re.compile(r"\.(exp|ln|ln_1p)\(\)")
RENAMED = re.compile(r"\.causeylark_(exp|ln|ln_1p)\(\)")
# Any name under which code could reach the standard library's mathematics.
NAMED = re.compile(r"\b(exp|exp2|exp_m1|ln|ln_1p|log|log2|log10|powf|powi|sqrt|cbrt|hypot|a?(sin|cos|tan)h?|atan2)\b")
# The last line of the files whose private items are asked for. Only a child module sees those.
LAST = {
    "ours": "pub(crate) mod probe; use crate::mathematics::Mathematics as _;\n",
    "stock": "pub(crate) mod probe;\n",
}
PROBED = ("mod.rs", "lattice.rs")


class Refused(Exception):
    """The source is not what the edit was written for."""


def calls(text):
    """The function, the call and the line of every call of the mathematics."""
    for match in CALL.finditer(text):
        functions = re.findall(r"\bfn (\w+)", text[: match.start()])
        line = text[text.rfind("\n", 0, match.start()) + 1 :].split("\n", 1)[0]
        yield functions[-1] if functions else None, match[1], line.strip()


def last_line(name, mathematics):
    return LAST[mathematics] if name in PROBED else ""


def prepare(name, text, mathematics):
    """What is compiled in the place of `text`, the file `name`. Refuses a file that the edit was not written for."""
    found = list(calls(text))
    if found != CALLS[name]:
        raise Refused(f"{name}: the calls of the mathematics are {found}, not {CALLS[name]}")
    renamed = CALL.sub(r".causeylark_\1()", text)
    for line in renamed.split("\n"):
        if not line.lstrip().startswith("//") and NAMED.search(line):
            raise Refused(f"{name}: mathematics beyond the five calls: {line.strip()}")
    prepared = (renamed if mathematics == "ours" else text) + last_line(name, mathematics)
    if undo(name, prepared, mathematics) != text:
        raise Refused(f"{name}: the edit cannot be undone")
    return prepared


def undo(name, prepared, mathematics):
    """The file as it was before `prepare`."""
    return RENAMED.sub(r".\1()", prepared.removesuffix(last_line(name, mathematics)))


def read_source():
    """The three files by name, from the folder in SPLINTR_SRC."""
    if "SPLINTR_SRC" not in os.environ:
        raise Refused("SPLINTR_SRC is not set: it names the folder that holds crates/train/src/unigram/")
    folder = pathlib.Path(os.environ["SPLINTR_SRC"]) / "crates" / "train" / "src" / "unigram"
    return {name: (folder / name).read_bytes().decode() for name in SHA256}


def sha256(data):
    return hashlib.sha256(data).hexdigest()


def library(given):
    """The archive that holds our mathematics."""
    place = pathlib.Path(given) if given else ROOT / "target/native/libexport.a"
    if place.is_file():
        return place.resolve()
    raise Refused(
        "no library of our mathematics: make it by `tools/native-staticlib export`, or name one by --library; --stock needs none"
    )


def lay(folder, source, mathematics):
    """Writes folder/src: what is compiled, with the prepared files among it."""
    prepared = {name: prepare(name, text, mathematics) for name, text in source.items()}
    shutil.rmtree(folder, ignore_errors=True)
    shutil.copytree(pathlib.Path(__file__).parent / "src", folder / "src")
    for name, text in prepared.items():
        (folder / "src" / "unigram" / name).write_bytes(text.encode())


def warn(source):
    """Says which files are not those that README.md names."""
    for name, text in source.items():
        if sha256(text.encode()) != SHA256[name]:
            print(f"warning: {name} is not the file that README.md names", file=sys.stderr)


def configured(mathematics):
    """The arguments that say which mathematics is compiled."""
    return ["--check-cfg", 'cfg(mathematics, values("ours", "stock"))', "--cfg", f'mathematics="{mathematics}"']


def original(mathematics):
    """Builds the Rust as a library, and gives its path. With our mathematics, what links it links our library too."""
    source = read_source()
    name = f"original_{mathematics}"
    folder = TARGET / name
    lay(folder, source, mathematics)
    rlib = folder / f"lib{name}.rlib"
    subprocess.run(
        ["rustc", "-C", "opt-level=3", "-C", "codegen-units=1", "--edition", "2021", "--crate-name", name]
        + ["--crate-type", "rlib", "-D", "warnings", *configured(mathematics), "-o", rlib, folder / "src" / "original.rs"],
        check=True,
    )
    warn(source)
    return rlib


def build(mathematics, given=None):
    """Builds target/oracle/`mathematics`/oracle and writes beside it, in made.txt, from what."""
    source = read_source()
    if mathematics == "ours":
        archive = library(given)
        # The archive need not be position-independent, so the program is not.
        link = ["-C", f"link-arg={archive}", "-C", "relocation-model=static"]
        which = f" of the library {sha256(archive.read_bytes())}" if given else ""
    else:
        link = []
        # The standard library's functions are those of the C library at hand.
        which = f" of {' '.join(platform.libc_ver())} on {platform.machine()}"
    folder = TARGET / mathematics
    lay(folder, source, mathematics)
    subprocess.run(
        ["rustc", "-O", "--edition", "2021", "--crate-name", "oracle", "-o", folder / "oracle"]
        + configured(mathematics) + link + [folder / "src" / "main.rs"],
        check=True,
    )
    sums = {name: sha256(text.encode()) for name, text in source.items()}
    made = [f"mathematics: {mathematics}{which}", *(f"{found} unigram/{name}" for name, found in sums.items())]
    (folder / "made.txt").write_text("\n".join(made) + "\n")
    print("\n".join(made + [str((folder / "oracle").relative_to(ROOT))]))
    warn(source)


def main():
    parser = argparse.ArgumentParser(description=__doc__, formatter_class=argparse.RawDescriptionHelpFormatter)
    parser.add_argument("--stock", action="store_true", help="the standard library's mathematics in the place of ours")
    parser.add_argument("--library", metavar="FILE", help="the archive that holds ours")
    options = parser.parse_args()
    try:
        build("stock" if options.stock else "ours", options.library)
    except (Refused, OSError, subprocess.CalledProcessError) as reason:
        sys.exit(f"build.py: {reason}")


if __name__ == "__main__":
    main()
