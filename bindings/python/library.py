"""Finds the proved library as a shared one, and builds it on first use.

`rt` proves crates and writes static archives; tools/native-staticlib puts them into target/native. A linker makes one
shared library of both, target/native/libcauseylark.so, which ctypes can load. Nothing is compiled from C.
"""

import ctypes
import os
import shutil
import subprocess
import sys
import threading
import time
from pathlib import Path

ROOT = Path(__file__).resolve().parents[2]
NATIVE = ROOT / "target/native"
SHARED = NATIVE / "libcauseylark.so"
# The crates whose functions C can call. Each becomes an archive of its own.
CRATES = ("export", "export_train")

BYTES, U32, U64, F64 = ctypes.c_uint8, ctypes.c_uint32, ctypes.c_uint64, ctypes.c_double
SIZE = ctypes.c_size_t


class Unavailable(Exception):
    """There is no library, and why none could be built."""


def archive(crate):
    return NATIVE / f"lib{crate}.a"


def age(path):
    """When a file was last written; before everything else where there is none."""
    return path.stat().st_mtime if path.is_file() else 0.0


def needed(crate):
    """The crates that this one stands on, with itself, as crates.txt has them."""
    lines = (line.split("#")[0] for line in (ROOT / "crates.txt").read_text().splitlines())
    rows = (line.partition(":") for line in lines)
    below = {name.split()[0]: deps.split() for name, _, deps in rows if name.strip()}
    found, waiting = set(), [crate]
    while waiting:
        name = waiting.pop()
        if name in below and name not in found:
            found.add(name)
            waiting += below[name]
    return found


def newest_source(crate):
    """When the code of a crate, or of one that it stands on, was last written."""
    sources = (source for name in needed(crate) for source in (ROOT / "crates" / name / "src").glob("*.rt"))
    return max(map(age, sources), default=0.0)


def run(command, what):
    """Runs a command of the build. Its last lines are the reason where it fails."""
    try:
        ended = subprocess.run(command, cwd=ROOT, stdin=subprocess.DEVNULL, capture_output=True)
    except OSError as reason:
        raise Unavailable(f"{what} failed: {reason}") from reason
    if ended.returncode:
        said = (ended.stderr + ended.stdout).decode(errors="replace").strip().splitlines()
        raise Unavailable("\n".join([f"{what} failed:", *said[-5:]]))


def proved(crates):
    """How many of these crates are proved so far."""
    return sum((ROOT / "crates" / name / "out/rlib/stamp").exists() for name in crates)


def build_archive(crate, say):
    """Proves a crate and what it stands on, as far as that is not done, and writes its archive."""
    if not shutil.which("rt"):
        raise Unavailable(
            f"the library has to be built once, and `rt`, the Rattle kit, is not on the PATH (target/native/lib{crate}.a is "
            "missing, or older than the code)"
        )
    crates = needed(crate)
    ended = threading.Event()

    def tell():
        while not ended.wait(1):
            say(f"building the library: {proved(crates)} of {len(crates)} crates below {crate} are proved")

    teller = threading.Thread(target=tell, daemon=True)
    teller.start()
    try:
        run(["tools/native-staticlib", crate], f"tools/native-staticlib {crate}")
    finally:
        ended.set()
        teller.join()


def link(shared, crates):
    """Makes a shared library of the crates' archives. It appears whole, so two that build at once do not meet."""
    if not shutil.which("cc"):
        raise Unavailable("the library has to be linked once, and there is no `cc`, a C compiler, on the PATH")
    made = shared.with_name(f"{shared.name}.{os.getpid()}")
    archives = [str(archive(crate)) for crate in crates]
    run(["cc", "-shared", "-o", str(made), "-Wl,--whole-archive", *archives, "-Wl,--no-whole-archive"], "linking by cc")
    os.replace(made, shared)


def ready(say, shared, crates):
    """Builds what is missing or older than the code it is made from. `say` is told what is going on."""
    stale = [crate for crate in crates if age(archive(crate)) <= newest_source(crate)]
    if stale:
        say("building the library, once; where no crate is proved yet, that takes many minutes", True)
    for crate in stale:
        build_archive(crate, say)
    if age(shared) <= max(age(archive(crate)) for crate in crates):
        link(shared, crates)
        say(f"built {shared.relative_to(ROOT)}", True)


def slices(*types):
    """The arguments of so many slices: a pointer and a count each."""
    return [word for of in types for word in (ctypes.POINTER(of), SIZE)]


# The functions that causeylark.py calls, as include/causeylark.h declares them.
DECLARED = {
    "causeylark_utf8_valid_up_to": (SIZE, slices(BYTES)),
    "causeylark_cut": (U32, [SIZE, *slices(BYTES, BYTES, U32, F64, U32, U64, U32, U32, F64, U64)]),
    "causeylark_train": (
        U32,
        [SIZE, U32, SIZE, SIZE, U64, F64, SIZE]
        + slices(BYTES, U32, BYTES, U32, U64)
        + slices(U32, U64, U32)
        + slices(U32, U32, U32, U32, U64)
        + slices(U32, U64, F64, F64)
        + slices(U64, U32)
        + slices(U32, U32, U32, U32)
        + slices(BYTES, U32, F64)
        + slices(U64),
    ),
}


def load(say=lambda *_: None, declared=DECLARED, shared=SHARED, crates=CRATES):
    """The shared library of these crates, built if need be, with its functions declared."""
    ready(say, shared, crates)
    try:
        library = ctypes.CDLL(str(shared))
        for name, (answer, arguments) in declared.items():
            function = getattr(library, name)
            function.restype, function.argtypes = answer, arguments
    except (OSError, AttributeError) as reason:
        raise Unavailable(f"{shared.relative_to(ROOT)} does not load: {reason}") from reason
    return library
