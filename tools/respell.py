#!/usr/bin/env python3
"""Brings the names of definitions and lemmas to snake case: `best-cut` and `bestCut` become `best_cut`.

usage: python3 tools/respell.py [--list]      at the top of the repository, once, after the kit's own script

Only names that the repository declares in specs/ and proofs/ move, each where a file declares it or imports it from a crate of
its own. What the kit makes or declares keeps its spelling, and so do functions of src/, exported names, strings, inputs and
outputs. Where two names would fall together in a file, or a new name is already a word of it, it says so: such a place was looked at, and
OTHERWISE has another name where it matters. With --list nothing is written.
"""
import collections
import glob
import os
import re
import sys

WORD = re.compile(r"[^\s(){}\[\],;.:=\"`]+")
HEAD = re.compile(r"^(\s*)((?:pub |abbrev |unfoldable )*)(record|data)\s+([^\s:({]+)")
SIG = re.compile(r"^(\s*)((?:pub |abbrev |unfoldable )*)([^\s:({.,\[]+)((?:\s+\{[^}]*\}|\s+[ℓκ₀-₉]+)*)\s+:(\s.*|)$")
USE = re.compile(r"^\s*(?:pub |ghost )*use\s+([^\s{;]+?)(?:\.\{([^}]*)\})?(?:\s+as\s+([^\s;]+))?;?\s*$")
# What Rattle makes: it must stay as the check spells it.
MADE = re.compile(r"^(invariant|decreases)-|^(Need|At|In|After|Left|Then|Else|Start)-")


# Where the rule would make two names one: the definition keeps the plain name and the lemma gets `_lem`, or one has another word.
OTHERWISE = {
    "latticeOf": "whole_lattice",
    "edgesOf": "edges_seen",
    "offsetsOf": "offsets_seen",
    "seedWork": "seeding_work",
    "seedSize": "seed_size_of",
    "atPosition": "value_at_position",
    "inOrder": "listed_in_order",
    "is-nan": "is_nan_lem",
    "row-at": "row_at_lem",
    "edge-count": "edge_count_lem",
    "edges-before": "edges_before_lem",
    "offsets-before": "offsets_before_lem",
    "char-count": "char_count_lem",
    "remap-from": "remap_from_lem",
    "count-over": "count_over_lem",
    "by-worth": "by_worth_lem",
    "bytes-before": "bytes_before_lem",
    "keep-of": "keep_of_lem",
    "add-one": "add_one_lem",
    "add-each": "add_each_lem",
    "by-class": "by_class_lem",
}


def renamed(name):
    if name in OTHERWISE:
        return OTHERWISE[name]
    new = name.replace("-", "_")
    if new[:1].islower():
        new = re.sub(r"([a-z0-9])([A-Z])", lambda m: m.group(1) + "_" + m.group(2).lower(), new)
    return new


def declared(text):
    """The names that a file declares, in its body or in its records and data."""
    for line in text.split("\n"):
        if line.lstrip().startswith("--"):
            continue
        m = HEAD.match(line)
        if m:
            yield m.group(4), len(m.group(1))
            continue
        m = SIG.match(line)
        if m and m.group(3) not in ("let", "in", "λ", "→"):
            yield m.group(3), len(m.group(1))


def imports(text):
    """For each imported word of a file, whether a crate of the repository has it; and the modules that it names."""
    own, foreign = set(), set()
    for line in text.split("\n"):
        m = USE.match(line)
        if not m:
            continue
        module, items, _ = m.groups()
        part = module.split(".")
        ours = part[0] == "Rattle" and part[1] in CRATES
        for it in (items or "").split(","):
            it = it.strip()
            if it:
                (own if ours else foreign).add(it.split(" as ")[0].strip())
                if " as " in it:
                    own.add(it.split(" as ")[1].strip())
    return own, foreign


# Rattle makes a module `specs.contracts`, so no file of specs/ has that name in other letters.
MOVED = {("crates/trie/specs/Contracts.antt", "trie.specs.Contracts"): ("crates/trie/specs/Promised.antt", "trie.specs.Promised")}

CRATES = {p.split("/")[1] for p in glob.glob("crates/*/")}


def main():
    files = {}
    for pattern in ("crates/*/specs/**/*.antt", "crates/*/proofs/**/*.antt", "crates/*/src/**/*.rt"):
        for path in sorted(glob.glob(pattern, recursive=True)):
            with open(path, encoding="utf-8") as f:
                files[path] = f.read()
    here = {path: {n for n, _ in declared(text)} if path.endswith(".antt") else set() for path, text in files.items()}
    every = set().union(*here.values())
    moving = {n for n in every if renamed(n) != n and not MADE.match(n)}
    said = 0
    out = {}
    for path, text in files.items():
        own, foreign = imports(text)
        # a field or a constructor needs no import: any moving name may stand here, unless the kit's is imported
        stays = foreign - own - here[path]
        words = set(WORD.findall(text))
        moved = {}

        new = []
        at = 0
        # strings of .rt files keep their text
        for s in re.finditer(r'"(?:[^"\\\n]|\\.)*"', text) if path.endswith(".rt") else ():
            new.append(("code", at, s.start()))
            new.append(("text", s.start(), s.end()))
            at = s.end()
        new.append(("code", at, len(text)))
        made = ""
        for kind, a, b in new:
            piece = text[a:b]
            if kind == "code":
                base = a
                piece = WORD.sub(lambda m: turn_at(m, base, text, moving, stays, moved), piece)
            made += piece
        back = collections.defaultdict(set)
        for old, to in moved.items():
            back[to].add(old)
        for to, olds in back.items():
            if len(olds) > 1 or to in words:
                said += 1
                print(f"{path}: {', '.join(sorted(olds))} -> {to}" + (", which stands there already" if to in words else ""))
        if made != text:
            out[path] = made
    print(f"{len(out)} files, {len(moving)} names" + (f", {said} places to look at" if said else ""))
    if "--list" in sys.argv:
        return 0
    for path, made in out.items():
        with open(path, "w", encoding="utf-8") as f:
            f.write(made)
    for (path, module), (to, named) in MOVED.items():
        if not os.path.exists(path):
            continue
        os.rename(path, to)
        for it in glob.glob("crates/**/*.antt", recursive=True) + glob.glob("crates/**/*.rt", recursive=True):
            with open(it, encoding="utf-8") as f:
                text = f.read()
            if module + "." in text:
                with open(it, "w", encoding="utf-8") as f:
                    f.write(text.replace(module + ".", named + "."))
        lib = os.path.dirname(to) + "/Lib.antt"
        with open(lib, encoding="utf-8") as f:
            text = f.read()
        with open(lib, "w", encoding="utf-8") as f:
            f.write(re.sub(r"^pub mod Contracts$", "pub mod Promised", text, flags=re.M))
    return 0


def turn_at(m, base, text, moving, stays, moved):
    word = m.group(0)
    if word not in moving or word in stays:
        return word
    start = base + m.start()
    if text[max(0, start - 5) : start].endswith(("tie.", "goal.")):
        return word
    moved[word] = renamed(word)
    return moved[word]


if __name__ == "__main__":
    sys.exit(main())
