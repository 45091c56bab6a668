#!/usr/bin/env python3
"""Tries ./causeylark as a person would: on the sample, on bad files, at the library's bounds.

    python3 tools/check_causeylark.py [-k PART]

Where SPLINTR_SRC is set, what it trains is compared with the Rust, token by token and bit by bit, by way of the oracle that
tools/oracle/build.py builds.
"""

import os
import random
import struct
import subprocess
import sys
import tempfile
import time
import unittest
from pathlib import Path

ROOT = Path(__file__).resolve().parents[1]
SAMPLE = ROOT / "samples/notes.txt"
ORACLE = ROOT / "target/oracle/ours/oracle"
SETTINGS = {"vocab": 8000, "seed": None, "length": 16, "min": 2, "shrink": 0.75, "em": 2, "special": ()}


def run(*words, given=b"", where=ROOT, **more):
    """The command with these words: its exit status, what it wrote and what it said, which is never a traceback."""
    ended = subprocess.run([ROOT / "causeylark", *words], input=given, capture_output=True, cwd=where, **more)
    said = ended.stderr.decode()
    assert "Traceback" not in said, said
    return ended.returncode, ended.stdout.decode(), said


def bits(score):
    return struct.pack(">d", score).hex()


def counted(text):
    """The words of notes with their counts, in the order in which they first stand there."""
    counts = {}
    for word in text.split():
        counts[word] = counts.get(word, 0) + 1
    return counts


def original(counts, **chosen):
    """What the Rust trains: the count of required pieces, how it stopped, and the tokens with the bits of their scores."""
    setting = SETTINGS | chosen
    fields = [
        setting["vocab"], "unset" if setting["seed"] is None else setting["seed"], setting["length"], setting["min"],
        bits(setting["shrink"]), setting["em"], ",".join(s.encode().hex() for s in setting["special"]) or ".",
        ",".join(f"{often}:{word.encode().hex()}" for word, often in counts.items()),
    ]  # fmt: skip
    request = " ".join(map(str, ["train", *fields])) + "\n"
    answer = subprocess.run([ORACLE], input=request.encode(), capture_output=True, check=True).stdout.decode().split()
    _, required, stop, tokens, scores = answer
    return int(required), stop, list(zip(map(bytes.fromhex, tokens.split(",")), scores.split(",")))


class Case(unittest.TestCase):
    def setUp(self):
        folder = tempfile.TemporaryDirectory()
        self.addCleanup(folder.cleanup)
        self.folder = Path(folder.name)

    def file(self, content, name="notes.txt"):
        path = self.folder / name
        path.write_bytes(content if isinstance(content, bytes) else content.encode())
        return path

    def trained(self, path, **chosen):
        """What training writes, and the tokens of its file with their scores' bits."""
        words = [f"--{name}" if i == 0 else str(value) for name, value in chosen.items() for i in (0, 1) if name != "special"]
        words += [word for special in chosen.get("special", ()) for word in ("--special", special)]
        out = self.folder / "pieces.txt"
        status, written, said = run("train", path, *words, "--out", out)
        self.assertEqual((status, said), (0, ""))
        rows = [line.split("\t") for line in out.read_text().splitlines()[3:]]
        return written, [(text.encode(), bits(float(score))) for _, _, score, text in rows]

    def pieces(self, content="the fan\nthe fan is loud\n"):
        """A file of pieces."""
        self.trained(self.file(content), vocab=30)
        return self.folder / "pieces.txt"

    def refused(self, number, name, place, *words, given=b""):
        """What a refusal says after its number and place. Nothing else is written."""
        status, written, said = run(*words, given=given)
        start = f"causeylark: refused, {name}, number {number}, at place {place}: "
        self.assertEqual((status, written, said[: len(start)]), (1, "", start))
        return said[len(start) :]


class Sample(Case):
    def same(self, path, **chosen):
        """Trains, and compares with the Rust where that can be asked."""
        written, tokens = self.trained(path, **chosen)
        if "SPLINTR_SRC" in os.environ:
            required, stop, expected = original(counted(path.read_text()), **chosen)
            self.assertEqual(tokens, expected)
            self.assertIn(f" {required:,} required character", written)
            self.assertEqual("stalled" in written, stop == "stalled")
        return written, tokens

    def test_trained_and_cut(self):
        written, tokens = self.same(SAMPLE, vocab=500)
        self.assertEqual(len(tokens), 500)
        # Three sentences, an empty line, a head and a row a token.
        self.assertEqual(len(written.splitlines()), 505)
        status, written, said = run("cut", self.folder / "pieces.txt", "--notes", SAMPLE)
        self.assertEqual((status, said), (0, ""))
        for note, line in zip(SAMPLE.read_text().splitlines(), written.splitlines(), strict=True):
            # The pieces of a note, put together, are its words.
            told = line.partition(": ")[2].rpartition("   (")[0]
            self.assertEqual(told.replace("|", "").replace("\u25cc", ""), " ".join(note.split()))

    def test_readme(self):
        """What README.md shows is what the command writes."""
        shown = (ROOT / "README.md").read_text()
        out = self.folder / "pieces.txt"
        written = run("train", SAMPLE, "--vocab", "500", "--out", out)[1].splitlines()[:8]
        written += run("cut", out, "The screen flickers", "", "風扇 hums")[1].splitlines()
        for line in filter(None, written):
            self.assertIn(f"    {line}\n", shown)

    def test_settings(self):
        for chosen in [
            {"vocab": 300, "length": 4, "min": 3, "shrink": 0.5, "em": 1},
            {"vocab": 400, "seed": 500, "special": ("<pad>", "no note")},
            {"vocab": 300, "shrink": 1.0},
            {"vocab": 9000, "min": 1, "length": 32},
            {"vocab": 263, "length": 0},
        ]:
            with self.subTest(chosen):
                self.same(SAMPLE, **chosen)

    def test_specials_are_no_pieces(self):
        path = self.file("the fan rattles\nthe fan\n")
        _, tokens = self.same(path, vocab=30, special=("fan", "fan"))
        self.assertEqual(tokens[:2], [(b"fan", bits(0.0))] * 2)
        self.assertEqual(run("cut", self.folder / "pieces.txt", "fan")[0], 0)

    def test_from_standard_input(self):
        self.assertEqual(run("train", "-", "--vocab", "500", given=SAMPLE.read_bytes()), run("train", SAMPLE, "--vocab", "500"))


class Refusals(Case):
    def test_settings(self):
        for place, words, told in [
            (1, ["--vocab", "65537"], "65,536 is the most"),
            (2, ["--seed", "1048577"], "1,048,576 is the most"),
            (3, ["--length", "33"], "32 is the most"),
            (4, ["--em", "101"], "100 is the most"),
            (5, ["--special", "x" * 256], "over 255 bytes"),
            (5, ["--special", b"\xff"], "not UTF-8"),
            (5, ["--special", "x"] * 257, "more than 256"),
            (1, ["--vocab", "9" * 40], "65,536 is the most"),
        ]:
            with self.subTest(words[:2]):
                self.assertIn(told, self.refused(2, "BadSetting", place, "train", SAMPLE, *words))

    def test_long_word(self):
        path = self.file("a b\n" + "ก" * 85 + "\n" + "ข" * 85 + "x\n")
        told = self.refused(3, "BadWord", 3, "train", path)
        self.assertIn("line 3", told)
        self.assertIn('"ขขขขข', told)
        self.assertIn("256 bytes", told)

    def test_no_word(self):
        for content in ["", "\n\n", "  \t\n", b"\xff\xfe\n"]:
            with self.subTest(content):
                status, _, said = run("train", self.file(content))
                self.assertEqual(status, 1)
                self.assertIn("refused, EmptyCorpus, number 6, at place 0: there is no word in ", said)

    def test_many_words(self):
        path = self.file("\n".join(map(str, range(16_385))))
        self.assertIn("16,385 different words", self.refused(7, "NoRoom", 0, "train", path))
        path = self.file("\n".join(f"{n:0>200}" for n in range(5_300)))
        self.assertIn("1,060,000 bytes", self.refused(7, "NoRoom", 0, "train", path))

    def test_small_vocabulary(self):
        path = self.file("abc abd\n")
        self.assertIn("Give 5 or more", self.refused(8, "VocabTooSmall", 5, "train", path, "--vocab", "4", "--special", "x"))

    def test_lines_that_are_not_utf8(self):
        path = self.file(b"fan fan\nfan \xffnoise\n\xed\xa0\x80\nnoise \xc0\x80\nnoise noise\n")
        status, written, said = run("train", path)
        self.assertEqual(status, 0)
        self.assertIn("2 notes, 4 words, 2 of them different.", written)
        for line, byte in [(2, 5), (3, 1), (4, 7)]:
            self.assertIn(f"line {line}, byte {byte}: not UTF-8", said)
        marked = b"\xef\xbb\xbf" + b"fan fan\n"
        self.assertIn("1 note, 2 words, 1 of them different.", run("train", self.file(marked))[1])
        status, _, said = run("train", self.file(b"\xff\n" * 1000 + b"fan\n"))
        self.assertEqual((status, said.count("skipped")), (0, 21))
        self.assertIn("1,000 lines in all", said)

    def test_files(self):
        for path in [self.folder, self.folder / "none", "/proc/self/mem"]:
            with self.subTest(path):
                for words in [("train", path), ("cut", path, "fan"), ("cut", path)]:
                    status, written, said = run(*words)
                    self.assertEqual((status, written), (1, ""))
                    self.assertIn("cannot be read", said)
        for path in [self.folder, self.folder / "none" / "pieces.txt"]:
            status, _, said = run("train", SAMPLE, "--vocab", "500", "--out", path)
            self.assertEqual(status, 1)
            self.assertIn("cannot be written", said)
        status, _, said = run("cut", self.pieces(), "--notes", "/proc/self/mem")
        self.assertEqual(status, 1)
        self.assertIn("cannot be read", said)

    def test_commands(self):
        for words in [(), ("train",), ("cut",), ("train", SAMPLE, "--vocab", "-1"), ("train", SAMPLE, "--shrink", "x"), ("fly",)]:
            with self.subTest(words):
                status, written, said = run(*words)
                self.assertEqual((status, written), (2, ""))
                self.assertIn("usage:", said)
        for words in [("--help",), ("train", "--help"), ("cut", "--help")]:
            with self.subTest(words):
                self.assertEqual(run(*words)[0], 0)

    def test_broken_pipe(self):
        whole = subprocess.Popen(
            [ROOT / "causeylark", "train", SAMPLE, "--vocab", "8000", "--min", "1"], stdout=subprocess.PIPE, stderr=subprocess.PIPE
        )
        whole.stdout.readline()
        whole.stdout.close()
        self.assertEqual(whole.stderr.read(), b"")
        whole.stderr.close()
        self.assertEqual(whole.wait(), 1)
        with open("/dev/full", "w") as full:
            ended = subprocess.run([ROOT / "causeylark", "train", SAMPLE, "--vocab", "500"], stdout=full, stderr=subprocess.PIPE)
        self.assertEqual(ended.returncode, 1)
        self.assertIn(b"could not be written", ended.stderr)
        self.assertNotIn(b"Traceback", ended.stderr)

    def test_no_library(self):
        """Without rt or a linker, in a copy that has no library yet."""
        for name in ["causeylark", "crates.txt", "bindings/python/causeylark.py", "bindings/python/library.py"]:
            (self.folder / name).parent.mkdir(parents=True, exist_ok=True)
            (self.folder / name).write_bytes((ROOT / name).read_bytes())

        def tried():
            command = [sys.executable, self.folder / "causeylark", "train", SAMPLE]
            ended = subprocess.run(command, env=os.environ | {"PATH": ""}, capture_output=True)
            self.assertEqual((ended.returncode, ended.stdout), (1, b""))
            self.assertNotIn(b"Traceback", ended.stderr)
            return ended.stderr.decode()

        self.assertIn("`rt`, the Rattle kit, is not on the PATH", tried())
        (self.folder / "target/native").mkdir(parents=True)
        for crate in ["export", "export_train"]:
            (self.folder / f"target/native/lib{crate}.a").write_bytes(b"")
        self.assertIn("there is no `cc`, a C compiler, on the PATH", tried())


class Cut(Case):
    def test_empty_note_and_unspelt_word(self):
        path = self.pieces()
        status, written, said = run("cut", path, "the fan", "", "fan zebra", " \t")
        told = written.splitlines()
        self.assertEqual((status, said), (1, ""))
        self.assertTrue(told[0].startswith("1: the fan   (2 words, 2 pieces, score "), told[0])
        self.assertEqual(told[1], "2: nothing to cut: the note is empty")
        self.assertEqual(told[2], '3: not cut: nothing spells "zebra" (NoPath, number 11, at place 0)')
        self.assertEqual(told[3], "4: nothing to cut: the note is empty")
        self.assertEqual(run("cut", path, "the fan", "")[0], 0)

    def test_notes_by_lines(self):
        path = self.pieces()
        status, written, said = run("cut", path, given=b"the fan\r\n\nfan \xff\nfan")
        self.assertEqual([line[:2] for line in written.splitlines()], ["1:", "2:", "4:"])
        self.assertEqual(status, 1)
        self.assertIn("line 3, byte 5: not UTF-8", said)
        self.assertEqual(run("cut", path, given=b""), (0, "", ""))
        status, _, said = run("cut", path, b"fan \xc3")
        self.assertEqual(status, 1)
        self.assertIn("note 1, byte 5: not UTF-8", said)

    def test_long_word(self):
        status, written, _ = run("cut", self.pieces(), "a" * 256)
        self.assertEqual(status, 1)
        self.assertIn("has 256 bytes, and 255 is the most (BadWord, number 3, at place 0)", written)

    def test_what_cannot_be_printed(self):
        path = self.pieces("a\x1b[31mb a\x1b[31mb \\t a\u0301 \\t\n")
        status, written, _ = run("cut", path, "a\x1b[31mb \\t")
        self.assertEqual(status, 0)
        self.assertNotIn("\x1b", written)

    def test_bad_pieces(self):
        def file(*rows, length=16, more=0):
            head = ["# causeylark pieces 1", f"# length {length}", f"# tokens {len(rows) + more}: "]
            return "\n".join([*head, *(f"{id}\t{row}" for id, row in enumerate(rows))]) + "\n"

        for content, told in [
            ("", "not a file of pieces"),
            ("the fan\n", "not a file of pieces"),
            (file("piece\t-1.0\ta", more=1), "not whole: it should have 2 tokens, and has 1."),
            (file("piece\t-1.0"), "line 4: not an id"),
            (file("piece\tlow\ta"), "line 4: not an id"),
            (file("piece\t-1.0\ta", "thing\t-1.0\tb"), "line 5: not an id"),
            (file("piece\t-1.0\ta\\x"), "line 4: not an id"),
            (file("piece\t-1.0\ta\\"), "line 4: not an id"),
            (file("piece\t1.0\ta"), "BadScore, number 10, at place 0: line 4 of "),
            (file("piece\tnan\ta"), "BadScore, number 10, at place 0: line 4 of "),
            (file("special\t0.0\ta", "piece\t-1.0\ta", "piece\t-1.0\ta"), "RepeatedPiece, number 15, at place 1: line 6 of "),
            (file("piece\t-1.0\ta", length=33), "BadSetting, number 2, at place 3: "),
            (b"\xff", "cannot be read"),
        ]:
            with self.subTest(told):
                status, written, said = run("cut", self.file(content, "bad.txt"), "a")
                self.assertEqual((status, written), (1, ""))
                self.assertIn(told, said)


class Large(Case):
    """16,384 different words, the most that the library takes."""

    def words(self, syllables, most, count=16_384):
        chosen = random.Random(1)
        words = {}
        while len(words) < count:
            word = "".join(chosen.choices(syllables, k=chosen.randint(2, most)))
            words[word] = chosen.randint(1, 9)
        return words

    def tried(self, words, **chosen):
        path = self.file("\n".join(" ".join([word] * often) for word, often in words.items()))
        out = self.folder / "pieces.txt"
        options = [word for name, value in chosen.items() for word in (f"--{name}", str(value))]
        began = time.monotonic()
        status, written, said = run("train", path, *options, "--out", out)
        seconds = time.monotonic() - began
        print(f"{len(words):,} words, {chosen}: {seconds:.1f} s", file=sys.stderr)
        self.assertEqual(status, 0, said)
        if seconds > 3:
            self.assertIn("causeylark: training on 16,384 words, ", said)
        self.assertIn("16,384 of them different", written)
        rows = [line.split("\t") for line in out.read_text().splitlines()[3:]]
        if "SPLINTR_SRC" in os.environ:
            _, _, expected = original(words, **chosen)
            self.assertEqual([(text.encode(), bits(float(score))) for _, _, score, text in rows], expected)

    def test_latin(self):
        syllables = "the fan rat tles when it is warm cool er ing ed power sup ply no ise board re set s un driv es".split()
        self.tried(self.words(syllables, 5), vocab=8000)

    def test_thai(self):
        syllables = "พัด ลม มี เสียง ดัง เมื่อ ร้อน เย็น แรง ไฟ ตก จอ ภาพ ดับ เอง ไม่ ทำ งาน ติด ช้า หลัง เปิด ปิด ได้".split()
        self.tried(self.words(syllables, 9), vocab=2000)


if __name__ == "__main__":
    if "SPLINTR_SRC" in os.environ and not ORACLE.is_file():
        sys.exit("check_causeylark: SPLINTR_SRC is set, so build the oracle first: python3 tools/oracle/build.py")
    unittest.main()
