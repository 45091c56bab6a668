#!/usr/bin/env python3
"""Writes crates/train/cases: inputs of the program `train`, and what it must print for each. tools/train.py runs them.

    python3 tools/vectors/train.py            # needs target/oracle/ours/oracle: see tools/oracle/README.md
    python3 tools/vectors/train.py --check    # writes nothing, and fails where the file in the tree is another

What training makes is the Rust's: the oracle's answer to one `train` request a case. The frames are read here, by document 01's
sentences, as regular expressions; they share nothing with the proved crate `frames`. The refusals are worked out here too, from
the table, since the Rust has two of them; those two it has to confirm. tools/vectors/seed.py works out those of the words, and makes
the list that the rooms are counted from, by document 01's item 8, which the Rust has to confirm too.

The file has a block for each case: `case` and its name, `<` and each line of the input, `>` and each line of the output. Bytes that
are no printable ASCII stand as \\xNN; `<~` is a last line without its 0a. Without an oracle, --check takes the trained answers from
the file, and compares the rest."""

import random
import re
import sys

sys.dont_write_bytecode = True

import seed  # noqa: E402
from common import ROOT, ask_oracle, checks, has_oracle, store, utf8  # noqa: E402
from vectors import SCRIPTS, ask, bits, hexed, items, line, listed, make_corpus, make_word  # noqa: E402

FILE = ROOT / "crates/train/cases"
SEED = "train 1"
# The program's room.
WORDS, WORD_BYTES, PIECES, EDGES, RESULT_BYTES = 256, 8192, 1024, 8192, 65536
# The numbers of document 01's table.
BAD_FRAME, BAD_SETTING, EMPTY_CORPUS, NO_ROOM, VOCAB_TOO_SMALL = 1, 2, 6, 7, 8


# The frames in: document 01, "Frames".

HEX = "[0-9a-f]"


def frame(*fields):
    return re.compile("".join(f"({HEX}{{{2 * field}}})" if isinstance(field, int) else field for field in fields).encode())


FIRST = frame("01", 4, "(00|01)", 4, 1, 8, 8, 2, 2)
SPECIAL = frame("02", 1, f"((?:{HEX}{{2}})*)")
WORD = frame("03", 8, 1, f"((?:{HEX}{{2}})*)")
COUNT = frame("04", 4)


class BadFrame(Exception):
    """The line that breaks the rules."""


class Job(seed.Case):
    """What the frames of an input say."""

    def __init__(self, vocab, size, length, minimum, shrink, em, specials, words):
        super().__init__(words, length, minimum, vocab, size, specials)
        self.shrink, self.em = shrink, em


def whole(pattern, text):
    """The numbers of a frame, and its bytes, which are as many as it says."""
    match = pattern.fullmatch(text)
    if not match:
        return None
    groups = match.groups()
    if pattern is SPECIAL or pattern is WORD:
        *numbers, size, body = groups
        body = bytes.fromhex(body.decode())
        return [int(number, 16) for number in numbers] + [body] if len(body) == int(size, 16) else None
    return [int(number, 16) for number in groups]


def read(data):
    """'One 01, then as many 02 as it says, the 03s, one 04 that counts them; nothing after.'"""
    *lines, rest = data.split(b"\n")
    at = 0

    def need(condition):
        if not condition:
            raise BadFrame(at)

    def next_line():
        nonlocal at
        at += 1
        need(at <= len(lines))
        return lines[at - 1]

    first = whole(FIRST, next_line())
    need(first)
    vocab, flag, size, length, minimum, shrink, em, announced = first
    need(flag == 1 or size == 0)
    specials = []
    for _ in range(announced):
        special = whole(SPECIAL, next_line())
        need(special)
        specials += special
    words = []
    while True:
        text = next_line()
        word, count = whole(WORD, text), whole(COUNT, text)
        need(word or count)
        if count:
            need(count == [len(words)])
            break
        words.append((word[1], word[0]))
    at += 1
    need(at > len(lines) and not rest)
    return Job(vocab, size if flag else None, length, minimum, f"{shrink:016x}", em, specials, words)


# The refusals: the table "Numbers that say no", in training's order.


def over_bounds(job):
    bounds = (
        job.vocab > 65536,
        (job.seed or 0) > 1048576,
        job.length > 32,
        job.em > 100,
        len(job.specials) > 256 or any(utf8(special) is None for special in job.specials),
    )
    return bounds.index(True) + 1 if any(bounds) else None


def edges(job, pieces):
    """How many edges the first lattices have."""
    spelt, count = set(pieces), 0
    for word, _ in job.words:
        text = utf8(word) or ""
        for start in range(len(text)):
            count += sum(text[start:end] in spelt for end in range(start + 1, min(len(text), start + job.length) + 1))
    return count


def refusal(job):
    """The number and the place of the first refusal that applies before training; None where training begins."""
    words = [word for word, _ in job.words]
    if len(words) > WORDS or sum(map(len, words)) > WORD_BYTES:
        return NO_ROOM, 5
    if place := over_bounds(job):
        return BAD_SETTING, place
    if said := seed.bad_words(job.words):
        return said
    characters, strings, _ = seed.uncut(job)
    if len(characters) + len(strings) > PIECES:
        return NO_ROOM, 1
    if job.target() < len(characters):
        return VOCAB_TOO_SMALL, len(characters) + len(job.specials)
    if edges(job, characters + strings[: max(0, job.pool() - len(characters))]) > EDGES:
        return NO_ROOM, 3
    return None


# The oracle, and the frames out.


def request(job):
    return line("train", seed.settings(job), listed(job.words, lambda word: f"{word[1]}:{hexed(word[0])}"))


def refused(number, place):
    return f"11{number:02x}{place:08x}{0:08x}{0:04x}{0:08x}{0:02x}\n13{0:08x}\n"


def confirmed(said, answer):
    """Whether the Rust has the same error, where it has it."""
    if said[0] == EMPTY_CORPUS:
        return answer == "EmptyCorpus"
    return said[0] != VOCAB_TOO_SMALL or re.fullmatch(rf"VocabTooSmall \d+ {said[1]}", answer)


def trained(answer):
    """The output for what the oracle answered."""
    specials, required, stop, tokens, scores = answer.split(" ")
    tokens = ["" if token == "-" else token for token in items(tokens)]
    if sum(map(len, tokens)) // 2 > RESULT_BYTES:
        return refused(NO_ROOM, 4)
    stalled = ("target", "stalled").index(stop)
    head = f"1100{0:08x}{len(tokens):08x}{int(specials):04x}{int(required):08x}{stalled:02x}\n"
    body = (f"12{index:08x}{score}{len(token) // 2:02x}{token}\n" for index, (token, score) in enumerate(zip(tokens, items(scores), strict=True)))
    return head + "".join(body) + f"13{len(tokens):08x}\n"


def judge(data):
    """The output of a refused input, and the oracle's request; a request alone is one that is trained."""
    try:
        job = read(data)
    except BadFrame as bad:
        return refused(BAD_FRAME, bad.args[0]), None
    said = refusal(job)
    if not said:
        return None, request(job)
    return refused(*said), (said, request(job)) if said[0] in (EMPTY_CORPUS, VOCAB_TOO_SMALL) else None


def expect(inputs, known=None):
    """The output of each input; None where it takes an oracle and there is none, unless the output is known."""
    judged = [judge(data) for data in inputs]
    if not has_oracle():
        return [text or (known or {}).get(data) for data, (text, _) in zip(inputs, judged)]
    asked = [(index, of) for index, (_, of) in enumerate(judged) if of]
    requests = [of if isinstance(of, str) else of[1] for _, of in asked]
    outputs = [text for text, _ in judged]
    for (index, of), answer in zip(asked, ask("ours", requests) if requests else [], strict=True):
        if isinstance(of, str):
            outputs[index] = trained(answer)
        elif not confirmed(of[0], answer):
            sys.exit(f"train: document 01 and the Rust differ at {of[1]}: {of[0]} and {answer}")
    return outputs


# Inputs.


def first(vocab=8000, size=None, length=16, minimum=2, shrink="3fe8000000000000", em=2, specials=0):
    return f"01{vocab:08x}{size is not None:02x}{size or 0:08x}{length:02x}{minimum:016x}{shrink}{em:04x}{specials:04x}".encode()


def special(text):
    return f"02{len(text):02x}{text.hex()}".encode()


def word(text, frequency=1):
    return f"03{frequency:016x}{len(text):02x}{text.hex()}".encode()


def count(words):
    return f"04{words:08x}".encode()


def lines(words, specials=(), **settings):
    return [first(specials=len(specials), **settings), *map(special, specials), *(word(*each) for each in words), count(len(words))]


def joined(parts):
    return b"".join(part + b"\n" for part in parts)


def make(words, specials=(), **settings):
    return joined(lines(words, specials, **settings))


BASE = lines([(b"aba", 2), (b"ab", 1), (b"b", 3)], (b"<s>", b""), vocab=8)


def swapped(at, part):
    return joined([*BASE[:at], part, *BASE[at + 1 :]])


def broken_lines():
    """Document 01's rules, and the readings of them, at each kind of line."""
    yield "empty", b""
    yield "a 0a alone", b"\n"
    yield "a digit alone", b"0"
    yield "the whole", joined(BASE)
    for at, part in enumerate(BASE):
        text, kind = part.decode(), part[:2].decode()
        yield f"an early end before line {at + 1}", joined(BASE[:at])
        yield f"no 0a after line {at + 1}", joined(BASE[:at]) + part
        yield f"half of line {at + 1}", joined(BASE[:at]) + part[: len(part) // 2]
        yield f"a blank line before line {at + 1}", joined([*BASE[:at], b"", *BASE[at:]])
        yield f"line {at + 1} twice", joined([*BASE[:at], part, *BASE[at:]])
        yield f"line {at + 1} left out", joined(BASE[:at] + BASE[at + 1 :])
        if at in (0, 1, 3, 6):
            for name, bad in (
                ("a CR", part + b"\r"),
                ("a space", part + b" "),
                ("a space before", b" " + part),
                ("a space within", part[:4] + b" " + part[5:]),
                ("a NUL", part[:3] + b"\0" + part[4:]),
                ("a tab", b"\t" + part[1:]),
                ("half a byte less", part[:-1]),
                ("half a byte more", part + b"0"),
                ("a byte less", part[:-2]),
                ("a byte more", part + b"00"),
                ("a g", part[:-1] + b"g"),
                ("a colon", part[:-1] + b":"),
                ("a byte over 7f", part[:-1] + b"\xe9"),
                ("0x", b"0x" + part[2:]),
            ):
                yield f"{name} in a {kind}", swapped(at, bad)
            for kind_of in ("00", "05", "11", "13", "ff"):
                yield f"a {kind_of} for a {kind}", swapped(at, kind_of.encode() + part[2:])
        if re.search("[a-f]", text):
            yield f"upper case in line {at + 1}", swapped(at, text.upper().encode())
    yield "a mark before the 01", b"\xef\xbb\xbf" + joined(BASE)
    for name, tail in (
        ("a blank line", b"\n"),
        ("a 01", BASE[0] + b"\n"),
        ("a 02", BASE[1] + b"\n"),
        ("a 03", BASE[3] + b"\n"),
        ("a digit with no 0a", b"0"),
        ("a space with no 0a", b" "),
        ("a NUL", b"\0\n"),
    ):
        yield f"{name} after the 04", joined(BASE) + tail
    for seed_flag in ("02", "ff", "10"):
        yield f"seed flag {seed_flag}", swapped(0, BASE[0][:10] + seed_flag.encode() + BASE[0][12:])
    yield "seed 1 that is not set", swapped(0, BASE[0][:12] + b"00000001" + BASE[0][20:])
    yield "seed 2^31 that is not set", swapped(0, BASE[0][:12] + b"80000000" + BASE[0][20:])
    yield "seed 0 that is set", swapped(0, BASE[0][:10] + b"0100000000" + BASE[0][20:])
    for wrong in (0, 2, 4, 2**16 + 3, 2**32 - 1):
        yield f"a 04 that counts {wrong}", swapped(6, count(wrong))
    for announced in (0, 1, 3, 257, 65535):
        yield f"{announced} specials announced", swapped(0, first(vocab=8, specials=announced))
    for wrong in (b"00", b"02", b"04", b"ff"):
        yield f"a special of length {wrong.decode()}", swapped(1, b"02" + wrong + BASE[1][4:])
        yield f"a word of length {wrong.decode()}", swapped(3, BASE[3][:18] + wrong + BASE[3][20:])
    yield "a 02 behind the 03s", joined([*BASE[:6], BASE[1], BASE[6]])
    yield "a 03 before the 02s", joined([BASE[0], BASE[3], *BASE[1:3], *BASE[4:]])
    yield "a 04 before the 03s", joined([*BASE[:3], BASE[6], *BASE[3:6]])


def long_lines():
    """BadFrame wins at any distance."""
    many = [(b"%03d" % k, 1) for k in range(300)]
    yield "a bad line behind 300 words", make(many) + b"05\n"
    yield "a 04 that counts 256 of 300 words", joined([*lines(many)[:-1], count(256)])
    yield "no 04 behind 300 words", joined(lines(many)[:-1])
    yield "a bad line behind 300 specials", make([(b"a", 1)], [b"s"] * 300) + b"\n"
    yield "299 of 300 specials", joined([first(specials=300), *[special(b"s")] * 299, word(b"a"), count(1)])
    yield "a word of 255 bytes", make([(b"a" * 255, 1)])
    for size in (529, 530, 531, 532, 533, 1024, 5000):
        yield f"a line of {size} zeros", joined([first(), b"0" * size, count(1)])
    for more in (0, 1, 2, 500):
        yield f"a word of 255 bytes and {more} digits", joined([first(), word(b"a" * 255) + b"0" * more, count(1)])
    yield "a word that says 255 bytes and has 256", joined([first(), b"03" + b"0" * 15 + b"1ff" + b"61" * 256, count(1)])
    yield "a special of 255 bytes", make([(b"a", 1)], [b"s" * 255])
    yield "a special that says 255 bytes and has 256", joined([first(specials=1), b"02ff" + b"73" * 256, word(b"a"), count(1)])


def rooms():
    """Exactly full, and one over."""
    small = dict(minimum=2**64 - 1, em=0)
    words = [(b"%c%c" % (97 + k // 16, 97 + k % 16), 1) for k in range(256)]
    yield "256 words", make(words, **small)
    yield "257 words", make([*words, (b"zz", 1)], **small)
    yield "257 words, the last empty", make([*words, (b"", 1)], **small)
    long = [(bytes([97 + k]) * 255, 1) for k in range(32)]
    yield "8,192 word bytes", make([*long, (b"z" * 32, 1)], **small, length=1)
    yield "8,193 word bytes", make([*long, (b"z" * 33, 1)], **small, length=1)
    yield "8,193 word bytes and an empty word", make([*long, (b"z" * 33, 1), (b"", 1)], **small, length=1)
    yield "257 words and a vocabulary over its bound", make([*words, (b"zz", 1)], vocab=65537)
    yield "257 words and a word of frequency 0", make([(b"x", 0), *words])
    full = [*long[:31], (b"z" * (8192 - 31 * 255 - 224), 1), *((b"%c" % (130 + k // 2) * (1 + k % 2), 1) for k in range(149)), *((b"", 1),)]
    yield "many words that are not UTF-8", make(full, **small, length=1)
    characters = [chr(0x400 + k) for k in range(1025)]
    for size in (1024, 1025):
        texts = ["".join(characters[k : min(size, k + 100)]) for k in range(0, size, 100)]
        yield f"{size} pieces", make([(text.encode(), 1) for text in texts], minimum=2, em=1)
    texts = ["".join(characters[k : min(1025, k + 100)]) for k in range(0, 1025, 100)]
    yield "1,025 pieces and a vocabulary of 1", make([(text.encode(), 1) for text in texts], vocab=1)
    yield "1,024 pieces and a vocabulary of 1,023", make([("".join(characters[k : min(1024, k + 100)]).encode(), 1) for k in range(0, 1024, 100)], vocab=1023)
    yield "1,104 pieces that a seed of 3 would cut", make([(bytes(range(65, 115)), 5)], vocab=60, size=3, length=32)
    yield "8,192 edges", make([(b"a" * 255, 1), (b"a" * 32, 1)], length=32, em=1)
    yield "8,193 edges", make([(b"a" * 255, 1), (b"a" * 32, 1), (b"b", 1)], length=32, em=1)
    yield "8,193 edges and a vocabulary of 1", make([(b"a" * 255, 1), (b"a" * 32, 1), (b"b", 1)], length=32, vocab=1)
    yield "edges that a pool of 2 cuts", make([(b"a" * 255, 2), (b"a" * 254, 2)], length=32, vocab=2, size=2)
    specials = [b"%03d" % k + b"s" * 252 for k in range(256)]
    letters = "".join(chr(0x400 + k) for k in range(128)).encode()
    yield "65,536 result bytes", make([(letters[:254], 1), (letters[254:], 1)], specials, minimum=2, vocab=65536)
    yield "65,537 result bytes", make([(letters[:254], 1), (letters[254:] + b"a", 1)], specials, minimum=2, vocab=65536)
    yield "256 specials, and no target", make([(b"a", 1)], [b"s"] * 256, vocab=256)
    yield "256 specials, and a target of 1", make([(b"a", 1)], [b"s"] * 256, vocab=257)


def refusals():
    a = [(b"a", 1)]
    for vocab in (65536, 65537, 2**32 - 1):
        yield f"vocabulary {vocab}", make(a, vocab=vocab)
    for size in (1048576, 1048577, 2**32 - 1):
        yield f"seed {size}", make(a, size=size)
    for length in (32, 33, 255):
        yield f"length {length}", make(a, length=length)
    for em in (100, 101, 65535):
        yield f"EM {em}", make(a, em=em)
    for specials in (256, 257, 300):
        yield f"{specials} specials", make(a, [b"s"] * specials)
    yield "257 specials of 255 bytes", make(a, [b"s" * 255] * 257)
    for bad in (b"\xff", b"\xed\xa0\x80", b"\xc0\x80", b"\xf4\x90\x80\x80", b"ok\xe2\x82"):
        yield f"a special {bad.hex()}", make(a, [b"s", bad])
    for good in (b"\xf4\x8f\xbf\xbf", b"\xef\xbf\xbd", b"\0", b"a"):
        yield f"a special {good.hex()}", make(a, [b"s", good])
    beyond = dict(vocab=65537, size=1048577, length=33, em=101)
    for skip in range(4):
        yield f"settings beyond their bounds from {skip + 1} on", make(a, [b"\xff"], **dict(list(beyond.items())[skip:]))
    yield "a special that is bad, and a bad word", make([(b"a", 0)], [b"\xff"])
    yield "257 specials and EM 101", make(a, [b"s"] * 257, em=101)
    words = [(b"a", 1), (b"b", 2), (b"c", 3)]
    for index in range(3):
        yield f"frequency 0 at word {index}", make([*words[:index], (b"x", 0), *words[index:]])
    yield "frequency 0 twice", make([(b"a", 1), (b"b", 0), (b"c", 0)])
    yield "frequency 0 behind a repeated word", make([(b"a", 1), (b"a", 1), (b"c", 0)])
    yield "frequency 0 of an empty word", make([(b"", 0), *words])
    yield "frequency 0 of a word that is not UTF-8", make([*words, (b"\xff", 0)])
    yield "a repeated word", make([*words, (b"b", 7)])
    yield "two repeated words", make([*words, (b"c", 1), (b"a", 1)])
    yield "a word three times", make([(b"a", 1)] * 3)
    yield "a repeated empty word", make([(b"", 1), *words, (b"", 1)])
    yield "a repeated word that is not UTF-8", make([(b"\xff", 1), *words, (b"\xff", 1)])
    yield "a repeated word and too heavy", make([(b"a", 2**49), (b"a", 1)])
    yield "W of 2^48", make([(b"a", 2**48)])
    yield "W of 2^48 + 1", make([(b"a", 2**48 + 1)])
    yield "W of 2^48 in three words", make([(b"ab", 2**46), (b"abc", 2**45), (b"a", 2**48 - 2**47 - 3 * 2**45)])
    yield "W of 2^48 + 1 in two words", make([(b"ab", 2**47), (b"a", 1)])
    yield "W beyond 64 bits", make([(b"a" * 255, 2**64 - 1), (b"b", 2**64 - 1)])
    yield "W that is 0 in 64 bits", make([(b"ab", 2**63)])
    yield "empty and other words that weigh nothing", make([(b"a", 2**48), (b"", 2**64 - 1), (b"\xff", 2**64 - 1)])
    yield "no word", make([])
    yield "no word that is UTF-8", make([(b"\xff", 1), (b"\xc0\x80", 2), (b"\xed\xa0\x80", 3)])
    yield "no word, and a vocabulary of 0", make([], vocab=0)
    yield "one empty word", make([(b"", 1)])
    yield "one empty word, and a vocabulary of 0", make([(b"", 1)], vocab=0)
    yield "one empty word and specials", make([(b"", 1)], [b"<s>", b"</s>"], vocab=2)
    yield "a word that is not UTF-8 among others", make([(b"ab", 2), (b"\xff", 9), (b"ba", 2)], vocab=4)
    for vocab in (0, 1, 2, 3, 4):
        yield f"three characters and a vocabulary of {vocab}", make([(b"abc", 1)], vocab=vocab)
    for vocab in (0, 3, 4, 5, 6):
        yield f"three characters, two specials and a vocabulary of {vocab}", make([(b"abc", 1)], [b"<s>", b"a"], vocab=vocab)


def corners():
    """Settings at the ends of their ranges, on words that prune."""
    words = [(b"banana", 5), (b"bandana", 3), (b"ban", 2), (b"ana", 4), (b"nab", 1)]
    factors = (0.0, -0.0, -1.0, 0.1, 0.5, 0.75, 0.99, 1.0, 1.5, float("inf"), float("-inf"), float("nan"), 5e-324, 1 - 2**-53)
    for factor in factors:
        yield f"shrink factor {factor}", make(words, vocab=9, shrink=bits(factor))
    for pattern in ("7ff0000000000001", "fff8000000000000", "ffffffffffffffff", "7fefffffffffffff", "0010000000000000"):
        yield f"shrink bits {pattern}", make(words, vocab=9, shrink=pattern)
    for em in (0, 1, 2, 5, 100):
        yield f"EM {em} on words that prune", make(words, vocab=8, em=em)
    for length in (0, 1, 2, 3, 32):
        yield f"length {length} on words that prune", make(words, vocab=8, length=length)
    for minimum in (0, 1, 2, 7, 2**64 - 1):
        yield f"minimum {minimum}", make(words, vocab=8, minimum=minimum)
    for size in (0, 1, 6, 9, 1000, 1048576):
        yield f"seed {size} on words that prune", make(words, vocab=8, size=size)
    for specials in ([b""], [b"", b""], [b"a", b"ban"], [b"<s>", b"<s>"], [bytes([k]) for k in range(8)]):
        yield f"specials {listed(specials, hexed)}", make(words, specials, vocab=14)


def drawn(rng):
    """A corpus that has the room, and settings."""
    words = [(text.encode(), frequency) for text, frequency in make_corpus(rng)]
    if rng.random() < 0.1:
        words.insert(rng.randint(0, len(words)), (rng.choice((b"\xff", b"a\xed\xa0\x80", b"\xc0\x80")), 7))
    settings = dict(
        vocab=rng.choice((8, 10, 12, 16, 20, 24, 32, 64, 200)),
        size=rng.choice((None, None, 0, 20, 100, 400)),
        length=rng.choice((0, 1, 2, 3, 16, 16, 32)),
        minimum=rng.choice((0, 1, 1, 2, 2, 3, 10)),
        shrink=bits(rng.choice((0.75, 0.75, 0.9, 0.5, 0.99, 0.0, -1.0, float("nan"), 1.0, 1 - 2**-53))),
        em=rng.choice((0, 1, 2, 2, 3, 7)),
    )
    specials = [make_word(rng, rng.choice(SCRIPTS), 8).encode() for _ in range(rng.choice((0, 0, 1, 3)))]
    return make(words, specials, **settings)


def mutated(rng, data):
    """A byte or a line of an input changed, lost, doubled or put elsewhere."""
    parts = data.split(b"\n")
    at, other = rng.randrange(len(parts)), rng.randrange(len(parts))
    spot = rng.randrange(len(data) + 1)
    ways = (
        lambda: data[:spot] + bytes([rng.choice(b"0123456789abcdefABCDEF \r\n\0gG")]) + data[spot + 1 :],
        lambda: data[:spot] + data[spot + rng.randint(1, 3) :],
        lambda: data[:spot] + data[max(0, spot - rng.randint(1, 40)) :],
        lambda: data[:spot],
        lambda: b"\n".join(parts[:at] + parts[at + 1 :]),
        lambda: b"\n".join([*parts[:at], parts[other], *parts[at:]]),
        lambda: b"\n".join([*parts[:at], parts[at][: rng.randrange(len(parts[at]) + 1)], *parts[at + 1 :]]),
        lambda: b"\n".join([*parts[:at], parts[at] + bytes(rng.choice(b"0123456789abcdef") for _ in range(rng.choice((1, 2, 600)))), *parts[at + 1 :]]),
        lambda: data + rng.choice((b"\n", b"0", parts[at] + b"\n")),
    )
    return rng.choice(ways)()


# Document 01's sample, as it stands there.
SAMPLE_IN = b"""\
010000000100000000001000000000000000023fe800000000000000020000
0300000000000000010161
0400000001
"""
SAMPLE_OUT = """\
1100000000000000000100000000000100
120000000000000000000000000161
1300000001
"""


def make_cases():
    yield "document 01", SAMPLE_IN
    for family in (broken_lines, long_lines, rooms, refusals, corners):
        yield from family()
    rng = random.Random(SEED)
    for index in range(160):
        yield f"drawn {index}", drawn(rng)
    for index in range(60):
        yield f"changed {index}", mutated(rng, drawn(rng))


# The file.


def shown(data):
    return "".join(chr(byte) if 32 <= byte < 127 and byte != 92 else f"\\x{byte:02x}" for byte in data)


def unshown(text):
    return re.sub(rb"\\x(..)", lambda match: bytes.fromhex(match[1].decode()), text.encode())


def block(name, data, output):
    *full, rest = data.split(b"\n")
    body = [f"< {shown(part)}" for part in full] + ([f"<~ {shown(rest)}"] if rest else [])
    return "".join(f"{text}\n" for text in [f"case {name}", *body, *(f"> {text}" for text in output.splitlines())])


def stored(text):
    """The cases of the file: name, input, output."""
    for part in re.split(r"^case ", text, flags=re.M)[1:]:
        name, *rows = part.splitlines()
        data = b"".join(unshown(row[2:]) + b"\n" if row[1] == " " else unshown(row[3:]) for row in rows if row[0] == "<")
        yield name, data, "".join(f"{row[2:]}\n" for row in rows if row[0] == ">")


def main(arguments):
    check = checks(arguments, __doc__)
    oracle = ask_oracle("train", check)
    cases = list(make_cases())
    names = [name for name, _ in cases]
    if len(set(names)) < len(names):
        sys.exit(f"train: two cases have one name: {sorted(name for name in names if names.count(name) > 1)[:4]}")
    known = {data: output for _, data, output in stored(FILE.read_text())} if check else {}
    outputs = expect([data for _, data in cases], known)
    if outputs[0] != SAMPLE_OUT:
        sys.exit("train: document 01's sample has another output")
    text = "".join(block(name, data, output or "> ?") for (name, data), output in zip(cases, outputs, strict=True))
    if list(stored(text)) != [(name, data, output) for (name, data), output in zip(cases, outputs)]:
        sys.exit("train: the file does not say what it should")
    store("train", {FILE: text}, check)
    kinds = {}
    for output in outputs:
        said = int(output[2:4], 16), int(output[4:12], 16)
        said = said if said[0] in (BAD_SETTING, NO_ROOM) else said[:1]
        kinds[said] = kinds.get(said, 0) + 1
    done = f"{'agree' if check else 'written'}, {'with the Rust' if oracle else 'with no oracle at hand'}"
    print(f"train: {len(cases)} inputs, {len(cases) - kinds[(0,)]} refused {done}")
    if not check:
        print("train: " + ", ".join(f"{' at '.join(map(str, said))}: {number}" for said, number in sorted(kinds.items())))


if __name__ == "__main__":
    main(sys.argv[1:])
