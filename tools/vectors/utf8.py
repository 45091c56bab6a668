#!/usr/bin/env python3
"""Writes crates/utf8_vectors/stdin, the sequences that the program utf8_vectors tries, and the stdout that it must write.

The sequences are RFC 3629's own (sections 3, 7 and 10) and every boundary of its grammar (section 4). What each should be is
said by Python's own strict decoder, so that it rests on nothing of ours. A line is

    BYTES CODE WIDTH WHOLE NUMBER

in lower-case hexadecimal. CODE (6 digits) and WIDTH (1) are the character at the front, both 0 where there is none. WHOLE (1)
is 1 for UTF-8, and NUMBER (2) counts the characters; or WHOLE is 0, and NUMBER is the offset of the first byte that begins
no character. With --check it writes nothing, and fails where the files in the tree are others."""
import itertools
import sys

sys.dont_write_bytecode = True

from common import ROOT, checks, store  # noqa: E402

# RFC 3629, section 7, and the sequences that sections 3 and 10 warn of
RFC = ['41e289a2ce912e', 'ed959ceab5adec96b4', 'e697a5e69cace8aa9e', 'efbbbff0a38eb4', 'c080', 'eda18cedbeb4', '2f2e2e2f',
       '2fc0ae2e2f']

# section 4: the first bytes of each alternative, the range of its second byte, and the number of tails after that
GRAMMAR = [(0x00, 0x7F, None, 0), (0xC2, 0xDF, (0x80, 0xBF), 0), (0xE0, 0xE0, (0xA0, 0xBF), 1),
           (0xE1, 0xEC, (0x80, 0xBF), 1), (0xED, 0xED, (0x80, 0x9F), 1), (0xEE, 0xEF, (0x80, 0xBF), 1),
           (0xF0, 0xF0, (0x90, 0xBF), 2), (0xF1, 0xF3, (0x80, 0xBF), 2), (0xF4, 0xF4, (0x80, 0x8F), 2)]

TAIL = (0x80, 0xBF)


def edges(low, high):
    """The bytes just inside and just outside a range."""
    return sorted({x for x in (low - 1, low, low + 1, high - 1, high, high + 1) if 0 <= x <= 255})


def boundaries():
    for low, high, second, tails in GRAMMAR:
        for first in edges(low, high):
            yield bytes([first])
            if second is None:
                continue
            columns = [[first], edges(*second)] + [[TAIL[0] - 1, *TAIL, TAIL[1] + 1]] * tails
            for row in itertools.product(*columns):
                for n in range(2, len(row) + 1):
                    yield bytes(row[:n])


def form(code, width):
    """The code in so many bytes by the bit patterns alone, longer than need be or not, up to the old six-byte form."""
    if width == 1:
        return bytes([code])
    lead = (0xFF00 >> width & 0xFF) | code >> 6 * (width - 1)
    return bytes([lead] + [0x80 | code >> 6 * k & 0x3F for k in range(width - 2, -1, -1)])


ENDS = [0x0, 0x7F, 0x80, 0x7FF, 0x800, 0xFFF, 0x1000, 0xCFFF, 0xD000, 0xD7FF, 0xD800, 0xDBFF, 0xDC00, 0xDFFF, 0xE000,
        0xFDD0, 0xFEFF, 0xFFFD, 0xFFFF, 0x10000, 0x3FFFF, 0x40000, 0xFFFFF, 0x100000, 0x10FFFF, 0x110000, 0x13FFFF,
        0x140000, 0x1FFFFF, 0x200000, 0x3FFFFFF, 0x4000000, 0x7FFFFFFF]


def forms():
    for end in ENDS:
        for code in (end - 1, end, end + 1):
            for width, bits in zip(range(1, 7), (7, 11, 16, 21, 26, 31)):
                if 0 <= code < 1 << bits:
                    whole = form(code, width)
                    for n in range(1, width + 1):
                        yield whole[:n]
                    yield whole + b'a'
                    yield b'a' + whole
                    yield whole + whole


def single():
    for first in range(256):
        yield bytes([first])
        for tails in (b'\x80', b'\xbf', b'\x80\x80', b'\xbf\xbf', b'\x80\x80\x80', b'\xbf\xbf\xbf', b'a'):
            yield bytes([first]) + tails


def placed():
    """A good text, a sequence that may be bad, and a good text again: the offset must be that of the bad one."""
    good = ['', 'a', 'é', 'ก', '€uro', '𝔘', 'aé€𝔘']
    bad = [b'\x80', b'\xc0\x80', b'\xc1\xbf', b'\xc2', b'\xe0\x9f\xbf', b'\xe0\xa0', b'\xed\xa0\x80', b'\xf0\x8f\xbf\xbf',
           b'\xf0\x90\x80', b'\xf4\x90\x80\x80', b'\xf5\x80\x80\x80', b'\xff', b'\xe2\x82\xac', b'\xf4\x8f\xbf\xbf']
    for before, middle, after in itertools.product(good, bad, good):
        yield before.encode() + middle + after.encode()


def front(sequence):
    """The character at the front and its width, or none."""
    for width in range(1, 5):
        try:
            return ord(sequence[:width].decode('utf-8')), width
        except (UnicodeDecodeError, TypeError):
            pass
    return 0, 0


def whole(sequence):
    try:
        return 1, len(sequence.decode('utf-8'))
    except UnicodeDecodeError as error:
        return 0, error.start


def main(arguments):
    check = checks(arguments, __doc__)
    sequences = [bytes.fromhex(s) for s in RFC] + list(single()) + list(boundaries()) + list(forms()) + list(placed())
    lines = ['%s %06x %x %x %02x\n' % (s.hex(), *front(s), *whole(s)) for s in dict.fromkeys(sequences)]
    crate = ROOT / 'crates/utf8_vectors'
    count = 'utf8_vectors: %d sequences, 0 differ\n' % len(lines)
    store('utf8', {crate / 'stdin': ''.join(lines), crate / 'stdout': count}, check)
    print('utf8: %d sequences %s' % (len(lines), 'agree' if check else 'written'))


if __name__ == '__main__':
    main(sys.argv[1:])
