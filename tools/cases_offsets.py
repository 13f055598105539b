#!/usr/bin/env python3
"""Writes the requests and the expected lines of the program crates/cases_offsets.

  tools/cases_offsets.py DENSE_FOLDER

DENSE_FOLDER holds the program of different authorship that document 01 asks for (dense_program.py). What a text reads as, the
text of a float, 28 and 29 come from it; 6 and the zeros after a refusal are said in dense_program.py, the f64 of a whole number is Python's.
The files stdin and stdout of the crate are written anew; the seed is fixed, so that they come out the same.

A request to read: "R", the text's length in a byte, the text. A request to write: "W", the store's length in a byte, the byte that the store holds
before the call, the eight bytes of an f64, low byte first.
"""
import collections
import itertools
import random
import struct
import sys

from cases_files import write_files
from dense_program import OFFSET_BYTES, Dense

LARGEST, LONGEST = 1_295_999_999, 32
SECOND, MINUTE, DEGREE = 1_000, 60_000, 3_600_000
INF, NAN = float("inf"), float("nan")
BEFORE = (0xFF, 0x01, 0x3A, 0x7F, 0x80)             # what stores hold before the call, in turn: nothing that a call leaves there
BEYOND = "refused 29", "refused 29"                 # of a value and its negative
PLAIN, LAST = b"+012 34 56.789", b"-359 59 59.999"


def bits_of(x):
    return struct.unpack("<Q", struct.pack("<d", x))[0]


def of_bits(bits):
    return struct.unpack("<d", struct.pack("<Q", bits))[0]


def near(x):
    """A float above zero and its two neighbours."""
    return of_bits(bits_of(x) - 1), x, of_bits(bits_of(x) + 1)


class Cases:
    """The requests and the lines so far, and how often each answer came."""

    def __init__(self, dense):
        self.dense, self.bytes, self.lines = dense, bytearray(), []
        self.answers, self.before = collections.Counter(), itertools.cycle(BEFORE)

    def note(self, what, answer, rest):
        """Writes a request's line, and answers its whole number, or the refusal's number as a text."""
        self.lines.append(" ".join(map(str, (what, len(self.lines) + 1, *answer, *rest))))
        granted = answer[0] == "granted"
        self.answers[what, 0 if granted else answer[1]] += 1
        return answer[1] if granted else f"refused {answer[1]}"

    def read(self, text):
        self.bytes += b"R" + bytes([len(text)]) + text
        answer = self.dense.read_offset(text)
        return self.note("read", answer, [f"{bits_of(float(answer[1])):016x}"] if answer[0] == "granted" else [])

    def write_bits(self, bits, length=OFFSET_BYTES):
        """Writes a float by its bits, so that every NaN can be asked for, and reads what was written."""
        self.bytes += b"W" + bytes([length, next(self.before)]) + struct.pack("<Q", bits)
        answer, store = self.dense.write_offset(of_bits(bits), length)
        found = self.note("write", answer, [store.hex()])
        if answer[0] == "granted":
            again = self.read(store)
            assert again == found, (again, found)
        return found

    def write(self, value, length=OFFSET_BYTES):
        return self.write_bits(bits_of(value), length)

    def write_both(self, value):
        """A value and its negative."""
        return self.write(value), self.write(-value)

    def expect(self, found, foreseen):
        """The generator, or the program that is asked, is at fault if an answer that follows from the document is another."""
        assert found == foreseen, (found, foreseen, self.lines[-1])


# ------------------------------------------------------------------ floats

def small(cases):
    """Around zero: what goes to zero is written with plus, whatever its sign."""
    for value in (0.0, 5e-324, 2.0 ** -1022, 2.0 ** -1074 * 3, 1e-300, 0.1, 0.25, 0.4, near(0.5)[0], 0.5):
        cases.expect(cases.write_both(value), (0, 0))
    for value, whole in ((near(0.5)[2], 1), (0.6, 1), (1.0, 1), (1.4, 1), (near(1.5)[0], 1), (1.5, 2), (2.5, 2), (near(2.5)[2], 3), (3.5, 4)):
        cases.expect(cases.write_both(value), (whole, -whole))


def ties(cases):
    """Halves and their neighbours: beside the largest and the smallest of each field, beside powers of two, beside the largest of all."""
    wholes = [unit * count - 1 for unit in (SECOND, MINUTE, DEGREE) for count in (1, 2, 9, 10, 59, 60, 99, 100, 359)]
    wholes += [2 ** k - 1 for k in range(1, 31)] + [2 ** k for k in range(1, 31)] + [45_296_788, 45_296_789, LARGEST - 2]
    for whole in wholes:
        for value, goes in zip(near(whole + 0.5), (whole, whole + whole % 2, whole + 1)):
            cases.expect(cases.write_both(value), (goes, -goes))


def largest(cases):
    """The largest is odd, so that the half beyond it is refused."""
    below, half, above = near(LARGEST + 0.5)
    for value, short in ((-1.0, 1), (-0.5, 1), (0.0, 0), (0.25, 0)):
        cases.expect(cases.write_both(LARGEST + value), (LARGEST - short, short - LARGEST))
    for value in (near(LARGEST - 0.5)[2], below):
        cases.expect(cases.write_both(value), (LARGEST, -LARGEST))
    for value in (half, above, LARGEST + 0.75, *near(LARGEST + 1.0), LARGEST + 2.0, 2.0 * LARGEST, 10.0 * LARGEST):
        cases.expect(cases.write_both(value), BEYOND)


def not_finite(cases):
    for payload in (0, 1, 1 << 50, (1 << 51) - 1, 1 << 51, (1 << 51) + 1, 0x80000DEADBEEF, (1 << 52) - 1):     # 0 is an infinity's
        for sign in (0, 1 << 63):
            cases.expect(cases.write_bits(sign | 0x7FF << 52 | payload), "refused 29")


def wide(cases):
    """Beyond the whole numbers that a float counts, and beyond those that an integer holds."""
    for power in (31, 32, 33, 51, 52, 53, 54, 62, 63, 64, 65, 127, 128, 1023):
        for value in near(2.0 ** power):
            cases.expect(cases.write_both(value), BEYOND)
    cases.expect(cases.write_both(sys.float_info.max), BEYOND)


def exponents(cases, rng):
    """Every exponent of an f64 once, subnormals, infinities and NaNs too; eight times those from a quarter to beyond the largest."""
    for exponent in range(2048):
        for _ in range(8 if 1021 <= exponent <= 1054 else 1):
            cases.write_bits(rng.getrandbits(1) << 63 | exponent << 52 | rng.getrandbits(52))


def drawn_floats(cases, rng):
    """Spread evenly over the range and a little beyond it, and in quarters near whole numbers of each field."""
    for _ in range(150):
        cases.write(rng.uniform(-1.05, 1.05) * LARGEST)
    for _ in range(150):
        whole = rng.choice((1, SECOND, MINUTE, DEGREE)) * rng.randint(0, 359) + rng.randint(-1, 1)
        cases.write(rng.choice((-1, 1)) * (whole + rng.randint(-4, 4) / 4))


def stores(cases):
    """Stores of every length, with a float that can be written and with floats that cannot: 6 comes before 29."""
    for length in range(LONGEST + 1):
        for value in (45_296_789.0, -0.5, NAN, INF, LARGEST + 0.5, -1e300):
            found = cases.write(value, length)
            if length != OFFSET_BYTES:
                cases.expect(found, "refused 6")


# ------------------------------------------------------------------ texts

def text_of(sign, degrees, minutes, seconds, thousandths):
    return b"%c%03d %02d %02d.%03d" % (sign, degrees, minutes, seconds, thousandths)


def bounds(cases):
    """Every field at its bounds and beyond, with both signs."""
    for degrees, minutes, seconds, thousandths in itertools.product((0, 1, 359, 360, 999), (0, 59, 60, 99), (0, 59, 60, 99), (0, 1, 999)):
        whole = degrees * DEGREE + minutes * MINUTE + seconds * SECOND + thousandths
        good = degrees < 360 and minutes < 60 and seconds < 60
        cases.expect(cases.read(text_of(b"+"[0], degrees, minutes, seconds, thousandths)), whole if good else "refused 28")
        cases.expect(cases.read(text_of(b"-"[0], degrees, minutes, seconds, thousandths)), -whole if good and whole else "refused 28")


def fields(cases):
    """Every number that two digits give, as minutes and as seconds, and every multiple of seven as degrees."""
    for number in range(100):
        cases.expect(cases.read(text_of(b"+"[0], 12, number, 34, 567)), 12 * DEGREE + number * MINUTE + 34_567 if number < 60 else "refused 28")
        cases.expect(cases.read(text_of(b"-"[0], 12, 34, number, 567)), -(12 * DEGREE + 34 * MINUTE + number * SECOND + 567) if number < 60 else "refused 28")
    for number in range(0, 1000, 7):
        cases.expect(cases.read(text_of(b"-"[0], number, 0, 0, number)), -(number * DEGREE + number) if 0 < number < 360 else "refused 28")


def replaced(cases):
    """Each of the 14 places replaced by bytes that may or may not stand there; one place of each kind by every byte."""
    for text in (PLAIN, LAST):
        for place in range(OFFSET_BYTES):
            for byte in b"/:;09 +-.,_\t\n\rAaeEOx'\"" + bytes([0x00, 0x1F, 0x7F, 0x80, 0xB0, 0xFF]):
                cases.read(text[:place] + bytes([byte]) + text[place + 1:])
    for place, byte in itertools.product((0, 1, 4, 10, 13), range(256)):
        cases.read(PLAIN[:place] + bytes([byte]) + PLAIN[place + 1:])


def lengths(cases):
    """Cut short, made longer at either end, a byte left out, a byte doubled, two exchanged."""
    for text in (PLAIN, LAST):
        others = [text[:size] for size in range(OFFSET_BYTES)] + [text[size:] for size in range(1, OFFSET_BYTES)]
        others += [text + byte for byte in (b"\0", b"0", b" ", b"\n", text)] + [byte + text for byte in (b"\0", b"0", b"+", b" ", b"-")]
        others += [text[:at] + text[at + 1:] for at in range(OFFSET_BYTES)] + [text[:at] + text[at:at + 1] + text[at:] for at in range(OFFSET_BYTES)]
        for other in others:
            cases.expect(cases.read(other), "refused 28")
        for at in range(OFFSET_BYTES - 1):
            cases.read(text[:at] + text[at + 1:at + 2] + text[at:at + 1] + text[at + 2:])


def named(cases):
    """The document's own text, the zeros and the largest."""
    for text, answer in ((PLAIN, 45_296_789), (LAST, -LARGEST), (b"+359 59 59.999", LARGEST), (b"+000 00 00.000", 0), (b"-000 00 00.000", "refused 28"),
                         (b"-000 00 00.001", -1)):
        cases.expect(cases.read(text), answer)


def look_alikes(cases):
    """Texts that look like an offset: other spacing, other signs, other digits."""
    for text in (b"", b"+12 34 56.789", b"+012:34:56.789", b"+012\t34\t56.789", b"+012 34 56,789", b" 012 34 56.789", b"0012 34 56.789",
                 b"+012d34m56.789", b"+012 34 56.78e", b"+ 12 34 56.789", b"+012 34 56.7 9", b"+0x2 34 56.789", b"+1_2 34 56.789",
                 b"+012 +4 56.789", b"+-12 34 56.789", b"--12 34 56.789", b"+012  4 56.789", b"\xEF\xBC\x8B012 34 56.7", b"\xE2\x88\x92012 34 56.7",
                 b"+\xD9\xA0\xD9\xA1 34 56.78", b"+012\xC2\xA034 56.78", bytes(14), b"\xFF" * 14, b" " * 14, b"0" * 14, b"+" * 14):
        cases.expect(cases.read(text), "refused 28")


def drawn_texts(cases, rng):
    """Numbers at random, in range and out of it, then bytes at random of every length."""
    for _ in range(200):
        degrees, minutes, seconds = (rng.randint(0, rng.choice(most)) for most in ((359, 999), (59, 99), (59, 99)))
        cases.read(text_of(rng.choice(b"+-"), degrees, minutes, seconds, rng.randint(0, 999)))
    for length in range(LONGEST + 1):
        cases.read(bytes(rng.choice(b"+-0123456789 .") for _ in range(length)))
        cases.read(bytes(rng.getrandbits(8) for _ in range(length)))


# ------------------------------------------------------------------ files

def main():
    if len(sys.argv) != 2:
        raise SystemExit(__doc__)
    cases, rng = Cases(Dense(sys.argv[1])), random.Random(8443)
    for group in (named, look_alikes, small, ties, largest, not_finite, wide, stores, bounds, fields, replaced, lengths):
        group(cases)
    for group in (exponents, drawn_floats, drawn_texts):
        group(cases, rng)
    assert sorted(cases.answers) == [("read", 0), ("read", 28), ("write", 0), ("write", 6), ("write", 29)], cases.answers
    count = len(cases.lines)
    # the last request asks for a longer store than the program has: it ends the program
    cases.bytes += b"W" + bytes([LONGEST + 1]) + bytes(9)
    cases.lines.append("bad request")
    write_files("cases_offsets", cases.bytes, "\n".join(cases.lines) + "\n")
    print(f"{count} requests; answers by call and number (0: granted) {dict(sorted(cases.answers.items()))}")


if __name__ == "__main__":
    main()
