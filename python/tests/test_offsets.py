"""Offsets (document 02, ticket 11): fixed and random ones, against fractions and the text's own grammar."""

import math
import random
import re
import struct
import unittest
from collections import Counter
from fractions import Fraction

import numpy as np

from support import bits, dalumiveth, refusal_of  # puts the package on the path
from dalumiveth.library import USIZE, call, lend

LARGEST = 1295999999
TRIALS = 2000


# ---- what document 02 says, by fractions and by a pattern; nothing of it is taken from the package


def nearest(value):
    """The nearest whole number, the even one at a half; None where there is none of at most the largest magnitude."""
    if not math.isfinite(value):
        return None
    exact = Fraction(value)
    below = exact.numerator // exact.denominator
    rest = exact - below
    whole = below + (rest > Fraction(1, 2) or (rest == Fraction(1, 2) and below % 2 == 1))
    return whole if abs(whole) <= LARGEST else None


def text_of(whole):
    seconds, rest = divmod(abs(whole), 1000)
    minutes, seconds = divmod(seconds, 60)
    degrees, minutes = divmod(minutes, 60)
    return f"{'-' if whole < 0 else '+'}{degrees:03} {minutes:02} {seconds:02}.{rest:03}"


GRAMMAR = re.compile(rb"([+-])([0-2][0-9]{2}|3[0-5][0-9]) ([0-5][0-9]) ([0-5][0-9])\.([0-9]{3})")


def number_of(text):
    """The whole number of a text; None for a text that is not an offset."""
    found = GRAMMAR.fullmatch(text)
    if not found or text == b"-000 00 00.000":
        return None
    degrees, minutes, seconds, rest = map(int, found.groups()[1:])
    whole = 3600000 * degrees + 60000 * minutes + 1000 * seconds + rest
    return -whole if found[1] == b"-" else whole


# ---- what is tried


def float_of(pattern):
    return struct.unpack("<d", struct.pack("<Q", pattern))[0]


def neighbours(value):
    """A float and two on each side."""
    lower, upper = np.nextafter(value, -np.inf), np.nextafter(value, np.inf)
    return [float(x) for x in (np.nextafter(lower, -np.inf), lower, value, upper, np.nextafter(upper, np.inf))]


def floats(rng):
    """Floats of every exponent, halves, whole numbers and their neighbours, around the largest, around zero."""
    for _ in range(TRIALS):
        yield float_of(rng.getrandbits(64))
        yield from neighbours(rng.randrange(-LARGEST, LARGEST) + 0.5)
        yield from neighbours(float(rng.randrange(-LARGEST, LARGEST + 1)))
        yield rng.uniform(-1.3e9, 1.3e9)
    for whole in range(2048):
        yield from neighbours(whole - 1024 + 0.5)
    for exponent in range(-1074, 1024):
        yield from (sign * other for sign in (-1, 1) for other in neighbours(math.ldexp(1.0, exponent)))
    for half in range(-8, 9):
        yield from (sign * other for sign in (-1, 1) for other in neighbours(LARGEST + half / 2))
    yield from (0.0, -0.0, 0.4, -0.4, 0.5, -0.5, math.inf, -math.inf, math.nan, -math.nan)


def near_misses(rng, text):
    """A text with one byte changed, put in or left out, in other bounds, or in another writing."""
    place, byte = rng.randrange(14), rng.choice(b"+- \t,.:0123456789eEoO\n\0")
    yield text[:place] + bytes([byte]) + text[place + 1:]
    yield text[:place] + bytes([rng.randrange(256)]) + text[place + 1:]
    yield text[:place] + text[place + 1:]
    yield text[:place] + bytes([byte]) + text[place:]
    yield text[:1] + b"%03d" % rng.randrange(350, 1000) + text[4:]
    yield text[:5] + b"%02d" % rng.randrange(55, 100) + text[7:]
    yield text[:8] + b"%02d" % rng.randrange(55, 100) + text[10:]
    yield text.replace(b" ", b"\t")
    yield text.replace(b".", b",")
    yield text[1:]
    yield text + b"\0"


def texts(rng):
    for _ in range(TRIALS):
        text = text_of(rng.choice((rng.randrange(-LARGEST, LARGEST + 1), rng.randrange(-100000, 100000), rng.randrange(-2, 3)))).encode()
        yield text
        yield from near_misses(rng, text)
        yield bytes(rng.randrange(256) for _ in range(rng.choice((0, 13, 14, 14, 15))))
    yield from (b"-000 00 00.000", b"+000 00 00.000", b"+360 00 00.000", b"+359 59 59.999", b"-359 59 59.999", b"+012 34 56.78D")


class Random(unittest.TestCase):
    def test_written(self):
        """The nearest whole number's text, within a half, and it reads as that number; else 29."""
        seen = Counter()
        for value in floats(random.Random(11)):
            whole = nearest(value)
            if whole is None:
                self.assertEqual(refusal_of(dalumiveth.write_offset, value), (29, 0), value)
            else:
                text = dalumiveth.write_offset(value)
                self.assertEqual(text, text_of(whole), value)
                self.assertLessEqual(abs(Fraction(value) - whole), Fraction(1, 2))
                self.assertEqual(dalumiveth.read_offset(text), (whole, float(whole)))
            seen["refused" if whole is None else "half" if abs(Fraction(value) - whole) == Fraction(1, 2) else "written"] += 1
        self.assertGreater(min(seen.values()), TRIALS, seen)

    def test_read(self):
        """The text of its number, and written again it is that text; else 28."""
        seen = Counter()
        for text in texts(random.Random(12)):
            whole = number_of(text)
            seen[whole is None] += 1
            if whole is None:
                self.assertEqual(refusal_of(dalumiveth.read_offset, text), (28, 0), text)
                continue
            offset = dalumiveth.read_offset(text)
            self.assertEqual((offset.whole, type(offset.whole)), (whole, int), text)
            self.assertEqual(bits(np.array([offset.value])), bits(np.array([float(whole)])), text)
            self.assertEqual(dalumiveth.write_offset(offset.value).encode(), text)
        self.assertGreater(min(seen.values()), TRIALS, seen)


class Fixed(unittest.TestCase):
    def test_traps(self):
        for value in (-0.0, -0.4, -0.5, 0.5, 5e-324, -2.2250738585072014e-308):
            self.assertEqual(dalumiveth.write_offset(value), "+000 00 00.000")
        for value, text in ((-1.5, "-000 00 00.002"), (1.5, "+000 00 00.002"), (2.5, "+000 00 00.002"), (45296789.0, "+012 34 56.789"),
                            (1295999999.4999998, "+359 59 59.999"), (-1295999999.4999998, "-359 59 59.999")):
            self.assertEqual(dalumiveth.write_offset(value), text)

    def test_texts_and_bytes(self):
        expected = dalumiveth.Offset(-45296789, -45296789.0)
        for text in ("-012 34 56.789", b"-012 34 56.789", bytearray(b"-012 34 56.789"), memoryview(b"-012 34 56.789"),
                     memoryview(b"-.0.1.2. .3.4. .5.6...7.8.9.")[::2]):
            self.assertEqual(dalumiveth.read_offset(text), expected)
        for text in ("+012 34 56.78\uff19", "\u2212012 34 56.789", "+012\u00a034 56.789", "\ud800", "+012 34 56.789 ", " +012 34 56.789"):
            self.assertEqual(refusal_of(dalumiveth.read_offset, text), (28, 0), ascii(text))
        for text in (None, 45296789, 1.5, ["+012 34 56.789"]):
            with self.assertRaisesRegex(TypeError, "^an offset's text is str or bytes"):
                dalumiveth.read_offset(text)

    def test_numbers(self):
        """Floats and what Python takes for a whole number; nothing else is converted silently."""
        for value in (45296789, np.int64(45296789), np.uint64(45296789), np.float64(45296789.25)):
            self.assertEqual(dalumiveth.write_offset(value), "+012 34 56.789")
        self.assertEqual(dalumiveth.write_offset(-LARGEST), "-359 59 59.999")
        for value in ("1", b"1", None, 1j, Fraction(1, 2), np.float32(1), np.ones(2)):
            with self.assertRaisesRegex(TypeError, "^milliarcseconds are a float or a whole number"):
                dalumiveth.write_offset(value)

    def test_stores_of_the_exported_functions(self):
        """Answers of any length; zeros after a refusal, whatever stood in the stores."""
        good, other = (np.frombuffer(text, dtype=np.uint8) for text in (b"-012 34 56.789", b"-000 00 00.000"))
        for length in (0, 1, 3, 4, 6):
            for text, told, number in ((good, [0, 0, 1, 45296789, 0, 0], -45296789.0), (other, [28, 0, 0, 0, 0, 0], 0.0)):
                value, answer = np.full(1, np.nan), np.full(length, 7, dtype=USIZE)
                self.assertEqual(call("dalumiveth_read_offset", *lend(text, value, answer)), told[0])
                self.assertEqual((answer.tolist(), bits(value)), (told[:length], bits(np.array([number]))))
            for value, told, text in ((-45296789.0, [0, 0, 1, 45296789, 0, 0], good.tobytes()), (np.nan, [29, 0, 0, 0, 0, 0], bytes(14))):
                out, answer = np.full(14, 7, dtype=np.uint8), np.full(length, 7, dtype=USIZE)
                self.assertEqual(call("dalumiveth_write_offset", value, *lend(out, answer)), told[0])
                self.assertEqual((answer.tolist(), out.tobytes()), (told[:length], text))


if __name__ == "__main__":
    unittest.main()
