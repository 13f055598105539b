#!/usr/bin/env python3
"""Tests of tools/offset_text.py.   Run: python3 tools/test_offset_text.py"""
import math
import random
import struct
import unittest
from fractions import Fraction

from offset_text import LARGEST, NoOffset, has_form, text_of_value, text_of_whole, whole_of_text


class Texts(unittest.TestCase):
    def test_known(self):
        for text, whole in (("+000 00 00.000", 0), ("+000 00 00.001", 1), ("-000 00 00.001", -1), ("+000 00 01.000", 1000), ("+000 01 00.000", 60000),
                            ("-001 00 00.000", -3600000), ("+012 34 56.789", 45296789), ("+359 59 59.999", LARGEST), ("-359 59 59.999", -LARGEST)):
            self.assertEqual((whole_of_text(text), text_of_whole(whole)), (whole, text))

    def test_every_number_returns(self):
        rng = random.Random(3)
        for whole in [*range(-70000, 70000, 7), *(rng.randint(-LARGEST, LARGEST) for _ in range(5000))]:
            self.assertEqual(whole_of_text(text_of_whole(whole)), whole)

    def test_none(self):
        for text, part in (("-000 00 00.000", "zero is written with plus"), ("+360 00 00.000", "360 degrees"), ("+012 60 00.000", "60 minutes"),
                           ("-012 34 60.000", "60 seconds")):
            self.assertTrue(has_form(text))
            with self.assertRaisesRegex(NoOffset, part):
                whole_of_text(text)
        for text in ("", "+012 34 56.78", "+012 34 56.7890", "+012 34 56.789\n", "+012 34 56,789", "+012\t34 56.789", "012 34 56.789", "+12 34 56.789",
                     "+01x 34 56.789", "+012 34 56.78\u0669", "+012  34 56.789", "\u2212012 34 56.789"):
            self.assertFalse(has_form(text), ascii(text))
            with self.assertRaisesRegex(NoOffset, "not written as"):
                whole_of_text(text)


class Values(unittest.TestCase):
    def test_known(self):
        for value, text in ((0.0, "+000 00 00.000"), (-0.0, "+000 00 00.000"), (-0.4, "+000 00 00.000"), (-0.5, "+000 00 00.000"), (0.5, "+000 00 00.000"),
                            (math.nextafter(0.5, 1), "+000 00 00.001"), (1.5, "+000 00 00.002"), (-1.5, "-000 00 00.002"), (2.5, "+000 00 00.002"),
                            (5e-324, "+000 00 00.000"), (45296789.0, "+012 34 56.789"), (math.nextafter(1295999999.5, 0), "+359 59 59.999")):
            self.assertEqual(text_of_value(value), text, value)

    def test_none(self):
        for value in (1295999999.5, -1295999999.5, 1296000000.0, 2.0**52, 1e300, -1.7976931348623157e308):
            with self.assertRaisesRegex(NoOffset, "rounds beyond the largest, 1,295,999,999"):
                text_of_value(value)
        for value in (math.inf, -math.inf, math.nan):
            with self.assertRaisesRegex(NoOffset, "not finite"):
                text_of_value(value)

    def test_within_a_half(self):
        """And even where both neighbours are a half away."""
        rng = random.Random(4)
        for _ in range(5000):
            value = rng.choice((rng.uniform(-1.3e9, 1.3e9), rng.randint(-1300000000, 1300000000) + 0.5, struct.unpack("<d", rng.randbytes(8))[0]))
            try:
                whole = whole_of_text(text_of_value(value))
            except NoOffset:
                self.assertFalse(abs(value) < 1295999999.5)
            else:
                apart = abs(Fraction(value) - whole)
                self.assertTrue(apart < Fraction(1, 2) or (apart == Fraction(1, 2) and whole % 2 == 0), value)


if __name__ == "__main__":
    unittest.main()
