#!/usr/bin/env python3
"""Tests of tools/seeded_load.py.   Run: python3 tools/test_seeded_load.py"""
import unittest

import job_text
from job_bytes import Refused, bits_of
from seeded_load import LARGEST_SEED, Draws, job_of, rows_of

# Worked out elsewhere: the first eight draws of three seeds, and a load whole.
DRAWS = {
    0: (2245302282, 185081908, 2313965219, 370163945, 2646410846, 326733158, 2442523379, 740327763),
    1: (2245302665, 185082037, 2313964836, 370163816, 2646411229, 326733287, 2442526061, 740327890),
    LARGEST_SEED: (2245302411, 185082295, 2313965090, 370164590, 2646410975, 326733029, 2442523250, 740329180),
}
SHOWN = """fields 5
row 1   1:74  3:15  4:-826  = 962
row 2   2:189  = 734
row 3   3:291  = 298
row 4   4:626  = -947
row 5   3:644  5:495  = 855
"""


def refusal_of(seed, n, d):
    """The number of the refusal, or None."""
    try:
        rows_of(seed, n, d)
    except Refused as refusal:
        return refusal.number
    return None


class Loads(unittest.TestCase):
    def test_draws(self):
        for seed, expected in DRAWS.items():
            draws = Draws(seed)
            self.assertEqual(tuple(draws.next() for _ in expected), expected)

    def test_every_draw_once(self):
        """The three steps from a state to its draw lose nothing: states that differ give draws that differ."""
        draws = Draws(12345)
        self.assertEqual(len({draws.next() for _ in range(50000)}), 50000)

    def test_whole_load(self):
        self.assertEqual(job_text.show(job_of(1984, 5, 3)), SHOWN)

    def test_places(self):
        """The diagonal always; with d 1 every place; past 32 bits only what a draw of 0 brings."""
        for seed in (0, 1, 7, LARGEST_SEED):
            for places, d in ((range(1, 6), 1), ((), 2**32), ((), 2**64 - 1)):
                for i, (entries, right) in enumerate(rows_of(seed, 5, d), 1):
                    self.assertEqual([column for column, _ in entries], sorted({*places, i}))
                    self.assertTrue(all(-1000 <= value <= 1000 for value in (right, *(value for _, value in entries))))
        self.assertEqual([[column for column, _ in entries] for entries, _ in rows_of(3281063054, 2, 2**64 - 1)], [[1, 2], [2]])

    def test_refusals(self):
        """1 for n, then 23, then 1 for the entries."""
        for n in (0, 1025, 2**32 + 1, 2**64):
            self.assertEqual((refusal_of(7, n, 0), refusal_of(7, n, 3)), (1, 1))
        for n in (1, 129, 1024):
            self.assertEqual(refusal_of(7, n, 0), 23)
        self.assertEqual((refusal_of(7, 128, 1), refusal_of(7, 129, 1)), (None, 1))
        self.assertEqual((refusal_of(60, 180, 2), refusal_of(4, 180, 2)), (None, 1))

    def test_zero_is_plus_zero(self):
        """A value of 0 is listed, with the bits of +0."""
        fields = job_of(1610, 1, 1)
        self.assertEqual(fields.rows[0].entries, [(1, 0)])
        self.assertEqual(fields.rows[0].right, bits_of(-521.0))


class Jobs(unittest.TestCase):
    def test_bounds(self):
        """What the program would refuse: more than 128 rows, more than 16,384 bytes."""
        for n, d, part in ((129, 100, "129 fields: 1 to 128 are possible (the program would refuse it: 1)"), (1024, 1, "1024 fields: 1 to 128"),
                           (128, 1, "the job would have 181764 bytes, and 16384 are possible (the program would refuse it: 18)")):
            with self.assertRaises(job_text.BadText) as caught:
                job_of(7, n, d)
            self.assertTrue(str(caught.exception).startswith(part), str(caught.exception))
        self.assertEqual(job_of(7, 128, 20).n, 128)

    def test_refusals_first(self):
        """A load that is refused has no job to judge."""
        for n, d, number in ((0, 0, 1), (1025, 0, 1), (500, 0, 23), (5, 0, 23)):
            with self.assertRaises(Refused) as caught:
                job_of(7, n, d)
            self.assertEqual(caught.exception.number, number)


if __name__ == "__main__":
    unittest.main()
