"""The four fields of document 01, and its marked cases as far as a caller sees them."""

import unittest

import numpy as np

from support import ROOT, bits, csr, dalumiveth, diagonal, four_fields, refusal_of

PRINTED = b"""plan 4 9 2 2 3 4 31
rows 3 4 3 4
x 1 3FF0000000000000
x 2 3FF0000000000000
x 3 3FF0000000000000
x 4 3FF0000000000000
updates 3
"""


class FourFields(unittest.TestCase):
    def setUp(self):
        self.matrix, self.right = four_fields()
        self.plan = dalumiveth.plan(self.matrix)

    def test_lists_stores_and_reads(self):
        """M1 to M3."""
        self.assertEqual([self.plan.upper(k).tolist() for k in range(4)], [[2], [2, 3], [3], []])
        self.assertEqual([self.plan.lower(k).tolist() for k in range(4)], [[2], [3], [3], []])
        self.assertEqual(tuple(self.plan.counts), (4, 4, 9, 2, 2, 3, 4, 31))
        stores = [store.tolist() for store in self.plan.stores]
        self.assertEqual(stores, [[3, 4], [0, 1, 1, 2], [0, 1, 2, 3, 3], [3, 4], [0, 0, 1, 2], [0, 1, 3, 4, 4]])

    def test_largest(self):
        """M4, and the solution of the listing."""
        run = self.plan.run(self.matrix, self.right)
        self.assertEqual(run.pivot_rows.tolist(), [2, 3, 2, 3])
        self.assertEqual(bits(run.x), bits(np.ones(4)))
        self.assertEqual(run.updates, 3)
        self.assertEqual(run.u[3], 0.0)

    def test_lists(self):
        """M5 to M8; row lists count from 0 here."""
        self.assertEqual(self.plan.run(self.matrix, self.right, rows=[0, 1, 2, 3]).updates, 2)
        run = self.plan.run(self.matrix, self.right, rows=np.array([0, 1, 3, 3]))
        self.assertEqual((run.updates, run.U[2, 3]), (3, 2.0))
        self.assertEqual(refusal_of(self.plan.run, self.matrix, self.right, rows=[1, 1, 2, 3]), (13, 1))
        self.assertEqual(refusal_of(self.plan.run, self.matrix, self.right, rows=[0, 0, 2, 3]), (12, 0))

    def test_one_field_and_ties(self):
        """M9 and M10."""
        one = diagonal(1, [0.0])
        self.assertEqual(refusal_of(dalumiveth.plan(one).run, one, np.ones(1)), (13, 1))
        tied = csr(2, [[0, 1], [0, 1]], [2.0, 1.0, -2.0, 3.0])
        self.assertEqual(dalumiveth.plan(tied).run(tied, np.ones(2)).pivot_rows.tolist(), [0, 1])

    def test_cut(self):
        run = self.plan.run(self.matrix, self.right, steps=1)
        self.assertEqual(run.pivot_rows.tolist(), [2, -1, -1, -1])
        self.assertEqual(run.x.tolist(), [8.0, 2.0, -1.0, 7.0])
        self.assertEqual(run.l.tolist(), [0.5, 2.0, 1.0])
        self.assertEqual(run.updates, 1)

    def test_job(self):
        data = (ROOT / "examples" / "four_fields.job").read_bytes()
        self.assertEqual(dalumiveth.job(data), PRINTED)
        self.assertEqual(dalumiveth.job(bytearray(data)), PRINTED)
        self.assertEqual(dalumiveth.job(memoryview(data)), PRINTED)

    def test_results_repeat(self):
        first = self.plan.run(self.matrix, self.right)
        for _ in range(100):
            again = self.plan.run(self.matrix.data, self.right)
            for name in ("l", "u", "d", "x"):
                self.assertEqual(bits(getattr(again, name)), bits(getattr(first, name)))
            self.assertEqual((again.pivot_rows.tolist(), again.updates), (first.pivot_rows.tolist(), first.updates))


if __name__ == "__main__":
    unittest.main()
