"""Every refusal, 1 to 19, 23 and 25 to 29, where a caller from Python can bring it about."""

import copy
import pickle
import random
import re
import struct
import unittest

import numpy as np

from dalumiveth.library import USIZE, call, lend
from support import ROOT, csr, dalumiveth, diagonal, four_fields, refusal_of, seen_twice


class OfPatterns(unittest.TestCase):
    def test_1_limits(self):
        self.assertEqual(refusal_of(dalumiveth.plan, csr(0, [])), (1, 0))
        self.assertEqual(refusal_of(dalumiveth.plan, diagonal(1025)), (1, 0))
        self.assertEqual(dalumiveth.plan(diagonal(1024)).n, 1024)
        self.assertEqual(refusal_of(dalumiveth.plan, four_fields()[0], most=3), (1, 0))
        self.assertEqual(refusal_of(dalumiveth.plan, diagonal(3)._replace(shape=(2**70, 2**70))), (1, 0))
        dense = csr(129, [range(129)] * 129)
        self.assertEqual(refusal_of(dalumiveth.plan, dense), (1, 0))
        self.assertEqual(dalumiveth.plan(csr(128, [range(128)] * 128)).counts.entries, 16384)

    def test_2_starts(self):
        matrix = four_fields()[0]
        for indptr in ([0, 2, 4, 6], [1, 2, 4, 6, 9], [0, 4, 2, 6, 9], [0, 2, 4, 6, 8], [0, 2, 4, 6, 10], [0, -1, 4, 6, 9], []):
            self.assertEqual(refusal_of(dalumiveth.plan, matrix._replace(indptr=np.array(indptr))), (2, 0), indptr)

    def test_3_column(self):
        for column in (2, -1, -2**62, 2**62):
            self.assertEqual(refusal_of(dalumiveth.plan, csr(2, [[0], [1]])._replace(indices=np.array([0, column]))), (3, 0))

    def test_4_order(self):
        self.assertEqual(refusal_of(dalumiveth.plan, csr(2, [[0], [1, 1]])), (4, 0))
        self.assertEqual(refusal_of(dalumiveth.plan, csr(2, [[0], [1, 0, 1]])), (4, 0))

    def test_5_diagonal(self):
        """Rows beyond n need none, and may be empty."""
        self.assertEqual(refusal_of(dalumiveth.plan, csr(2, [[0, 1], [0]])), (5, 0))
        self.assertEqual(refusal_of(dalumiveth.plan, csr(2, [[0, 1], [0], [1]])), (5, 0))
        self.assertEqual(dalumiveth.plan(csr(2, [[0, 1], [1], [0], [], [0]])).shape, (5, 2))

    def test_25_rows(self):
        for n in (1, 2, 1024):
            for rows in (n, n + 1, 2047, 2048):
                matrix = csr(n, [[i] for i in range(n)] + [[]] * (rows - n))
                self.assertEqual(dalumiveth.plan(matrix).shape, (rows, n))
            for rows in (2049, 5000):
                matrix = csr(n, [[i] for i in range(n)] + [[]] * (rows - n))
                self.assertEqual(refusal_of(dalumiveth.plan, matrix), (25, 0), matrix.shape)
            for rows in {0, n - 1, n // 2}:
                matrix = csr(n, [[i] for i in range(rows)])
                self.assertEqual(refusal_of(dalumiveth.plan, matrix), (25, 0), matrix.shape)
        for rows in (0, 3, 2049, 2**32 + 4, 2**64, 2**70):
            self.assertEqual(refusal_of(dalumiveth.plan, four_fields()[0]._replace(shape=(rows, 4))), (25, 0), rows)

    def test_25_after_1_and_before_2(self):
        """n and the entries are judged before the row count, and the row count before row starts of any number."""
        for shape in ((2, 0), (2049, 0), (0, 1025), (2049, 1025), (0, 2**70), (2**70, 2**70)):
            self.assertEqual(refusal_of(dalumiveth.plan, four_fields()[0]._replace(shape=shape)), (1, 0), shape)
        self.assertEqual(refusal_of(dalumiveth.plan, four_fields()[0]._replace(shape=(3, 4)), most=3), (1, 0))
        many = csr(8, [range(8)] * 2049)
        self.assertEqual(refusal_of(dalumiveth.plan, many), (1, 0))
        self.assertEqual(refusal_of(dalumiveth.plan, many._replace(indices=many.indices[:16384])), (25, 0))
        for indptr in ([], [1, 2, 4, 6, 9], [0, 4, 2, 6, 9]):
            for rows, number in ((3, 25), (4, 2), (5, 2), (2048, 2), (2049, 25)):
                spoilt = four_fields()[0]._replace(indptr=np.array(indptr), shape=(rows, 4))
                self.assertEqual(refusal_of(dalumiveth.plan, spoilt), (number, 0), (rows, indptr))

    def test_7_and_8_room(self):
        matrix = four_fields()[0]
        dalumiveth.plan(matrix, room=2)
        self.assertEqual(refusal_of(dalumiveth.plan, matrix, room=0), (7, 1))
        self.assertEqual(refusal_of(dalumiveth.plan, matrix, room=(1, 2)), (7, 2))
        self.assertEqual(refusal_of(dalumiveth.plan, matrix, room=(2, 0)), (8, 1))
        self.assertEqual(refusal_of(dalumiveth.plan, matrix, room=(2, 1)), (8, 2))

    def test_room_of_tall_patterns(self):
        """Every row of a full rectangle has its slots, n(n-1)/2 + n (rows - n) of L: as many as are ever needed."""
        for n, rows in ((1, 1), (1, 2048), (3, 4), (8, 2048), (90, 180), (128, 128)):
            matrix = csr(n, [range(n)] * rows, np.random.default_rng(n).standard_normal(rows * n))
            plan = dalumiveth.plan(matrix)
            self.assertEqual((plan.counts.l_slots, plan.counts.u_slots), (n * (n - 1) // 2 + n * (rows - n), n * (n - 1) // 2))
            self.assertEqual((plan.counts.l_subscripts, plan.counts.u_subscripts), (rows - 1, n - 1))
            self.assertIsNone(refusal_of(plan.run, matrix, np.ones(rows), steps=n))
            self.assertIsNone(refusal_of(dalumiveth.plan, matrix, room=(rows - 1, n - 1)))
            if rows > 1:
                self.assertEqual(refusal_of(dalumiveth.plan, matrix, room=(rows - 2, n - 1)), (7, 1))
            if n > 1:
                self.assertEqual(refusal_of(dalumiveth.plan, matrix, room=(rows - 1, n - 2)), (8, 1))


class OfPlans(unittest.TestCase):
    """A plan is verified in every run."""

    def setUp(self):
        self.matrix, self.right = four_fields()
        self.plan = dalumiveth.plan(self.matrix)

    def refused(self, plan, matrix=None):
        """The refusal of a run; of `verify` and of a cut run it is the same."""
        matrix = self.matrix if matrix is None else matrix
        of_run = refusal_of(plan.run, matrix, np.ones(matrix.shape[0]))
        self.assertEqual(refusal_of(plan.run, matrix, np.ones(matrix.shape[0]), steps=0), of_run)
        self.assertEqual(refusal_of(plan.verify, matrix), of_run)
        return of_run

    def test_6_length_of_starts(self):
        for name in ("l_starts", "l_slots", "u_starts", "u_slots"):
            longer = np.append(getattr(self.plan.stores, name), np.uint64(0))
            stores = self.plan.stores._replace(**{name: longer})
            self.assertEqual(self.refused(dalumiveth.Plan(self.plan.pattern, self.plan.counts, stores)), (6, 0))

    def test_6_other_n(self):
        self.assertEqual(self.refused(self.plan, diagonal(5)), (6, 0))

    def test_6_other_rows(self):
        """The plan's starts would do, the work stores go by the row count."""
        for rows in (5, 8, 2048):
            taller = csr(4, [[0, 2], [1, 3], [0, 2], [1, 2, 3]] + [[]] * (rows - 4), self.matrix.data)
            self.assertEqual(self.refused(self.plan, taller), (6, 0))
            self.assertEqual(self.refused(dalumiveth.plan(taller)), (6, 0))

    def test_9_tampered_stores(self):
        self.assertIsNone(refusal_of(self.plan.verify))
        for name, store in self.plan.stores._asdict().items():
            with self.assertRaises(ValueError):
                store[0] = 1  # write-protected
            for place in range(store.size):
                store.flags.writeable = True
                kept, store[place] = store[place], store[place] + np.uint64(1)
                self.assertEqual(self.refused(self.plan), (9, 0), (name, place))
                store[place] = kept
        self.assertEqual(self.plan.run(self.matrix, self.right).x.tolist(), [1, 1, 1, 1])

    def test_9_tampered_counts(self):
        for name, count in self.plan.counts._asdict().items():
            for other in (count + 1, count - 1, 0, 2**60):
                counts = self.plan.counts._replace(**{name: other})
                self.assertEqual(self.refused(dalumiveth.Plan(self.plan.pattern, counts, self.plan.stores)), (9, 0), name)

    def test_9_by_the_rule_before(self):
        """Document 02, ticket 5: the lists of the third step stand at the stores' ends, put there by the first; laid anew they are another plan."""
        plan = dalumiveth.plan(csr(4, [[0], [1], [2], [0, 2, 3]], np.ones(6)))
        self.assertEqual(tuple(plan.counts), (4, 4, 6, 1, 2, 2, 3, 21))
        self.assertEqual([store.tolist() for store in plan.stores], [[4], [0, 1, 0, 1], [0, 1, 1, 2, 2], [3, 4], [0, 2, 1, 2], [0, 2, 2, 3, 3]])
        self.assertIsNone(refusal_of(plan.verify))
        anew = {"l_subs": [4, 4], "l_starts": [0, 1, 1, 2], "u_subs": [3, 4, 4], "u_starts": [0, 2, 2, 3]}
        stores = plan.stores._replace(**{name: np.array(store, dtype=np.uint64) for name, store in anew.items()})
        counts = plan.counts._replace(l_subscripts=2, u_subscripts=3)
        self.assertEqual(refusal_of(dalumiveth.Plan(plan.pattern, counts, stores).verify), (9, 0))

    def test_9_other_pattern(self):
        self.assertEqual(self.refused(self.plan, diagonal(4)), (9, 0))

    def test_pattern_without_plan(self):
        matrix = csr(4, [[0, 2], [1, 3], [0, 2], [1, 2]], np.ones(8))
        self.assertEqual(self.refused(self.plan, matrix), (5, 0))


class OfRuns(unittest.TestCase):
    def setUp(self):
        self.matrix, self.right = four_fields()
        self.plan = dalumiveth.plan(self.matrix)

    def test_10_lengths(self):
        self.assertEqual(refusal_of(self.plan.run, np.ones(8), self.right), (10, 0))
        self.assertEqual(refusal_of(self.plan.run, np.ones(10), self.right), (10, 0))
        self.assertEqual(refusal_of(self.plan.run, self.matrix, np.ones(3)), (10, 0))
        self.assertEqual(refusal_of(self.plan.run, self.matrix, np.ones(5)), (10, 0))
        self.assertEqual(refusal_of(self.plan.run, self.matrix._replace(data=np.ones(10)), self.right), (10, 0))

    def test_11_not_finite(self):
        for bad in (np.inf, -np.inf, np.nan):
            for place in range(9):
                values = self.matrix.data.copy()
                values[place] = bad
                self.assertEqual(refusal_of(self.plan.run, values, self.right), (11, 0))
            for place in range(4):
                right = self.right.copy()
                right[place] = bad
                self.assertEqual(refusal_of(self.plan.run, self.matrix, right), (11, 0))

    def test_12_list_and_steps(self):
        for rows in ([0, 1, 2], [0, 1, 2, 3, 3], [], [0, 0, 2, 3], [4, 1, 2, 3], [-1, 1, 2, 3], [0, 1, 2, 2]):
            self.assertEqual(refusal_of(self.plan.run, self.matrix, self.right, rows), (12, 0), rows)
        wrapping = np.array([2**64 - 1, 1, 2, 3], dtype=np.uint64)
        self.assertEqual(refusal_of(self.plan.run, self.matrix, self.right, wrapping), (12, 0))
        for steps in (5, 2**64, 2**200):
            self.assertEqual(refusal_of(self.plan.run, self.matrix, self.right, steps=steps), (12, 0))
            self.assertEqual(refusal_of(self.plan.run, self.matrix, self.right, [0, 1, 2, 3], steps), (12, 0))

    def test_13_no_pivot(self):
        singular = csr(3, [[0, 1], [0, 1], [2]], [1, 2, 2, 4, 1])
        plan = dalumiveth.plan(singular)
        self.assertEqual(refusal_of(plan.run, singular, np.ones(3)), (13, 2))
        self.assertEqual(refusal_of(plan.run, singular, np.ones(3), steps=2), (13, 2))
        self.assertIsNone(refusal_of(plan.run, singular, np.ones(3), steps=1))
        self.assertEqual(refusal_of(dalumiveth.splu, singular), (13, 2))

    def test_13_by_the_limit(self):
        """Document 02, ticket 14: 2^-1022 may be a pivot, the largest number below it may not, of either sign."""
        limit = 2.0**-1022
        faint = np.nextafter(limit, 0)
        for sign in (-1.0, 1.0):
            one = diagonal(1, [sign * limit])
            self.assertEqual(dalumiveth.plan(one).run(one, np.array([limit])).x.tolist(), [sign])
            self.assertEqual(refusal_of(dalumiveth.splu, diagonal(1, [sign * faint])), (13, 1))
            two = csr(2, [[0, 1], [0, 1]], [sign * faint, 1, limit, 1])
            plan = dalumiveth.plan(two)
            self.assertEqual(plan.run(two, np.ones(2)).pivot_rows.tolist(), [1, 1])
            self.assertEqual(plan.run(two, np.ones(2), [1, 1]).pivot_rows.tolist(), [1, 1])
            self.assertEqual(refusal_of(plan.run, two, np.ones(2), [0, 1]), (13, 1))
            self.assertEqual(refusal_of(plan.run, two, np.ones(2), [0, 1], 1), (13, 1))
            self.assertIsNone(refusal_of(plan.run, two, np.ones(2), [0, 1], 0))

    def test_14_not_finite(self):
        quotient = csr(2, [[0, 1], [0, 1]], [1e-300, 1, 1e300, 1])
        plan = dalumiveth.plan(quotient)
        self.assertEqual(refusal_of(plan.run, quotient, np.ones(2), [0, 1]), (14, 1))
        self.assertIsNone(refusal_of(plan.run, quotient, np.ones(2)))
        product = csr(2, [[0, 1], [0, 1]], [1, 1e300, 1e10, 1])
        self.assertEqual(refusal_of(plan.run, product, np.ones(2), [0, 1]), (14, 1))
        difference = csr(2, [[0, 1], [0, 1]], [1, 1.7e308, -1, 1.7e308])
        self.assertEqual(refusal_of(plan.run, difference, np.ones(2), [0, 1]), (14, 1))
        right = csr(2, [[0, 1], [0, 1]], [1, 0, 1e10, 1])
        self.assertEqual(refusal_of(plan.run, right, np.array([1e300, 0]), [0, 1]), (14, 1))

    def test_14_in_back_substitution(self):
        matrix = csr(3, [[0], [1], [2]], [1, 1e-300, 1])
        plan = dalumiveth.plan(matrix)
        self.assertEqual(refusal_of(plan.run, matrix, np.array([1, 1e300, 1])), (14, 2))
        self.assertIsNone(refusal_of(plan.run, matrix, np.array([1, 1e300, 1]), steps=3))

    def test_order_of_the_table(self):
        """9 before 10, 10 before 11, 11 before 12, 12 before 13."""
        spoilt = self.matrix._replace(data=np.full(9, np.nan))
        self.assertEqual(refusal_of(self.plan.run, diagonal(4, np.ones(3)), np.ones(3)), (9, 0))
        self.assertEqual(refusal_of(self.plan.run, spoilt, np.ones(3)), (10, 0))
        self.assertEqual(refusal_of(self.plan.run, spoilt, self.right, [0]), (11, 0))
        self.assertEqual(refusal_of(self.plan.run, np.zeros(9), self.right, [0]), (12, 0))


class OfTallRuns(unittest.TestCase):
    """Two fields, five equations."""

    def setUp(self):
        self.matrix, self.right = seen_twice()
        self.plan = dalumiveth.plan(self.matrix)

    def refused(self, *arguments, **named):
        return refusal_of(self.plan.run, *arguments, **named)

    def test_26_whole(self):
        """A run that is cut to n steps is no whole run."""
        for rows in (None, [0, 1], [4, 4], [0]):
            self.assertEqual(self.refused(self.matrix, self.right, rows), (26, 0))
        self.assertEqual(refusal_of(self.plan.solve, self.matrix, self.right), (26, 0))
        self.assertEqual(refusal_of(self.plan.solve, self.matrix, np.ones((5, 2))), (26, 0))
        self.assertEqual(refusal_of(dalumiveth.splu(self.matrix).solve, self.right), (26, 0))
        for steps in (0, 1, 2):
            self.assertIsNone(self.refused(self.matrix, self.right, steps=steps))
            self.assertIsNone(self.refused(self.matrix, self.right, [4, 4], steps))

    def test_26_for_one_row_more(self):
        for n in (1, 2, 1024):
            for rows in (n, n + 1):
                matrix = csr(n, [[i] for i in range(n)] + [[]] * (rows - n), np.ones(n))
                plan = dalumiveth.plan(matrix)
                self.assertEqual(refusal_of(plan.run, matrix, np.ones(rows)), None if rows == n else (26, 0))
                self.assertIsNone(refusal_of(plan.run, matrix, np.ones(rows), steps=n))

    def test_26_before_9(self):
        """Whatever plan is lent, and whatever is wrong with the numbers."""
        other = csr(2, [[0, 1], [1], [], [], [0]], np.ones(4))
        spoilt = np.full(6, np.nan)
        for rows in (None, [9]):
            self.assertEqual(self.refused(other, np.ones(5), rows), (26, 0))
            self.assertEqual(self.refused(spoilt, np.ones(4), rows), (26, 0))
            self.assertEqual(self.refused(other, np.ones(4), rows, 3), (9, 0))
            self.assertEqual(self.refused(spoilt, np.ones(4), rows, 3), (10, 0))
            self.assertEqual(self.refused(spoilt, np.ones(5), rows, 3), (11, 0))
        for name, count in self.plan.counts._asdict().items():
            for wrong in (count + 1, 0, 2**60):
                plan = dalumiveth.Plan(self.plan.pattern, self.plan.counts._replace(**{name: wrong}), self.plan.stores)
                self.assertEqual(refusal_of(plan.run, self.matrix, self.right), (26, 0), name)
                self.assertEqual(refusal_of(plan.run, self.matrix, self.right, steps=2), (9, 0), name)

    def test_26_after_6(self):
        """A pattern without a plan, and one of another row count."""
        for rows, number in (([[0], [0], [], [], []], 5), ([[0, 1], [1], [2], [], []], 3), ([[0, 1], [1], [0], [0, 0], []], 4), ([[0, 1], [1], [0]], 6)):
            matrix = csr(2, rows, np.ones(sum(map(len, rows))))
            for steps in (None, 2):
                self.assertEqual(self.refused(matrix, np.ones(len(rows)), None, steps), (number, 0))

    def test_12(self):
        """A listed row may be any up to the last one; the list's length and the steps keep n."""
        for rows in ([0, 1], [3, 3], [4, 4], [3, 4], [4, 1]):
            self.assertEqual(self.plan.run(self.matrix, self.right, rows, 2).pivot_rows.tolist(), rows)
        self.assertEqual(self.refused(self.matrix, self.right, [0, 2], 2), (13, 2))  # the row without an entry
        for rows in ([5, 1], [0, 5], [0, 0], [2**62, 1], [0], [0, 1, 2], [0, 1, 2, 3, 4], []):
            for steps in (0, 1, 2):
                self.assertEqual(self.refused(self.matrix, self.right, rows, steps), (12, 0), rows)
        for steps in (3, 5, 6, 2**64):
            self.assertEqual(self.refused(self.matrix, self.right, steps=steps), (12, 0))

    def test_10(self):
        """The right side goes by the row count."""
        for places in (0, 2, 4, 6):
            self.assertEqual(self.refused(self.matrix, np.ones(places), steps=2), (10, 0))

    def test_11(self):
        """A right side of an empty row is judged too."""
        for place in range(5):
            right = self.right.copy()
            right[place] = np.inf
            self.assertEqual(self.refused(self.matrix, right, steps=0), (11, 0))

    def test_13_and_14(self):
        """A column without a pivot in any row; one that only a row beyond n has; a row beyond n whose right side is not finite."""
        matrix = csr(2, [[0], [1], [], [1]], [1.0, 0, 0])
        plan = dalumiveth.plan(matrix)
        self.assertEqual(refusal_of(plan.run, matrix, np.ones(4), steps=2), (13, 2))
        beyond = np.array([1.0, 0, -2.0**-1022])
        self.assertEqual(plan.run(beyond, np.ones(4), steps=2).pivot_rows.tolist(), [0, 3])
        self.assertEqual(refusal_of(plan.run, beyond, np.ones(4), [0, 1], 2), (13, 2))
        overflowing = csr(1, [[0], [0]], [1.0, -1.0])
        right = np.full(2, 1.7e308)
        self.assertEqual(refusal_of(dalumiveth.plan(overflowing).run, overflowing, right, steps=1), (14, 1))


class OfTallStores(unittest.TestCase):
    """The exported functions themselves: which lengths go by n and which by the row count."""

    N, HEIGHT = 2, 5

    def stores(self, lengths, kind):
        return [np.full(length, 7, dtype=kind) for length in lengths]

    def each_length_changed(self, lengths):
        """The lengths, each in turn one shorter, one longer, and where it goes by one count, by the other."""
        for store, length in enumerate(lengths):
            for other in {length - 1, length + 1, length - self.HEIGHT + self.N, length - self.N + self.HEIGHT} - {length}:
                yield [*lengths[:store], max(other, 0), *lengths[store + 1:]]

    def planned(self, fixed, work):
        pattern = dalumiveth.plan(seen_twice()[0]).pattern
        l_subs, u_subs = self.stores((20, 20), USIZE)
        starts, spare = self.stores(fixed, USIZE), self.stores(work, USIZE)
        answer = np.full(12, 7, dtype=USIZE)
        kept = [l_subs, *starts[:2], u_subs, *starts[2:]]
        number = call("dalumiveth_plan", 1024, self.N, self.HEIGHT, *lend(pattern.starts, pattern.columns, *kept, *spare, answer))
        self.assertFalse(any(store.any() for store in spare))
        self.assertEqual(any(store.any() for store in kept), number == 0)
        self.assertEqual(answer.tolist(), [number, 0, *([0] * 8 if number else dalumiveth.plan(seen_twice()[0]).counts), 0, 0])
        return number

    def test_plan(self):
        fixed, work = [self.N, self.N + 1] * 2, [self.HEIGHT + 1] * 4 + [self.HEIGHT] * 2
        self.assertEqual(self.planned(fixed, work), 0)
        for lengths in self.each_length_changed(fixed):
            self.assertEqual(self.planned(lengths, work), 6, lengths)
        for lengths in self.each_length_changed(work):
            self.assertEqual(self.planned(fixed, lengths), 6, lengths)

    def ran(self, results, work, right):
        """By the largest entry, cut to n steps; every store is dirty before."""
        matrix, plan = seen_twice()[0], dalumiveth.plan(seen_twice()[0])
        lent = (*lend(plan.pattern.starts, plan.pattern.columns), *plan._lent_plan)
        reals, pivots = self.stores(results[:4], float), self.stores(results[4:], USIZE)
        spare = [*self.stores(work[:6], USIZE), *self.stores(work[6:], float)]
        answer = np.full(3, 7, dtype=USIZE)
        system = (*lend(matrix.data, np.ones(right)), 0, *lend(np.zeros(0, dtype=USIZE)), 1, self.N)
        number = call("dalumiveth_run", 1024, self.N, self.HEIGHT, *lent, *system, *lend(*reals, *pivots, *spare, answer))
        self.assertFalse(any(store.view(USIZE).any() for store in spare))
        self.assertEqual(any(store.view(USIZE).any() for store in (*reals, *pivots)), number == 0)
        self.assertEqual(answer.tolist()[:2], [number, 0])
        return number

    def test_run(self):
        """6 for a work store, 10 for a right side, solution, diagonal or pivot rows."""
        results, work = [7, 1, self.N, self.HEIGHT, self.N], [self.HEIGHT + 1] * 4 + [self.HEIGHT] * 3 + [self.HEIGHT + 1]
        self.assertEqual(self.ran(results, work, self.HEIGHT), 0)
        for lengths in self.each_length_changed(work):
            self.assertEqual(self.ran(results, lengths, self.HEIGHT), 6, lengths)
            self.assertEqual(self.ran(results, lengths, self.N), 6, lengths)
        for lengths in self.each_length_changed(results[2:]):
            self.assertEqual(self.ran([*results[:2], *lengths], work, self.HEIGHT), 10, lengths)
        for right in (self.N, self.HEIGHT - 1, self.HEIGHT + 1):
            self.assertEqual(self.ran(results, work, right), 10)


class OfJobs(unittest.TestCase):
    ONE = b"N\x01\x00R\x01\x00E\x01\x00" + struct.pack("<d", 2) + b"B" + struct.pack("<d", 4) + b"Z"

    def test_15_to_18(self):
        self.assertIn(b"updates 0\n", dalumiveth.job(self.ONE))
        self.assertEqual(dalumiveth.job(b"Q"), b"refused 15 0\n")
        self.assertEqual(dalumiveth.job(self.ONE.replace(b"R\x01", b"R\x02")), b"refused 15 0\n")
        self.assertEqual(dalumiveth.job(b""), b"refused 16 0\n")
        for size in range(len(self.ONE)):
            self.assertEqual(dalumiveth.job(self.ONE[:size]), b"refused 16 0\n", size)
        self.assertEqual(dalumiveth.job(self.ONE + b"Z"), b"refused 17 0\n")
        self.assertEqual(dalumiveth.job(bytes(16385)), b"refused 18 0\n")
        self.assertEqual(dalumiveth.job(bytes(16384)), b"refused 15 0\n")

    def test_6(self):
        """The exported function itself: a store for the text has 8,192 places, no fewer and no more."""
        read = np.frombuffer(self.ONE, dtype=np.uint8)
        for room in (0, 1, 8191, 8193):
            out, answer = np.ones(room, dtype=np.uint8), np.ones(4, dtype=USIZE)
            self.assertEqual(call("dalumiveth_job", *lend(read, out, answer)), 6)
            self.assertEqual((answer.tolist(), out.any()), ([6, 0, 0, 0], False), room)
        out, answer = np.ones(8192, dtype=np.uint8), np.ones(4, dtype=USIZE)
        self.assertEqual(call("dalumiveth_job", *lend(read, out, answer)), 0)
        text = dalumiveth.job(self.ONE)
        self.assertEqual(answer.tolist(), [0, 0, len(text), 0])
        self.assertEqual(out.tobytes(), text.ljust(8192, b"\0"))

    def test_no_bytes(self):
        for data in ("N", None, [1, 2]):
            with self.assertRaises(TypeError):
                dalumiveth.job(data)


class OfTallies(unittest.TestCase):
    OTHERS = (0, 17, 18, 255, 256, 257, 272, 65537, 65552, 2**32 + 1, 2**32 + 16, 2**64 - 1, 2**64, 2**64 + 1, 2**200, -1, -16, -2**200)

    def test_members(self):
        tally, expected = dalumiveth.Tally(), [0] * 16
        for member in (*range(1, 17), 16, 1):
            expected[member - 1] += member
            self.assertEqual(tally.add(member, member), expected[member - 1])
            self.assertEqual(tally.counters, tuple(expected))

    def test_19(self):
        tally = dalumiveth.Tally()
        self.assertEqual(tally.add(3, 3), 3)
        self.assertEqual(tally.add(3, 2**32 - 5), 2**32 - 2)
        before = tally.counters
        for updates in (2, 2**32, 2**64 - 1, 2**64, 2**200):
            self.assertEqual(refusal_of(tally.add, 3, updates), (19, 0))
            self.assertEqual(tally.counters, before)
        self.assertEqual(tally.add(2, 2**32 - 1), 2**32 - 1)
        self.assertEqual(tally.add(3, 1), 2**32 - 1)
        self.assertEqual(tally.add(3, 0), 2**32 - 1)
        self.assertEqual(refusal_of(dalumiveth.Tally([2**32 - 1] * 16).add, 16, 1), (19, 0))

    def test_27(self):
        tally = dalumiveth.Tally([2**32 - 1] + [7] * 14 + [2**32 - 1])
        before = tally.counters
        for member in self.OTHERS:
            for updates in (0, 1, 2**32, 2**200):
                self.assertEqual(refusal_of(tally.add, member, updates), (27, 0), (member, updates))
        self.assertEqual(tally.counters, before)

    def test_6_before_27(self):
        """The exported function itself: a store of another length than sixteen stays as it was."""
        for length in (0, 1, 15, 17, 32):
            for member, updates in ((1, 1), (0, 1), (17, 2**64 - 1)):
                counters, answer = np.arange(100, 100 + length, dtype=np.uint32), np.ones(5, dtype=USIZE)
                self.assertEqual(call("dalumiveth_tally_add", *lend(counters), member, updates, *lend(answer)), 6)
                self.assertEqual((answer.tolist(), counters.tolist()), ([6, 0, 0, 0, 0], list(range(100, 100 + length))))

    def test_no_counters(self):
        for counters in ([0] * 15, [0] * 17, [], [0] * 15 + [-1], [2**32] + [0] * 15):
            with self.assertRaises(ValueError):
                dalumiveth.Tally(counters)
        with self.assertRaises(TypeError):
            dalumiveth.Tally([0.0] * 16)
        with self.assertRaises(ValueError):
            dalumiveth.Tally().add(1, -1)
        for member, updates in ((1, 1.0), (1.0, 1), ("1", 1), (None, 1)):
            with self.assertRaises(TypeError):
                dalumiveth.Tally().add(member, updates)

    def test_random_sequences(self):
        """After any calls each counter is the sum of the updates given for its member in calls that were not refused."""
        rng = random.Random(8443)
        for _ in range(300):
            tally, sums = dalumiveth.Tally(), [0] * 16
            for _ in range(rng.randrange(30)):
                member = rng.choice((rng.randint(1, 16), rng.randint(1, 16), rng.randint(-1, 18), rng.choice(self.OTHERS)))
                held = sums[member - 1] if 1 <= member <= 16 else 0
                updates = rng.choice((rng.randrange(1000), rng.getrandbits(31), max(0, 2**32 - 1 - held + rng.randint(-2, 2)), rng.getrandbits(rng.randint(1, 70))))
                number = 27 if not 1 <= member <= 16 else 19 if held + updates > 2**32 - 1 else 0
                if number:
                    self.assertEqual(refusal_of(tally.add, member, updates), (number, 0))
                else:
                    sums[member - 1] += updates
                    self.assertEqual(tally.add(member, updates), sums[member - 1])
                self.assertEqual(tally.counters, tuple(sums))

    def test_kept(self):
        tally = dalumiveth.Tally(range(16))
        tally.add(1, 5)
        for again in (dalumiveth.Tally(tally.counters), pickle.loads(pickle.dumps(tally)), copy.deepcopy(tally)):
            again.add(16, 1)
            self.assertEqual(again.counters, (5, *range(1, 15), 16))
        self.assertEqual(tally.counters, (5, *range(1, 16)))

        class Named(dalumiveth.Tally):
            pass

        self.assertIs(type(copy.copy(Named())), Named)


class OfLoads(unittest.TestCase):
    def test_1(self):
        """For n before 23, for the entries after it; 16,384 entries are made."""
        for n in (0, 1025, 2**32 + 1, 2**60, 2**200):
            for d in (0, 1, 2**64):
                self.assertEqual(refusal_of(dalumiveth.load, 7, n, d), (1, 0), (n, d))
        self.assertEqual(dalumiveth.load(7, 128, 1)[0].data.size, 16384)
        self.assertEqual(refusal_of(dalumiveth.load, 7, 129, 1), (1, 0))
        self.assertEqual(refusal_of(dalumiveth.load, 7, 1024, 1), (1, 0))

    def test_23(self):
        for n in (1, 5, 129, 1024):
            self.assertEqual(refusal_of(dalumiveth.load, 7, n, 0), (23, 0))

    def refused_with(self, n, d, lengths):
        """The number of the exported function's refusal, on stores that then are zeros throughout."""
        starts, columns = (np.ones(length, dtype=USIZE) for length in lengths[:2])
        values, right = (np.full(length, np.nan) for length in lengths[2:])
        answer = np.ones(4, dtype=USIZE)
        number = call("dalumiveth_load", 7, n, d, *lend(starts, columns, values, right, answer))
        self.assertEqual(answer.tolist(), [number, 0, 0, 0])
        self.assertFalse(any(store.view(USIZE).any() for store in (starts, columns, values, right)))
        return number

    def test_6_after_1_and_23(self):
        """Each store one too short, one too long and empty: before any draw, so that too many entries are not seen."""
        for n, d in ((5, 2), (129, 1)):
            wanted = (n + 1, 16384, 16384, n)
            for store, length in enumerate(wanted):
                for places in (length - 1, length + 1, 0):
                    lengths = (*wanted[:store], places, *wanted[store + 1:])
                    self.assertEqual(self.refused_with(n, d, lengths), 6, lengths)
                    self.assertEqual(self.refused_with(n, 0, lengths), 23, lengths)
                    self.assertEqual(self.refused_with(1025, 0, lengths), 1, lengths)
            self.assertEqual(self.refused_with(n, 0, wanted), 23)
        self.assertEqual(self.refused_with(129, 1, (130, 16384, 16384, 129)), 1)


class OfOffsets(unittest.TestCase):
    def test_28(self):
        for text in ("-000 00 00.000", "+360 00 00.000", "+012 60 00.000", "+012 34 60.000", "", b"+012 34 56.78", "+012 34 56.789\n"):
            self.assertEqual(refusal_of(dalumiveth.read_offset, text), (28, 0), text)

    def test_29(self):
        for value in (1295999999.5, -1295999999.5, 2.0**52, np.inf, -np.inf, np.nan, 2**2000, -(2**2000)):
            self.assertEqual(refusal_of(dalumiveth.write_offset, value), (29, 0), value)

    def test_6_before_28(self):
        """The exported functions themselves: a store for the value has one place, one for the text 14."""
        for text in (b"+012 34 56.789", b"-000 00 00.000", b"x"):
            for room in (0, 2, 14):
                value, answer = np.full(room, np.nan), np.ones(6, dtype=USIZE)
                self.assertEqual(call("dalumiveth_read_offset", *lend(np.frombuffer(text, dtype=np.uint8), value, answer)), 6)
                self.assertEqual((answer.tolist(), value.view(USIZE).any()), ([6, 0, 0, 0, 0, 0], False))

    def test_6_before_29(self):
        for value in (1.0, 1296000000.0, np.inf, np.nan):
            for room in (0, 1, 13, 15):
                out, answer = np.ones(room, dtype=np.uint8), np.ones(3, dtype=USIZE)
                self.assertEqual(call("dalumiveth_write_offset", value, *lend(out, answer)), 6)
                self.assertEqual((answer.tolist(), out.any()), ([6, 0, 0], False))


class Sentences(unittest.TestCase):
    def test_of_requests(self):
        """The header's words."""
        header = dict(re.findall(r'case ([0-9]+): return "(.*)";', (ROOT / "include" / "dalumiveth.h").read_text()))
        for number, where in ((23, "load"), (25, "pattern"), (26, "run"), (27, "tally"), (28, "offset"), (29, "offset")):
            self.assertEqual(dalumiveth.SENTENCES[number], (where, header[str(number)]))

    def test_every_one(self):
        self.assertEqual(sorted(dalumiveth.SENTENCES), [*range(1, 20), 23, *range(25, 30)])
        for number in dalumiveth.SENTENCES:
            refusal = dalumiveth.Refusal(number, 7)
            self.assertIn(refusal.sentence, str(refusal))
            self.assertIn(refusal.where, ("pattern", "plan stores", "values", "run", "job", "tally", "load", "offset"))
            again = pickle.loads(pickle.dumps(refusal))
            self.assertEqual((again.number, again.step, str(again)), (number, 7, str(refusal)))
        self.assertIn("an entry of magnitude at least 2^-1022", dalumiveth.Refusal(13, 7).sentence)


if __name__ == "__main__":
    unittest.main()
