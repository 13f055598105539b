"""What the package does around the library: arrays, orders, missing diagonals, threads, splu."""

import os
import subprocess
import sys
import threading
import unittest

import numpy as np

from support import ROOT, bits, csr, dalumiveth, four_fields, refusal_of, seen_twice


class Arrays(unittest.TestCase):
    def setUp(self):
        self.matrix, self.right = four_fields()
        self.plan = dalumiveth.plan(self.matrix)

    def test_types(self):
        wrong = [
            self.right.tolist(), self.right.astype(np.float32), self.right.astype(int), self.right.astype(">f8"),
            self.right.astype(complex), self.right.reshape(4, 1), np.repeat(self.right, 2)[::2], None, 3.0,
        ]
        for right in wrong:
            with self.assertRaisesRegex(TypeError, "^right "):
                self.plan.run(self.matrix, right)
        with self.assertRaisesRegex(TypeError, "^data has dtype int64, not float64"):
            self.plan.run(self.matrix._replace(data=self.matrix.data.astype(int)), self.right)
        with self.assertRaisesRegex(TypeError, "^values is not contiguous"):
            self.plan.run(np.repeat(self.matrix.data, 2)[::2], self.right)
        for rows in ([0.0, 1.0, 2.0, 3.0], [[0, 1, 2, 3]], ["0", "1", "2", "3"]):
            with self.assertRaisesRegex(TypeError, "^rows "):
                self.plan.run(self.matrix, self.right, rows)
        with self.assertRaisesRegex(ValueError, "^steps is -1"):
            self.plan.run(self.matrix, self.right, steps=-1)

    def test_matrices(self):
        with self.assertRaisesRegex(TypeError, "a ndarray has no indptr"):
            dalumiveth.plan(np.eye(3))
        with self.assertRaisesRegex(TypeError, "values has 2 dimensions"):
            self.plan.run(np.eye(4), self.right)
        for shape in ((4,), (4, 4, 4), ()):
            with self.assertRaisesRegex(ValueError, "rows and columns are needed"):
                dalumiveth.plan(self.matrix._replace(shape=shape))
        for shape, name in (((-1, 4), "the row count"), ((4, -1), "n")):
            with self.assertRaisesRegex(ValueError, f"^{name} is -1"):
                dalumiveth.plan(self.matrix._replace(shape=shape))
        with self.assertRaisesRegex(TypeError, "indices has dtype float64"):
            dalumiveth.plan(self.matrix._replace(indices=self.matrix.indices.astype(float)))

    def test_inputs_stay(self):
        given = (self.matrix.indptr, self.matrix.indices, self.matrix.data, self.right)
        kept = [array.copy() for array in given]
        for array in given:
            array.flags.writeable = False
        self.plan.run(self.matrix, self.right)
        refusal_of(self.plan.run, self.matrix, self.right, [1, 1, 2, 3])
        for array, before in zip(given, kept):
            self.assertEqual(array.tolist(), before.tolist())

    def test_results_stay(self):
        """Each run has result stores of its own."""
        first = self.plan.run(self.matrix, self.right)
        kept = [bits(store) for store in (first.l, first.u, first.d, first.x)]
        self.plan.run(self.matrix, 2 * self.right)
        self.assertEqual([bits(store) for store in (first.l, first.u, first.d, first.x)], kept)

    def test_result_stores_after_a_refusal(self):
        """Results zero throughout, zero behind what is needed; asked of the library itself."""
        from dalumiveth.library import USIZE, call, lend

        plan, longer = self.plan, [np.full(20, 7.0), np.full(20, 7.0)]
        results = [*longer, np.full(4, 7.0), np.full(4, 7.0), np.full(4, 7, dtype=USIZE)]
        pattern, answer = plan.pattern, np.full(5, 7, dtype=USIZE)
        no_rows = np.zeros(0, dtype=USIZE)

        def run(right):
            lent = (*lend(pattern.starts, pattern.columns), *plan._lent_plan, *lend(self.matrix.data, right), 0, *lend(no_rows), 0, 0)
            return call("dalumiveth_run", 4, 4, 4, *lent, *lend(*results), *plan._lent_work, *lend(answer))

        self.assertEqual(run(self.right), 0)
        self.assertEqual(answer.tolist(), [0, 0, 3, 0, 0])
        self.assertEqual(bits(longer[0][3:]) + bits(longer[1][4:]), [0] * 33)
        self.assertEqual(run(np.full(4, np.inf)), 11)
        self.assertEqual(answer.tolist(), [11, 0, 0, 0, 0])
        self.assertEqual([sum(bits(store)) for store in results], [0] * 5)


class Orders(unittest.TestCase):
    def test_unsorted_columns(self):
        """Sorted on a copy; values alone stand in the order of the planned matrix."""
        matrix, right = four_fields()
        mixed = csr(4, [[2, 0], [1, 3], [2, 0], [3, 1, 2]], [1, 2, 1, 1, 4, 4, 4, 2, 1])
        kept = mixed.indices.copy()
        plan = dalumiveth.plan(mixed)
        expected = dalumiveth.plan(matrix).run(matrix, right)
        for run in (plan.run(mixed, right), plan.run(mixed.data, right), plan.run(matrix, right)):
            self.assertEqual(bits(run.square()), bits(expected.square()))
        self.assertEqual(mixed.indices.tolist(), kept.tolist())
        self.assertEqual(refusal_of(plan.run, np.ones(8), right), (10, 0))
        self.assertEqual(bits(dalumiveth.splu(mixed).solve(right)), bits(np.ones(4)))

    def test_added_diagonal(self):
        """The same as a stored +0."""
        bare = csr(3, [[1], [0, 1], [2, 0]], [2, 3, 4, 5, 6])
        stored = csr(3, [[0, 1], [0, 1], [0, 2]], [0, 2, 3, 4, 6, 5])
        right = np.array([1.0, 2.0, 3.0])
        self.assertEqual(refusal_of(dalumiveth.plan, bare), (5, 0))
        plan = dalumiveth.plan(bare, add_diagonal=True)
        expected = dalumiveth.plan(stored).run(stored, right)
        for run in (plan.run(bare, right), plan.run(bare.data, right), plan.copy().run(bare, right)):
            self.assertEqual(bits(run.square()), bits(expected.square()))
            self.assertEqual(bits(run.x), bits(expected.x))
        self.assertEqual(refusal_of(plan.run, stored.data, right), (10, 0))
        self.assertEqual(bits(dalumiveth.splu(bare, add_diagonal=True).solve(right)), bits(expected.x))
        empty = csr(2, [[], []], [])
        self.assertEqual(refusal_of(dalumiveth.splu, empty, add_diagonal=True), (13, 1))

    def test_another_matrix_of_the_pattern(self):
        matrix, right = four_fields()
        plan = dalumiveth.plan(matrix._replace(data=None))
        doubled = matrix._replace(indices=matrix.indices.astype(np.int64), data=2 * matrix.data)
        self.assertEqual(plan.run(doubled, right).x.tolist(), [0.5] * 4)


class Tall(unittest.TestCase):
    """More rows than columns (document 02, ticket 9)."""

    def setUp(self):
        self.matrix, self.right = seen_twice()
        self.plan = dalumiveth.plan(self.matrix)

    def test_shapes(self):
        run = self.plan.run(self.matrix, self.right, steps=2)
        self.assertEqual((self.plan.n, self.plan.height, self.plan.shape, self.plan.counts.height), (2, 5, (5, 2), 5))
        self.assertEqual((run.rectangle().shape, run.L.shape, run.U.shape), ((5, 2), (5, 2), (2, 2)))
        self.assertEqual((run.x.size, run.d.size, run.pivot_rows.size), (5, 2, 2))
        self.assertEqual(self.plan.lower(0).tolist(), [3, 4])

    def test_reduced(self):
        """Worked by hand: the fifth equation is chosen first, then the second."""
        run = self.plan.run(self.matrix, self.right, steps=2)
        self.assertEqual(run.rectangle().tolist(), [[4, 3], [0, 2], [0, 0], [0.25, -0.375], [0.5, -0.25]])
        self.assertEqual((run.pivot_rows.tolist(), run.updates), ([4, 1], 2))
        self.assertEqual(run.x.tolist(), [7, 1, 0.5, -0.375, -0.25])
        begun = self.plan.run(self.matrix, self.right, steps=1)
        self.assertEqual(begun.rectangle().tolist(), [[4, 3], [0, 2], [0, 0], [0.25, -0.75], [0.5, -0.5]])
        self.assertEqual((begun.pivot_rows.tolist(), begun.x.tolist()), ([4, -1], [7, 1, 0.5, -0.75, -0.5]))

    def test_unsorted_and_added(self):
        """Columns are sorted in every row; a diagonal is added to the first n rows alone."""
        bare = csr(2, [[1, 0], [], [], [0], [1, 0]], [1, 2, 1, 3, 4])
        stored = csr(2, [[0, 1], [1], [], [0], [0, 1]], [2, 1, 0, 1, 4, 3])
        self.assertEqual(refusal_of(dalumiveth.plan, bare), (5, 0))
        plan, expected = dalumiveth.plan(bare, add_diagonal=True), dalumiveth.plan(stored).run(stored, self.right, steps=2)
        self.assertEqual(plan.counts, dalumiveth.plan(stored).counts)
        for run in (plan.run(bare, self.right, steps=2), plan.run(bare.data, self.right, steps=2), plan.copy().run(bare, self.right, steps=2)):
            self.assertEqual((bits(run.rectangle()), bits(run.x)), (bits(expected.rectangle()), bits(expected.x)))

    def test_unsorted_at_the_limits(self):
        """As many rows and entries as there may be."""
        values, right = np.random.default_rng(3).standard_normal((2048, 8)), np.ones(2048)
        ascending = csr(8, [range(8)] * 2048, values.ravel())
        falling = csr(8, [range(7, -1, -1)] * 2048, values[:, ::-1].ravel())
        first, second = (dalumiveth.plan(matrix).run(matrix, right, steps=8) for matrix in (ascending, falling))
        self.assertEqual((bits(first.rectangle()), bits(first.x)), (bits(second.rectangle()), bits(second.x)))

    def test_kept_plan(self):
        """A plan that was put together again serves."""
        again = dalumiveth.Plan(self.plan.pattern, self.plan.counts, self.plan.stores)
        expected = self.plan.run(self.matrix, self.right, steps=2)
        self.assertEqual(bits(again.run(self.matrix, self.right, steps=2).x), bits(expected.x))
        again.verify(self.matrix)

    def test_splu(self):
        """What `Run.L` describes, done on the dense rectangle, leaves U and nothing below it."""
        random = np.random.default_rng(9)
        present = (random.random((50, 20)) < 0.2) | np.eye(50, 20, dtype=bool)
        dense = np.where(present, random.standard_normal((50, 20)), 0.0)
        factor = dalumiveth.splu(csr(20, [np.flatnonzero(row) for row in present], dense[present]))
        lower, upper = (side if isinstance(side, np.ndarray) else side.toarray() for side in (factor.L, factor.U))
        for k, p in enumerate(factor.pivot_rows):
            dense[[k, p]] = dense[[p, k]]
            dense[k + 1:] -= np.outer(lower[k + 1:, k], dense[k])
        self.assertTrue(np.allclose(dense, np.vstack((upper, np.zeros((30, 20))))))
        self.assertEqual((factor.shape, lower.diagonal().tolist()), ((50, 20), [1.0] * 20))

    def test_without_scipy(self):
        """L and U as numpy arrays, of the same shapes."""
        code = ("import sys; sys.modules['scipy'] = None; from support import dalumiveth, seen_twice; A, b = seen_twice(); "
                "run = dalumiveth.plan(A).run(A, b, steps=2); print(run.L.tolist(), run.U.tolist())")
        ended = subprocess.run([sys.executable, "-c", code], cwd=ROOT / "python" / "tests", capture_output=True, text=True)
        self.assertEqual(ended.stdout, "[[1.0, 0.0], [0.0, 1.0], [0.0, 0.0], [0.25, -0.375], [0.5, -0.25]] [[4.0, 3.0], [0.0, 2.0]]\n", ended.stderr)


class Factors(unittest.TestCase):
    def setUp(self):
        random = np.random.default_rng(5)
        self.n, present = 30, (random.random((30, 30)) < 0.15) | np.eye(30, dtype=bool)
        self.dense = np.where(present, random.standard_normal((30, 30)), 0.0)
        self.matrix = csr(30, [np.flatnonzero(row) for row in present], self.dense[present])
        self.right = random.standard_normal(30)
        self.factor = dalumiveth.splu(self.matrix)

    def test_solve(self):
        x = self.factor.solve(self.right)
        self.assertTrue(np.allclose(self.dense @ x, self.right))
        self.assertEqual(bits(x), bits(dalumiveth.plan(self.matrix).solve(self.matrix, self.right)))
        self.matrix.data[:] = 0.0  # the factor keeps its values
        self.assertEqual(bits(self.factor.solve(self.right)), bits(x))

    def test_solve_columns(self):
        several = np.column_stack((self.right, 2 * self.right, np.ones(self.n)))
        solved = self.factor.solve(several)
        self.assertEqual(solved.shape, (self.n, 3))
        for j in range(3):
            self.assertEqual(bits(solved[:, j]), bits(self.factor.solve(several[:, j].copy())))
        self.assertEqual(self.factor.solve(several[:, :0]).shape, (self.n, 0))

    def test_lower_and_upper(self):
        """The steps that `Run.L` describes, done on the dense matrix, leave U."""
        lower, upper = (side if isinstance(side, np.ndarray) else side.toarray() for side in (self.factor.L, self.factor.U))
        left = self.dense.copy()
        for k, p in enumerate(self.factor.pivot_rows):
            left[[k, p]] = left[[p, k]]
            left[k + 1:] -= np.outer(lower[k + 1:, k], left[k])
        self.assertTrue(np.allclose(left, upper))
        self.assertEqual(lower.diagonal().tolist(), [1.0] * self.n)
        self.assertEqual(bits(np.tril(lower, -1) + np.triu(upper)), bits(self.factor.run.square() + 0.0))

    def test_counts(self):
        counts = self.factor.plan.counts
        self.assertEqual(self.factor.nnz, counts.l_slots + counts.u_slots + self.n)
        self.assertEqual(self.factor.shape, (self.n, self.n))
        self.assertGreater(self.factor.updates, 0)
        for thing in (self.factor, self.factor.plan, self.factor.run, dalumiveth.Tally()):
            self.assertIn("dalumiveth.", repr(thing))

    def test_kept_lists_end(self):
        plan = self.factor.plan
        self.assertEqual(plan.upper(-1).tolist(), plan.upper(self.n - 1).tolist())
        with self.assertRaises(IndexError):
            plan.lower(self.n)


class Threads(unittest.TestCase):
    def test_shared_and_copied_plans(self):
        """Threads on one plan wait for each other; each gets its own answer. The runs are long enough to meet."""
        random = np.random.default_rng(8)
        matrix = csr(100, [range(100)] * 100, random.standard_normal(10000))
        plan, right, wrong = dalumiveth.plan(matrix), random.standard_normal(100), []
        expected = plan.solve(matrix, right)

        def work(own, factor):
            for _ in range(20):
                if bits(own.solve(matrix.data, factor * right)) != bits(factor * expected):
                    wrong.append(factor)

        threads = [threading.Thread(target=work, args=(plan if t else plan.copy(), 2.0**t)) for t in range(4)]
        for thread in threads:
            thread.start()
        for thread in threads:
            thread.join()
        self.assertEqual(wrong, [])


    def test_shared_tally(self):
        """Threads on one tally wait for each other, for different members too: no update is lost."""
        tally, interval = dalumiveth.Tally(), sys.getswitchinterval()

        def add(member):
            for _ in range(5000):
                tally.add(member, 1)

        threads = [threading.Thread(target=add, args=(1 + t % 4,)) for t in range(8)]
        sys.setswitchinterval(1e-6)
        try:
            for thread in threads:
                thread.start()
            for thread in threads:
                thread.join()
        finally:
            sys.setswitchinterval(interval)
        self.assertEqual(tally.counters, (10000,) * 4 + (0,) * 12)


class Loading(unittest.TestCase):
    def test_missing_library(self):
        """The package can be imported without the shared object; the first call says what is missing."""
        code = "import dalumiveth; dalumiveth.Tally().add(1, 1)"
        named = {**os.environ, "DALUMIVETH_LIBRARY": "no/such/library.so", "PYTHONPATH": str(ROOT / "python")}
        ended = subprocess.run([sys.executable, "-c", code], env=named, capture_output=True, text=True)
        self.assertIn("OSError: no/such/library.so is not there: `make shared` makes it", ended.stderr)


if __name__ == "__main__":
    unittest.main()
