"""SciPy matrices, where SciPy is there."""

import unittest

import numpy as np

from support import bits, dalumiveth, four_fields, refusal_of, sparse


@unittest.skipIf(sparse is None, "SciPy is not installed")
class SciPy(unittest.TestCase):
    def setUp(self):
        random = np.random.default_rng(11)
        self.matrix = sparse.random(40, 40, density=0.1, format="csr", random_state=3) + sparse.eye(40, format="csr")
        self.matrix = sparse.csr_matrix(self.matrix)
        self.right = random.standard_normal(40)

    def test_four_fields(self):
        given, right = four_fields()
        matrix = sparse.csr_matrix((given.data, given.indices, given.indptr), shape=(4, 4))
        run = dalumiveth.plan(matrix).run(matrix, right)
        self.assertEqual(run.x.tolist(), [1.0] * 4)
        self.assertEqual((run.L.format, run.U.format), ("csr", "csr"))
        self.assertEqual(run.L.nnz + run.U.nnz - 4, run.nnz)

    def test_beside_superlu(self):
        factor = dalumiveth.splu(self.matrix)
        expected = sparse.linalg.splu(self.matrix.tocsc()).solve(self.right)
        self.assertTrue(np.allclose(factor.solve(self.right), expected))
        self.assertEqual(factor.L.shape, (40, 40))
        self.assertTrue(factor.L.has_sorted_indices and factor.U.has_sorted_indices)

    def test_formats(self):
        """Stored by columns or as triples: converted, never taken for rows."""
        plan = dalumiveth.plan(self.matrix)
        expected = bits(plan.run(self.matrix, self.right).x)
        for other in (self.matrix.tocsc(), self.matrix.tocoo(), self.matrix.tolil(), sparse.csr_array(self.matrix)):
            self.assertEqual(bits(plan.run(other, self.right).x), expected, type(other))
            self.assertEqual(bits(dalumiveth.plan(other).run(other, self.right).x), expected)
            self.assertEqual(bits(dalumiveth.splu(other).solve(self.right)), expected)

    def test_unsorted_and_duplicates(self):
        expected = bits(dalumiveth.plan(self.matrix).run(self.matrix, self.right).x)
        mixed = self.matrix[:, ::-1].tocsr()[:, ::-1]
        flipped = sparse.csr_matrix((self.matrix.data[::-1].copy(), self.matrix.indices[::-1].copy(),
                                     self.matrix.nnz - self.matrix.indptr[::-1]), shape=(40, 40))
        flipped = flipped[::-1]
        for other in (mixed, flipped):
            self.assertEqual(bits(dalumiveth.splu(other).solve(self.right)), expected)
        twice = sparse.csr_matrix((np.ones(3), np.array([0, 1, 1]), np.array([0, 1, 3])), shape=(2, 2))
        self.assertEqual(refusal_of(dalumiveth.plan, twice), (4, 0))
        twice.sum_duplicates()
        self.assertEqual(dalumiveth.plan(twice).solve(twice, np.array([1.0, 2.0])).tolist(), [1.0, 1.0])

    def test_added_diagonal(self):
        matrix = sparse.csr_matrix(np.array([[0.0, 2.0], [4.0, 0.0]]))
        self.assertEqual(refusal_of(dalumiveth.plan, matrix), (5, 0))
        x = dalumiveth.plan(matrix, add_diagonal=True).solve(matrix, np.array([2.0, 4.0]))
        self.assertEqual(x.tolist(), [1.0, 1.0])

    def test_tall(self):
        """In every format: the first n rows give a solution of the chosen equations, and below is by how much the others are missed."""
        random = np.random.default_rng(12)
        matrix = sparse.csr_matrix(sparse.vstack((self.matrix, sparse.random(35, 40, density=0.1, random_state=4), sparse.csr_matrix((5, 40)))))
        right = random.standard_normal(80)
        plan = dalumiveth.plan(matrix)
        run = plan.run(matrix, right, steps=40)
        x = sparse.linalg.spsolve_triangular(run.U, run.x[:40], lower=False)
        equations = np.arange(80)
        for k, p in enumerate(run.pivot_rows):
            equations[[k, p]] = equations[[p, k]]
        missed = (right - matrix @ x)[equations]
        self.assertTrue(np.allclose(missed[:40], 0) and np.allclose(missed[40:], run.x[40:]))
        self.assertTrue(np.any(run.pivot_rows >= 40))
        for other in (matrix.tocsc(), matrix.tocoo(), matrix.tolil(), sparse.csr_array(matrix)):
            again = dalumiveth.plan(other).run(other, right, steps=40)
            self.assertEqual((bits(again.rectangle()), bits(again.x)), (bits(run.rectangle()), bits(run.x)), type(other))
            self.assertEqual(refusal_of(plan.run, other, right), (26, 0))
        self.assertEqual((run.L.shape, run.U.shape, run.L.nnz + run.U.nnz - 40), ((80, 40), (40, 40), run.nnz))
        self.assertEqual(refusal_of(dalumiveth.plan, matrix.T), (25, 0))
        self.assertEqual(refusal_of(dalumiveth.plan, matrix[:39]), (25, 0))

    def test_other_types(self):
        with self.assertRaisesRegex(TypeError, "data has dtype float32"):
            dalumiveth.splu(self.matrix.astype(np.float32))


if __name__ == "__main__":
    unittest.main()
