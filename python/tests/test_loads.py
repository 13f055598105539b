"""Test loads (document 02, ticket 6): fixed and random ones, against the request's words on whole numbers."""

import os
import random
import subprocess
import sys
import unittest
from collections import Counter
from typing import NamedTuple

import numpy as np

from support import ROOT, bits, dalumiveth, refusal_of, sparse  # puts the package on the path
from dalumiveth.library import USIZE, call, lend

TRIALS = 400
LARGEST_SEED = 2**32 - 1

# ---- what document 02 says; nothing of it is taken from the package


def draws(seed, count):
    """The first draws of a seed, all at once: its state before the k-th mixing is seed + 2654435769 k, as far as 32 bits go."""
    z = (np.uint64(seed) + np.uint64(2654435769) * np.arange(1, count + 1, dtype=np.uint64)) % np.uint64(2**32)
    z = z ^ z // np.uint64(2**16)
    z = z ^ z * np.uint64(2**7) % np.uint64(2**32)
    return z ^ z // np.uint64(2**11)


class Load(NamedTuple):
    """Row starts, columns (from 0), values and right side."""

    starts: list
    columns: list
    values: list
    right: list


def expected_load(seed, n, d):
    """The load, or the number of its refusal."""
    if not 1 <= n <= 1024:
        return 1
    if d == 0:
        return 23
    drawn = iter(draws(seed, 2 * n * n).tolist())  # at most two for each place but the diagonal, and one for each row
    load = Load([0], [], [], [])
    for i in range(n):
        for j in range(n):
            if j == i or next(drawn) % d == 0:
                load.columns.append(j)
                load.values.append(float(next(drawn) % 2001 - 1000))
        load.starts.append(len(load.columns))
        load.right.append(float(next(drawn) % 2001 - 1000))
    return load if len(load.columns) <= 16384 else 1


# ---- what is tried


def requests(rng):
    """Seeds of every size and some with an early draw of 0; small n, some around 16,384 entries; every kind of d."""
    for _ in range(TRIALS):
        seed = rng.choice((rng.getrandbits(32), rng.randrange(5), LARGEST_SEED - rng.randrange(5), -2654435769 * rng.randrange(1, 90) % 2**32))
        n = rng.choice((rng.randint(1, 40), rng.randint(1, 12), rng.choice((0, 1025, 2**32 + 3, 2**70))))
        d = rng.choice((rng.randint(1, 30), 1, 0, 2**32 + rng.randrange(3), rng.getrandbits(64) + 1, 2**200))
        yield seed, n, d
    for d in (1, 2, 3):
        edge = round(128 * d**0.5)
        for n in range(edge - 1, edge + 3):
            yield rng.getrandbits(32), n, d


class Compared(unittest.TestCase):
    def compare(self, matrix, right, expected):
        n = len(expected.right)
        self.assertEqual(matrix.shape, (n, n))
        self.assertEqual((matrix.indptr.dtype, matrix.indices.dtype, matrix.data.dtype, right.dtype), (np.int32, np.int32, np.float64, np.float64))
        self.assertEqual((matrix.indptr.tolist(), matrix.indices.tolist()), (expected.starts, expected.columns))
        self.assertEqual(bits(matrix.data), bits(np.array(expected.values)))
        self.assertEqual(bits(right), bits(np.array(expected.right)))

    def test_random(self):
        seen = Counter()
        for seed, n, d in requests(random.Random(6)):
            with self.subTest(seed=seed, n=n, d=d):
                expected = expected_load(seed, n, d)
                seen[expected if isinstance(expected, int) else "made"] += 1
                if isinstance(expected, int):
                    self.assertEqual(refusal_of(dalumiveth.load, seed, n, d), (expected, 0))
                else:
                    self.compare(*dalumiveth.load(seed, n, d), expected)
        self.assertGreater(min(seen[kind] for kind in ("made", 1, 23)), 20, seen)

    def test_largest(self):
        """1,024 rows, about 14,000 entries; twice the same."""
        expected = expected_load(8443, 1024, 80)
        self.assertGreater(len(expected.columns), 13000)
        self.compare(*dalumiveth.load(8443, 1024, 80), expected)
        self.compare(*dalumiveth.load(8443, 1024, 80), expected)

    def test_known(self):
        """The load that the tests in C and of tools/ have, worked out elsewhere."""
        matrix, right = dalumiveth.load(1984, 5, 3)
        self.assertEqual(matrix.indptr.tolist(), [0, 3, 4, 5, 6, 8])
        self.assertEqual((matrix.indices + 1).tolist(), [1, 3, 4, 2, 3, 4, 3, 5])
        self.assertEqual((matrix.data.tolist(), right.tolist()), ([74, 15, -826, 189, 291, 626, 644, 495], [962, 734, 298, -947, 855]))


class Matrices(unittest.TestCase):
    def test_planned_and_solved(self):
        """From a seed to a solution in three lines; every stored place belongs to the pattern, one with the value 0 too."""
        matrix, right = dalumiveth.load(7, 30, 4)
        self.assertIn(0.0, matrix.data.tolist())
        plan = dalumiveth.plan(matrix)
        run = plan.run(matrix, right)
        self.assertEqual(plan.counts.entries, matrix.data.size)
        dense = np.zeros(matrix.shape)
        dense[np.repeat(np.arange(plan.n), np.diff(matrix.indptr)), matrix.indices] = matrix.data
        self.assertTrue(np.allclose(dense @ run.x, right))
        self.assertEqual(bits(dalumiveth.splu(matrix).solve(right)), bits(run.x))

    def test_own_arrays(self):
        """Each load has arrays of its own, and none keeps the longer stores alive."""
        first, second = dalumiveth.load(7, 50, 4), dalumiveth.load(7, 50, 4)
        for array, other in zip((*arrays(first[0]), first[1]), (*arrays(second[0]), second[1])):
            self.assertFalse(np.shares_memory(array, other))
            self.assertTrue(array.base is None or array.base.size == array.size)
            self.assertTrue(array.flags.writeable)

    @unittest.skipIf(sparse is None, "SciPy is not installed")
    def test_scipy(self):
        matrix, right = dalumiveth.load(7, 50, 4)
        self.assertIsInstance(matrix, sparse.csr_matrix)
        self.assertTrue(matrix.has_sorted_indices and matrix.has_canonical_format)
        self.assertEqual(matrix.nnz, expected_load(7, 50, 4).starts[-1])
        self.assertTrue(np.allclose(sparse.linalg.splu(matrix.tocsc()).solve(right), dalumiveth.plan(matrix).solve(matrix, right)))

    def test_without_scipy(self):
        """The package's own CSR, with the same arrays."""
        code = ("import sys; sys.modules['scipy'] = None; import dalumiveth; A, b = dalumiveth.load(7, 5, 2); "
                "print(type(A).__name__, A.indptr.tolist(), A.indices.tolist(), A.data.tolist(), A.shape, b.tolist(), dalumiveth.plan(A).n)")
        named = {**os.environ, "PYTHONPATH": str(ROOT / "python")}
        ended = subprocess.run([sys.executable, "-c", code], env=named, capture_output=True, text=True)
        expected = expected_load(7, 5, 2)
        self.assertEqual(ended.stdout, f"CSR {expected.starts} {expected.columns} {expected.values} (5, 5) {expected.right} 5\n", ended.stderr)


def arrays(matrix):
    return matrix.indptr, matrix.indices, matrix.data


class Numbers(unittest.TestCase):
    def test_no_seed(self):
        """What is no number of 32 bits is never made one."""
        for seed in (-1, 2**32, 2**32 + 7, 2**64, -(2**200), 2**200):
            with self.assertRaisesRegex(ValueError, f"^a seed is 0 to 4294967295, not {seed}$"):
                dalumiveth.load(seed, 5, 2)
        for seed in (7.0, "7", None, b"7"):
            with self.assertRaises(TypeError):
                dalumiveth.load(seed, 5, 2)

    def test_whole_numbers(self):
        expected = bits(dalumiveth.load(7, 5, 2)[0].data)
        for kind in (np.int8, np.uint32, np.int64, np.uint64):
            self.assertEqual(bits(dalumiveth.load(kind(7), kind(5), kind(2))[0].data), expected)
        for numbers in ((7, 5.0, 2), (7, 5, 2.0), (7, "5", 2), (7, 5, None)):
            with self.assertRaises(TypeError):
                dalumiveth.load(*numbers)
        for n, d, name in ((-1, 2, "n"), (5, -1, "d"), (-(2**200), 2, "n")):
            with self.assertRaisesRegex(ValueError, f"^{name} is -"):
                dalumiveth.load(7, n, d)

    def test_past_64_bits(self):
        """No wrapping: n is refused, without a store of its size, and a d that large is divided by 0 alone."""
        for n in (1025, 2**32 + 5, 2**60, 2**64, 2**64 + 5, 2**200):
            self.assertEqual(refusal_of(dalumiveth.load, 7, n, 2), (1, 0))
            self.assertEqual(refusal_of(dalumiveth.load, 7, n, 0), (1, 0))
        for d in (2**32, 2**32 + 1, 2**64 - 1, 2**64, 2**64 + 1, 2**200):
            self.assertEqual(dalumiveth.load(7, 5, d)[0].indices.tolist(), [0, 1, 2, 3, 4])
            self.assertEqual(dalumiveth.load(3281063054, 2, d)[0].indices.tolist(), [0, 1, 1])  # its second draw is 0


class Exported(unittest.TestCase):
    def test_stores_and_answers(self):
        """Answers of any length; zeros behind the entries and after a refusal, whatever stood in the stores."""
        expected = expected_load(7, 5, 2)
        for length in (0, 1, 2, 3, 5):
            for d, told in ((2, [0, 0, len(expected.columns), 0, 0]), (0, [23, 0, 0, 0, 0])):
                starts, columns = np.full(6, 9, dtype=USIZE), np.full(16384, 9, dtype=USIZE)
                values, right, answer = np.full(16384, np.nan), np.full(5, np.nan), np.full(length, 9, dtype=USIZE)
                self.assertEqual(call("dalumiveth_load", 7, 5, d, *lend(starts, columns, values, right, answer)), told[0])
                self.assertEqual(answer.tolist(), told[:length])
                entries = told[2]
                self.assertEqual(starts.tolist(), expected.starts if d else [0] * 6)
                self.assertEqual((columns[:entries] - USIZE.type(1)).tolist(), expected.columns if d else [])
                self.assertFalse(columns[entries:].any() or values[entries:].view(USIZE).any())
                self.assertEqual(bits(right), bits(np.array(expected.right)) if d else [0] * 5)


if __name__ == "__main__":
    unittest.main()
