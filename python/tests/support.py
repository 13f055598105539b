"""What the tests share: the package on the path, the four fields of document 01, comparisons of bits."""

import sys
from pathlib import Path

import numpy as np

ROOT = Path(__file__).resolve().parents[2]
sys.path.insert(0, str(ROOT / "python"))

import dalumiveth  # noqa: E402  (the path comes first)
from dalumiveth.library import functions  # noqa: E402

functions()  # a library that is missing ends every test file at once, with one sentence

try:
    import scipy.sparse
    import scipy.sparse.linalg

    sparse = scipy.sparse
except ImportError:
    sparse = None


def csr(n, rows, data=None):
    """A CSR of n columns, of the columns (from 0) of each row."""
    indptr = np.concatenate(([0], np.cumsum([len(row) for row in rows]))).astype(np.int32)
    indices = np.array([column for row in rows for column in row], dtype=np.int32)
    return dalumiveth.CSR(indptr, indices, None if data is None else np.array(data, dtype=float), (len(rows), n))


def four_fields():
    """Matrix and right side of the four fields."""
    matrix = csr(4, [[0, 2], [1, 3], [0, 2], [1, 2, 3]], [2, 1, 1, 1, 4, 4, 2, 1, 4])
    return matrix, np.array([3.0, 2.0, 8.0, 7.0])


def seen_twice():
    """Matrix and right side of two fields with five equations: the third has no entry, so that all of its right side is misfit."""
    matrix = csr(2, [[0, 1], [1], [], [0], [0, 1]], [2, 1, 2, 1, 4, 3])
    return matrix, np.array([3.0, 1.0, 0.5, 1.0, 7.0])


def diagonal(n, data=None):
    """A diagonal matrix; of ones if no data are given."""
    return csr(n, [[i] for i in range(n)], np.ones(n) if data is None else data)


def bits(numbers):
    """The bits of float64 numbers, so that zeros of both signs differ."""
    return np.ascontiguousarray(numbers).view(np.uint64).tolist()


def refusal_of(call, *arguments, **named):
    """Number and step of the refusal that a call ends with; None if it is not refused."""
    try:
        call(*arguments, **named)
    except dalumiveth.Refusal as refusal:
        return refusal.number, refusal.step
    return None
