"""Test loads: systems of equations that a seed names, the same on every machine."""

import operator

import numpy as np

from .library import USIZE, as_usize, call, lend
from .patterns import CSR, MOST_ENTRIES, MOST_FIELDS
from .refusals import raise_if_refused
from .runs import sparse  # None where SciPy is missing

_LARGEST_SEED = 2**32 - 1


def load(seed, n, d):
    """The test load of a seed: a matrix by rows and a right side, both of whole numbers from -1,000 to 1,000.

    seed  0 to 4,294,967,295. The same seed, n and d give the same load in every language; any other number is a ValueError.
    n     rows and columns, 1 to 1,024
    d     the diagonal is present, and off it about one place in d

    The matrix is a SciPy csr_matrix (a `CSR` where SciPy is missing), its columns counting from 0. A place whose value is 0 is
    stored: it belongs to the pattern. Raises `Refusal` 1 for an n of 0 or above 1,024 and for a load that would pass 16,384
    entries, 23 where d is 0; a number below 0 is a ValueError.
    """
    seed, n, d = _as_seed(seed), as_usize(n, "n"), as_usize(d, "d")
    rows = min(n, MOST_FIELDS)  # a larger n is refused before any store is looked at
    starts, columns = np.empty(rows + 1, dtype=USIZE), np.empty(MOST_ENTRIES, dtype=USIZE)
    values, right = np.empty(MOST_ENTRIES), np.empty(rows)
    answer = np.zeros(3, dtype=USIZE)
    call("dalumiveth_load", seed, n, d, *lend(starts, columns, values, right, answer))
    raise_if_refused(answer)
    entries = int(answer[2])
    return _matrix(n, starts, columns[:entries], values[:entries].copy()), right


def _as_seed(seed):
    """A seed for a uint32_t parameter. What has no place there names no load: it is never made another one by wrapping."""
    number = operator.index(seed)
    if not 0 <= number <= _LARGEST_SEED:
        raise ValueError(f"a seed is 0 to {_LARGEST_SEED}, not {number}")
    return number


def _matrix(n, starts, columns, values):
    """The entries as a matrix by rows, with the whole type that SciPy gives small indices."""
    indptr, indices = starts.astype(np.int32), columns.astype(np.int32) - np.int32(1)
    if sparse is None:
        return CSR(indptr, indices, values, (n, n))
    return sparse.csr_matrix((values, indices, indptr), shape=(n, n))
