"""From a CSR matrix to the pattern that the library takes: row starts, and columns that count from 1."""

from typing import NamedTuple, Optional

import numpy as np

from .library import USIZE, as_usize
from .stores import whole_numbers

MOST_FIELDS = 1024
MOST_ROWS = 2048
MOST_ENTRIES = 16384

# What is read of a matrix: for its pattern, and with its values.
PATTERN = ("indptr", "indices", "shape")
MATRIX = (*PATTERN, "data")


class CSR(NamedTuple):
    """A matrix stored by rows, where SciPy is not at hand. Any object with these four attributes is taken alike.

    indptr    row starts, one more than there are rows
    indices   the column of each value, counted from 0
    data      the values, float64
    shape     (rows, n)
    """

    indptr: np.ndarray
    indices: np.ndarray
    data: Optional[np.ndarray]
    shape: tuple


class Pattern(NamedTuple):
    """A pattern as the library takes it: n columns, and the row count `height`, which is n for a square.

    places tells where each given value goes among the entries; it is None if they stay in their order.
    """

    n: int
    height: int
    starts: np.ndarray
    columns: np.ndarray
    places: Optional[np.ndarray]


def by_rows(matrix, fields):
    """The matrix, if it is stored by rows. Other SciPy formats are converted by their own tocsr()."""
    if getattr(matrix, "format", "csr") != "csr" and hasattr(matrix, "tocsr"):
        matrix = matrix.tocsr()
    lacking = [field for field in fields if not hasattr(matrix, field)]
    if lacking:
        raise TypeError(f"a {type(matrix).__name__} has no {', '.join(lacking)}: a CSR matrix is needed")
    return matrix


def pattern_of(matrix, add_diagonal=False):
    """The pattern of a CSR matrix. What breaks the form of a pattern is handed on as it is, for the library to refuse."""
    matrix = by_rows(matrix, PATTERN)
    if len(matrix.shape) != 2:
        raise ValueError(f"the matrix has shape {tuple(matrix.shape)}: rows and columns are needed")
    height, n = as_usize(matrix.shape[0], "the row count"), as_usize(matrix.shape[1], "n")
    starts = whole_numbers(matrix.indptr, "indptr").astype(USIZE)
    columns = whole_numbers(matrix.indices, "indices").astype(USIZE)
    columns += USIZE.type(1)
    if not _is_well_formed(n, height, starts, columns):
        return Pattern(n, height, starts, columns, None)
    rows = np.repeat(np.arange(1, height + 1, dtype=USIZE), np.diff(starts).astype(np.intp))
    added = _rows_without_diagonal(n, rows, columns) if add_diagonal else rows[:0]
    if added.size == 0 and _is_sorted(rows, columns):
        return Pattern(n, height, starts, columns, None)
    return _arranged(n, height, np.concatenate((rows, added)), np.concatenate((columns, added)), columns.size)


def in_order(values, pattern):
    """Values, given in the order of the matrix that the pattern was taken from, in the order of the pattern's entries."""
    if pattern.places is None:
        return values
    if values.size != pattern.places.size:
        return values[:0]  # as many as no pattern has entries: the library refuses with 10
    entries = np.zeros(pattern.columns.size)
    entries[pattern.places] = values
    return entries


def _is_well_formed(n, height, starts, columns):
    """Whether entries can be told to rows at all, within the limits."""
    if n > MOST_FIELDS or columns.size > MOST_ENTRIES or not n <= height <= MOST_ROWS or starts.size != height + 1:
        return False
    return bool(starts[0] == 0 and starts[-1] == columns.size and np.all(starts[:-1] <= starts[1:]))


def _is_sorted(rows, columns):
    """Whether no column falls within a row. Equal ones, listed twice, are left to the library."""
    return bool(np.all((rows[:-1] < rows[1:]) | (columns[:-1] <= columns[1:])))


def _rows_without_diagonal(n, rows, columns):
    """Those of the first n rows, counted from 1, that list no diagonal place; the rows beyond them have none."""
    return np.setdiff1d(np.arange(1, n + 1, dtype=USIZE), rows[rows == columns])


def _arranged(n, height, rows, columns, given):
    """The pattern with these entries in order of rows and columns; the first `given` of them have values."""
    order = np.lexsort((columns, rows))
    places = np.empty(order.size, dtype=np.intp)
    places[order] = np.arange(order.size)
    starts = np.searchsorted(rows[order], np.arange(1, height + 2, dtype=USIZE)).astype(USIZE)
    return Pattern(n, height, starts, columns[order], places[:given])
