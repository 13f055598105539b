"""Plans: made once for a pattern, run many times."""

import threading
from typing import NamedTuple

import numpy as np

from .library import USIZE, as_usize, call, lend
from .patterns import MATRIX, MOST_FIELDS, MOST_ROWS, by_rows, in_order, pattern_of
from .refusals import raise_if_refused
from .runs import Run
from .stores import floats, usizes, whole_numbers


class Counts(NamedTuple):
    """The eight counts of a plan; height is the row count."""

    n: int
    height: int
    entries: int
    l_subscripts: int
    u_subscripts: int
    l_slots: int
    u_slots: int
    reads: int


class Stores(NamedTuple):
    """The six stores of a plan, as the library has them: subscripts count from 1, places from 0.

    The kept list of step k (from 0) on a side is subs[starts[k] : starts[k] + slots[k+1] - slots[k]].
    """

    l_subs: np.ndarray
    l_starts: np.ndarray
    l_slots: np.ndarray
    u_subs: np.ndarray
    u_starts: np.ndarray
    u_slots: np.ndarray


def plan(matrix, *, add_diagonal=False, most=MOST_FIELDS, room=None):
    """The plan of a matrix's pattern; its values are not looked at.

    matrix        a SciPy sparse matrix, or any object with indptr, indices and shape (`CSR` is one). Formats other than
                  CSR are converted by their own tocsr(). Columns that are not sorted within a row are sorted on a copy.
                  A place that is listed twice is refused with 4: A.sum_duplicates() adds the values up. Its shape is
                  (rows, n), n to 2,048 rows; rows beyond the first n may be empty.
    add_diagonal  one of the first n rows without a stored diagonal place is refused with 5; with add_diagonal=True the
                  place is put into the pattern, with the value +0 in every run.
    most          the largest n that is taken, at most 1,024
    room          how many subscripts a side may need: a number, or one for L and one for U. None is always enough.

    Raises `Refusal` 1 to 5 and 25, and 7 or 8 if the room is too small.
    """
    pattern = pattern_of(matrix, add_diagonal)
    most = as_usize(most, "most")
    n = min(pattern.n, MOST_FIELDS)  # a larger n is refused before any store is looked at
    height = min(max(pattern.height, n), MOST_ROWS)  # and so is another row count
    stores = _empty_stores(n, *_rooms(room, n, height))
    answer = np.zeros(10, dtype=USIZE)
    work = _index_work(height)
    lent = lend(pattern.starts, pattern.columns, *stores, *work, answer)
    call("dalumiveth_plan", most, pattern.n, pattern.height, *lent)
    raise_if_refused(answer)
    counts = Counts(*answer[2:].tolist())
    trimmed = stores._replace(
        l_subs=stores.l_subs[: counts.l_subscripts].copy(), u_subs=stores.u_subs[: counts.u_subscripts].copy()
    )
    return Plan(pattern, counts, trimmed, most, add_diagonal)


class Plan:
    """The plan of a pattern, with work stores of its own; `dalumiveth.plan` makes it.

    n, height  columns and rows
    shape      (height, n)
    counts     the eight counts: n, height, entries, L and U subscripts, L and U slots, reads
    stores     the six stores of the plan, write-protected
    pattern    the pattern as the library takes it, write-protected

    Every run first verifies that counts and stores are the plan of the pattern, and refuses with 9 (or 6, for a store of
    another length) if they are not. So `Plan(pattern, counts, stores)` may be given what was kept elsewhere: a plan that was
    damaged on the way cannot lead to a wrong answer. One that was kept from before subscripts were shared with the end of the
    whole store (document 02, ticket 5) is 9 where its lists lie otherwise, and one from before plans held a row count (ticket
    9) lacks a count: plan anew.

    A plan's work stores serve one run at a time. Threads may share a plan: a lock makes them wait for each other. Threads
    that shall run side by side take a `copy()` each. The arrays that are lent to a run must not be changed meanwhile.
    """

    def __init__(self, pattern, counts, stores, most=MOST_FIELDS, add_diagonal=False):
        self._pattern, self._counts, self._stores = pattern, counts, stores
        self._most = most
        self._add_diagonal = add_diagonal
        self._count_store = np.array(counts, dtype=USIZE)
        for store in (pattern.starts, pattern.columns, self._count_store, *stores):
            usizes(store, "a store of a plan").flags.writeable = False
        # Pointers are taken once; the arrays live as long as the plan, since no attribute can be set to others.
        self._lent_plan = lend(self._count_store, *stores)
        # Work stores and the answer's store: made once, lent to every call.
        self._work = (*_index_work(self.height), np.zeros(self.height), np.zeros(self.height + 1))
        self._answer = np.zeros(3, dtype=USIZE)
        self._lent_work = lend(*self._work)
        self._lent_answer = lend(self._answer)
        self._lock = threading.Lock()

    def __repr__(self):
        return f"<dalumiveth.Plan {', '.join(f'{name} {count}' for name, count in self.counts._asdict().items())}>"

    n = property(lambda self: self._pattern.n, doc="How many columns there are, and steps.")
    height = property(lambda self: self._pattern.height, doc="How many rows there are: n of a square, more of a tall pattern.")
    shape = property(lambda self: (self.height, self.n), doc="(height, n)")
    counts = property(lambda self: self._counts, doc="The eight counts, a `Counts`.")
    stores = property(lambda self: self._stores, doc="The six stores, a `Stores`; write-protected.")
    pattern = property(lambda self: self._pattern, doc="The pattern as the library takes it; write-protected.")

    def run(self, matrix, right, rows=None, steps=None):
        """Eliminates and solves in the planned slots; the `Run` with everything that it left.

        matrix  a matrix of the planned pattern, or its values alone: a float64 array in the order of the data of the matrix
                that was planned. A matrix of a pattern with another plan is refused with 9.
        right   the right side, float64, one number for each row
        rows    the row list: the row of each of the n steps, counted from 0, any from the step's own to the last. None: the
                largest entry of the column chooses. Either way a pivot has magnitude at least 2^-1022; where none has, or not
                the listed one, the run is refused with 13.
        steps   cuts the run to its first `steps` steps, without back substitution; run.x is then the right side as it is
                after them. None: a whole run, which is refused with 26 where there are more rows than n: steps=n reduces such a
                tall system, the first n rows are then triangular (run.U, run.x[:n]), and run.x[n:] is the misfit.

        Raises `Refusal` 9 to 14 and 26; for a matrix of another shape 6, for one whose pattern has no plan 1 to 5 or 25. Arrays
        of another type or with gaps are a TypeError. Values and right side are lent as they are (values that have to be sorted,
        or get a diagonal, are copied), and never changed. Values alone are quicker than a matrix, whose pattern is read each
        time.
        """
        pattern, values = self._pattern_and_values(matrix)
        system = lend(values, floats(right, "right"))
        listed = np.zeros(0, dtype=USIZE) if rows is None else whole_numbers(rows, "rows").astype(USIZE) + USIZE.type(1)
        choice = (int(rows is not None), *lend(listed))
        extent = (0, 0) if steps is None else (1, as_usize(steps, "steps"))
        results = self._result_stores()
        lent = (*lend(pattern.starts, pattern.columns), *self._lent_plan, *system, *choice, *extent, *lend(*results))
        with self._lock:
            call("dalumiveth_run", self._most, pattern.n, pattern.height, *lent, *self._lent_work, *self._lent_answer)
            answer = self._answer.tolist()
        raise_if_refused(answer)
        return Run(self, *results, updates=answer[2], steps=steps)

    def solve(self, matrix, right):
        """The solution x of A x = right; for a right side with several columns, one run for each of them.

        Raises `Refusal` as `run` does, 26 where there are more rows than n.
        """
        if isinstance(right, np.ndarray) and right.ndim == 2:
            columns = [self.run(matrix, column.copy()).x for column in right.T]
            return np.column_stack(columns) if columns else np.zeros_like(right)
        return self.run(matrix, right).x

    def verify(self, matrix=None):
        """Raises `Refusal` 9 unless this is the plan of the matrix's pattern (None: of the pattern it was made for)."""
        pattern = self.pattern if matrix is None else pattern_of(matrix, self._add_diagonal)
        lent = (*lend(pattern.starts, pattern.columns), *self._lent_plan)
        with self._lock:
            call("dalumiveth_verify", self._most, pattern.n, pattern.height, *lent, *lend(*self._work[:6]), *self._lent_answer)
            answer = self._answer.tolist()
        raise_if_refused(answer)

    def copy(self):
        """The same plan with work stores and a lock of its own; the stores of the plan are shared."""
        return Plan(self.pattern, self.counts, self.stores, self._most, self._add_diagonal)

    def lower(self, step):
        """The rows below the diagonal that have a slot in column `step`, ascending; both count from 0."""
        return _kept_list(step, *self.stores[:3])

    def upper(self, step):
        """The columns beyond the diagonal that have a slot in row `step`, ascending; both count from 0."""
        return _kept_list(step, *self.stores[3:])

    def _pattern_and_values(self, matrix):
        """The pattern to run with and its values, of a matrix or of values alone."""
        if isinstance(matrix, np.ndarray):
            return self.pattern, in_order(floats(matrix, "values"), self.pattern)
        matrix = by_rows(matrix, MATRIX)
        pattern = pattern_of(matrix, self._add_diagonal)
        return pattern, in_order(floats(matrix.data, "data"), pattern)

    def _result_stores(self):
        """New stores for a run: l, u, d, x, pivots. No plan has more slots than are always enough, whatever the counts say."""
        l_most, u_most = _always_enough(self.n, self.height)
        l_slots, u_slots = min(self.counts.l_slots, l_most), min(self.counts.u_slots, u_most)
        return (np.empty(l_slots), np.empty(u_slots), np.empty(self.n), np.empty(self.height), np.empty(self.n, dtype=USIZE))


def _kept_list(step, subs, starts, slots):
    """The kept list of a step of one side, counted from 0."""
    step = range(starts.size)[step]
    start, size = int(starts[step]), int(slots[step + 1] - slots[step])
    return subs[start : start + size].astype(np.intp) - 1


def _always_enough(n, height):
    """As many subscripts, or slots, as L and U of any plan can need: the places below the diagonal and those above it."""
    triangle = n * (n - 1) // 2
    return triangle + n * (height - n), triangle


def _rooms(room, n, height):
    """The room for subscripts, of L and of U."""
    if room is None:
        return _always_enough(n, height)
    return room if isinstance(room, tuple) else (room, room)


def _empty_stores(n, l_room, u_room):
    """Stores for a plan to be made in."""
    sizes = (l_room, n, n + 1, u_room, n, n + 1)
    return Stores(*(np.empty(size, dtype=USIZE) for size in sizes))


def _index_work(height):
    """Row heads and links, set heads and links, list, spare: every work store goes by the row count."""
    sizes = (height + 1, height + 1, height + 1, height + 1, height, height)
    return tuple(np.zeros(size, dtype=USIZE) for size in sizes)
