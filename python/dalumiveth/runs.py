"""What a run leaves: the slots of L and U, the diagonal, the solution, pivot rows and updates."""

import numpy as np

try:
    from scipy import sparse
except ImportError:
    sparse = None


class Run:
    """A finished run.

    x           the solution; after a cut run the right side as it then is, one number for each row
    pivot_rows  the row chosen at each step, counted from 0; -1 for a step that was not done
    updates     how many subtractions were made in the matrix
    l, u, d     the slots of L (multipliers, column by column), of U (row by row) and of the diagonal
    steps       where the run was cut, or None
    plan        the plan that it was run with
    """

    __slots__ = ("plan", "l", "u", "d", "x", "pivot_rows", "updates", "steps")

    def __init__(self, plan, l, u, d, x, pivots, updates, steps):
        self.plan = plan
        self.l, self.u, self.d, self.x = l, u, d, x
        self.pivot_rows = pivots.astype(np.intp) - 1
        self.updates = updates
        self.steps = steps

    def __repr__(self):
        extent = "whole" if self.steps is None else f"cut to {self.steps} steps"
        return f"<dalumiveth.Run n {self.plan.n}, {extent}, updates {self.updates}>"

    @property
    def L(self):
        """The multipliers in their slots under a diagonal of ones, as CSR (numpy where SciPy is missing).

        Its shape is the matrix's, so that rows beyond the first n have multipliers alone.
        Multipliers stay where they were written: later exchanges of rows do not move them, so A is not L @ U with its rows
        in another order. A right side b becomes that of U by: for each step k, exchange b[k] and b[pivot_rows[k]], then
        subtract L[i, k] * b[k] from each b[i] below.
        """
        rows, columns = self._places("lower")
        return self._matrix(self.plan.shape, columns, rows, self.l, np.ones(self.plan.n))

    @property
    def U(self):
        """The slots of U and the diagonal, n by n, as CSR (numpy where SciPy is missing). Slots that hold 0 are stored too."""
        return self._matrix((self.plan.n, self.plan.n), *self._places("upper"), self.u, self.d)

    @property
    def nnz(self):
        """How many slots the plan has: L, U and the diagonal; slots that hold 0 are counted."""
        return self.l.size + self.u.size + self.d.size

    def rectangle(self):
        """The full rectangle of the plan's shape: multipliers below the diagonal, U above it, +0 where the plan has no slot.

        After a cut run the columns of the steps that were not done hold the numbers that are still to be eliminated.
        """
        rectangle = _with_diagonal(self.plan.shape, self.d)
        columns, rows = self._places("lower")
        rectangle[rows, columns] = self.l
        rectangle[self._places("upper")] = self.u
        return rectangle

    square = rectangle  # its name where rows and columns are as many

    def _places(self, side):
        """For each slot of a side, in order: the step it belongs to and its subscript, both from 0."""
        subs, starts, slots = self.plan.stores[:3] if side == "lower" else self.plan.stores[3:]
        sizes = np.diff(slots).astype(np.intp)
        step = np.repeat(np.arange(self.plan.n), sizes)
        within = np.arange(step.size) - slots[:-1].astype(np.intp)[step]
        return step, subs[starts.astype(np.intp)[step] + within].astype(np.intp) - 1

    def _matrix(self, shape, rows, columns, slots, diagonal):
        """A matrix of slots and a diagonal."""
        if sparse is None:
            dense = _with_diagonal(shape, diagonal)
            dense[rows, columns] = slots
            return dense
        every = np.arange(self.plan.n)
        places = (np.concatenate((rows, every)), np.concatenate((columns, every)))
        matrix = sparse.csr_matrix((np.concatenate((slots, diagonal)), places), shape=shape)
        matrix.sort_indices()
        return matrix


def _with_diagonal(shape, diagonal):
    """A dense matrix with this diagonal and +0 elsewhere; it may have more rows than columns."""
    dense = np.zeros(shape)
    np.fill_diagonal(dense, diagonal)
    return dense
