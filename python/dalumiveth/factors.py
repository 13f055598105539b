"""In the manner of scipy.sparse.linalg.splu."""

import numpy as np

from .patterns import MATRIX, by_rows
from .plans import plan
from .stores import floats


class Factor:
    """A matrix that was planned and eliminated; `splu` makes it.

    plan        its plan, for runs with other values
    run         the run that eliminated it (cut to all n steps, with a right side of zeros)
    L, U        the factors as CSR, or as numpy arrays where SciPy is missing; see `Run.L` for what they mean
    pivot_rows  the row chosen at each step, counted from 0
    updates     how many subtractions were made in the matrix
    nnz         how many slots L, U and the diagonal have
    shape       (rows, n)
    """

    def __init__(self, made, values, run):
        self.plan = made
        self.run = run
        self._values = values

    def solve(self, right):
        """The solution x of A x = right, right being float64 with one or two dimensions.

        The library eliminates and solves in one call, so this runs the elimination again, for each column of the right
        side: it costs as much as `plan.run`. The values are those of the matrix when `splu` was called. A matrix with more
        rows than n is refused with 26.
        """
        return self.plan.solve(self._values, right)

    shape = property(lambda self: self.plan.shape, doc="(rows, n)")
    nnz = property(lambda self: self.run.nnz, doc="How many slots L, U and the diagonal have; those that hold 0 count.")
    updates = property(lambda self: self.run.updates, doc="How many subtractions were made in the matrix.")
    pivot_rows = property(lambda self: self.run.pivot_rows, doc="The row chosen at each step, counted from 0.")
    L = property(lambda self: self.run.L, doc="Multipliers under a diagonal of ones, where they were written; see `Run.L`.")
    U = property(lambda self: self.run.U, doc="The slots of U and the diagonal; see `Run.U`.")

    def __repr__(self):
        return f"<dalumiveth.Factor n {self.plan.n}, nnz {self.nnz}, updates {self.updates}>"


def splu(matrix, *, add_diagonal=False):
    """Plans and eliminates a matrix, with the largest entry of each column as pivot; a `Factor` with solve(), L and U.

    matrix and add_diagonal are as for `plan`; raises `Refusal` as `plan` and `Plan.run` do, 13 if the matrix is singular or a
    pivot would be fainter than 2^-1022, the least normal float64.
    Columns are not reordered. The values are copied, so that the matrix may change afterwards. A matrix with more rows than
    columns has L and U too, but no solve().
    """
    matrix = by_rows(matrix, MATRIX)
    made = plan(matrix, add_diagonal=add_diagonal)
    values = floats(matrix.data, "data").copy()
    return Factor(made, values, made.run(values, np.zeros(made.height), steps=made.n))
