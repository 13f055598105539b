"""A survey seen by two observers, solved by least squares: by Householder and by Givens steps in the slots of a plan of the library.

  PYTHONPATH=python python3 examples/householder.py             factors, solves and checks; status 0 if every check holds
  PYTHONPATH=python python3 examples/householder.py --places    every slot and what it holds, for tools/picture.py

The library plans and has no call for such steps: the arithmetic is a user's own. docs/ORTHOGONAL.md says which slot holds what. Rows,
columns and steps count from 0 here, as in numpy; the subscripts in the stores of a plan count from 1.
"""

import math
import sys
from bisect import bisect_left
from itertools import product
from types import SimpleNamespace

import numpy as np

import dalumiveth

WIDE, HIGH = 10, 6         # the grid of fields, numbered along its short side
UNSEEN = [4, 22, 40]       # the second observer did not see these fields: their rows are empty
WITHDRAWN = [11, 35]       # his equations of these fields were withdrawn after planning: their weights are 0


def drawn(a, b):
    """Numbers between -0.5 and 0.5, none of them 0, the same on every machine."""
    return (37 * a + 61 * b + 13 * a * b) % 101 / 101 - 0.5


def tied(field):
    """The columns of a field's equation, ascending: its own and those of its neighbours on the grid."""
    x, y = divmod(field, HIGH)
    near = ((x - 1, y), (x, y - 1), (x, y), (x, y + 1), (x + 1, y))
    return [a * HIGH + b for a, b in near if 0 <= a < WIDE and 0 <= b < HIGH]


def survey():
    """Matrix and right side. Rows i and n + i are the two observers' equations of field i; no offsets meet all of them."""
    n = WIDE * HIGH
    places = [(row, j) for row in range(2 * n) if row - n not in UNSEEN for j in tied(row % n)]
    rows, columns = np.array(places).T
    weights = np.where(np.isin(rows - n, WITHDRAWN), 0.0, drawn(rows, columns) + (rows % n == columns))
    matrix = dalumiveth.CSR(np.searchsorted(rows, np.arange(2 * n + 1)), columns, weights, (2 * n, n))
    errors = 0.1 * drawn(7, np.arange(2 * n)) * full(matrix).any(axis=1)
    return matrix, full(matrix) @ (10.0 * drawn(5, np.arange(n))) + errors


def entries(matrix):
    """Row, column and value of each entry."""
    return np.repeat(np.arange(matrix.shape[0]), np.diff(matrix.indptr)), matrix.indices, matrix.data


def full(matrix):
    """The full rectangle, which the steps do without: for numpy's own solution."""
    rectangle = np.zeros(matrix.shape)
    rectangle[entries(matrix)[:2]] = matrix.data
    return rectangle


def slot(plan, i, j):
    """Store ("l", "d" or "u") and index of the slot of place (i, j); None where the plan has none."""
    if i == j:
        return "d", i
    store, subs, starts, slots = ("u", *plan.stores[3:]) if j > i else ("l", *plan.stores[:3])
    step, subscript = min(i, j), max(i, j) + 1
    first, last = int(starts[step]), int(starts[step] + slots[step + 1] - slots[step])
    at = bisect_left(subs, subscript, first, last)
    return (store, int(slots[step]) + at - first) if at < last and subs[at] == subscript else None


class Slots:
    """The value stores of a plan, zero at first; slots[i, j] is the number at place (i, j). The factors tau are no part of the plan."""

    def __init__(self, plan):
        self.plan, self.taus = plan, np.zeros(plan.n)
        self.l, self.d, self.u = np.zeros(plan.counts.l_slots), np.zeros(plan.n), np.zeros(plan.counts.u_slots)

    def __getitem__(self, place):
        """A place without a slot is zero at all times."""
        found = slot(self.plan, *place)
        return getattr(self, found[0])[found[1]] if found else 0.0

    def __setitem__(self, place, number):
        """The check that every nonzero has its slot."""
        found = slot(self.plan, *place)
        if found:
            getattr(self, found[0])[found[1]] = number
        elif number != 0:
            raise LookupError(f"the nonzero at {place} has no slot")


def reflect(block):
    """A block, row k and column k first, reduced by I - tau v v^T. At row k the slot is R's, so v is scaled to 1 there; the rest of v is
    laid where column k becomes zero."""
    column = block[:, 0]
    pivot = -math.copysign(math.hypot(*column), column[0])  # of the other sign, so that nothing cancels below
    v, tau = column / (column[0] - pivot), 1.0 - column[0] / pivot
    v[0] = 1.0
    block = block - np.outer(tau * v, v @ block)
    block[0, 0], block[1:, 0] = pivot, v[1:]
    return block, tau


def reflected(part, kept, tau):
    """The reflection of a right side at rows k and L_k. A row that took no part has 0 in v and stays as it is."""
    v = np.concatenate(([1.0], kept))
    return part - tau * (v @ part) * v


def rho_of(a, b):
    """Stewart's rho, the one number to keep of a rotation that takes (a, b) to (r, 0), r of either sign."""
    c, s = a / math.hypot(a, b), b / math.hypot(a, b)
    if c == 0:
        return 1.0
    return math.copysign(s, s * c) / 2 if abs(s) < abs(c) else 2 / math.copysign(c, s * c)


def rotation(rho):
    """Cosine and sine. A row that took no part has kept 0: no rotation."""
    if rho == 1:
        return 0.0, 1.0
    known = 2 * rho if abs(rho) < 1 else 2 / rho
    other = math.sqrt((1 - known) * (1 + known))
    return (other, known) if abs(rho) < 1 else (known, other)


def rotate(block):
    """A block reduced by rotations of row k with each other row in turn; each rho is laid where column k becomes zero. There is no tau."""
    for i in range(1, len(block)):
        rho = rho_of(block[0, 0], block[i, 0])
        block[[0, i]] = rotated(block[[0, i]], [rho])
        block[i, 0] = rho
    return block, 0.0


def rotated(part, kept, _=0.0):
    """The rotations of rows k and L_k, of a block or of a right side, in turn."""
    for i, rho in enumerate(kept, 1):
        c, s = rotation(rho)
        part[0], part[i] = c * part[0] + s * part[i], c * part[i] - s * part[0]
    return part


# A kind of steps: `reduce` takes the block of a step and gives it back reduced, with tau; `apply` repeats the step on a right side.
HOUSEHOLDER = SimpleNamespace(name="Householder", reduce=reflect, apply=reflected)
GIVENS = SimpleNamespace(name="Givens", reduce=rotate, apply=rotated)


def block_of(slots, k):
    """Rows and columns of step k. Raises where one of these rows has a nonzero in another column than U_k's: the step would miss it."""
    plan = slots.plan
    rows, columns = [k] + [i for i in plan.lower(k) if slots[i, k] != 0], [k, *plan.upper(k)]
    for i, j in product(rows, set(range(k, plan.n)) - set(columns)):
        if slots[i, j] != 0:
            raise LookupError(f"the nonzero at {(i, j)} is outside U_{k}")
    return rows, columns


def factored(plan, matrix, kind):
    """The slots after all steps: R in d and u, what is kept of the steps in l. No step changes a row that it does not involve."""
    slots = Slots(plan)
    for i, j, value in zip(*entries(matrix)):
        slots[i, j] = value
    for k in range(plan.n):
        rows, columns = block_of(slots, k)
        if len(rows) > 1:
            block, slots.taus[k] = kind.reduce(np.array([[slots[i, j] for j in columns] for i in rows]))
            for place, number in zip(product(rows, columns), block.flat):
                slots[place] = number
    return slots


def least_squares(slots, kind, right):
    """Solution and misfit: Q^T right is R's right side and, as a sum of squares, what no solution reaches. The rank has to be full."""
    plan, right = slots.plan, right.copy()
    for k, kept in enumerate(np.split(slots.l, plan.stores.l_slots[1:-1])):
        rows = np.concatenate(([k], plan.lower(k)))
        right[rows] = kind.apply(right[rows], kept, slots.taus[k])
    x, upper = right[: plan.n], np.split(slots.u, plan.stores.u_slots[1:-1])
    for k in reversed(range(plan.n)):
        x[k] = (x[k] - upper[k] @ x[plan.upper(k)]) / slots.d[k]
    return x, float(right[plan.n :] @ right[plan.n :])


def report(slots, kind, matrix, right):
    """Prints what came of a kind of steps; whether it is numpy's least squares solution."""
    x, misfit = least_squares(slots, kind, right)
    expected = np.linalg.lstsq(full(matrix), right, rcond=None)[0]
    rest = right - full(matrix) @ expected
    agrees = bool(np.abs(x - expected).max() < 1e-12 and abs(misfit - rest @ rest) < 1e-12)
    filled = sum(map(np.count_nonzero, (slots.l, slots.d, slots.u)))
    said = "yes" if agrees else "no"
    print(f"{kind.name}: every nonzero had its slot, {filled:,} slots filled, misfit {misfit:.6f}, numpy's solution: {said}")
    return agrees


def print_places(slots, matrix):
    """A line for each slot, rows and columns from 1: given, or filled with R or a vector, or left at zero."""
    given = set(zip(*entries(matrix)[:2]))
    print("places", *matrix.shape)
    for i, j in np.ndindex(*matrix.shape):
        if slot(slots.plan, i, j):
            kind = "listed" if (i, j) in given else "left" if slots[i, j] == 0 else "factor" if j > i else "vector"
            print(kind, i + 1, j + 1)


def main(arguments):
    matrix, right = survey()
    plan = dalumiveth.plan(matrix)
    if arguments == ["--places"]:
        print_places(factored(plan, matrix, HOUSEHOLDER), matrix)
        return 0
    counts = plan.counts
    print(f"{counts.n} fields, {counts.height} equations, {counts.entries} places, {counts.l_slots + counts.n + counts.u_slots:,} slots")
    agreed = [report(factored(plan, matrix, kind), kind, matrix, right) for kind in (HOUSEHOLDER, GIVENS)]
    return 0 if all(agreed) else 1


if __name__ == "__main__":
    sys.exit(main(sys.argv[1:]))
