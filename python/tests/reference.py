"""The definitions of document 01, and of document 02's tickets 5, 9 and 14, on full rectangles and sets, written plainly: what the
library's answers are compared with.

A rectangle has n columns and n rows or more; a square is one of them.

Rows, columns and steps count from 1 in `plan_of`, as in the paper, and from 0 in the elimination, as in numpy.
"""

from typing import NamedTuple

import numpy as np

LEAST_PIVOT = 2.0**-1022  # the least magnitude of a pivot


class Planned(NamedTuple):
    """Counts, and subscripts, starts and slot starts of L, then of U."""

    counts: tuple
    stores: tuple


def plan_of(n, rows):
    """The plan of a pattern of n columns, rows[i - 1] being the columns of row i."""
    height = len(rows)
    columns_of = {i: set(rows[i - 1]) for i in range(1, height + 1)}
    lower, upper, handed, first_met, met, reads = {}, {}, {k: [] for k in range(1, n + 1)}, {}, set(), 0
    for k in range(1, n + 1):
        entered = [i for i in range(1, height + 1) if k in columns_of[i]]
        first_met[k] = [i for i in entered if i not in met]
        met.update(first_met[k])
        lower[k], upper[k] = set(first_met[k]), set().union(*(columns_of[i] for i in first_met[k]))
        for l in handed[k]:
            lower[k] |= {i for i in lower[l] if i >= k}
            upper[k] |= {j for j in upper[l] if j >= k}
        reads += len(entered) + sum(len(columns_of[i]) for i in first_met[k])
        reads += sum(len(lower[l]) + len(upper[l]) for l in handed[k])
        further = [j for j in upper[k] if j > k]
        if len(lower[k]) > 1 and further:
            handed[min(further)].append(k)
    l_stores, u_stores = (shared(n, side, handed, first_met) for side in (lower, upper))
    entries = sum(len(columns) for columns in columns_of.values())
    counts = (n, height, entries, len(l_stores[0]), len(u_stores[0]), l_stores[2][-1], u_stores[2][-1], reads)
    return Planned(counts, (*l_stores, *u_stores))


def shared(n, side, handed, first_met):
    """Shared subscripts of a side: subscripts, starts, slot starts. A list shares with the end of the whole store, whichever list put it there."""
    subscripts, starts, slots = [], [], [0]
    for k in range(1, n + 1):
        kept = sorted(side[k] - {k})
        if not kept:
            start = len(subscripts)
        elif len(handed[k]) == 1 and not first_met[k]:
            start = starts[handed[k][0] - 1] + 1
        else:
            end = len(subscripts)
            t = next(t for t in range(min(end, len(kept)), -1, -1) if subscripts[end - t:] == kept[:t])
            start = end - t
            subscripts += kept[t:]
        starts.append(start)
        slots.append(slots[-1] + len(kept))
    return subscripts, starts, slots


class State:
    """The full rectangle, its right side, pivot rows and updates, at some step.

    by_limit     stopped with 13 for the least magnitude of a pivot alone: the entry is not zero
    passed_over  steps whose column had a fainter entry than that beside the pivot
    """

    def __init__(self, rectangle, right):
        self.rectangle, self.right = rectangle.copy(), right.copy()
        self.pivots, self.updates = np.full(rectangle.shape[1], -1), 0
        self.by_limit, self.passed_over = False, 0

    def copy(self):
        """The state as it is now."""
        twin = State(self.rectangle, self.right)
        twin.pivots, twin.updates = self.pivots.copy(), self.updates
        twin.by_limit, twin.passed_over = self.by_limit, self.passed_over
        return twin

    def step(self, k, p):
        """Step k with pivot row p: 0, 13 or 14."""
        places, right = self.rectangle, self.right
        if abs(places[p, k]) < LEAST_PIVOT:
            self.by_limit = bool(places[p, k] != 0)
            return 13
        self.passed_over += bool(np.any((places[k:, k] != 0) & (np.abs(places[k:, k]) < LEAST_PIVOT)))
        places[[k, p], k:] = places[[p, k], k:]
        right[[k, p]] = right[[p, k]]
        self.pivots[k] = p
        columns = k + 1 + np.flatnonzero(places[k, k + 1:])
        for i in k + 1 + np.flatnonzero(places[k + 1:, k]):
            m = places[i, k] / places[k, k]
            places[i, k] = m
            if m == 0:
                continue
            products = m * places[k, columns]
            places[i, columns] = places[i, columns] - products
            self.updates += len(columns)
            product = m * right[k]
            right[i] = right[i] - product
        # What is not finite stays so within its step: a product shows in its difference.
        return 0 if np.isfinite(places).all() and np.isfinite(right).all() else 14

    def back(self):
        """Back substitution of a square, in the right side: 0, or the row (from 1) that is not finite."""
        for i in range(len(self.right) - 1, -1, -1):
            total = self.right[i]
            for j in i + 1 + np.flatnonzero(self.rectangle[i, i + 1:]):
                product = self.rectangle[i, j] * self.right[j]
                total = total - product
            self.right[i] = total / self.rectangle[i, i]
            if not np.isfinite(self.right[i]):
                return i + 1
        return 0


def largest(state, k):
    """The row from k on with the largest magnitude in column k that a pivot may have, the lowest if equal; where there is none, one to be refused."""
    magnitudes = np.abs(state.rectangle[k:, k])
    serving = np.where(magnitudes >= LEAST_PIVOT, magnitudes, 0.0)
    return k + int(np.argmax(serving if serving.any() else magnitudes))


def outcomes(rectangle, right, choose, cuts):
    """For each cut, and for None (whole): (number, step, state), the state of a run that stopped being as it stopped. `choose` gives the pivot
    row of a state and step. More rows than columns are not solved: whole it is 26, whatever its steps would bring."""
    height, n = rectangle.shape
    found, state = {None: (26, 0, None)} if height > n else {}, State(rectangle, right)
    with np.errstate(all="ignore"):
        for k in range(n + 1):
            if k in cuts:
                found[k] = (0, 0, state.copy())
            number = state.step(k, choose(state, k)) if k < n else 0
            if number:
                stopped = (number, k + 1, state)
                return {**{cut: stopped for cut in (*cuts, None)}, **found}
        if height == n:
            row = state.back()
            found[None] = (14, row, None) if row else (0, 0, state)
    return found
