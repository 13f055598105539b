"""Random systems, square and tall: patterns of every density, and values of several kinds."""

from typing import NamedTuple

import numpy as np

from reference import LEAST_PIVOT


class System(NamedTuple):
    """A pattern of n columns (the columns, from 0, of each row), its values in order, and a right side."""

    n: int
    rows: list
    data: np.ndarray
    right: np.ndarray

    def rectangle(self):
        """The full rectangle, +0 outside the pattern."""
        rectangle = np.zeros((len(self.rows), self.n))
        values = iter(self.data)
        for i, columns in enumerate(self.rows):
            for j in columns:
                rectangle[i, j] = next(values)
        return rectangle


def ordinary(random, count):
    """Numbers about 1."""
    return random.standard_normal(count)


def small(random, count):
    """Small whole numbers: ties and exact cancellation."""
    return random.integers(-2, 3, count).astype(float)


def powers(random, count):
    """Powers of two: ties and exact cancellation."""
    return random.choice([-1.0, 1.0], count) * np.exp2(random.integers(-2, 3, count))


def subnormal(random, count):
    """Subnormal numbers among powers of two: products and quotients that round or vanish."""
    tiny = random.integers(-2**20, 2**20, count) * 5e-324
    return np.where(random.random(count) < 0.3, tiny, powers(random, count) * np.exp2(-1000 * (random.random(count) < 0.3)))


def wide(random, count):
    """Numbers of every size: many runs end with 14."""
    return random.standard_normal(count) * 10.0 ** random.uniform(-160, 160, count)


def tiny_pivots(random, count):
    """Numbers about 1, some of them tiny."""
    return ordinary(random, count) * np.where(random.random(count) < 0.2, 1e-200, 1.0)


def around_limit(random, count):
    """The least magnitude of a pivot, its neighbours, and quarters of it, whose differences are often fainter; some whole numbers."""
    near = ((1 << 52) + random.integers(-2, 3, count)).view(float)
    quarters = random.integers(1, 9, count) * (LEAST_PIVOT / 4)
    way = random.random(count)
    return random.choice([-1.0, 1.0], count) * np.where(way < 0.35, near, np.where(way < 0.7, quarters, random.integers(1, 4, count)))


KINDS = (ordinary, small, powers, subnormal, wide, tiny_pivots, around_limit)


def random_system(random, most):
    """A square system of at most `most` fields."""
    n = int(random.integers(1, most + 1))
    return with_values(random, random_pattern(random, n, n), KINDS[random.integers(len(KINDS))])


def random_tall(random, most):
    """A system of at most `most` fields with n, n+1, 2n or some other number of rows; some of those beyond n are empty."""
    n = int(random.integers(1, most + 1))
    height = int(random.choice([n, n + 1, 2 * n, n + random.integers(2, 3 * most)]))
    present = random_pattern(random, n, height)
    present[n:][random.random(height - n) < random.choice([0.0, 0.2, 1.0], p=[0.5, 0.4, 0.1])] = False
    return with_values(random, present, KINDS[random.integers(len(KINDS))])


def filled(random, n, height):
    """A system with every place present."""
    return with_values(random, np.ones((height, n), dtype=bool), ordinary)


def banded(random, n, height):
    """A system whose rows have at most eight places each, of row i and of row n + i near column i."""
    present = np.eye(height, n, dtype=bool)
    for i in range(height):
        present[i, np.clip(i % n + random.integers(-6, 7, 7), 0, n - 1)] = True
    return with_values(random, present, ordinary)


def random_pattern(random, n, height):
    """Which places are present: those of the diagonal, and others by some density."""
    density = random.choice([0.05, 0.15, 0.3, 0.6, 1.0])
    return (random.random((height, n)) < density) | np.eye(height, n, dtype=bool)


def with_values(random, present, kind):
    """The system of these places, its values and right side of one kind."""
    height, n = present.shape
    rows = [np.flatnonzero(row).tolist() for row in present]
    data = with_zeros(random, kind(random, int(present.sum())))
    return System(n, rows, data, with_zeros(random, kind(random, height)))


def with_zeros(random, numbers):
    """Some of the numbers replaced by +0 and -0."""
    share = random.choice([0.0, 0.1, 0.3])
    zeros = np.copysign(0.0, random.standard_normal(numbers.size))
    return np.where(random.random(numbers.size) < share, zeros, numbers)


def random_list(random, chosen):
    """A chooser that takes some row whose entry may be a pivot, for half of the lists one not far below the largest, so that long runs
    finish too; in about one list of ten also any other. It notes the row in `chosen`."""
    share = random.choice([0.0, 0.5])

    def choose(state, k):
        magnitudes = np.abs(state.rectangle[k:, k])
        candidates = k + np.flatnonzero(magnitudes >= max(LEAST_PIVOT, share * magnitudes.max()))
        if candidates.size == 0 or random.random() < 0.1 / len(chosen):
            candidates = np.arange(k, len(state.right))
        chosen[k] = random.choice(candidates)
        return chosen[k]

    return choose
