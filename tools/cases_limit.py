"""Systems around the least magnitude of a pivot, for the requests of the test programs. Document 02, ticket 14: "A pivot must have magnitude at least 2 to the
power -1022; choice among rows passes over the rest, and 13 is given where none is left or the listed row is fainter. Multipliers and updates treat such entries
as today."
"""
import collections
import itertools
import struct

from cases_patterns import shape, sparse

# a pattern's rows, values row by row, right side, row list or None, cut or None
Asked = collections.namedtuple("Asked", "rows values right listed cut")


def of_bits(bits):
    return struct.unpack("<d", struct.pack("<Q", bits))[0]


LIMIT, ABOVE = of_bits(0x0010000000000000), of_bits(0x0010000000000001)
BELOW, NEXT_BELOW, LEAST = of_bits(0x000FFFFFFFFFFFFF), of_bits(0x000FFFFFFFFFFFFE), of_bits(0x0000000000000001)
HALF = LIMIT / 2
NEAR = (BELOW, LIMIT, ABOVE, NEXT_BELOW, LEAST)
SIGNED = [sign * x for x in NEAR for sign in (1, -1)]
TWO = [[1, 2], [1, 2]]


def asked(rows, values, right, listed=None, cut=None):
    return Asked(rows, [float(x) for x in values], [float(x) for x in right], listed, cut)


def each_way(rows, values, right, lists, cuts=(None,)):
    """One system by the largest entry and by each list, whole and cut."""
    for listed, cut in itertools.product((None, *lists), cuts):
        yield asked(rows, values, right, listed, cut)


# ------------------------------------------------------- one column

def alone():
    """One field. Its right side is the limit, so that no quotient is too large."""
    for x in SIGNED:
        yield from each_way([[1]], [x], [LIMIT], ([1],), (None, 0, 1))


def pairs():
    """Two rows with every pair of magnitudes in column 1. All other numbers are about as small, so that the solution is finite."""
    for upper, lower in itertools.product(NEAR, SIGNED):
        yield from each_way(TWO, [upper, LIMIT, lower, 3 * LIMIT], [LIMIT, 2 * LIMIT], ([1, 2], [2, 2]))


def larger_beside():
    """The listed row is at the limit or fainter, and a much larger one stands beside it."""
    for x in SIGNED:
        yield from each_way(TWO, [x, 1.0, 1.0, 1.0], [1.0, 1.0], ([1, 2], [2, 2]))
        yield from each_way(TWO, [2.0, 1.0, x, 1.0], [1.0, 1.0], ([1, 2], [2, 2]), (None, 1))


def ties():
    """Ties of rows below the limit beside one at it, and ties at the limit: column 1 of an arrow, by the largest entry and with each row listed."""
    rows = shape(4, lambda i, j: i == 1 or j == 1)
    columns = [*itertools.permutations((BELOW, -BELOW, LIMIT, LEAST))][::2]
    columns += [*itertools.permutations((-LIMIT, LIMIT, BELOW, -BELOW))][::3] + [(LIMIT, -LIMIT, LIMIT, ABOVE), (-ABOVE, LIMIT, ABOVE, LIMIT)]
    columns += [(BELOW, BELOW, -BELOW, BELOW), (LEAST, -LEAST, LEAST, LEAST), (0.0, BELOW, -0.0, -BELOW), (0.0, LIMIT, -0.0, -LIMIT)]
    for turn, (a, b, c, d) in enumerate(columns):
        lists = [[1 + (turn + more) % 4, 2, 3, 4] for more in ((0, 1) if turn < 20 else range(4))]
        yield from each_way(rows, [a, 1.0, 2.0, 3.0, b, 1.0, c, 1.0, d, 1.0], [LIMIT, 2 * LIMIT, 0.0, LIMIT], lists)


# ------------------------------------------------------- at each step

def at_each_step():
    """A strip of five whose diagonal is below the limit at step k, and what may stand below it: nothing, as faint a number, one at the limit, one above. By the
    largest entry, by a list that names the faint row and by one that names the row below; whole, and cut before, at and after step k."""
    rows = shape(5, lambda i, j: abs(i - j) == 1)
    for k in range(1, 6):
        below = min(k + 1, 5)
        order = [1, 2, 3, 4, 5]
        for turn, x in enumerate((0.0, -BELOW, LIMIT, -ABOVE) if k < 5 else (0.0,)):
            changed = {(k, k): (BELOW, -BELOW, LEAST, -NEXT_BELOW)[(turn + k) % 4], (k, k - 1): 0.0, **({(below, k): x} if k < 5 else {})}
            values = [changed.get((i, j), 4.0 if i == j else 0.0 if j < i else 1.0) for i, row in enumerate(rows, 1) for j in row]
            lists = (order, order[:k - 1] + [below] + order[k:])
            yield from each_way(rows, values, [LIMIT] * 5, lists, (None, k - 1, k, min(k + 1, 5)))


def cancelled():
    """Differences that are below the limit, at it or above, at the last step and at the one before: w less u is d, exactly."""
    for d in SIGNED:
        u = -LIMIT if d == ABOVE else LIMIT
        w = u + d
        assert w - u == d
        yield from each_way(TWO, [1.0, u, 1.0, w], [u, w], ([1, 2], [2, 2]), (None, 1, 2) if d in (BELOW, LIMIT) else (None,))
        yield from each_way([[1, 2, 3], [1, 2, 3], [2, 3]], [1.0, u, LIMIT, 1.0, w, LIMIT, LEAST, LIMIT], [u, w, LIMIT], ([1, 2, 3], [1, 3, 3]))
    for d, x in itertools.product((BELOW, LIMIT), (0.0, -LIMIT, 1.0)):      # what the third row brings: no pivot, one at the limit, one above
        values, right = [1.0, LIMIT, 1.0, LIMIT + d, 1.0, x, 1.0], [LIMIT, LIMIT + d, 0.0]
        yield from each_way([[1, 2], [1, 2, 3], [2, 3]], values, right, ([1, 2, 3], [1, 3, 3]), (None, 1, 2, 3))


# ------------------------------------------------------- entries that are no pivots

def multipliers():
    """A faint entry below the pivot is divided: its multiplier is zero, below the normal range, or in it."""
    for x in (LEAST, -LEAST, HALF, BELOW, -BELOW):
        for pivot in (LIMIT, 2.0 ** -970, 1.0, -2.0, 2.0 ** 60, 2.0 ** 1000):
            yield asked(TWO, [pivot, 1.0, x, 3.0], [0.0, 3.0], [1, 2])
            if pivot in (LIMIT, -2.0):
                yield asked(TWO, [pivot, 1.0, x, 3.0], [0.0, 3.0])


def in_the_pivot_row():
    """A faint entry in the pivot row is subtracted. What it leaves at the next diagonal is below the limit, at it or above."""
    for x in (LEAST, HALF, -HALF, BELOW, -NEXT_BELOW):
        for m in (1.0, -2.0, 2.0 ** 52, 0.5):
            for w in (0.0, HALF):
                yield asked(TWO, [1.0, x, m, w], [0.0, LIMIT], [1, 2])
    for x in (LEAST, HALF, -BELOW):
        yield from each_way([[1, 2, 3], [1, 2, 3], [1, 2, 3]], [4.0, x, -x, 2.0, 1.0, x, -1.0, x, 1.0], [1.0, 2.0, 3.0], ([1, 2, 3],))


def back_past_faint():
    """Back substitution takes faint entries of U along."""
    rows = [[1, 2, 3], [2, 3], [3]]
    for x in (LEAST, -HALF, BELOW):
        for large in (1.0, -2.0 ** 60, 2.0 ** 1000):
            yield from each_way(rows, [1.0, x, x, LIMIT, -x, 1.0], [1.0, LIMIT, large], ([1, 2, 3],))


# ------------------------------------------------------- beside other refusals

def beside_14():
    """A quotient by the limit is too large from 4 on: below the limit the same is 13. In a step, then in back substitution."""
    for pivot in (LIMIT, -ABOVE, BELOW, -LEAST):
        for x in (4.0, -4.0, 2.0 ** 1000, 3.9999999999999996, 2.0):
            yield asked(TWO, [pivot, 0.0, x, 1.0], [0.0, 1.0], [1, 2])
            yield from each_way([[1]], [pivot], [x], ([1],))
            yield asked([[1], [1, 2], [3]], [1.0, 1.0, pivot, 1.0], [0.0, x, 1.0], [1, 2, 3])


def beside_12():
    """A faint pivot at step 1, and a list or a cut that is 12; a value that is 11."""
    for listed, cut in (([1, 1], None), ([1, 3], None), ([0, 2], None), ([1], None), ([1, 2, 2], None), (None, 3), ([1, 2], 3), ([1, 2], 0)):
        yield asked(TWO, [BELOW, 1.0, -LEAST, 1.0], [1.0, 1.0], listed, cut)
    yield asked(TWO, [BELOW, 1.0, -LEAST, float("inf")], [1.0, 1.0])
    yield asked(TWO, [BELOW, 1.0, -LEAST, 1.0], [1.0, float("nan")], [1, 2])


# ------------------------------------------------------- drawn

def drawn_numbers(rng, count):
    """The limit, its neighbours, quarters of it and some whole numbers."""
    return [rng.choice((1, -1)) * rng.choice((rng.choice(NEAR), LIMIT * rng.randint(1, 8) / 4, LIMIT * rng.randint(1, 8) / 4, float(rng.randint(0, 2))))
            for _ in range(count)]


def drawn(rng, times):
    """Small patterns, by the largest entry and by lists that 12 lets pass, whole and cut."""
    for turn in range(times):
        n = rng.randint(2, 7)
        rows = sparse(rng, n, rng.randint(n, 4 * n))
        listed = [rng.randint(k, n) for k in range(1, n + 1)] if turn % 2 else None
        yield asked(rows, drawn_numbers(rng, sum(map(len, rows))), drawn_numbers(rng, n), listed, rng.choice((None, None, rng.randint(1, n))))


def in_a_long_strip():
    """A strip of 128 with one faint weight on the diagonal, and a row at the limit below it or not."""
    rows = shape(128, lambda i, j: abs(i - j) == 1)
    for k, x in ((1, LIMIT), (64, -LIMIT), (64, BELOW), (127, LIMIT), (128, 0.0)):
        changed = {(k, k): BELOW, (k + 1, k): x, (k, k - 1): 0.0}
        values = [changed.get((i, j), 4.0 if i == j else 1.0) for i, row in enumerate(rows, 1) for j in row]
        yield from each_way(rows, values, [LIMIT] * 128, (list(range(1, 129)),))


def systems(rng):
    """All of them, in a fixed order."""
    groups = (alone(), pairs(), larger_beside(), ties(), at_each_step(), cancelled(), multipliers(), in_the_pivot_row(), back_past_faint(), beside_14(), beside_12(),
              drawn(rng, 120), in_a_long_strip())
    return itertools.chain(*groups)
