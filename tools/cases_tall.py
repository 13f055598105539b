"""Patterns and systems with more rows than columns, for the requests of the test programs. Document 02, ticket 9: "Rows above n need no diagonal and may be empty;
document 01's steps stop at n, and step k joins no S if U_k has no further member. (..) Row starts, right side, solution store, work stores and pivot choice go by the
row count (..), and a tall pattern is run only when cut."
"""
import collections
import itertools

from cases_limit import ABOVE, BELOW, LEAST, LIMIT
from cases_patterns import FIELDS, chained, fixed_shapes, joining, shape, shared_with_earlier, sparse, strip_with_steps_between

# n columns, and the columns of each row
Tall = collections.namedtuple("Tall", "n rows")
# a pattern, values row by row, right side, row list or None, and after how many steps the run is cut
Asked = collections.namedtuple("Asked", "n rows values right listed cut")


# ------------------------------------------------------- patterns

def over(square, above):
    """A square, and more rows above n."""
    return Tall(len(square), square + above)


def seen_again(square, count):
    """The first rows of a square once more, from the top again where there are not enough of them."""
    return over(square, [list(square[at % len(square)]) for at in range(count)])


def from_column(rng, n, least):
    """A row whose least column is given."""
    return [least] + [j for j in range(least + 1, n + 1) if rng.random() < 0.3]


def row_above(rng, square):
    """Nothing, one column, a row of the square again, or a row with its least column anywhere."""
    n = len(square)
    kind, least = rng.randrange(5), rng.randint(1, n)
    return [] if kind == 0 else [least] if kind == 1 else list(rng.choice(square)) if kind == 2 else from_column(rng, n, least)


def with_rows_above(rng, square, count):
    return over(square, [row_above(rng, square) for _ in range(count)])


def drawn_square(rng):
    """A small square of one of five kinds."""
    kind, n = rng.randrange(5), rng.randint(2, 9)
    if kind == 0:
        return sparse(rng, n, rng.randint(0, 2 * n))
    return chained(rng, n) if kind == 1 else (strip_with_steps_between, shared_with_earlier, joining)[kind - 2](rng)


def narrowed(square, n):
    """The first n columns of a square: its further rows are rows above n."""
    return Tall(n, [[j for j in row if j <= n] for row in square])


def drawn(rng):
    """A small square with some rows above n, or a part of the columns of one."""
    square = drawn_square(rng)
    if rng.random() < 0.5:
        return narrowed(square, rng.randint(1, len(square) - 1))
    return with_rows_above(rng, square, rng.randint(1, 6))


def joining_above(rng):
    """Rows are first met at step k-1, that of k among them, and one above n at k, which may lie anywhere to them."""
    k = rng.randint(2, 4)
    n = k + rng.randint(2, 6)
    later = range(k + 1, n + 1)
    wide = rng.sample(later, rng.randint(1, len(later)))
    square = [{i} for i in range(1, n + 1)]
    square[k - 2] |= {k, *wide}
    square[k - 1] |= {k - 1}
    above = [{k - 1, *(j for j in wide if rng.random() < 0.3)} if rng.random() < 0.7 else set() for _ in range(rng.randint(1, 5))]
    above[rng.randrange(len(above))] = {k, *(j for j in later if rng.random() < 0.4)}
    return over([sorted(row) for row in square], [sorted(row) for row in above])


def with_rows_joining(rng):
    """One pattern of each kind in which a row above n may join the list of the step before, anywhere and on either side."""
    for make in (strip_with_steps_between, shared_with_earlier):
        square = make(rng)
        yield narrowed(square, rng.randint(len(square) // 2, len(square) - 1))
    yield joining_above(rng)


def columns_alone(n):
    """A strip and a diagonal, and above n a row for each column alone, and one for each of two neighbours."""
    for square in (shape(n, lambda i, j: abs(i - j) == 1), shape(n, lambda i, j: False)):
        for j in range(1, n + 1):
            yield over(square, [[j]])
            yield over(square, [[], [j], [], [j]])
        for j in range(1, n):
            yield over(square, [[j, j + 1]])
        yield over(square, [[j] for j in range(n, 0, -1)])


def named(rng):
    """Shapes that have a name: one row above n, each row again, and rows of every kind."""
    for count in (1, 2, 3, 4, 8):
        yield seen_again(FIELDS, count)
    for above in ([[1]], [[]], [[1], [1], [], [1]]):
        yield over([[1]], above)
    for n in (2, 5):
        for square in fixed_shapes(n):
            yield seen_again(square, 1)
            yield seen_again(square, n)
    for square in fixed_shapes(8):
        yield with_rows_above(rng, square, rng.randint(1, 8))


def blocks(rng, count, size):
    """Blocks on the diagonal with two rows for each column, the second ones above n; some of these are empty. No step of a block is handed on to the next."""
    square, above = [], []
    for first in range(1, count * size + 1, size):
        inside = range(first, first + size)
        square += [sorted({i, *(j for j in inside if rng.random() < 0.3)}) for i in inside]
        above += [[j for j in inside if rng.random() < 0.3] for _ in inside]
    return over(square, above)


def most_rows(rng):
    """2,048 rows: of one column and of few, with every row full (16,384 entries), with all rows above n empty, and of 1,024 columns."""
    yield over([[1]], [[1]] * 2047)
    yield over([[1]], [[]] * 2046 + [[1]])
    yield over(FIELDS, [[]] * 2044)
    yield over(FIELDS, [[1 + at % 4] for at in range(2044)])
    yield over(shape(8, lambda i, j: True), [[*range(1, 9)]] * 2040)
    yield with_rows_above(rng, sparse(rng, 6, 8), 2042)
    yield blocks(rng, 128, 8)


# ------------------------------------------------------- values

def placed(pattern, value):
    """Values row by row, by their places."""
    return [float(value(i, j)) for i, row in enumerate(pattern.rows, 1) for j in row]


def identity(pattern):
    return [*range(1, pattern.n + 1)]


def any_rows(rng, pattern):
    """A row list that 12 lets pass."""
    return [rng.randint(k, len(pattern.rows)) for k in range(1, pattern.n + 1)]


def each_way(pattern, values, right, lists, cuts=None):
    """One system by the largest entry and by each list, cut after each number of steps, or after those given."""
    for listed, cut in itertools.product((None, *lists), range(pattern.n + 1) if cuts is None else cuts):
        yield Asked(*pattern, values, [float(x) for x in right], listed, cut)


# ------------------------------------------------------- rows above n as pivot rows

def fields_again():
    """The four fields, each seen twice, the second time with other weights. Lists name each row above n once, one of them at every step, and each of them at the last."""
    pattern = seen_again(FIELDS, 4)
    values = [2, 1, 1, 1, 4, 4, 2, 1, 4, 3, -1, -2, 5, 1, 2, -1, -0.0, 8]
    right = [3, 2, 8, 7, -1, 4, 0.5, -3]
    lists = [[1, 2, 3, 4], [5, 6, 7, 8], [8, 8, 8, 8], [7, 8, 7, 8], [5, 5, 5, 5], [1, 6, 3, 8]]
    yield from each_way(pattern, values, right, lists)
    yield from each_way(pattern, values, right, [[1, 2, 3, p] for p in (5, 6, 7, 8)], (3, 4))


def above_is_largest(rng):
    """The largest entry of each column stands above n; then all entries are as large, so that the first of them is chosen."""
    for n, count in itertools.product((1, 2, 3, 5), (1, 2, 4)):
        pattern = over(shape(n, lambda i, j: rng.random() < 0.5), [[*range(1, n + 1)]] * count)
        height = len(pattern.rows)
        right = [rng.uniform(-4, 4) for _ in range(height)]
        lists = (any_rows(rng, pattern), [height] * n)
        yield from each_way(pattern, placed(pattern, lambda i, j: rng.uniform(1, 2) * (16.0 ** j if i > n else 1)), right, lists)
        yield from each_way(pattern, placed(pattern, lambda i, j: rng.choice((1, -1))), right, (), (1, n))


def last_row_exchanged(rng):
    """The last step alone reaches above n, by its entries and by a list: row n is exchanged with each row there."""
    for n in (1, 3, 4):
        pattern = over(shape(n, lambda i, j: j >= i), [[n]] * 3)
        for p in range(n + 1, n + 4):
            values = placed(pattern, lambda i, j: 8 if i == p else rng.uniform(1, 4))
            yield from each_way(pattern, values, [rng.uniform(-4, 4) for _ in pattern.rows], (identity(pattern), identity(pattern)[:-1] + [p]), (n - 1, n))


# ------------------------------------------------------- 13 and 14

FULL_ABOVE = over(shape(3, lambda i, j: j >= i), [[1, 2, 3]] * 3)


def faint_columns():
    """At step k every row from k to the last is zero or fainter than a pivot may be, or one of those above n is just enough: by the largest entry, and with each of
    them listed at that step."""
    n, height = 3, 6
    columns = ((0.0, 0.0, -0.0, 0.0), (-0.0, BELOW, -0.0, -LEAST), (-BELOW, -BELOW, LIMIT, BELOW), (LEAST, 0.0, -BELOW, -ABOVE), (0.0, LIMIT, -LIMIT, LIMIT))
    for k, (diagonal, *above) in itertools.product(range(1, n + 1), columns):
        changed = {(k, k): diagonal, **{(n + 1 + at, k): x for at, x in enumerate(above)}}
        values = placed(FULL_ABOVE, lambda i, j: changed.get((i, j), 1.0 if i == j else 0.0))
        lists = [[*range(1, k), p, *range(k + 1, n + 1)] for p in (k, *range(n + 1, height + 1))]
        yield from each_way(FULL_ABOVE, values, [LIMIT] * height, lists, (k - 1, k))


def not_finite_above():
    """In step k a quotient, a product, a difference or a right side of one row above n is too large; the run cut before it finishes."""
    # the pivot, the entry below it, and what stands beside the two
    numbers = {"quotient": (1e-200, 1e200, 0, 0), "product": (1, 1e200, 1e200, 0), "difference": (1, -1, 1.7e308, 1.7e308), "right side": (1, 1, 0, 0)}
    for k, row, (kind, (pivot, entry, beside, beyond)) in itertools.product((1, 2, 3), (4, 5, 6), numbers.items()):
        if k == 3 and kind in ("product", "difference"):        # nothing stands beside the last column
            continue
        changed = {(k, k): pivot, (row, k): entry, (k, k + 1): beside, (row, k + 1): beyond}
        values = placed(FULL_ABOVE, lambda i, j: changed.get((i, j), 1.0 if i == j else 0.0))
        right = [1.0] * 6
        if kind == "right side":
            right[k - 1], right[row - 1] = 1.7e308, -1.7e308
        yield from each_way(FULL_ABOVE, values, right, ([1, 2, 3],), (k - 1, k))


def systems(rng):
    """All of them, in a fixed order."""
    return itertools.chain(fields_again(), above_is_largest(rng), last_row_exchanged(rng), faint_columns(), not_finite_above())
