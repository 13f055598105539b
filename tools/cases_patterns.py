"""Patterns for the requests of the test programs: shapes that have a name, and patterns drawn by chance. A pattern is the columns of each row."""


def flat(rows):
    starts, columns = [0], []
    for row in rows:
        columns += row
        starts.append(len(columns))
    return starts, columns


def shape(n, has):
    """The rows of the pattern with the places (i, j) for which `has` holds, and the diagonal."""
    return [[j for j in range(1, n + 1) if j == i or has(i, j)] for i in range(1, n + 1)]


FIELDS = [[1, 3], [2, 4], [1, 3], [2, 3, 4]]


def fixed_shapes(n):
    """The shapes that have a name, for one n."""
    half = n // 2
    yield shape(n, lambda i, j: False)                                  # diagonal
    yield shape(n, lambda i, j: True)                                   # dense
    yield shape(n, lambda i, j: i == 1 or j == 1)                       # arrow heads, four ways
    yield shape(n, lambda i, j: i == n or j == n)
    yield shape(n, lambda i, j: i == 1 or j == n)
    yield shape(n, lambda i, j: i == n or j == 1)
    yield shape(n, lambda i, j: j == 1)
    yield shape(n, lambda i, j: i == n)
    yield shape(n, lambda i, j: abs(i - j) == 1)                        # strips
    yield shape(n, lambda i, j: -2 <= i - j <= 1)
    yield shape(n, lambda i, j: j - i in (-3, 2))
    yield shape(n, lambda i, j: j < i)                                  # triangles
    yield shape(n, lambda i, j: j > i)
    yield shape(n, lambda i, j: j <= i + 1)
    yield shape(n, lambda i, j: j >= i - 1)
    yield shape(n, lambda i, j: j == i + 1)                             # chains
    yield shape(n, lambda i, j: j == i - 1)
    yield shape(n, lambda i, j: j == i % n + 1)
    yield shape(n, lambda i, j: i == j % n + 1)
    yield shape(n, lambda i, j: (i == n and j == 1) or j == i + 1)
    yield shape(n, lambda i, j: i + j == n + 1)                         # crossing diagonals
    yield shape(n, lambda i, j: (i - 1) // 3 == (j - 1) // 3)           # blocks
    yield shape(n, lambda i, j: (i <= half) != (j <= half))
    yield shape(n, lambda i, j: (i - 1) // 3 == (j - 1) // 3 or j > n - 2)
    yield shape(n, lambda i, j: abs((i - 1) // 3 - (j - 1) // 3) <= 1)
    yield shape(n, lambda i, j: j == (i + half - 1) % n + 1 or j == 1)


def grid(side):
    """The five-point pattern of a square of side by side fields."""
    def has(i, j):
        a, b = divmod(i - 1, side)
        c, d = divmod(j - 1, side)
        return abs(a - c) + abs(b - d) == 1
    return shape(side * side, has)


def sparse(rng, n, more, reach=None):
    """The diagonal and `more` random places, within `reach` of it if that is given."""
    rows = [{i} for i in range(1, n + 1)]
    for _ in range(more):
        i = rng.randint(1, n)
        low, high = (1, n) if reach is None else (max(1, i - reach), min(n, i + reach))
        rows[i - 1].add(rng.randint(low, high))
    return [sorted(row) for row in rows]


def chained(rng, n):
    """Rows that are met early, so that many steps stand alone in their set S."""
    rows = []
    for i in range(1, n + 1):
        row = {i, max(1, i - rng.randint(1, 3))}
        if rng.random() < 0.5:
            row.add(rng.randint(i, n))
        rows.append(sorted(row))
    return rows


def near_strip(rng):
    """A random strip around the diagonal with up to four places changed: how many rows, and each row as bits."""
    n = rng.randint(4, 30)
    bits = []
    for i in range(1, n + 1):
        low, high = max(1, i - rng.randint(0, 3)), min(n, i + rng.randint(0, 4))
        bits.append((2 << high) - (1 << low))
    for _ in range(rng.randint(0, 4)):
        i = rng.randint(1, n)
        j = rng.randint(1, n)
        if i != j:
            bits[i - 1] ^= 1 << j
    return n, bits


def lying(rng, n, step, i, have, kind):
    """Row i, first met at the step, so that it lies to the list `have` as `kind` says; none if its diagonal stands against that."""
    inside = i == step or i in have
    some = [x for x in have if rng.random() < 0.4]
    first, last = have[0], have[-1]
    if kind == "behind":
        if last == n or not (inside or i > last):
            return None
        return sorted({step, i, rng.randint(last + 1, n), *some})
    if not inside:
        return None
    if kind == "inside":
        return sorted({step, i, *some})
    if kind == "equal":
        return [step] + have
    if kind == "beginning":
        least = have.index(i) + 1 if i in have else 0
        return [step] + have[:rng.randrange(least, len(have))] if least < len(have) else None
    gaps = [x for x in (range(step + 1, first) if kind == "before" else range(first, last)) if x not in have]
    return sorted({step, i, rng.choice(gaps), *some}) if gaps else None


def together(rng, n, step, kinds, handed):
    """Many rows first met at one step, that of the step first. Each next one lies to the list so far as the next of `kinds` says; the others
    are first met at their own step. If `handed`, earlier steps hand lists on to this one."""
    rows = [[i] if rng.random() < 0.6 else sorted({i, rng.randint(i, n)}) for i in range(1, n + 1)]
    open_rows = n
    for l in range(1, step if handed else 1):
        rows[l - 1] = sorted({l, step, rng.randint(step, n)})
        rows[open_rows - 1] = sorted({l, step, open_rows})
        open_rows -= 1
    have = [x for x in range(step + 1, n + 1) if min(step + 3, n - 1) <= x <= n - n // 4 and rng.random() < 0.6] or [n]
    rows[step - 1] = [step] + have
    turn = 0
    for i in range(step + 1, open_rows + 1):
        row = lying(rng, n, step, i, have, kinds[turn % len(kinds)])
        if row is not None:
            rows[i - 1] = row
            have = sorted({*have, *row} - {step})
            turn += 1
    return rows


def strip_with_steps_between(rng):
    """A strip of random rows, some of which begin late: steps without a row of their own follow others, and rows lie anywhere to the lists."""
    n = rng.randint(5, 16)
    rows = []
    for i in range(1, n + 1):
        row = {i, max(1, i - rng.choice((0, 1, 2, 3, 4, 5)))}
        row |= {j for j in range(min(row), min(n, i + 5) + 1) if rng.random() < 0.35}
        rows.append(sorted(row))
    return rows


def shared_with_earlier(rng):
    """Step k-1 follows step 1 without a row of its own, and steps between the two add to a store or to both; one row is first met at k."""
    k = rng.randint(4, 7)
    n = k + rng.randint(2, 8)
    rows = [{i} for i in range(1, n + 1)]
    later = range(k, n + 1)
    rows[0] |= {k - 1, k, *rng.sample(later, rng.randint(1, 2))}
    rows[k - 2] |= {1}
    free = list(later)
    rng.shuffle(free)
    for _ in range(rng.randint(1, 3)):
        if len(free) > 2:
            rows[free.pop() - 1] |= {1, k}
    row = free.pop()
    rows[row - 1] |= {k, *rng.sample(later, rng.randint(0, 2))}
    for j in range(2, k - 1):
        if rng.random() < 0.6:
            rows[j - 1].add(rng.randint(k + 1, n))
        if free and rng.random() < 0.5:
            rows[free.pop() - 1] |= {j, rng.randint(k + 1, n)}
    for i in later:                                     # no other row is first met at k-1 or k
        if min(rows[i - 1]) >= k - 1 and i != row:
            rows[i - 1] = {x for x in rows[i - 1] if x > k} | {i}
    return [sorted(x) for x in rows]


def joining(rng):
    """Some rows are first met at step k-1, and one at k that may lie anywhere to them; no other row has a column up to k."""
    k = rng.randint(2, 4)
    n = k + rng.randint(1, 8)
    later = range(k + 1, n + 1)
    rows = [{i} for i in range(1, n + 1)]
    wide = set(rng.sample(later, rng.randint(0, len(later))))
    rows[k - 2] |= {k} | wide
    single = k if rng.random() < 0.4 else rng.choice(later)
    for i in range(k, n + 1):
        if i == single:
            rows[i - 1] |= {k} | {x for x in later if rng.random() < 0.3}
        elif i == k or rng.random() < 0.5:
            rows[i - 1] |= {k - 1} | {x for x in wide if rng.random() < 0.3}
    return [sorted(row) for row in rows]
