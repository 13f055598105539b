#!/usr/bin/env python3
"""Writes the jobs and the expected answers of the program crates/cases_job.

  tools/cases_job.py DENSE_FOLDER

DENSE_FOLDER holds the dense program of different authorship that document 01 asks
for (dense_program.py). Every expected byte comes from it. The files stdin and stdout
of the crate are written anew; the seed is fixed, so that they come out the same each
time.

stdin holds for each job its length, two bytes, low byte first, and its bytes.
stdout holds for each job a line with its number, then the answer.
"""
import random
import struct
import sys

import cases_limit
from cases_files import path_of, write_files
from cases_patterns import FIELDS, chained, fixed_shapes, grid, shape, sparse
from cases_steps import sharing_otherwise
from dense_program import Dense
from job_bytes import Fields, Row, bits_of, write

REACHABLE = [1, 3, 4, 5, 7, 8] + list(range(10, 19))
ROOM, MOST_BYTES = 2048, 16384

FOUR_VALUES = [[2.0, 1.0], [1.0, 1.0], [4.0, 4.0], [2.0, 1.0, 4.0]]
FOUR_RIGHT = [3.0, 2.0, 8.0, 7.0]
INF, NAN = float("inf"), float("nan")


# ------------------------------------------------------------------ jobs

def job(rows, values, right, pivots=()):
    """A job's bytes: columns and values row by row."""
    return write(Fields(len(rows), [Row([(c, bits_of(v)) for c, v in zip(row, line)], bits_of(b))
                                    for row, line, b in zip(rows, values, right)], list(pivots)))


def four(pivots=(), values=FOUR_VALUES, right=FOUR_RIGHT, rows=FIELDS):
    return job(rows, values, right, pivots)


def put(values, i, j, x):
    """Values with another number as the j-th of row i."""
    changed = [list(line) for line in values]
    changed[i][j] = x
    return changed


def filled(rows, draw):
    return [[draw() for _ in row] for row in rows]


class Cases:
    """The jobs and their answers so far, and what they cover."""

    def __init__(self, dense, **before):
        self.dense, self.before, self.jobs, self.answers = dense, before, [], []
        self.numbers, self.steps = {}, {}
        self.changed = {name: {} for name in before}    # jobs answered otherwise without a ticket: how often, by that answer's number and by ours

    def add(self, bytes_):
        answer = self.dense.report(bytes_)
        self.jobs.append(bytes_)
        self.answers.append(answer)
        number = number_of(answer)
        self.numbers[number] = self.numbers.get(number, 0) + 1
        if number:
            self.steps.setdefault(number, set()).add(int(answer.split()[2]))
        for name, dense in self.before.items():
            other = dense.report(bytes_)
            if answer != other:
                numbers = number_of(other), number
                self.changed[name][numbers] = self.changed[name].get(numbers, 0) + 1
        return answer

    def expect(self, bytes_, answer):
        """A job whose answer was foreseen: the generator is at fault if the dense program says otherwise."""
        found = self.add(bytes_)
        assert found.startswith(answer), (found, answer)


def number_of(answer):
    """The number of a refusal, 0 for a run that finished."""
    words = answer.split()
    return int(words[1]) if words[0] == "refused" else 0


# ------------------------------------------------------- groups of jobs

def four_fields(cases):
    whole, listed = four(), four([1, 2, 4, 4])
    cases.expect(whole, "plan 4 9 2 2 3 4 31\nrows 3 4 3 4\n")
    for text in (whole, listed):
        for size in range(0 if text is whole else 150, len(text)):
            cases.expect(text[:size], "refused 16 0\n")
    for at in range(len(listed)):
        for change in (0x01, 0x80, 0xFF) if at < 150 else (0x01, 0x02, 0x04, 0x80, 0xFF):
            text = whole if at < 150 else listed
            cases.add(text[:at] + bytes([text[at] ^ change]) + text[at + 1:])
    for at in range(0, 151, 3):                             # a byte too many, a byte too few
        cases.add(whole[:at] + whole[at + 1:])
        cases.add(whole[:at] + whole[at:at + 1] + whole[at:])


def commands(cases):
    """Every command byte at every place of the grammar, then rows out of order, counts of P, bytes after Z."""
    whole = four()
    places = [(whole, at) for at in (0, 3, 6, 17, 28, 37, 150)]             # before N, R, E, E, B, R, Z
    places += [(four([1, 2, 4, 4]), at) for at in (150, 153, 159, 162)]     # before the first, second and last P, and Z
    for text, at in places:
        for byte in b"NREBPZ" + bytes([0, 0x4D, 0x6E, 0x5B, 0xFF]):
            cases.add(text[:at] + bytes([byte]) + text[at + 1:])
            cases.add(text[:at] + bytes([byte]) + text[at:])
    for row in (0, 1, 3, 4, 0x0102, 0x0200, 65535):
        cases.expect(whole[:37] + b"R" + struct.pack("<H", row) + whole[40:], "refused 15 0\n")
    for count in range(7):                                  # none or n of them
        answer = {0: "plan", 4: "plan"}.get(count, "refused 15 0\n")
        cases.expect(whole[:-1] + b"".join(b"P" + struct.pack("<H", p) for p in [1, 2, 3, 4, 4, 4][:count]) + b"Z", answer)
    for tail in (b"Z", b"\0", b"N", b"P\1\0", whole):
        cases.expect(whole + tail, "refused 17 0\n")
        cases.expect(four([3, 4, 3, 4]) + tail, "refused 17 0\n")
    for n in (0, 1, 2, 3, 5, 127, 128, 129, 256, 0x0400, 1024, 1025, 65535):
        cases.add(b"N" + struct.pack("<H", n) + whole[3:])
    cases.expect(b"N\0\0", "refused 1 0\n")                   # before 16
    cases.expect(b"N\x81\0X", "refused 1 0\n")                # before 15
    cases.expect(whole[:-1] + b"P\7\0X", "refused 15 0\n")    # 15 before 17 and 12


def small(cases):
    for x, answer in ((0.0, "refused 13 1\n"), (-0.0, "refused 13 1\n"), (5e-324, "refused 13 1\n"), (-3.0, "plan"),
                      (INF, "refused 11 0\n"), (NAN, "refused 11 0\n")):
        for pivots in ([], [1]):
            cases.expect(job([[1]], [[x]], [3.0], pivots), answer)
    cases.expect(job([[1]], [[1e-300]], [1e300]), "refused 14 1\n")
    cases.expect(job([[1]], [[1.0]], [-0.0]), "plan")
    for pivots in ([0], [2], [65535]):
        cases.expect(job([[1]], [[1.0]], [1.0], pivots), "refused 12 0\n")
    two = [[1, 2], [1, 2]]
    for values in ([[2.0, 1.0], [-2.0, 3.0]], [[-2.0, 1.0], [2.0, 3.0]], [[1.0, 1.0], [1.0, 1.0]], [[0.0, 1.0], [-0.0, 1.0]],
                   [[1.0, -0.0], [1.0, -0.0]], [[1e-320, 1.0], [1e300, 1e300]], [[1e200, 1e200], [1e-200, 1.0]],
                   [[1.0, 1e300], [1e10, 1.0]], [[0.1, 0.2], [0.3, 0.6]], [[-0.0, 2.0], [3.0, -0.0]]):
        for pivots in ([], [1, 2], [2, 2]):
            cases.add(job(two, values, [0.1, -0.7], pivots))


def patterns(cases):
    """3, 4 and 5, alone and against each other, and before 11 and 12."""
    for rows in ([[1, 3], [1, 4], [5], [4]], [[1, 3], [1, 4], [3, 3], [4]], [[1, 3], [2, 5], [4], [4]],
                 [[1, 3], [2, 5], [3, 2], [4]], [[1, 3], [2, 1], [5], [4]], [[1, 3], [2, 1], [4], [4]],
                 [[1, 3], [2, 2], [3], [4]], [[1, 3], [2, 0], [3], [4]], [[1, 3], [2, 1, 0], [3], [4]],
                 [[1, 3], [2, 5, 3], [3], [4]], [[1, 3], [1, 5], [3], [4]], [[1, 3], [3, 1], [3], [4]],
                 [[3, 1], [2], [3], [4]], [[2], [2], [3], [4]], [[1, 3], [2], [3], [1, 2, 3]], [[1, 3], [2], [3], [3, 5]],
                 [[], [2], [3], [4]], [[1], [2], [3], []], [[1, 2, 3, 4], [], [], []], [[], [], [], []],
                 [[1, 3], [2, 65535], [3], [4]], [[1, 3], [2, 0x0102], [3], [4]]):
        values = filled(rows, lambda: 1.5)
        cases.add(job(rows, values, FOUR_RIGHT))
        cases.add(job(rows, filled(rows, lambda: NAN), [INF] * 4, [4, 4, 4, 0]))


def values_and_lists(cases):
    for x in (INF, -INF, NAN):
        for i, line in enumerate(FIELDS):
            for j in range(len(line)):
                cases.expect(four(values=put(FOUR_VALUES, i, j, x)), "refused 11 0\n")
            cases.expect(four(right=FOUR_RIGHT[:i] + [x] + FOUR_RIGHT[i + 1:], pivots=[0, 9, 9, 9]), "refused 11 0\n")
    for bits in (0x7FF0000000000001, 0xFFF8000000000000, 0x7FFFFFFFFFFFFFFF):
        cases.expect(four()[:9] + struct.pack("<Q", bits) + four()[17:], "refused 11 0\n")
    for a in range(1, 5):                                   # every list that 12 lets pass
        for b in range(2, 5):
            for c in range(3, 5):
                cases.add(four([a, b, c, 4]))
    cases.expect(four([1, 2, 3, 4]), "plan 4 9 2 2 3 4 31\nrows 1 2 3 4\n")
    cases.expect(four([2, 2, 3, 4]), "refused 13 1\n")
    for k, p in ((1, 0), (1, 5), (1, 65535), (1, 0x0100), (2, 0), (2, 1), (2, 5), (3, 2), (3, 5), (4, 3), (4, 5), (4, 0)):
        pivots = [3, 4, 3, 4]
        pivots[k - 1] = p
        cases.expect(four(pivots), "refused 12 0\n")
    cases.expect(four([2, 1, 3, 4]), "refused 12 0\n")        # before 13
    for zeros in ([(0, 0), (2, 0)], [(1, 0), (3, 0)], [(2, 1), (0, 1), (3, 1)]):
        values = FOUR_VALUES
        for i, j in zeros:
            values = put(values, i, j, -0.0)
        cases.add(four(values=values))
        cases.add(four(values=values, pivots=[1, 2, 3, 4]))


def drawn(cases, rng):
    """Random patterns and values, by the largest entry and by lists."""
    plain = lambda: rng.choice((-1.0, 1.0)) * rng.randint(1, 9)
    hard = lambda: rng.choice((0.0, -0.0, 1.0, -1.0, 5e-324, -5e-324, 1e-300, 1e300, -1e300, 1.7976931348623157e308,
                               0.1, -0.3, 1e16, 3.0, rng.uniform(-2, 2)))
    smooth = lambda: rng.uniform(-1, 1)
    for round_ in range(150):
        n = 1 + round_ % 12
        rows = sparse(rng, n, round(n * rng.choice((0.5, 1, 2, 3)))) if round_ % 3 else chained(rng, n + 1)
        draw = (plain, hard, smooth)[round_ // 2 % 3]
        pivots = [] if round_ % 2 else [rng.randint(k, len(rows)) for k in range(1, len(rows) + 1)]
        cases.add(job(rows, filled(rows, draw), [draw() for _ in rows], pivots))
    for n in (3, 6):
        for number, rows in enumerate(fixed_shapes(n)):
            draw = (plain, hard, smooth)[number % 3]
            cases.add(job(rows, filled(rows, draw), [draw() for _ in rows], list(range(1, n + 1)) if number % 4 == 3 else []))
    cases.add(job(grid(7), filled(grid(7), smooth), [smooth() for _ in range(49)]))


def not_finite(cases):
    """14 in a step, at the right side alone, in back substitution, and after 13 was not met."""
    big = 1.7976931348623157e308
    chain = shape(5, lambda i, j: abs(i - j) == 1)
    for k in range(1, 5):
        values = [[4.0 if i == j else 1.0 for j in row] for i, row in enumerate(chain, 1)]
        values[k][chain[k].index(k)] = big
        values[k - 1][chain[k - 1].index(k)] = 1e-10
        cases.add(job(chain, values, [1.0] * 5, [1, 2, 3, 4, 5]))
        cases.add(job(chain, values, [1.0] * 5))
    for row in range(5):
        right = [1.0] * 5
        right[row] = big
        values = [[1e-3 if i == j else (1.0 if j > i else 0.0) for j in line] for i, line in enumerate(chain, 1)]
        cases.add(job(chain, values, right))
    cases.add(job([[1, 2], [1, 2]], [[1e300, 1.0], [1e300, 1.0]], [1.0, 2.0]))           # 13 at the last step
    cases.add(job([[1, 2], [1, 2]], [[1.0, 1.0], [1.0, 3.0]], [-big, big]))              # 14 by the right side alone


# ------------------------------------------------- the limits of the program

def growing(n, lower, rng=None):
    """Lists of L (lower) or of U alone that no step shares: each of the first steps meets a member more, and not at the list's end."""
    members = list(range(n, n // 2, -1))
    if rng:
        rng.shuffle(members)
    rows = [{i, min(n, i + 1)} for i in range(1, n + 1)]      # each step hands on to the next
    for k, member in enumerate(members, 1):
        if lower:
            rows[member - 1] = {k, member}                  # step k meets this row
        else:
            rows[k - 1].add(member)                         # step k meets this column
    if lower:
        rows[0] = set(range(1, n + 1))                      # U is full from the first step on, and shared
    else:
        rows[n - 1].add(1)                                  # L has the last row from the first step on, and is shared
    return [sorted(row) for row in rows]


def blocks(sizes):
    """Full blocks one after another."""
    rows, first = [], 1
    for size in sizes:
        rows += [list(range(first, first + size)) for _ in range(size)]
        first += size
    return rows


def arrow(size, more):
    """An arrow of `size` fields, whose lists all fill, then full blocks."""
    rows = shape(size, lambda i, j: i == 1 or j == 1)
    return rows + [[size + c for c in row] for row in blocks(more)]


def anew(steps, full, wide):
    """Fields that are tied to the next but one, with a field that stands alone after each: its lists are empty, so that document 01 alone lays the next
    ones anew. `full` rows with column 1 make the lists of L and U long, `wide` further columns of row 1 those of U."""
    rows = [{i} for i in range(1, 2 * steps + full + wide)]
    for k in range(1, 2 * steps - 2, 2):
        rows[k - 1].add(k + 2)
    for i in range(2 * steps, 2 * steps + full):
        rows[i - 1].add(1)
    rows[0] |= set(range(2 * steps + full, 2 * steps + full + wide))
    return [sorted(row) for row in rows]


def sized(cases, rows, rng, answer):
    """A job of this pattern with dominant diagonals."""
    values = [[9.0 * len(rows) if c == i else rng.uniform(-1, 1) for c in row] for i, row in enumerate(rows, 1)]
    text = job(rows, values, [rng.uniform(-1, 1) for _ in rows])
    assert len(text) <= MOST_BYTES, len(text)
    cases.expect(text, answer)


def limits(cases, rng):
    def used(rows):
        plan = cases.dense.plan(rows)
        return len(plan.l_side.store), len(plan.u_side.store), plan.l_side.slots(), plan.u_side.slots()

    def with_subscripts(lower, side, wanted):
        """A drawn pattern with so many subscripts on that side."""
        while True:
            rows = growing(rng.randint(124, 128), lower, rng)
            if used(rows)[side] == wanted:
                return rows

    for lower, side, number in ((True, 0, 7), (False, 1, 8)):
        sized(cases, growing(128, lower), rng, f"refused {number} ")
        for wanted in (ROOM + 1, ROOM + 7):
            sized(cases, with_subscripts(lower, side, wanted), rng, f"refused {number} ")
        sized(cases, with_subscripts(lower, side, ROOM), rng, "refused 10 0\n")    # the slots are more
    # slots: 2,048 on both sides, then one more
    exact = arrow(64, [8, 3, 2])
    assert used(exact)[2:] == (ROOM, ROOM), used(exact)
    sized(cases, exact, rng, "plan")
    sized(cases, exact + [[78, 79], [78, 79]], rng, "refused 10 0\n")
    sized(cases, exact + [[78, 79], [79]], rng, "refused 10 0\n")
    sized(cases, arrow(128, []), rng, "refused 10 0\n")
    # by document 01 alone 7 and 8; the subscripts now fit, the slots do not: they are no fewer than its subscripts
    sized(cases, anew(32, 65, 0), rng, "refused 10 0\n")
    sized(cases, anew(28, 60, 13), rng, "refused 10 0\n")


def ends_shared(cases, rng):
    """Lists that share with the end of the whole store, so that the plan has fewer subscripts than by document 01 alone."""
    for turn, (rows, _) in enumerate(sharing_otherwise(cases.dense, rng, 2, 36)):
        values = [[9.0 * len(rows) if c == i else rng.uniform(-1, 1) for c in row] for i, row in enumerate(rows, 1)]
        cases.expect(job(rows, values, [rng.uniform(-1, 1) for _ in rows], range(1, len(rows) + 1) if turn % 3 == 0 else ()), "plan")
    for steps, full, wide in ((2, 1, 0), (3, 4, 2), (10, 12, 5), (20, 20, 9)):
        sized(cases, anew(steps, full, wide), rng, "plan")
    for more in (60, 120):
        sized(cases, sparse(rng, 128, more), rng, "plan")


def around_limit(cases, rng):
    """Every fifth whole run of the systems around the least magnitude of a pivot: five is prime to how many ways each system is run."""
    whole = [asked for asked in cases_limit.systems(rng) if asked.cut is None and len(asked.listed or asked.rows) == len(asked.rows)]
    for rows, values, right, listed, _ in whole[::5]:
        numbers = iter(values)
        cases.add(job(rows, filled(rows, lambda: next(numbers)), right, listed or ()))


def large(cases, rng):
    strip = shape(128, lambda i, j: abs(i - j) == 1)
    sized(cases, strip, rng, "plan 128 ")
    sized(cases, shape(128, lambda i, j: False), rng, "plan 128 ")
    sized(cases, shape(128, lambda i, j: j == 128), rng, "plan 128 ")
    sized(cases, shape(128, lambda i, j: i == 128 or j == 128), rng, "refused 10 0\n")
    sized(cases, sparse(rng, 128, 150, 6), rng, "plan 128 ")
    smooth = lambda: rng.uniform(-1, 1)
    cases.add(job(strip, filled(strip, smooth), [smooth() for _ in strip]))
    cases.add(job(strip, filled(strip, smooth), [smooth() for _ in strip], range(1, 129)))
    cases.add(job(strip, filled(strip, smooth), [smooth() for _ in strip], [min(128, k + 1) for k in range(1, 129)]))
    cases.add(job(strip, filled(strip, smooth), [smooth() for _ in strip], list(range(1, 128)) + [129]))


def longest(cases, rng):
    """Jobs of 16,384 bytes to the byte: 12 n + 11 entries + 4, and with a list 15 n + 11 entries + 4."""
    for n, entries, listed in ((122, 1356, False), (124, 1320, True)):
        rows = [set(range(max(1, i - 4), min(n, i + 6) + 1)) for i in range(1, n + 1)]
        for row in rows:                                    # a strip, made wider row by row
            if sum(map(len, rows)) < entries:
                row.add(min(n, max(row) + 1))
        for row in rows:                                    # or narrower
            if sum(map(len, rows)) > entries:
                row.discard(max(row))
        rows = [sorted(row) for row in rows]
        values = [[9.0 if c == i else rng.uniform(-1, 1) for c in row] for i, row in enumerate(rows, 1)]
        text = job(rows, values, [rng.uniform(-1, 1) for _ in rows], range(1, n + 1) if listed else ())
        assert len(text) == MOST_BYTES
        cases.expect(text, f"plan {n} {entries} ")
        cases.expect(text + b"Z", "refused 18 0\n")           # before 17
        if not listed:
            cases.expect(text[:-1], "refused 16 0\n")
            cases.expect(text[:-1] + b"X", "refused 15 0\n")
    for size, answer in ((16384, "refused 15 0\n"), (16385, "refused 18 0\n"), (20000, "refused 18 0\n")):
        cases.expect(bytes(size), answer)


# ------------------------------------------------------------------ files

def recorded():
    """The recorded jobs with their answers, as the files have them."""
    with open(path_of("cases_job", "stdin"), "rb") as file:
        data = file.read()
    with open(path_of("cases_job", "stdout")) as file:
        parts = ("\n" + file.read()).split("\njob ")[1:]
    at, jobs = 0, []
    while at < len(data):
        size = struct.unpack_from("<H", data, at)[0]
        jobs.append(data[at + 2:at + 2 + size])
        at += 2 + size
    assert len(jobs) == len(parts), (len(jobs), len(parts))
    return [(job_, part.partition("\n")[2].rstrip("\n") + "\n") for job_, part in zip(jobs, parts)]


def main():
    if len(sys.argv) != 2:
        raise SystemExit(__doc__)
    cases, rng = Cases(Dense(sys.argv[1]), ticket_5=Dense(sys.argv[1], share_end=False), ticket_14=Dense(sys.argv[1], faint=False)), random.Random(8443)
    four_fields(cases)
    commands(cases)
    small(cases)
    patterns(cases)
    values_and_lists(cases)
    drawn(cases, rng)
    not_finite(cases)
    limits(cases, rng)
    large(cases, rng)
    longest(cases, rng)
    ends_shared(cases, random.Random(8445))
    around_limit(cases, random.Random(8446))
    assert sorted(cases.numbers) == [0] + REACHABLE, sorted(cases.numbers)
    write_files("cases_job", b"".join(struct.pack("<H", len(text)) + text for text in cases.jobs),
                "".join(f"job {i}\n{answer}" for i, answer in enumerate(cases.answers, 1)))
    steps = {number: sorted(found) for number, found in sorted(cases.steps.items()) if number in (7, 8, 13, 14)}
    print(f"{len(cases.jobs)} jobs; answers by number (0: finished) {dict(sorted(cases.numbers.items()))}; steps {steps}; "
          + "; ".join(f"otherwise without {name}: {sum(changed.values())}, by that answer and ours {dict(sorted(changed.items()))}"
                      for name, changed in cases.changed.items()))


if __name__ == "__main__":
    main()
