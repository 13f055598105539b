#!/usr/bin/env python3
"""Writes the requests and the expected lines of the program crates/cases_planning.

  tools/cases_planning.py DENSE_FOLDER

DENSE_FOLDER holds the dense program of different authorship that document 01 asks
for (dense_program.py). Every expected number comes from it; what is added here is
the layout of the lent stores. The files stdin and stdout of the crate are written
anew; the seeds are fixed, so that they come out the same each time.

A request is words of two bytes, low byte first: most, n, the row count, the
lengths of the row starts, the columns and the stores (STORES below, in that order),
then the row starts and the columns.
"""
import itertools
import random
import struct
import sys

import cases_tall
from cases_files import write_files
from cases_patterns import (FIELDS, chained, fixed_shapes, flat, grid, joining, near_strip, shape, shared_with_earlier, sparse, strip_with_steps_between,
                            together)
from cases_steps import (HANDED_ON_TO_NONE, handed_on_to_none, joined, joined_above, may_miss_end, sharing_otherwise, store_sizes,
                         ways)
from dense_program import Dense

RESULTS = ["l_subs", "l_starts", "l_slots", "u_subs", "u_starts", "u_slots"]
STORES = ["l_subs", "u_subs", "l_starts", "l_slots", "u_starts", "u_slots",
          "row_heads", "row_links", "set_heads", "set_links", "list", "spare"]


class Cases:
    """The requests and the expected lines so far, and what they cover."""

    def __init__(self, dense, document_01):
        self.dense, self.document_01 = dense, document_01
        self.words, self.lines, self.count = [], [], 0
        self.answers = {}       # answers by number, 0 being a plan
        self.steps = {7: set(), 8: set()}
        self.changed = {}       # requests that document 01 alone answers otherwise: how often, by its answer's number and by ours
        self.patterns = set()   # the patterns of these

    # ---- what is expected

    def right_lengths(self, n, height):
        """The lengths that docs/ fixes, but for the subscript stores: by n for those of the plan, by the row count for the work stores."""
        return {name: (n if name in RESULTS else height) + (name not in ("l_starts", "u_starts", "list", "spare"))
                for name in STORES[2:]}

    def expected(self, most, n, height, starts, columns, lengths):
        """The answer's line and the contents of each result store."""
        results = {name: lengths[name] for name in RESULTS}
        work = [(lengths[name], size) for name, size in self.right_lengths(n, height).items() if name not in RESULTS]
        called, alone = (program.plan_call(most, n, height, starts, columns, results, work) for program in (self.dense, self.document_01))
        if called != alone:
            numbers = number_of(alone.answer), number_of(called.answer)
            self.changed[numbers] = self.changed.get(numbers, 0) + 1
            self.patterns.add((tuple(starts), tuple(columns)))
        return self.noted(called.answer), called.stores

    def noted(self, answer):
        """The answer's line; what it covers is noted."""
        number = number_of(answer)
        self.answers[number] = self.answers.get(number, 0) + 1
        if number in self.steps:
            self.steps[number].add(answer[2])
        return f"refused {number} {answer[2]}" if number else " ".join(map(str, ["plan", *answer[1]]))

    # ---- cases

    def raw(self, most, n, starts, columns, l_room, u_room, height=None, **other):
        """A request as it stands, of n rows if no row count is given; `other` gives stores another length than the right one."""
        height = n if height is None else height
        lengths = dict(self.right_lengths(n, height), l_subs=l_room, u_subs=u_room)
        lengths.update(other)
        self.words += [most, n, height, len(starts), len(columns)]
        self.words += [lengths[name] for name in STORES] + starts + columns
        line, stores = self.expected(most, n, height, starts, columns, lengths)
        self.lines.append(line)
        self.lines += [" ".join([name] + list(map(str, stores[name]))) for name in RESULTS]
        self.lines.append("work zero")
        self.count += 1
        return line

    def rooms(self, rows, n=None):
        return rooms_by(self.dense, rows, n)

    def plan(self, rows, l_more=0, u_more=0, most=1024, n=None, **other):
        """A pattern by its rows, with as many columns or n, and with rooms that are larger than needed by so much (or smaller)."""
        l_room, u_room = self.rooms(rows, n)
        starts, columns = flat(rows)
        return self.raw(most, n or len(rows), starts, columns, max(0, l_room + l_more), max(0, u_room + u_more), len(rows), **other)


def rooms_by(dense, rows, n=None):
    """How many subscripts each side of a plan takes."""
    plan = dense.plan(rows, n=n)
    return len(plan.l_side.store), len(plan.u_side.store)


def number_of(answer):
    return 0 if answer[0] == "granted" else answer[1]


def number_in(line):
    """The number in an answer's line."""
    return int(line.split()[1]) if line.startswith("refused") else 0


# ------------------------------------------------------- groups of requests

def planned(cases, rng):
    cases.plan(FIELDS)
    cases.plan(FIELDS, 3, 1)
    cases.plan([[1]])
    cases.plan([[1]], 2, 1, most=1)
    cases.plan([[1]], most=65535)
    for n in (2, 3, 5, 8):
        for number, rows in enumerate(fixed_shapes(n)):
            cases.plan(rows, (number * 7 + n) % 4, (number * 5 + n) % 3)
    for n in (13, 20):
        for rows in fixed_shapes(n):
            cases.plan(rows)
    for side in (2, 3, 4, 6):
        cases.plan(grid(side), 1, 0)
    for round_ in range(130):
        n = 2 + round_ * 3 % 39
        more = round(n * rng.choice((0.3, 0.7, 1, 1.5, 2, 3, 5)))
        cases.plan(sparse(rng, n, more), rng.choice((0, 0, 1, 9)), rng.choice((0, 0, 2, 7)))
    for round_ in range(30):
        cases.plan(chained(rng, 3 + round_))
    for round_ in range(30):
        cases.plan(sparse(rng, 5 + round_, 2 * (5 + round_), 1 + round_ % 5))
    for more, reach in ((60, None), (120, None), (250, 4), (400, 12)):
        cases.plan(sparse(rng, 100, more, reach))
    cases.plan(chained(rng, 100))
    for more, reach in ((150, None), (900, 3), (1200, 9)):
        cases.plan(sparse(rng, 300, more, reach))


def short_ways(cases, rng):
    """Patterns at which a row joins the list of the step before: it only adds behind it, or something stands against that."""
    count = {"behind": 0, "end": 0, "row": 0, "column": 0}
    for side in (5, 7):
        cases.plan(grid(side))
    for reach in (1, 2, 3, 5):
        for n in (2, 3, 9, 30):
            cases.plan(shape(n, lambda i, j: abs(i - j) <= reach))
    while min(count.values()) < 30:
        n, bits = near_strip(rng)
        if all(count[way] >= 30 for way in ("behind", "row", "column")) and not may_miss_end(n, bits):
            continue
        rows = [[j for j in range(1, n + 1) if row >> j & 1] for row in bits]
        found = ways(cases.dense, rows)
        if any(count[way] < 30 for way in found):
            for way in found:
                count[way] += 1
            cases.plan(rows, rng.choice((0, 0, 1)), rng.choice((0, 0, 2)))
            cases.plan(rows, rng.choice((0, -1)), rng.choice((0, -1)))
    return count


def short_at(cases, rows, step, n=None):
    """Rooms that end with one step: exactly enough for it, and one short for a side to which it adds."""
    plan = cases.dense.plan(rows, n=n)
    asked = 1024, plan.n, *flat(rows)
    lower, upper = store_sizes(plan, plan.l_side), store_sizes(plan, plan.u_side)
    cases.raw(*asked, lower[step], upper[step], len(rows))
    if lower[step - 1] < lower[step]:
        assert cases.raw(*asked, lower[step] - 1, upper[plan.n], len(rows)) == f"refused 7 {step}"
    if upper[step - 1] < upper[step]:
        assert cases.raw(*asked, lower[plan.n], upper[step] - 1, len(rows)) == f"refused 8 {step}"


def met_together(cases, rng):
    """Rows first met at one step: lists that grow in place, by merges from one store into the other, and by both in turn."""
    before = cases.count
    kinds = ["inside", "equal", "beginning", "behind", "between", "before"]
    orders = [[kind] for kind in kinds] + [["between", kind] for kind in kinds if kind != "between"]
    orders += [["before", "inside"], ["before", "before", "behind"], ["between", "between", "behind", "equal"],
               ["behind", "between", "behind", "between"], ["between", "inside", "before", "beginning", "equal"]]
    for n in (6, 11, 23, 40):
        for number, order in enumerate(orders):
            step = (1, 1, 2, 3)[(number + n) % 4]
            rows = together(rng, n, step, order, handed=number % 2 == 1)
            cases.plan(rows)
            short_at(cases, rows, step)
    for n in (2, 3, 7, 30):
        for _ in range(4):
            step = rng.randint(1, max(1, n // 4))
            rows = together(rng, n, step, [rng.choice(kinds) for _ in range(n)], handed=rng.random() < 0.5)
            cases.plan(rows, rng.choice((0, 1)), rng.choice((0, 2)))
            short_at(cases, rows, step)
    for n in (2, 5, 17, 38):
        arrow = shape(n, lambda i, j: 1 in (i, j))
        tailed = shape(n, lambda i, j: 1 in (i, j) or i - j == 1)
        bordered = shape(n, lambda i, j: (i - 1) // 4 == (j - 1) // 4 or n in (i, j) or j == 1)
        stacked = shape(n, lambda i, j: (i - 1) // 4 in ((j - 1) // 4, (j - 1) // 4 + 1))
        for rows in (arrow, tailed, bordered, stacked):
            cases.plan(rows)
            short_at(cases, rows, 1)
    for n in (300, 1024):
        cases.plan(shape(n, lambda i, j: 1 in (i, j)))
    for number, order in enumerate((kinds, ["between", "behind"], ["before", "inside", "between"])):
        cases.plan(together(rng, 128, 1 + number, order, handed=number > 0))
    return cases.count - before


def side_by_side(cases, rng):
    """Patterns at which one row joins the list of the step before, for every pair of what it is to L and to U: with enough room, and with
    rooms that end at that step."""
    places = ("nothing", "behind", "before", "between", "end")
    count = {(lower, upper): 0 for lower in places for upper in places}
    while min(count.values()) < 5:
        for make in (strip_with_steps_between, shared_with_earlier, joining):
            rows = make(rng)
            found = joined(cases.dense, rows)
            if any(count[step.sides] < 5 for step in found):
                cases.plan(rows)
            for step in found:
                if count[step.sides] < 5:
                    count[step.sides] += 1
                    short_at(cases, rows, step.step)
    return count


def ends_shared(cases, rng):
    """Lists that share with the end of the whole store: rooms that are exactly met, and one short on each side that document 01 alone makes longer. For the
    first patterns, which have every kind, also rooms as document 01 alone needs them, and rooms that end with the step."""
    before = cases.count
    for number, (rows, ended) in enumerate(sharing_otherwise(cases.dense, rng, 12, 220)):
        (l_room, u_room), (l_alone, u_alone) = cases.rooms(rows), rooms_by(cases.document_01, rows)
        cases.plan(rows)
        if l_room < l_alone:
            cases.plan(rows, -1, 0)
        if u_room < u_alone:
            cases.plan(rows, 0, -1)
        if number < 40:
            cases.plan(rows, l_alone - l_room, u_alone - u_room)
            for step in sorted({found.step for found in ended}):
                short_at(cases, rows, step)
    return cases.count - before


def large(cases, rng):
    strip = shape(1024, lambda i, j: abs(i - j) == 1)
    cases.plan(strip, 1, 2)
    cases.plan(sparse(rng, 1024, 1500, 5))
    cases.plan(sparse(rng, 1024, 300))
    cases.plan(strip, -1, 0)                            # 7 late
    cases.plan(strip, 0, -1)                            # 8 late
    for over in (0, 1):                                 # n of 1,024 and 1,025
        rows = shape(1024 + over, lambda i, j: False)
        cases.plan(rows)
        cases.plan(rows, most=2000)                     # more than 1,024 means 1,024
    full = shape(128, lambda i, j: True)                # 16,384 entries
    cases.plan(full, most=128)
    cases.plan(full)
    starts, columns = flat(full)
    cases.raw(1024, 128, starts, columns + [128], 127, 127)
    wide = shape(1024, lambda i, j: -7 <= j - i <= 8)   # 16 in most rows
    missing = 16384 - sum(map(len, wide))
    for i in range(missing):
        row = wide[300 + i]
        row.append(row[-1] + 1 + i % 2)
    cases.plan(wide)                                    # 16,384
    wide[900].append(wide[900][-1] + 1)
    starts, columns = flat(wide)
    cases.raw(1024, 1024, starts, columns, 20, 20)      # 16,385
    for n in (128, 129):
        rows = shape(n, lambda i, j: abs(i - j) <= 1)
        cases.plan(rows, most=128)


def refused_1_to_5(cases):
    def pattern(n, starts, columns, most=1024, **other):
        cases.raw(most, n, starts, columns, 5, 4, **other)

    starts, columns = flat(FIELDS)
    # 1
    pattern(0, [0], [])
    pattern(0, [], [], most=0)
    pattern(0, [7, 2], [0, 9], list=3)
    pattern(1, [0, 1], [1], most=0)
    pattern(4, starts, columns, most=3)
    pattern(4, starts, columns, most=4)
    pattern(65535, starts, columns, l_starts=4, l_slots=5, u_starts=4, u_slots=5, row_heads=5, row_links=5,
            set_heads=5, set_links=5, list=4, spare=4)
    pattern(5, [3, 1], columns, most=4, l_slots=2)      # before 2 and 6
    # 2
    pattern(4, [], columns)
    pattern(4, starts[:-1], columns)
    pattern(4, starts + [9], columns)
    pattern(4, starts[:-2] + [9], columns)
    pattern(4, [1] + starts[1:], columns)
    pattern(4, [0, 2, 4, 3, 9], columns)
    pattern(4, [0, 2, 1, 6, 9], columns)
    pattern(4, [0, 2, 4, 10, 9], columns)
    pattern(4, [0, 10, 4, 6, 9], columns)
    pattern(4, [0, 65535, 65535, 65535, 9], columns)
    pattern(4, [0, 2, 4, 6, 8], columns)
    pattern(4, [0, 2, 4, 6, 10], columns)
    pattern(4, starts, columns[:-1])
    pattern(4, starts, [])
    pattern(4, [0, 0, 0, 0, 9], columns)                # the form holds: 4, not 2
    pattern(1, [0], [])
    pattern(1, [0, 0], [1])
    pattern(1, [1, 1], [1])
    pattern(4, [0, 2, 4, 3, 9], [0, 9] + columns[2:], l_starts=9)   # before 3 and 6
    # 3, 4 and 5, each alone and in their order
    for at in range(9):
        for value in (0, 1, 2, 3, 4, 5, 65535):
            if (at + value) % 2 == 0 or at in (1, 6, 8):
                pattern(4, starts, columns[:at] + [value] + columns[at + 1:])
    for rows in ([[1, 3], [1, 4], [5], [4]],            # 5 in row 2 before 3 in row 3
                 [[1, 3], [1, 4], [3, 3], [4]],         # 5 in row 2 before 4 in row 3
                 [[1, 3], [2, 5], [4], [4]],            # 3 before 5
                 [[1, 3], [2, 5], [3, 2], [4]],         # 3 before 4
                 [[1, 3], [2, 1], [5], [4]],            # 4 in row 2 before 3 in row 3
                 [[1, 3], [2, 1], [4], [4]],            # 4 before 5
                 [[1, 3], [2, 2], [3], [4]],            # 4, equal columns
                 [[1, 3], [2, 0], [3], [4]],            # 3 before 4 at one entry
                 [[1, 3], [2, 1, 0], [3], [4]],         # 4 at an earlier entry than 3
                 [[1, 3], [2, 5, 3], [3], [4]],         # 3 at an earlier entry than 4
                 [[1, 3], [1, 5], [3], [4]],            # 3 in a row that lacks its diagonal
                 [[1, 3], [3, 1], [3], [4]],            # 4 in a row that lacks its diagonal
                 [[3, 1], [2], [3], [4]],               # 4 in the first row
                 [[2], [2], [3], [4]],                  # 5 in the first row
                 [[1, 3], [2], [3], [1, 2, 3]],         # 5 in the last row
                 [[1, 3], [2], [3], [3, 5]],            # 3 in the last row
                 [[], [2], [3], [4]],                   # 5, an empty row
                 [[1], [2], [3], []],
                 [[1, 2, 3, 4], [], [], []],
                 [[], [], [], []]):
        pattern(4, *flat(rows))
        pattern(4, *flat(rows), u_slots=4, spare=0)     # all before 6
    pattern(1, [0, 1], [0])
    pattern(1, [0, 1], [2])
    pattern(1, [0, 2], [1, 1])
    pattern(1, [0, 0], [])


def refused_6(cases):
    for rows in (FIELDS, [[1]], shape(7, lambda i, j: i == 7 or j == 1)):
        n = len(rows)
        right = cases.right_lengths(n, n)
        for name in STORES[2:]:
            cases.plan(rows, **{name: right[name] - 1})
            cases.plan(rows, **{name: right[name] + 1})
    cases.plan(FIELDS, l_starts=0)
    cases.plan(FIELDS, u_slots=1040, row_links=0)
    cases.plan(FIELDS, -1, -1, set_links=6)             # before 7 and 8
    cases.plan(FIELDS, -2, 0, list=5, spare=3)
    cases.plan(FIELDS, l_starts=5, l_slots=4, list=5)   # n and n+1 changed for each other


def refused_7_and_8(cases, rng):
    """Every pair of rooms for small patterns, then rooms that fail at many steps."""
    small = [FIELDS, shape(4, lambda i, j: i == 4 or j == 1), shape(5, lambda i, j: j in (i - 1, i + 2)),
             [[1, 2, 5], [2, 3], [3, 5], [1, 4], [5]], [[1, 5], [2], [2, 3], [4, 5], [1, 3, 5]]]
    for rows in small:
        starts, columns = flat(rows)
        l_room, u_room = cases.rooms(rows)
        for l_lent in range(l_room + 2):
            for u_lent in range(u_room + 2):
                cases.raw(1024, len(rows), starts, columns, l_lent, u_lent)
    for _ in range(40):
        rows = sparse(rng, rng.randint(6, 24), rng.randint(8, 60))
        l_room, u_room = cases.rooms(rows)
        cases.plan(rows, rng.choice((-1, 0, -rng.randint(1, l_room + 1))), rng.choice((-1, 0, -rng.randint(1, u_room + 1))))


def orders(cases, rng):
    """Rooms that are both too small: 8 at an earlier step, 7 at an earlier step, 7 before 8 at one step."""
    found = {"8 first": 0, "7 first": 0, "same step": 0}
    while min(found.values()) < 8:
        rows = sparse(rng, rng.randint(4, 12), rng.randint(5, 25))
        l_room, u_room = cases.rooms(rows)
        if l_room == 0 or u_room == 0:
            continue
        l_lent, u_lent = rng.randrange(l_room), rng.randrange(u_room)
        seven, eight = cases.dense.refused_at(rows, l_lent, u_room), cases.dense.refused_at(rows, l_room, u_lent)
        kind = "8 first" if eight < seven else "7 first" if seven < eight else "same step"
        if found[kind] < 8:
            found[kind] += 1
            line = cases.raw(1024, len(rows), *flat(rows), l_lent, u_lent)
            assert line == (f"refused 8 {eight}" if kind == "8 first" else f"refused 7 {seven}")


# ------------------------------------------------------- more rows than columns

def tall_planned(cases, rng):
    """Row counts n+1, 2n and others, to 2,048; rows above n that are empty, again those of the square, or with their least column anywhere."""
    for turn, (n, rows) in enumerate(itertools.chain(cases_tall.named(rng), cases_tall.columns_alone(6), (cases_tall.drawn(rng) for _ in range(60)))):
        cases.plan(rows, (0, 1, 5)[turn % 3], (0, 2)[turn % 2], n=n)
    for turn, (n, rows) in enumerate(cases_tall.most_rows(rng)):
        cases.plan(rows, n=n)
        cases.plan(rows, -(turn % 2), turn % 2 - 1, most=n, n=n)


def tall_handed_on(cases, rng):
    """Steps that hand L_k on to none, since U_k has no further member, of every kind and before the last step too; with rooms that end there."""
    count = {(kind, last): 0 for kind in HANDED_ON_TO_NONE for last in (False, True)}
    while min(count.values()) < 4:
        n, rows = cases_tall.drawn(rng)
        for step, *kind in handed_on_to_none(cases.dense.plan(rows, n=n), rows):
            if count[tuple(kind)] < 4:
                count[tuple(kind)] += 1
                cases.plan(rows, n=n)
                short_at(cases, rows, step, n)
    return count


def tall_rooms(cases, rng):
    """Every pair of rooms for small patterns, then rooms that end at steps that put rows above n into the store of L."""
    for n, rows in (cases_tall.seen_again(FIELDS, 3), cases_tall.over([[1, 2], [1, 2]], [[1], [], [1, 2]]), cases_tall.over([[1], [2, 3], [3]], [[1, 3], [2], [1, 2, 3]])):
        l_room, u_room = cases.rooms(rows, n)
        for l_lent, u_lent in itertools.product(range(l_room + 2), range(u_room + 2)):
            cases.raw(1024, n, *flat(rows), l_lent, u_lent, len(rows))
    found = 0
    while found < 80:
        n, rows = cases_tall.drawn(rng)
        plan = cases.dense.plan(rows, n=n)
        sizes = store_sizes(plan, plan.l_side)
        steps = [k for k in range(1, n + 1) if any(i > n for i in plan.l_side.store[sizes[k - 1]:sizes[k]])]
        if steps:
            found += 1
            short_at(cases, rows, rng.choice(steps), n)
    return found


def tall_side_by_side(cases, rng):
    """Steps at which one row above n joins the list of the step before, for every pair of what it is to L and to U; with rooms that end there."""
    places = ("behind", "before", "between", "end")
    count = {(lower, upper): 0 for lower in places for upper in ("nothing", *places)}
    while min(count.values()) < 3:
        for n, rows in cases_tall.with_rows_joining(rng):
            for found in joined_above(cases.dense, rows, n):
                if count[found.sides] < 3:
                    count[found.sides] += 1
                    short_at(cases, rows, found.step, n)
    return count


def refused_25(cases):
    """Fewer rows than n, or above 2,048: before 2 to 6 and after 1, with row starts for that many rows, for n, and for none."""
    starts, columns = flat(FIELDS)

    def pattern(n, height, starts, columns=columns, number=25, most=1024, **other):
        lengths = dict(cases.right_lengths(n, min(height, 2050)), **other)
        assert cases.raw(most, n, starts, columns, 5, 4, height, **lengths) == f"refused {number} 0"

    for height in (0, 1, 3, 2049, 2050, 65535):
        for lent in (starts, (starts + [9] * 2046)[:height + 1], []):
            pattern(4, height, lent)
        pattern(4, height, starts, columns[:6])
        pattern(4, height, [0, 2, 4, 3, 9])                             # before 2
        pattern(4, height, starts, [0] + columns[1:])                   # before 3
        pattern(4, height, starts, [3, 1] + columns[2:])                # before 4
        pattern(4, height, starts, [2] + columns[1:])                   # before 5
        pattern(4, height, starts, l_starts=3, u_slots=6, list=4, spare=5)  # before 6
        pattern(4, height, starts, number=1, most=3)                    # after 1
        pattern(0, height, starts, number=1)
        pattern(1025, height, starts, number=1)
    pattern(4, 2049, starts, [1] * 16385, number=1)
    for height in (0, 1023, 2049):
        pattern(1024, height, [*range(1025)], [*range(1, 1025)])
    pattern(1, 0, [0, 1], [1])
    pattern(1, 0, [0], [])


def tall_refused(cases, number, starts, columns, height, **other):
    """Four columns and so many rows: the request is to be answered with this number."""
    lengths = dict(cases.right_lengths(4, height), **other)
    assert number_in(cases.raw(1024, 4, starts, columns, 20, 20, height, **lengths)) == number


def tall_refused_2(cases):
    """Four fields and three rows above n, the last one empty: faults in the row starts."""
    starts, columns = flat(FIELDS + [[1, 4], [3], []])

    def pattern(number, starts, columns=columns, height=7, **other):
        tall_refused(cases, number, starts, columns, height, **other)

    for lent in (starts[:-1], starts + [12], [], starts[:5], starts[:5] + [12], [1] + starts[1:], starts[:-1] + [11], starts[:-1] + [13], starts[:5] + [8, 12, 12],
                 starts[:5] + [11, 10, 12], starts[:6] + [13, 12], starts[:6] + [65535, 12], [0, 2, 4, 6, 9, 9, 9, 9]):
        pattern(2, lent)
    for height in (4, 5, 6, 8, 14):
        pattern(2, starts, height=height)
    pattern(2, *flat(FIELDS))                                           # the square's own
    pattern(2, starts, columns[:-1])
    pattern(2, starts[:5] + [8, 12, 12], [0, 5] + columns[2:], list=4)  # before 3 and 6
    pattern(0, [0, 2, 4, 6, 9, 9, 9, 12], columns[:9] + [1, 3, 4])
    pattern(0, [0, 2, 4, 6, 9, 9, 11, 12])


def tall_refused_3_to_5(cases):
    """Faults in the rows above n, 5 in row n and not above it, and their order."""
    def rows_above(number, *above, square=FIELDS, **other):
        tall_refused(cases, number, *flat(square + list(above)), 4 + len(above), **other)

    for column in (0, 5, 6, 7, 65535):                                  # 3: the row's own number is no column
        rows_above(3, [column])
        rows_above(3, [], [1, column])
        rows_above(3, [1], [2], [3, column], u_starts=5)                # before 6
    for above in ([[1, 1]], [[], [3, 2]], [[4], [], [1, 4, 3]], [[2, 1, 5]]):
        rows_above(4, *above)
        rows_above(4, *above, list=4)
    rows_above(3, [2, 5, 1])
    rows_above(4, [2, 1], [5])                                          # row by row
    rows_above(3, [5], [2, 1])
    for last in ([3], [], [1, 2, 3]):                                   # 5 at row n, with and without a row above that could be its own
        for above in ([[4]], [[]], [[5]], [[2, 1], [4]]):
            rows_above(5, *above, square=FIELDS[:3] + [last])
    rows_above(5, [2], square=[[1, 3], [2, 4], [1], [2, 3, 4]])
    for above in ([[]], [[1]], [[1, 2, 3]], [[], [], [], []], [[4], [1], [2, 3]]):
        rows_above(0, *above)                                           # none of them needs a diagonal


def tall_refused_6(cases):
    """Stores of one place more or fewer, work stores for n rows alone, and starts stores for every row."""
    for n, rows in (cases_tall.over(FIELDS, [[1, 4], [3], []]), cases_tall.over([[1]], [[]]), cases_tall.seen_again(shape(5, lambda i, j: abs(i - j) == 1), 5)):
        height = len(rows)
        right, square, all_rows = cases.right_lengths(n, height), cases.right_lengths(n, n), cases.right_lengths(height, height)
        for name in STORES[2:]:
            for length in sorted({right[name] - 1, right[name] + 1, square[name], all_rows[name]} - {right[name]}):
                assert cases.plan(rows, n=n, **{name: length}) == "refused 6 0"
        cases.plan(rows, n=n, **square)
        cases.plan(rows, n=n, **all_rows)
        cases.plan(rows, -1, -1, n=n, list=n)                           # before 7 and 8
        cases.plan(rows, n=n, list=height + 1, row_heads=height)


def tall_ends_shared(cases, rng):
    """Patterns whose lists share with the end of the whole store otherwise than document 01 alone has it, on the side of L and of U in turn: exactly enough room, and
    one place fewer on that side."""
    for turn in range(30):
        upper, rooms, alone = turn % 2, (0, 0), (0, 0)
        while rooms[upper] >= alone[upper]:
            n, rows = cases_tall.drawn(rng)
            rooms, alone = rooms_by(cases.dense, rows, n), rooms_by(cases.document_01, rows, n)
        cases.plan(rows, n=n)
        cases.plan(rows, upper - 1, -upper, n=n)


def tall(cases, rng):
    """All of them; how many, and what they reach."""
    before, answers = cases.count, dict(cases.answers)
    tall_planned(cases, rng)
    handed = tall_handed_on(cases, rng)
    rooms = tall_rooms(cases, rng)
    sides = tall_side_by_side(cases, rng)
    refused_25(cases)
    tall_refused_2(cases)
    tall_refused_3_to_5(cases)
    tall_refused_6(cases)
    tall_ends_shared(cases, rng)
    reached = {number: count - answers.get(number, 0) for number, count in sorted(cases.answers.items()) if count > answers.get(number, 0)}
    return (f"{cases.count - before}, steps that hand on to none: {len(handed)} kinds, each at {min(handed.values())}; rooms that end where L takes rows above n: {rooms}; "
            f"{len(sides)} pairs of what a row above n is to L and to U, each at {min(sides.values())} steps; answers {reached}")


def main():
    if len(sys.argv) != 2:
        raise SystemExit(__doc__)
    cases, rng = Cases(Dense(sys.argv[1]), Dense(sys.argv[1], share_end=False)), random.Random(8443)
    planned(cases, rng)
    large(cases, rng)
    refused_1_to_5(cases)
    refused_6(cases)
    refused_7_and_8(cases, rng)
    orders(cases, rng)
    short = short_ways(cases, rng)
    rng = random.Random(8444)                           # a seed of their own, so that the requests above can stay as they are
    many = met_together(cases, rng)
    sides = side_by_side(cases, rng)
    ends = ends_shared(cases, random.Random(8445))
    more_rows = tall(cases, random.Random(8446))
    assert all(cases.answers.get(number, 0) >= 10 for number in (*range(9), 25)), cases.answers
    # the last request asks for more columns than the program has: it ends the program
    cases.words += [1024, 1, 1, 2, 16401] + [1] * 12
    cases.lines.append("bad request")
    write_files("cases_planning", struct.pack(f"<{len(cases.words)}H", *cases.words), "\n".join(cases.lines) + "\n")
    print(f"{cases.count} cases; rows that join the list before: {short}; on rows met together: {many}; "
          f"{len(sides)} pairs of what a row is to L and to U, each at {min(sides.values())} steps; "
          f"on lists that share with the end of the store: {ends}; with more rows than columns, or 25: {more_rows}; otherwise by document 01 alone: {sum(cases.changed.values())} requests on "
          f"{len(cases.patterns)} patterns, by its answer and ours {dict(sorted(cases.changed.items()))}; "
          f"answers by number (0: planned) {dict(sorted(cases.answers.items()))}; "
          f"7 at steps {sorted(cases.steps[7])}, 8 at steps {sorted(cases.steps[8])}")


if __name__ == "__main__":
    main()
