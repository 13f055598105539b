#!/usr/bin/env python3
"""Writes the requests and the expected lines of the program crates/cases_elimination.

  tools/cases_elimination.py DENSE_FOLDER

DENSE_FOLDER holds the dense program of different authorship that document 01 asks for
(dense_program.py). Every expected answer and every place of every store comes from it. The
files stdin and stdout of the crate are written anew; the seeds are fixed, so that they come
out the same.

A request: HEAD words of four bytes, then the lists of LISTS, numbers in two bytes, values
and right side as the eight bytes of an f64; all low byte first.
"""
import math
import random
import struct
import sys

import cases_limit
import cases_tall
from cases_files import write_files
from cases_patterns import FIELDS, flat, joining, shape, shared_with_earlier, strip_with_steps_between, together
from cases_steps import joined, sharing_otherwise
from dense_program import Dense

HEAD = ["most", "n", "height", "starts", "columns",
        "count_n", "count_height", "count_entries", "count_l_subs", "count_u_subs", "count_l_slots", "count_u_slots", "count_reads",
        "l_subs", "l_starts", "l_slots", "u_subs", "u_starts", "u_slots", "rows", "values", "right",
        "by_list", "cut", "steps",
        "lower", "upper", "diagonal", "solution", "pivots",
        "row_heads", "row_links", "set_heads", "set_links", "list", "spare", "copy", "dense"]
PLAN_STORES = ["l_subs", "l_starts", "l_slots", "u_subs", "u_starts", "u_slots"]
RESULTS = [("lower", "l_slots"), ("upper", "u_slots"), ("diagonal", "diagonal"), ("solution", "solution"), ("pivots", "pivots")]
WORK_NEXT = ["row_heads", "row_links", "set_heads", "set_links", "dense"]   # a place more than there are rows
WORK_ROWS = ["list", "spare", "copy"]                                       # a place for each row
SHOWN = 48              # stores that are longer are shown by a sum over their places
PRIME = 4294967291


def bits(x):
    return struct.unpack("<Q", struct.pack("<d", x))[0]


def store_line(name, numbers):
    """A store's line: its places, or their count and a sum over them."""
    if len(numbers) <= SHOWN:
        return " ".join([name] + [f"{v:x}" for v in numbers])
    total = 0
    for v in numbers:
        total = (total * 65599 + v // 4294967296) % PRIME
        total = (total * 65599 + v % 4294967296) % PRIME
    return f"{name} {len(numbers):x} places {total:x}"


def refusal(answer):
    return f"refused {answer[1]} {answer[2]}"


class Cases:
    def __init__(self, dense, before_5, before_14):
        self.dense, self.before_5, self.before_14 = dense, before_5, before_14
        self.bytes, self.lines, self.count = bytearray(), [], 0
        self.answers, self.steps = {}, {13: set(), 14: set()}
        self.otherwise = [0, 0]     # verified and run otherwise without ticket 5
        self.limited = {}           # run otherwise without ticket 14: how often, by list or not, by that answer's number
        self.above = {"pivot row": 0, "row n": 0}     # finished runs with a pivot row above n, and those whose row n is exchanged with one
        self.finished = {(a, b): 0 for a in ("largest", "listed") for b in ("whole", "cut")}

    def request(self, most, n, height, starts, columns, counts, stores, values, right, listed, cut, lengths, work):
        head = {"most": most, "n": n, "height": height, "by_list": int(listed is not None), "cut": int(cut is not None), "steps": cut or 0}
        head.update({"starts": len(starts), "columns": len(columns), "rows": len(listed or []), "values": len(values), "right": len(right)})
        head.update({name: len(stores[name]) for name in PLAN_STORES})
        head.update({key: value for key, value in zip(HEAD[5:13], counts)})
        head.update({name: lengths[key] for name, key in RESULTS})
        head.update(work)
        self.bytes += struct.pack(f"<{len(HEAD)}I", *[head[name] for name in HEAD])
        for numbers in [starts, columns] + [stores[name] for name in PLAN_STORES] + [listed or []]:
            self.bytes += struct.pack(f"<{len(numbers)}H", *numbers)
        self.bytes += struct.pack(f"<{len(values)}d", *values) + struct.pack(f"<{len(right)}d", *right)
        fixed = [(work[name], height + 1) for name in WORK_NEXT] + [(work[name], height) for name in WORK_ROWS]
        planning = [pair for name, pair in zip(WORK_NEXT + WORK_ROWS, fixed) if name not in ("copy", "dense")]
        asked = most, n, height, starts, columns, counts, stores
        held = self.dense.hold_call(*asked, planning)
        self.lines.append("verify agrees" if held[0] == "granted" else "verify " + refusal(held))
        asked_run = *asked, fixed, values, right, listed, cut, lengths
        called = self.dense.run_call(*asked_run)
        self.otherwise[0] += held != self.before_5.hold_call(*asked, planning)
        self.otherwise[1] += called.answer != self.before_5.run_call(*asked_run).answer
        self.note_limit(called, listed, asked_run)
        if called.answer[0] == "granted":
            self.lines.append(f"run finished {called.answer[1]}")
            self.finished["largest" if listed is None else "listed", "whole" if cut is None else "cut"] += 1
            self.above["pivot row"] += max(called.stores["pivots"]) > n
            self.above["row n"] += called.stores["pivots"][-1] > n
        else:
            self.lines.append("run " + refusal(called.answer))
            number = called.answer[1]
            self.answers[number] = self.answers.get(number, 0) + 1
            if number in self.steps:
                self.steps[number].add(called.answer[2])
        for name, key in RESULTS:
            self.lines.append(store_line(name, called.stores[key] if key == "pivots" else [bits(v) for v in called.stores[key]]))
        self.lines.append("work zero")
        self.count += 1
        return called.answer

    def note_limit(self, called, listed, asked_run):
        """Counts a run that ticket 14 stops. The largest entry reaches the limit if any does, and a list is a list: without the limit a run
        goes the same way up to a 13, so that no other answer differs."""
        if called.answer[:2] != ("refused", 13):
            return
        before = self.before_14.run_call(*asked_run).answer
        if before != called.answer:
            kind = "largest" if listed is None else "listed", 0 if before[0] == "granted" else before[1]
            self.limited[kind] = self.limited.get(kind, 0) + 1

    def run(self, rows, values, right, listed=None, cut=None, most=1024, more=None, bend=None, lent=None, n=None):
        """A run on the plan of a pattern with so many rows and as many columns, or n. `more` gives lengths by name, `bend` changes the lent plan (counts,
        stores), `lent` the pattern (starts, columns): it gives n and the row count too."""
        n, height = n or len(rows), len(rows)
        starts, columns = flat(rows)
        plan = self.dense.plan(rows, n=n)
        counts, stores = self.dense.counts_of(plan), self.dense.stores_of(plan)
        lengths = {"l_slots": plan.l_side.slots(), "u_slots": plan.u_side.slots(), "diagonal": n, "solution": height, "pivots": n}
        work = {name: height + 1 for name in WORK_NEXT}
        work.update({name: height for name in WORK_ROWS})
        for name, length in (more or {}).items():
            key = dict(RESULTS).get(name)
            if key:
                lengths[key] += length
            else:
                work[name] += length
        if bend:
            bend(counts, stores)
        if lent:
            n, height, starts, columns = lent(starts, columns)
        return self.request(most, n, height, starts, columns, counts, stores, values, right, listed, cut, lengths, work)


# ------------------------------------------------------------------ patterns and values

FIELD_VALUES = [2.0, 1.0, 1.0, 1.0, 4.0, 4.0, 2.0, 1.0, 4.0]
FIELD_RIGHT = [3.0, 2.0, 8.0, 7.0]
SPECIAL = [0.0, -0.0, 5e-324, -5e-324, 2.2250738585072014e-308, 1e-310, 1e-200, 1e200, 1e300, -1e300, 1.7e308, 1.0, -1.0, 2.0, -2.0, 0.5, 3.0]


def random_rows(rng, n, density):
    return shape(n, lambda i, j: rng.random() < density)


def entries(rows):
    return sum(map(len, rows))


def numbers(rng, count, kind):
    if kind == "plain":
        return [rng.uniform(-4, 4) for _ in range(count)]
    if kind == "small":      # ties, exact cancellation
        return [float(rng.choice([-2, -1, -1, 1, 1, 2])) for _ in range(count)]
    if kind == "zeros":
        return [rng.choice([0.0, -0.0, 1.0, -1.0, 2.0]) for _ in range(count)]
    if kind == "tiny":       # multipliers that underflow
        return [rng.choice([1e-300, -1e-300, 1e300, 1.0, 1e-160, 1e160, 5e-324]) for _ in range(count)]
    if kind == "huge":       # quotients, products and differences that overflow
        return [rng.choice([1.7e308, -1.7e308, 1e300, 1e-300, 1.0, 2.0, -1.0]) for _ in range(count)]
    return [rng.choice(SPECIAL) for _ in range(count)]


def some_list(rng, n):
    return [rng.randint(k, n) for k in range(1, n + 1)]


def add_random(cases, rng):
    """Small patterns, every kind of value, largest and listed, whole and cut."""
    for turn in range(230):
        n = rng.randint(1, 7)
        rows = random_rows(rng, n, rng.choice([0.15, 0.3, 0.5, 0.9]))
        kind = rng.choice(["plain", "small", "small", "zeros", "tiny", "huge", "special"])
        values, right = numbers(rng, entries(rows), kind), numbers(rng, n, rng.choice([kind, "plain"]))
        listed = some_list(rng, n) if turn % 2 else None
        cut = rng.choice([None, None, 0, 1, n - 1, n]) if n > 1 else rng.choice([None, 0, 1])
        more = {name: rng.choice([0, 0, 1, 3]) for name in ("lower", "upper")}
        cases.run(rows, values, right, listed, cut, more=more)


def add_named(cases, rng):
    """The fields worked through, and cases that the papers name."""
    for listed in (None, [1, 2, 3, 4], [1, 2, 4, 4], [2, 2, 3, 4], [1, 1, 3, 4], [3, 4, 3, 4], [1, 2, 3], [1, 2, 3, 4, 5], [1, 2, 3, 5]):
        for cut in (None, 0, 1, 2, 3, 4, 5):
            cases.run(FIELDS, FIELD_VALUES, FIELD_RIGHT, listed, cut)
    cases.run([[1]], [0.0], [1.0])
    cases.run([[1]], [-0.0], [1.0], [1])
    cases.run([[1, 2], [1, 2]], [2.0, 1.0, -2.0, 5.0], [1.0, 1.0])                   # 2 and -2: the upper row
    cases.run([[1, 2], [1, 2]], [1.0, 1.0, 1.0, 1.0], [1.0, 1.0])                    # exact cancellation: 13 at step 2
    cases.run([[1, 2], [1, 2]], [1e300, 1.0, 5e-324, 1.0], [1.0, 1.0])               # a multiplier that underflows
    cases.run([[1, 2], [1, 2]], [1e300, 1.0, -5e-324, 1.0], [1.0, 1.0])              # ... to -0
    cases.run([[1, 2], [1, 2]], [5e-324, 1.0, 1e300, 1.0], [1.0, 1.0], [1, 2])       # a quotient that overflows
    cases.run([[1, 2], [1, 2]], [1.0, 1e300, 1e300, 1.0], [1.0, 1.0], [1, 2])        # a product
    cases.run([[1, 2], [1, 2]], [1.0, 1.7e308, -1.0, 1.7e308], [1.0, 1.0], [1, 2])   # a difference
    cases.run([[1, 2], [1, 2]], [1.0, 1.0, 1.0, 2.0], [1.7e308, -1.7e308], [1, 2])   # of the right side
    cases.run([[1, 2], [1, 2]], [1.0, 0.0, 1.0, 2.0], [1.7e308, -1.7e308], [1, 2])
    cases.run([[1, 2], [2]], [1.0, 1e300, 1e-300], [1.0, 1.0])                       # back substitution, row 2
    cases.run([[1, 2], [2]], [1.0, 1e300, 1e-200], [1.0, 1.0])                       # row 1: a product
    cases.run([[1, 2], [2]], [1e-300, 1.0, 1.0], [1e300, 1.0])                       # row 1: a quotient
    cases.run([[1, 2], [2]], [1.0, 1.7e308, 1.0], [-1.7e308, 1.0])                   # row 1: a difference
    cases.run([[1, 2], [2]], [1.0, -0.0, 1.0], [1.0, 0.0])
    cases.run([[1, 2, 3], [2, 3], [3]], [1.0, 1.0, 1.0, 1.0, 1.0, 1.0], [0.0, -0.0, 0.0])
    for k in range(1, 7):                                                            # 13 at each step
        rows = shape(6, lambda i, j: j >= i)
        values = [0.0 if i == k and j == i else 1.0 for i, row in enumerate(rows, 1) for j in row]
        cases.run(rows, values, [1.0] * 6)
        cases.run(rows, values, [1.0] * 6, [1, 2, 3, 4, 5, 6], 3)
    for k in range(1, 6):                                                            # 14 at each step
        rows = shape(6, lambda i, j: j == i or i == j + 1)
        values = [1e-200 if i == k and j == i else 1e200 if i == k + 1 and j == k else 1.0 for i, row in enumerate(rows, 1) for j in row]
        cases.run(rows, values, [1.0] * 6, [1, 2, 3, 4, 5, 6])
    for k in range(1, 7):                                                            # 14 at each row of back substitution
        rows = shape(6, lambda i, j: j == i)
        cases.run(rows, [1e-300 if i == k else 1.0 for i in range(1, 7)], [1e300] * 6)


def add_refused(cases, rng):
    """1 to 6, 9 to 12: lengths, counts, starts and subscripts changed one at a time."""
    plain = (FIELDS, FIELD_VALUES, FIELD_RIGHT)
    cases.run(*plain, most=3)                                                                         # 1
    cases.run(*plain, most=0)
    cases.run(*plain, most=65535)
    cases.run(*plain, lent=lambda s, c: (0, 0, s, c))
    cases.run(*plain, lent=lambda s, c: (1025, 1025, s, c))
    cases.run(*plain, lent=lambda s, c: (4, 4, s[:-1], c))                                            # 2
    cases.run(*plain, lent=lambda s, c: (4, 4, [0, 2, 4, 3, 9], c))
    cases.run(*plain, lent=lambda s, c: (4, 4, [1] + s[1:], c))
    cases.run(*plain, lent=lambda s, c: (4, 4, s, c[:-1] + [5]))                                      # 3
    cases.run(*plain, lent=lambda s, c: (4, 4, s, [0] + c[1:]))
    cases.run(*plain, lent=lambda s, c: (4, 4, s, c[:6] + [2, 2, 4]))                                 # 4
    cases.run(*plain, lent=lambda s, c: (4, 4, s, [2, 3] + c[2:]))                                    # 5
    for name in WORK_NEXT + WORK_ROWS:                                                                # 6
        for change in (-1, 1):
            cases.run(*plain, more={name: change})
    for name in ("l_starts", "l_slots", "u_starts", "u_slots"):
        cases.run(*plain, bend=lambda counts, stores, name=name: stores[name].append(0))
        cases.run(*plain, bend=lambda counts, stores, name=name: stores[name].pop())
    for at in range(8):                                                                               # 9
        for change in (-1, 1):
            def count(counts, stores):
                counts[at] += change
            cases.run(*plain, bend=count)
    for name in PLAN_STORES:
        for at in range(len(cases.dense.stores_of(cases.dense.plan(FIELDS))[name])):
            def place(counts, stores):
                stores[name][at] += 1
            cases.run(*plain, bend=place)
    cases.run(*plain, bend=lambda counts, stores: stores["l_subs"].pop())
    cases.run(*plain, bend=lambda counts, stores: stores["u_subs"].pop())
    cases.run(*plain, bend=lambda counts, stores: stores["u_subs"].append(9))                         # an unused subscript
    def other(counts, stores):
        counts[7] += 1
    cases.run(*plain, bend=other, more={"dense": 1})                                                  # 6 before 9
    cases.run(FIELDS, FIELD_VALUES[:-1], FIELD_RIGHT, bend=other)                                     # 9 before 10
    for values, right in ((FIELD_VALUES[:-1], FIELD_RIGHT), (FIELD_VALUES + [1.0], FIELD_RIGHT), (FIELD_VALUES, FIELD_RIGHT[:-1]), (FIELD_VALUES, FIELD_RIGHT + [1.0])):
        cases.run(FIELDS, values, right)                                                              # 10
    for name, changes in (("lower", (-1, 1)), ("upper", (-1, 1)), ("diagonal", (-1, 1)), ("solution", (-1, 1)), ("pivots", (-1, 1))):
        for change in changes:
            cases.run(*plain, more={name: change})
    for bad in (math.inf, -math.inf, math.nan):                                                       # 11
        for at in (0, 4, 8):
            cases.run(FIELDS, FIELD_VALUES[:at] + [bad] + FIELD_VALUES[at + 1:], FIELD_RIGHT)
        for at in (0, 3):
            cases.run(FIELDS, FIELD_VALUES, FIELD_RIGHT[:at] + [bad] + FIELD_RIGHT[at + 1:])
    cases.run(FIELDS, [math.nan] * 9, FIELD_RIGHT, more={"solution": 1})                              # 10 before 11
    cases.run(FIELDS, [math.nan] * 9, FIELD_RIGHT, [9, 9, 9, 9], 7)                                   # 11 before 12
    cases.run(FIELDS, [0.0] * 9, FIELD_RIGHT, [1, 2, 3, 5])                                           # 12 before 13
    cases.run(FIELDS, FIELD_VALUES, FIELD_RIGHT, [0, 2, 3, 4])
    cases.run(FIELDS, FIELD_VALUES, FIELD_RIGHT, [])


def add_large(cases, rng):
    """n up to 1,024."""
    for n, has, kind in ((16, lambda i, j: abs(i - j) < 3, "small"), (24, lambda i, j: i == 24 or j == 1, "plain"), (40, lambda i, j: True, "plain"),
                         (64, lambda i, j: abs(i - j) in (1, 8), "plain"), (128, lambda i, j: abs(i - j) == 1, "plain")):
        rows = shape(n, has)
        for listed in (None, some_list(rng, n)):
            for cut in (None, 0, 1, n // 2, n - 1, n):
                cases.run(rows, numbers(rng, entries(rows), kind), numbers(rng, n, "plain"), listed, cut, more={"lower": 5, "upper": 2})
    for n in (50, 90, 200):
        rows = random_rows(rng, n, 3 / n)
        cases.run(rows, numbers(rng, entries(rows), "plain"), numbers(rng, n, "plain"))
        cases.run(rows, numbers(rng, entries(rows), "plain"), numbers(rng, n, "plain"), some_list(rng, n), n // 3)
    strip, grid = shape(1024, lambda i, j: abs(i - j) == 1), shape(1024, lambda i, j: abs(i - j) == 32 or (abs(i - j) == 1 and (min(i, j) % 32 or False)))
    for rows in (strip, grid):
        cases.run(rows, numbers(rng, entries(rows), "plain"), numbers(rng, 1024, "plain"))
    cases.run(strip, numbers(rng, entries(strip), "plain"), numbers(rng, 1024, "plain"), [rng.randint(k, min(k + 1, 1024)) for k in range(1, 1025)])
    cases.run(strip, numbers(rng, entries(strip), "plain"), numbers(rng, 1024, "plain"), None, 1023)
    diagonal = shape(1024, lambda i, j: False)
    cases.run(diagonal, numbers(rng, 1024, "plain"), numbers(rng, 1024, "plain"), list(range(1, 1025)))
    cases.run(shape(1025, lambda i, j: False), numbers(rng, 1025, "plain"), numbers(rng, 1025, "plain"))


# ------------------------------------------------------- the ways of a step's two sides

PLACES = ("nothing", "behind", "before", "between", "end")      # what `joined` says of a side
CHANGED = ("start", "subscript", "slot start")
COUNTS = (0, 2, 3, 4, 5, 6, 7)                                  # a plan's counts but the row count, which `add_refused` and `add_tall_plans` change
TIMES = 3                                                       # how often each pair of places is to occur


def list_to_follow(cases, rng, rows, n=None):
    """A row list with which a run finishes, other than the one by the largest entry: that of other values on the same pattern."""
    values, right = numbers(rng, entries(rows), "plain"), numbers(rng, len(rows), "plain")
    return cases.dense.pivot_rows(rows, values, right, n)


def move(numbers, at, change):
    """Raises or lowers one number by 1; nothing is below zero, so that a zero is raised."""
    numbers[at] += change if numbers[at] + change >= 0 else -change


def own_subscripts(starts, slots, step):
    """The places of the subscripts that a step adds to its side's store. Where it adds none: those of its list, or all before it."""
    ends = [starts[k] + slots[k + 1] - slots[k] for k in range(step)]
    used, first, last = max(ends[:-1], default=0), starts[step - 1], ends[-1]
    return range(max(used, first), last) or range(first, last) or range(used)


def change_store(rng, kind, letter, step, change):
    """Changes one number of one side that a step is held to. Of the slot starts that is the one behind its own: the step before is held to its own."""
    def bend(counts, stores):
        subs, starts, slots = (stores[letter + name] for name in ("_subs", "_starts", "_slots"))
        if kind == "start":
            move(starts, step - 1, change)
        elif kind == "subscript":
            move(subs, rng.choice(own_subscripts(starts, slots, step)), change)
        else:
            move(slots, step, change)
    return bend


def change_count(at, change):
    def bend(counts, stores):
        move(counts, at, change)
    return bend


def agreed_with(cases, rng, rows, step, turn, n=None):
    """A pattern's own plan, and a run: by the largest entry or by a list, whole or cut (before the step, behind it, at n), in turn; a tall pattern's is always cut."""
    listed = list_to_follow(cases, rng, rows, n) if turn % 2 else None
    cut = rng.choice((step - 1, step, n or len(rows))) if turn % 4 > 1 or n else None
    values, right = numbers(rng, entries(rows), "plain"), numbers(rng, len(rows), "plain")
    assert cases.run(rows, values, right, listed, cut, n=n)[0] == "granted"


def changed_at(cases, rng, rows, step, side, sign, count, n=None):
    """The plan with one number changed at the step: one of each kind, L and U and raised and lowered in turn (`side` and `sign` say what is
    first), and one of the counts."""
    values, right = numbers(rng, entries(rows), "plain"), numbers(rng, len(rows), "plain")
    bends = [change_count(COUNTS[count % len(COUNTS)], (-1, 1)[sign % 2])]
    for at, kind in enumerate(CHANGED):
        bends.append(change_store(rng, kind, "lu"[(side + at) % 2], step, (-1, 1)[(sign + at) % 2]))
    for bend in bends:
        assert cases.run(rows, values, right, cut=n, bend=bend, n=n) == ("refused", 9, 0)


def add_joined(cases, rng):
    """Patterns at which one row joins the list of the step before, for every pair of what it is to L and to U: each side goes its own way."""
    pairs = [(lower, upper) for lower in PLACES for upper in PLACES]
    count, turn = {pair: 0 for pair in pairs}, 0
    while min(count.values()) < TIMES:
        for make in (strip_with_steps_between, shared_with_earlier, joining):
            rows = make(rng)
            wanted = [found for found in joined(cases.dense, rows) if count[found.sides] < TIMES]
            if wanted:
                agreed_with(cases, rng, rows, wanted[0].step, turn)
                turn += 1
            for found in wanted:
                # a pair's first two times have every kind on both sides, its third time has another sign
                order, time = pairs.index(found.sides), count[found.sides]
                changed_at(cases, rng, rows, found.step, order // 2 + time, order + time // 2, order + time)
                count[found.sides] += 1
    return count


def add_together(cases, rng):
    """Many rows first met at one step: neither side goes the short way there."""
    kinds = ["inside", "equal", "beginning", "behind", "between", "before"]
    orders = [[kind] for kind in kinds] + [["between", kind] for kind in kinds if kind != "between"] + [kinds]
    for number, order in enumerate(orders):
        step = 1 + number % 3
        rows = []
        while sum(row[0] == step for row in rows) < 3:          # some drawn lists have no room for what `order` asks
            rows = together(rng, 11 + number % 6, step, order, handed=number % 2 == 1)
        agreed_with(cases, rng, rows, step, number)
        changed_at(cases, rng, rows, step, number // 2, number, number)


# ------------------------------------------------------- plans without ticket 5

def lent_from(dense, rows, *names, n=None):
    """Puts the named parts of the plan that a program makes into the lent one: "counts", or stores."""
    def bend(counts, stores):
        plan = dense.plan(rows, n=n)
        made = dense.stores_of(plan)
        for name in names:
            if name == "counts":
                counts[:] = dense.counts_of(plan)
            else:
                stores[name][:] = made[name]
    return bend


def add_plans_before_5(cases, rng):
    """Patterns whose lists share with the end of the whole store: their own plan, and the plan by document 01 alone, which is 9. That plan whole, its
    stores under the pattern's own counts, its counts alone, and on each side that differs its starts alone; then 9 against 6 and 10."""
    before = cases.count
    for turn, (rows, ended) in enumerate(sharing_otherwise(cases.dense, rng, 2, 36)):
        values, right = numbers(rng, entries(rows), "plain"), numbers(rng, len(rows), "plain")

        def lent(*names, values=values, **other):
            return cases.run(rows, values, right, bend=lent_from(cases.before_5, rows, *names), **other)

        agreed_with(cases, rng, rows, ended[0].step if ended else 1, turn)
        own, alone = (dense.stores_of(dense.plan(rows)) for dense in (cases.dense, cases.before_5))
        starts = [[name] for name in ("l_starts", "u_starts") if own[name] != alone[name]]
        for names in (["counts", *PLAN_STORES], PLAN_STORES, ["counts"], *starts):
            assert lent(*names) == ("refused", 9, 0)
        if turn % 4 == 0:
            assert lent("counts", *PLAN_STORES, more={WORK_ROWS[turn // 4 % 3]: 1}) == ("refused", 6, 0)
            assert lent("counts", *PLAN_STORES, values=values[:-1]) == ("refused", 9, 0)
            assert lent(values=values[:-1]) == ("refused", 10, 0)
    return cases.count - before


# ------------------------------------------------------- the least magnitude of a pivot

def add_around_limit(cases, rng):
    """Systems around 2 to the power -1022; result stores are longer than planned now and then."""
    before, stopped = cases.count, sum(cases.limited.values())
    for turn, asked in enumerate(cases_limit.systems(rng)):
        cases.run(*asked, more={"lower": turn % 3, "upper": turn // 3 % 2})
    return cases.count - before, sum(cases.limited.values()) - stopped


# ------------------------------------------------------- more rows than columns

# four fields and three rows above n, the last one empty
TALL = cases_tall.over(FIELDS, [[1, 4], [3], []])
TALL_VALUES = FIELD_VALUES + [3.0, -1.0, 5.0]
TALL_RIGHT = FIELD_RIGHT + [-1.0, 4.0, 0.5]
TALL_HEIGHT = len(TALL.rows)


def tall_run(cases, listed=None, cut=4, values=TALL_VALUES, right=TALL_RIGHT, **other):
    """A run of the seven rows above; the answer's number, 0 where it finishes."""
    answer = cases.run(TALL.rows, values, right, listed, cut, n=4, **other)
    return 0 if answer[0] == "granted" else answer[1]


def add_tall_systems(cases, rng):
    """Systems whose pivot rows reach above n, or cannot; then small patterns with every kind of value, each cut after any number of steps."""
    for turn, (n, *asked) in enumerate(cases_tall.systems(rng)):
        cases.run(*asked, more={"lower": turn % 3, "upper": turn // 3 % 2}, n=n)
    for turn in range(240):
        pattern = cases_tall.drawn(rng)
        kind = ("plain", "small", "zeros", "tiny", "huge", "special")[turn % 6]
        values, right = numbers(rng, entries(pattern.rows), kind), numbers(rng, len(pattern.rows), rng.choice([kind, "plain"]))
        listed = cases_tall.any_rows(rng, pattern) if turn % 4 == 1 else list_to_follow(cases, rng, pattern.rows, pattern.n) if turn % 4 == 3 else None
        cases.run(pattern.rows, values, right, listed, rng.randint(0, pattern.n), n=pattern.n)


def add_tall_large(cases, rng):
    """2,048 rows, by the largest entry and by a list with which a run finishes."""
    for n, rows in cases_tall.most_rows(rng):
        values, right = numbers(rng, entries(rows), "plain"), numbers(rng, len(rows), "plain")
        cases.run(rows, values, right, cut=n, n=n)
        if n < 1024:
            cases.run(rows, values, right, list_to_follow(cases, rng, rows, n), rng.randint(1, n), n=n)
        if n < 8:
            cases.run(rows, values, right, [len(rows)] * n, n, n=n)
            assert cases.run(rows, values, right, n=n) == ("refused", 26, 0)


def add_26(cases):
    """Whole runs of more rows than columns: before 9 and what follows it, after 1, 25, 2 to 6."""
    def whole(**other):
        return tall_run(cases, cut=None, **other)

    def other_plan(counts, stores):
        counts[7] += 1

    for listed in (None, [1, 2, 3, 4], [5, 6, 7, 7]):
        assert whole(listed=listed) == 26
        assert tall_run(cases, listed) in (0, 13)                                                     # cut at n it is none
    for at in range(8):                                                                               # before 9
        assert whole(bend=change_count(at, 1)) == 26
    for name in PLAN_STORES:
        assert whole(bend=lambda counts, stores: move(stores[name], 0, 1)) == 26
    assert whole(values=TALL_VALUES[1:]) == whole(right=FIELD_RIGHT) == whole(more={"pivots": 3}) == whole(more={"lower": -1}) == 26     # before 10
    assert whole(values=[math.nan] * 12) == whole(right=[math.inf] * 7) == whole(listed=[8, 8, 8, 8]) == whole(values=[0.0] * 12) == 26  # before 11 to 13
    for name in WORK_NEXT + WORK_ROWS:                                                                # after 6
        assert whole(more={name: -3}, bend=other_plan) == whole(more={name: 1}) == 6
    for name in ("l_starts", "l_slots", "u_starts", "u_slots"):
        assert whole(bend=lambda counts, stores: stores[name].append(0)) == 6
    for number, most, lent in faulty_tall():
        assert whole(most=most, lent=lent) == whole(most=most, lent=lent, bend=other_plan) == number


def faulty_tall():
    """Faults of the seven rows' pattern, each with the largest n that is taken: 1, 25, 2 to 5."""
    yield 1, 3, lambda s, c: (4, 7, s, c)
    yield 1, 1024, lambda s, c: (0, 7, s, c)
    yield 1, 1024, lambda s, c: (1025, 7, s, c)
    yield 25, 1024, lambda s, c: (4, 3, s, c)
    yield 25, 1024, lambda s, c: (4, 2049, s, c)
    yield 25, 1024, lambda s, c: (8, 7, s, c)
    yield 2, 1024, lambda s, c: (4, 7, s[:-1], c)
    yield 2, 1024, lambda s, c: (4, 7, s[:5], c)
    yield 2, 1024, lambda s, c: (4, 6, s, c)
    yield 2, 1024, lambda s, c: (4, 8, s, c)
    yield 3, 1024, lambda s, c: (4, 7, s, c[:-1] + [6])
    yield 3, 1024, lambda s, c: (4, 7, s, c[:-1] + [0])
    yield 4, 1024, lambda s, c: (4, 7, s, c[:9] + [4, 4, 3])
    yield 5, 1024, lambda s, c: (4, 7, s, c[:6] + [1, 2, 3] + c[9:])


def add_tall_refused(cases):
    """Cut runs: 1, 25 and 2 to 6, and 10 to 12 by the row count or by n."""
    for number, most, lent in faulty_tall():
        assert tall_run(cases, most=most, lent=lent) == number
    for name in WORK_NEXT + WORK_ROWS:                                                                # 6: for n rows, and by one place
        for change in (4 - TALL_HEIGHT, -1, 1):
            assert tall_run(cases, more={name: change}) == 6
    for values in (TALL_VALUES[:-1], TALL_VALUES + [1.0], FIELD_VALUES):                              # 10
        assert tall_run(cases, values=values) == 10
    for right in (FIELD_RIGHT, TALL_RIGHT[:-1], TALL_RIGHT + [1.0], []):
        assert tall_run(cases, right=right) == 10
    for name, changes in (("solution", (-3, -1, 1)), ("pivots", (3, -1, 1)), ("diagonal", (3, -1, 1)), ("lower", (-1, -5)), ("upper", (-1, -4))):
        for change in changes:
            assert tall_run(cases, more={name: change}) == 10
    assert tall_run(cases, right=[math.nan] * 4) == 10                                                # before 11
    for bad in (math.inf, -math.inf, math.nan):                                                       # 11, above n
        assert tall_run(cases, values=TALL_VALUES[:-1] + [bad]) == 11
        for at in (4, 6):
            assert tall_run(cases, right=TALL_RIGHT[:at] + [bad] + TALL_RIGHT[at + 1:]) == 11
    assert tall_run(cases, [9, 9], 9, values=[math.nan] * 12) == 11                                   # before 12
    for k in range(4):                                                                                # 12 by the row count
        for p, number in ((TALL_HEIGHT, 0), (TALL_HEIGHT + 1, 12), (k, 12), (65535, 12)):
            found = tall_run(cases, [1, 2, 3, 4][:k] + [p] + [1, 2, 3, 4][k + 1:], k)                 # the step is not run
            assert found == number
    for length in (0, 3, 5, TALL_HEIGHT, TALL_HEIGHT + 1):                                            # by n: the list's length, and s
        assert tall_run(cases, [1, 2, 3, 4, 5, 6, 7, 8][:length]) == 12
    for cut in (5, TALL_HEIGHT, TALL_HEIGHT + 1, 65535):
        assert tall_run(cases, None, cut) == tall_run(cases, [1, 2, 3, 4], cut) == 12
    assert tall_run(cases, [1, 2, 3, 8], values=[0.0] * 12) == 12                                     # before 13


def add_tall_plans(cases, rng):
    """9: another row count, the plan of the square or of one row more, and one number changed at a step whose L has rows above n."""
    for change in (-1, 1, 4 - TALL_HEIGHT, 2048):
        assert tall_run(cases, bend=change_count(1, change)) == 9
    for rows, n in ((FIELDS, 4), (TALL.rows + [[]], 4), (TALL.rows + [[2]], 4), (TALL.rows[:-1], 4)):
        for names in (["counts", *PLAN_STORES], ["counts"]):
            assert tall_run(cases, bend=lent_from(cases.dense, rows, *names, n=n)) == 9
    assert tall_run(cases, bend=lent_from(cases.dense, TALL.rows + [[]], *PLAN_STORES, n=4)) == 0    # an empty row changes its count alone
    assert tall_run(cases, bend=change_count(1, 1), right=FIELD_RIGHT) == 9                           # before 10
    assert tall_run(cases, bend=change_count(1, 1), more={"copy": -3}) == 6
    turn = 0
    while turn < 24:
        pattern = cases_tall.drawn(rng)
        plan = cases.dense.plan(pattern.rows, n=pattern.n)
        steps = [k for k in range(1, pattern.n + 1) if plan.u_side.kept[k] and any(i > pattern.n for i in plan.l_side.kept[k])]
        if steps:
            agreed_with(cases, rng, pattern.rows, steps[0], turn, pattern.n)
            changed_at(cases, rng, pattern.rows, rng.choice(steps), turn, turn // 2, turn, pattern.n)
            turn += 1


def add_tall(cases, rng):
    """All of them; how many, and what they reach."""
    before, finished, answers = cases.count, sum(cases.finished.values()), dict(cases.answers)
    add_tall_systems(cases, rng)
    add_tall_large(cases, rng)
    add_26(cases)
    add_tall_refused(cases)
    add_tall_plans(cases, rng)
    reached = {number: count - answers.get(number, 0) for number, count in sorted(cases.answers.items()) if count > answers.get(number, 0)}
    return f"{cases.count - before}, finished {sum(cases.finished.values()) - finished}, refused {reached}"


def main():
    if len(sys.argv) != 2:
        raise SystemExit(__doc__)
    rng, cases = random.Random(19841984), Cases(Dense(sys.argv[1]), Dense(sys.argv[1], share_end=False), Dense(sys.argv[1], faint=False))
    add_named(cases, rng)
    add_refused(cases, rng)
    add_random(cases, rng)
    add_large(cases, rng)
    rng = random.Random(19841985)       # a seed of their own, so that the requests above can stay as they are
    sides = add_joined(cases, rng)
    add_together(cases, rng)
    plans = add_plans_before_5(cases, random.Random(19841986))
    around, stopped = add_around_limit(cases, random.Random(19841987))
    more_rows = add_tall(cases, random.Random(19841988))
    write_files("cases_elimination", cases.bytes, "\n".join(cases.lines) + "\n")
    print(f"{cases.count} requests; finished {cases.finished}; refused {dict(sorted(cases.answers.items()))}; "
          f"steps of 13 {sorted(cases.steps[13])}, of 14 {sorted(cases.steps[14])}; "
          f"{len(sides)} pairs of what a row is to L and to U, each at {min(sides.values())} steps; "
          f"with plans without ticket 5: {plans}; by it verified otherwise {cases.otherwise[0]}, run otherwise {cases.otherwise[1]}; "
          f"with more rows than columns: {more_rows}, reaching above n {cases.above}; around the limit: {around}, of which {stopped} run otherwise without ticket 14; of all, by the number without it {dict(sorted(cases.limited.items()))}")


if __name__ == "__main__":
    main()
