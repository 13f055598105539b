#!/usr/bin/env python3
"""Writes the requests and the expected lines of the program crates/cases_loads.

  tools/cases_loads.py DENSE_FOLDER

DENSE_FOLDER holds the program of different authorship that document 01 asks for (dense_program.py). Every answer, row start, column, value and right side comes from it; the
zeros behind the entries and after a refusal are said in dense_program.py. The files stdin and stdout of the crate are written anew; the seed is fixed, so that they come out the same.

A request: "L" to show each place, or "S" to show sums alone, and seven numbers of eight bytes, low byte first: seed, n, d, and how many row starts, columns, values and right
sides are lent.
"""
import collections
import functools
import itertools
import random
import struct
import sys

from cases_files import write_files
from dense_program import Dense
from seeded_load import Draws

ROWS, ENTRIES = 1024, 16384
SEEDS = 0, 1, 2 ** 32 - 1
STEP, LARGEST_NUMBER = 2654435769, 2 ** 64 - 1
SHOWN_ROWS, PRIME = 24, 4294967291
STORES = "starts", "columns", "values", "right"
NO_ROWS = 0, ROWS + 1, 2 ** 32, 2 ** 32 + 3, 2 ** 63, LARGEST_NUMBER      # in 32 bits two of them would be 0 and 3; of the largest n + 1 would be 0
# Loads that meet the limit, found by trying seeds, as seed, n and d: with 16,384 entries; with 16,385, so that the last place of all passes; that pass within the last row; and
# whose row before the last passes with its last entry.
EXACT = (60, 180, 2), (335, 180, 2), (3, 221, 3), (613, 1024, 68)
ONE_MORE = (4, 180, 2), (207, 180, 2), (43, 221, 3), (517, 1024, 68)
LAST_ROW = (5, 180, 2), (0, 221, 3), (4, 1024, 68)
ROW_BEFORE = (1471, 181, 2), (411, 221, 3), (56, 1024, 68)


def bits_of(x):
    return struct.unpack("<Q", struct.pack("<d", x))[0]


def shown(place):
    return f"{bits_of(place):016x}" if isinstance(place, float) else str(place)


def sum_over(places):
    total = 0
    for place in places:
        total = (total * 65599 + (bits_of(place) if isinstance(place, float) else place)) % PRIME
    return total


def store_line(name, store, filled, each):
    """A store's line: the places that the load fills, if each is shown, and a sum over them; how many lie behind them, and how many of these are not zero."""
    places, rest = store[:filled], store[filled:]
    others = sum(shown(place).strip("0") != "" for place in rest)
    return " ".join((name, *(map(shown, places) if each else ()), f"sum {sum_over(places)} rest {len(rest)} {others}"))


def fitting(n):
    """The lengths that a load of n rows asks for."""
    return n + 1, ENTRIES, ENTRIES, n


@functools.lru_cache(maxsize=1)
def ends_of_rows(seed, n, d):
    """How many entries there would be at the end of each row if there were no limit: a count of our own, beside the program that is asked."""
    draws, entries, ends = Draws(seed), 0, []
    for i, j in itertools.product(range(n), range(n)):
        if i == j or draws.next() % d == 0:
            entries += 1
            draws.next()
        if j == n - 1:
            draws.next()
            ends.append(entries)
    return ends


def foreseen(seed, n, d, lengths):
    """The refusal's number, 0 if there is none, in the order of the document. That a d of 1 passes with 129 rows needs no count."""
    if not 1 <= n <= ROWS:
        return 1
    if d == 0:
        return 23
    if lengths != fitting(n):
        return 6
    return 1 if d == 1 and n > 128 or ends_of_rows(seed, n, d)[-1] > ENTRIES else 0


class Cases:
    """The requests and the lines so far; how often each answer came, and how often the ends of the range and zero came as values and right sides."""

    def __init__(self, dense):
        self.dense, self.bytes, self.lines = dense, bytearray(), []
        self.answers, self.extremes = collections.Counter(), collections.Counter()

    def load(self, seed, n, d, lengths=None):
        """A call; the refusal's number, 0 if there is none, and the load without the places behind it. A small load is shown place by place."""
        lengths, each = lengths or fitting(n), n <= SHOWN_ROWS
        self.bytes += (b"L" if each else b"S") + struct.pack("<7Q", seed, n, d, *lengths)
        answer, stores = self.dense.load(seed, n, d, lengths)
        number, entries = (0, answer[1]) if answer[0] == "granted" else (answer[1], 0)
        filled = (n + 1, entries, entries, n) if number == 0 else (0, 0, 0, 0)
        self.lines.append(" ".join(map(str, ("load", seed, n, d, *lengths, *answer))))
        self.lines += [store_line(*store, each) for store in zip(STORES, stores, filled)]
        self.expect(number, foreseen(seed, n, d, lengths))
        self.answers[number] += 1
        load = [store[:count] for store, count in zip(stores, filled)]
        if number == 0:
            self.expect_load(seed, n, d, *load)
        return number, load

    def expect(self, found, wanted):
        """The generator, or the program that is asked, is at fault if an answer that follows from the document is another."""
        assert found == wanted, (found, wanted, next(line for line in reversed(self.lines) if line.startswith("load")))

    def expect_load(self, seed, n, d, starts, columns, values, right):
        """What the document says of every load: rows by ascending columns, each with its diagonal; values and right sides are whole and +0 is the only zero."""
        self.expect(starts, [0, *ends_of_rows(seed, n, d)])
        for i in range(1, n + 1):
            row = columns[starts[i - 1]:starts[i]]
            self.expect((i in row, row), (True, sorted({*row} & {*range(1, n + 1)})))
        for place in (*values, *right):
            self.expect((place.is_integer() and abs(place) <= 1000, shown(place) == shown(-0.0)), (True, False))
        self.extremes.update((name, place) for name, places in (("value", values), ("right", right)) for place in places if place in (-1000.0, 0.0, 1000.0))


# ------------------------------------------------------------------ loads

def small(cases):
    for seed, n, d in itertools.product((*SEEDS, 2 ** 31 - 1, 2 ** 31), range(1, 6), (2, 3, 5)):
        cases.load(seed, n, d)


def every_place(cases):
    """A d of 1: 128 rows have 16,384 entries, 129 rows pass them."""
    for seed, n in itertools.product(SEEDS, (*range(1, 7), 127, 128)):
        number, (_, columns, _, _) = cases.load(seed, n, 1)
        cases.expect((number, columns), (0, [*range(1, n + 1)] * n))
    for seed, n in itertools.product(SEEDS, (129, 130, 500, ROWS)):
        cases.expect(cases.load(seed, n, 1)[0], 1)


def divisors(cases):
    """Small ones; and those above every draw, which leave the diagonal: the first of them would be 0, 1 and 2 in 32 bits."""
    for seed, d in itertools.product((7, 1984), range(2, 13)):
        cases.load(seed, 6, d)
    for seed, n, d in itertools.product(SEEDS, (1, 5), (2 ** 32, 2 ** 32 + 1, 2 ** 32 + 2, 2 ** 63, 2 ** 63 + 1, LARGEST_NUMBER)):
        cases.expect(cases.load(seed, n, d)[1][:2], [[*range(n + 1)], [*range(1, n + 1)]])


def own_divisor(cases):
    """The second draw of a load of two rows is that of row 1, column 2: a d equal to it, beside it, twice it, and equal to it in 32 bits."""
    for seed in (*SEEDS, 424242):
        draws = Draws(seed)
        draw = (draws.next(), draws.next())[1]
        for d, present in ((draw, True), (draw - 1, False), (draw + 1, False), (2 * draw, False), (draw + 2 ** 32, False)):
            cases.expect(cases.load(seed, 2, d)[1][0][1], 2 if present else 1)


def drawn_zero(cases):
    """A draw of 0 comes from a state of 0. As the draw of a place it divides by every d; as a value or a right side it is -1,000."""
    first, second = -STEP % 2 ** 32, -2 * STEP % 2 ** 32
    for d in (1, 2, 3, 2 ** 31, 2 ** 32 - 1, 2 ** 32, LARGEST_NUMBER):
        cases.expect(cases.load(second, 2, d)[1][0][1], 2)
    cases.expect(cases.load(first, 1, 7)[1][2], [-1000.0])
    cases.expect(cases.load(second, 1, 7)[1][3], [-1000.0])


def extremes(cases):
    """The ends of the range and zero, as a value and as a right side of one row: the first seeds that give them."""
    for at, wanted in itertools.product((2, 3), (-1000.0, 0.0, 1000.0)):
        seed = next(seed for seed in itertools.count() if cases.dense.load(seed, 1, 1, fitting(1)).stores[at][0] == wanted)
        cases.expect(cases.load(seed, 1, 1)[1][at], [wanted])


def at_the_limit(cases):
    for load in EXACT:
        cases.expect(cases.load(*load)[1][0][-1], ENTRIES)
    for loads, holds in ((ONE_MORE, lambda ends: ends[-1] == ENTRIES + 1), (LAST_ROW, lambda ends: ends[-2] <= ENTRIES < ends[-1] - 1),
                         (ROW_BEFORE, lambda ends: ends[-2] == ENTRIES + 1)):
        for load in loads:
            cases.expect((cases.load(*load)[0], holds(ends_of_rows(*load))), (1, True))


def large(cases):
    """As many rows as there may be, and one row less."""
    for seed, n, d in ((0, ROWS, 80), (1, ROWS, 81), (2 ** 32 - 1, ROWS - 1, 79), (7, 512, 17), (7, 300, 6)):
        cases.expect(cases.load(seed, n, d)[0], 0)
    for seed in SEEDS:
        cases.expect(cases.load(seed, ROWS, LARGEST_NUMBER)[1][1], [*range(1, ROWS + 1)])


# ------------------------------------------------------------------ refusals

def lengths_beside(n):
    """Lengths that a load of n rows does not ask for: each store a place short, a place long and empty; two at once, one short and one long; as many places as rows; all empty."""
    good, found = fitting(n), [(n, ENTRIES, ENTRIES, n), (n + 1, n, n, n), (0, 0, 0, 0)]
    for at in range(4):
        found += [(*good[:at], length, *good[at + 1:]) for length in (good[at] - 1, good[at] + 1, 0)]
    for short, long in itertools.permutations(range(4), 2):
        found.append(tuple(length - (at == short) + (at == long) for at, length in enumerate(good)))
    return list(dict.fromkeys(found))


def no_rows(cases):
    """1 for n, whatever d and the lengths are: before 23 and before 6. An n of 0 and one of 1,025 come with all lengths right too."""
    for n, d in itertools.product(NO_ROWS, (0, 1, 3, LARGEST_NUMBER)):
        near = min(n, ROWS + 1)
        beside = [(near + 1, ENTRIES, ENTRIES, near), (near, ENTRIES, ENTRIES, near), (near + 1, ENTRIES - 1, ENTRIES, near), (near + 1, ENTRIES, ENTRIES + 1, near)]
        for lengths in dict.fromkeys((*beside, (4, ENTRIES, ENTRIES, 3), (0, ENTRIES, ENTRIES, 0), (0, 0, 0, 0))):
            cases.expect(cases.load(5, n, d, lengths)[0], 1)


def no_divisor(cases):
    """23, before 6."""
    for n in (1, 3, 129, ROWS):
        for lengths in (fitting(n), *lengths_beside(n)):
            cases.expect(cases.load(5, n, 0, lengths)[0], 23)


def stores(cases):
    """6, before any draw: 1,024 rows with a d of 1 would pass the entries."""
    for n, d in ((1, 1), (3, 2), (128, 1), (129, 1), (ROWS, 1), (ROWS, 80)):
        for lengths in lengths_beside(n):
            cases.expect(cases.load(5, n, d, lengths)[0], 6)


# ------------------------------------------------------------------ at random

def drawn(cases, rng):
    """Small loads place by place, loads of all sizes around the limit by sums, and requests with any length wrong."""
    for _ in range(60):
        cases.load(rng.getrandbits(32), rng.randint(1, 12), rng.choice((rng.randint(1, 9), rng.randint(1, 60), rng.getrandbits(rng.randint(1, 64)) or 1)))
    for _ in range(24):
        n = rng.randint(SHOWN_ROWS + 1, 400)
        cases.load(rng.getrandbits(32), n, max(1, n * n // ENTRIES + rng.randint(-1, 2)))
    for _ in range(60):
        n = rng.choice((rng.randint(0, 12), rng.randint(1020, 1024)))
        lengths = tuple(max(0, length + rng.choice((0, 0, 0, -1, 1))) for length in fitting(n))
        cases.load(rng.getrandbits(32), n, rng.choice((0, 1, 2, 90, rng.getrandbits(64))), lengths)


def main():
    if len(sys.argv) != 2:
        raise SystemExit(__doc__)
    cases = Cases(Dense(sys.argv[1]))
    for group in (small, every_place, divisors, own_divisor, drawn_zero, extremes, at_the_limit, large, no_rows, no_divisor, stores):
        group(cases)
    drawn(cases, random.Random(8443))
    assert sorted(cases.answers) == [0, 1, 6, 23], cases.answers
    assert len(cases.extremes) == 6, cases.extremes
    # the last request is cut short: it ends the program
    cases.bytes += b"L" + bytes(55)
    cases.lines.append("bad request")
    write_files("cases_loads", cases.bytes, "\n".join(cases.lines) + "\n")
    print(f"{sum(cases.answers.values())} calls; answers by number (0: granted) {dict(sorted(cases.answers.items()))}")
    print(f"of values and right sides, the ends of the range and zero {dict(sorted(cases.extremes.items()))}")


if __name__ == "__main__":
    main()
