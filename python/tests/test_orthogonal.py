"""Orthogonal steps in the slots of the library's plans (document 02, ticket 7): the example and its page, Householder and Givens steps in
slots against numpy, and steps of every kind on whole numbers."""

import contextlib
import io
import os
import subprocess
import sys
import unittest
import unittest.mock
from collections import Counter
from fractions import Fraction
from random import Random

import numpy as np

import test_examples
from support import ROOT, csr, dalumiveth, four_fields
from systems import random_tall

sys.path += [str(ROOT / "examples"), str(ROOT / "tools")]

import householder  # noqa: E402  (its path comes first)
import picture  # noqa: E402

KINDS = (householder.HOUSEHOLDER, householder.GIVENS)
SYSTEMS = 400
RUNS = 2000
GAUSSIAN = 500
PICTURE_TITLE = "60 fields, seen by two observers"


class Planned:
    """What a plan has room for: its slots, and the sets L_k and U_k with k; all from 0."""

    def __init__(self, plan):
        self.lower = [{k, *plan.lower(k).tolist()} for k in range(plan.n)]
        self.upper = [{k, *plan.upper(k).tolist()} for k in range(plan.n)]
        self.slots = {(k, j) for k, columns in enumerate(self.upper) for j in columns}
        self.slots |= {(i, k) for k, rows in enumerate(self.lower) for i in rows}

    def faults(self, k, rows, vector):
        """What lies outside after step k: nonzeros of rows, of the vector (the rows where it has one) and of row k of the upper factor; and
        what is left below the diagonal in the columns up to k, where the vectors are."""
        found = [("row", i, j) for i, j in nonzeros(rows) if (i, j) not in self.slots]
        found += [("vector", i, k) for i in vector if i not in self.lower[k]]
        found += [("factor", k, j) for _, j in nonzeros(rows[k : k + 1]) if j not in self.upper[k]]
        return found + [("not cleared", i, j) for i, j in nonzeros(rows) if j <= k and i > j]


def nonzeros(rows):
    """The places that hold a nonzero."""
    return [(i, j) for i, row in enumerate(rows) for j, number in enumerate(row) if number != 0]


def involved(rows, k):
    """Row k and the rows below it that have a nonzero in column k."""
    return [k] + [i for i in range(k + 1, len(rows)) if rows[i][k] != 0]


def union(rows, chosen):
    """The columns in which one of the chosen rows has a nonzero, ascending."""
    return sorted({j for i in chosen for j, number in enumerate(rows[i]) if number != 0})


class Example(unittest.TestCase):
    """examples/householder.py and docs/ORTHOGONAL.md."""

    run_block = test_examples.Examples.run_block

    def test_example(self):
        """As a user runs it."""
        command = [sys.executable, str(ROOT / "examples" / "householder.py")]
        told = subprocess.run(command, env={**os.environ, "PYTHONPATH": str(ROOT / "python")}, capture_output=True, text=True, check=False)
        self.assertEqual((told.returncode, told.stderr), (0, ""))
        self.assertEqual(told.stdout, (ROOT / "examples" / "householder.expected").read_text())

    def test_wrong_arithmetic_is_told(self):
        with unittest.mock.patch.object(householder.HOUSEHOLDER, "reduce", lambda block: (householder.reflect(block)[0], 1.0)):
            self.assertEqual(printed([]), (1, ["no", "yes"]))

    def test_nonzero_without_slot(self):
        """Of another pattern's plan, and in a column outside U_1 though it has a slot: row 3 has one in column 4 from step 3 on."""
        matrix, _ = four_fields()
        plan = dalumiveth.plan(matrix)
        with self.assertRaisesRegex(LookupError, "has no slot"):
            householder.factored(dalumiveth.plan(csr(4, [[0], [1], [2], [3]])), matrix, householder.HOUSEHOLDER)
        slots = householder.Slots(plan)
        slots[2, 0], slots[2, 3] = 1.0, 0.0
        self.assertEqual(householder.block_of(slots, 0), ([0, 2], [0, 2]))
        slots[2, 3] = 1.0
        with self.assertRaisesRegex(LookupError, "outside U_0"):
            householder.block_of(slots, 0)

    def test_slots_of_the_four_fields(self):
        """By the formula, against the lists."""
        plan = dalumiveth.plan(four_fields()[0])
        found = {(i, j): householder.slot(plan, i, j) for i in range(4) for j in range(4)}
        self.assertEqual({place for place, slot in found.items() if slot}, Planned(plan).slots)
        self.assertEqual((found[0, 2], found[1, 2], found[1, 3], found[2, 3]), (("u", 0), ("u", 1), ("u", 2), ("u", 3)))
        self.assertEqual((found[2, 0], found[3, 1], found[3, 2], found[3, 3]), (("l", 0), ("l", 1), ("l", 2), ("d", 3)))

    def test_page(self):
        """Each block of Python runs as it stands."""
        found = test_examples.blocks((ROOT / "docs" / "ORTHOGONAL.md").read_text())
        self.assertGreater(len(found), 0)
        for number, block in enumerate(found):
            with self.subTest(block=number):
                self.run_block(f"example {number}", block)

    def test_picture(self):
        """The page's picture is the example's."""
        out = io.StringIO()
        with contextlib.redirect_stdout(out):
            self.assertEqual(householder.main(["--places"]), 0)
        drawn = picture.placed_picture(picture.Placed(out.getvalue()), PICTURE_TITLE)
        self.assertEqual(drawn, (ROOT / "docs" / "pictures" / "orthogonal.svg").read_text())
        self.assertIn(PICTURE_TITLE, (ROOT / "docs" / "ORTHOGONAL.md").read_text())


def printed(arguments):
    """Status of the example, and the last word of each kind's line."""
    out = io.StringIO()
    with contextlib.redirect_stdout(out):
        status = householder.main(arguments)
    return status, [line.split()[-1] for line in out.getvalue().splitlines()[1:]]


class InSlots(unittest.TestCase):
    """Householder and Givens steps of the example on random patterns of n rows and more."""

    def setUp(self):
        self.seen = Counter()

    def test_against_numpy(self):
        random = np.random.default_rng(207)
        for number in range(SYSTEMS):
            system = middling(random)
            plan = dalumiveth.plan(csr(system.n, system.rows, system.data))
            for kind in KINDS:
                with self.subTest(system=number, kind=kind.name):
                    self.compare(plan, system, kind)
                    self.full_rectangle(plan, system.rectangle(), kind)
        for what in ("square", "tall", "empty row", "-0", "full rank", "not of full rank", "zero at row k", "row left alone", "slot of 0"):
            self.assertGreater(self.seen[what], 100, what)

    def compare(self, plan, system, kind):
        """R up to signs, and where the rank is full the solution; R^T R is A^T A in any case."""
        given = system.rectangle()
        slots = householder.factored(plan, csr(system.n, system.rows, system.data), kind)
        R = np.array([[slots[k, j] if j >= k else 0.0 for j in range(system.n)] for k in range(system.n)])
        self.assertTrue(np.allclose(R.T @ R, given.T @ given, atol=1e-9))
        sizes = np.linalg.svd(given, compute_uv=False)
        self.note(system, slots, sizes[-1] > 1e-5 * sizes[0])
        if sizes[-1] > 1e-5 * sizes[0]:
            self.assertTrue(np.allclose(np.abs(R), np.abs(np.linalg.qr(given, mode="r")), atol=1e-8))
            x, misfit = householder.least_squares(slots, kind, system.right)
            expected = np.linalg.lstsq(given, system.right, rcond=None)[0]
            self.assertTrue(np.allclose(x, expected, rtol=1e-7, atol=1e-7))
            self.assertTrue(np.isclose(misfit, np.sum((system.right - given @ expected) ** 2), atol=1e-9))

    def full_rectangle(self, plan, rows, kind):
        """The same arithmetic on the full rectangle, on the union of columns as ticket 7 has it, without a plan: nothing lies outside."""
        planned = Planned(plan)
        for k in range(plan.n):
            chosen = involved(rows, k)
            self.seen["zero at row k"] += len(chosen) > 1 and rows[k, k] == 0
            self.seen["row left alone"] += len(planned.lower[k]) > len(chosen)
            vector = []
            if len(chosen) > 1:
                block = np.ix_(chosen, union(rows, chosen))
                rows[block], _ = kind.reduce(rows[block])
                vector = [i for i in chosen if i == k or rows[i, k] != 0]
                rows[chosen[1:], k] = 0.0
            self.assertEqual(planned.faults(k, rows, vector), [])

    def note(self, system, slots, full_rank):
        self.seen["square" if len(system.rows) == system.n else "tall"] += 1
        self.seen["empty row"] += [] in system.rows
        self.seen["-0"] += bool(np.any((system.data == 0) & np.signbit(system.data)))
        self.seen["full rank" if full_rank else "not of full rank"] += 1
        self.seen["slot of 0"] += bool(np.any(slots.l == 0) or np.any(slots.u == 0))


def middling(random):
    """A random system of n rows or more without tiny and huge values, so that numpy's solution can be compared; zeros of both signs stay."""
    while True:
        system = random_tall(random, 7)
        sizes = np.abs(system.data[system.data != 0])
        if np.all((sizes > 1e-3) & (sizes < 1e3)) and np.all(np.abs(system.right) < 1e3):
            return system


class AnyNumbers(unittest.TestCase):
    """Ticket 7's process on whole numbers and fractions, without arithmetic of any kind in mind, on random patterns."""

    def test_any_rows_in_the_union(self):
        """The involved rows become any rows within the union of their columns: often all of it, sometimes less, sometimes nothing; some change
        places, column k cleared below row k."""
        random, seen = Random(7), Counter()
        for number in range(RUNS):
            matrix, rows = random_start(random)
            with self.subTest(run=number):
                self.all_steps(Planned(dalumiveth.plan(matrix)), rows, lambda rows, k: random_step(random, rows, k, seen))
            seen["tall"] += len(rows) > len(rows[0])
        for what in ("tall", "row k alone", "zero at row k", "row above n", "all of the union", "less", "nothing", "vector", "exchanged"):
            self.assertGreater(seen[what], RUNS // 10, what)

    def all_steps(self, planned, rows, step):
        """Every step, each followed by a look at all that there is."""
        self.assertEqual([place for place in nonzeros(rows) if place not in planned.slots], [])
        for k in range(len(rows[0])):
            self.assertEqual(planned.faults(k, rows, step(rows, k)), [])

    def test_every_slot_is_used(self):
        """With every given number and every new one nonzero no slot stays empty: no smaller plan would do."""
        random = Random(17)
        for _ in range(200):
            matrix, rows = random_start(random, zeros=0.0)
            used = set(nonzeros(rows))
            for k in range(len(rows[0])):
                replace(random, rows, k, involved(rows, k), [1.0])
                used |= set(nonzeros(rows))
            self.assertEqual(used, Planned(dalumiveth.plan(matrix)).slots)

    def test_gaussian_steps(self):
        """Elimination without exchange, in fractions, as long as there is a pivot; the vectors are its multipliers. Where it comes to its
        end, the library's own run has the same numbers in the same slots."""
        random, ended = Random(27), 0
        for number in range(GAUSSIAN):
            matrix, rows = random_start(random, most=6, zeros=0.1)
            plan = dalumiveth.plan(matrix)
            with self.subTest(run=number):
                multipliers = self.eliminate(Planned(plan), rows)
                if multipliers is not None:
                    run = plan.run(matrix, np.zeros(plan.height), rows=range(plan.n), steps=plan.n)
                    expected = [[float(multipliers.get((i, j), number)) for j, number in enumerate(row)] for i, row in enumerate(rows)]
                    self.assertTrue(np.allclose(run.rectangle(), expected, rtol=1e-6, atol=1e-6))
                    ended += 1
        self.assertGreater(ended, GAUSSIAN // 4)

    def eliminate(self, planned, rows):
        """The multipliers by place; None where a step has no pivot."""
        multipliers = {}
        for k in range(len(planned.upper)):
            if rows[k][k] == 0:
                return None
            chosen = involved(rows, k)
            columns = union(rows, chosen)
            for i in chosen[1:]:
                multipliers[i, k] = Fraction(rows[i][k]) / rows[k][k]
                rows[i] = [number - multipliers[i, k] * above for number, above in zip(rows[i], rows[k])]
            self.assertTrue(set(union(rows, chosen)) <= set(columns))
            self.assertEqual(planned.faults(k, rows, chosen[1:]), [])
        return multipliers

    def test_other_steps_are_noticed(self):
        """Outside the union, into a row that is not involved, with column k not cleared, and with a vector at every row from k on: what the
        ticket does not allow is seen."""
        def beyond(random, rows, k):
            replace(random, rows, k, involved(rows, k), [1.0], columns=range(k, len(rows[0])))

        def every_row(random, rows, k):
            replace(random, rows, k, range(k, len(rows)), [1.0], columns=union(rows, involved(rows, k)))

        def not_cleared(random, rows, k):
            replace(random, rows, k, involved(rows, k), [1.0])
            rows[-1][k] = 1

        def long_vector(random, rows, k):
            replace(random, rows, k, involved(rows, k), [1.0])
            return range(k, len(rows))

        for step, what in ((beyond, "factor"), (every_row, "row"), (not_cleared, "not cleared"), (long_vector, "vector")):
            random, found = Random(37), Counter()
            for _ in range(100):
                matrix, rows = random_start(random)
                planned = Planned(dalumiveth.plan(matrix))
                for k in range(len(rows[0])):
                    vector = step(random, rows, k) or []
                    found.update(fault[0] for fault in planned.faults(k, rows, vector))
            self.assertGreater(found[what], 50, step.__name__)


def random_start(random, most=9, zeros=0.2):
    """A matrix of n rows or more, some of those above n empty, with whole numbers at its places, some of them 0; and its full rows."""
    n = random.randint(1, most)
    height = n + random.choice((0, 0, 1, n, random.randint(0, 12)))
    density = random.choice((0.05, 0.15, 0.3, 0.6))
    present = [[j for j in range(n) if j == i or random.random() < density] for i in range(height)]
    rows = [[0] * n for _ in range(height)]
    for i, columns in enumerate(present):
        for j in columns:
            rows[i][j] = 0 if random.random() < zeros else nonzero(random)
    return csr(n, present, [rows[i][j] for i, columns in enumerate(present) for j in columns]), rows


def nonzero(random):
    return random.choice((-1, 1)) * random.randint(1, 9)


def replace(random, rows, k, chosen, shares, columns=None):
    """Each chosen row becomes one with nonzeros in some share of the columns (None: of the chosen rows' union), below k none in column k."""
    columns = union(rows, chosen) if columns is None else columns
    for i in chosen:
        share = random.choice(shares)
        filled = {j for j in columns if random.random() < share and not (i > k and j == k)}
        rows[i] = [nonzero(random) if j in filled else 0 for j in range(len(rows[i]))]


def exchange(random, rows, k, chosen, seen):
    """The chosen rows change places among themselves, and those below k lose column k."""
    others = random.sample(chosen, len(chosen))
    seen["exchanged"] += others != chosen
    for i, row in zip(chosen, [list(rows[h]) for h in others]):
        rows[i] = [0 if i > k and j == k else number for j, number in enumerate(row)]


def random_step(random, rows, k, seen):
    """Step k with rows by chance; the rows at which its vector has a nonzero."""
    chosen = involved(rows, k)
    columns = set(union(rows, chosen))
    seen["row k alone"] += len(chosen) == 1
    seen["zero at row k"] += len(chosen) > 1 and rows[k][k] == 0
    seen["row above n"] += chosen[-1] >= len(rows[k])
    if random.random() < 0.2:
        exchange(random, rows, k, chosen, seen)
    else:
        replace(random, rows, k, chosen, [1.0, 1.0, 1.0, 0.6, 0.0])
    for i in chosen:
        filled = {j for j, number in enumerate(rows[i]) if number != 0}
        seen["nothing" if not filled else "all of the union" if filled >= columns - {k} else "less"] += 1
    vector = [i for i in chosen if random.random() < 0.8]
    seen["vector"] += bool(vector)
    return vector


if __name__ == "__main__":
    unittest.main()
