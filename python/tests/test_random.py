"""1,000 random squares and 4,000 systems of n rows and more: plan and runs against the dense reference, bit for bit."""

import unittest
from collections import Counter

import numpy as np

import reference
from support import bits, csr, dalumiveth
from systems import banded, filled, random_list, random_system, random_tall

SYSTEMS = 1000
LARGER = 30
TALL = 4000
REFUSED_IN_STEPS = ("13", "13 by the limit alone", "14 in a step")
MET = ("past fainter entries", "-0", "subnormal", "slot of 0", "exchange")


def at_ends(n):
    """Cuts at the beginning and at the end."""
    return sorted({0, min(1, n), n - 1, n})


def at_every_step(n):
    return range(n + 1)


class RandomSystems(unittest.TestCase):
    """Largest and listed, whole and cut."""

    def setUp(self):
        self.seen = Counter()

    def compare_many(self, systems, seed, make, most, cuts):
        random = np.random.default_rng(seed)
        for number in range(systems):
            with self.subTest(system=number):
                self.compare(random, make(random, most), cuts)

    def test_larger_systems(self):
        self.compare_many(LARGER, 1984, random_system, 80, at_ends)
        self.assertGreater(self.seen["finished", None], LARGER // 3)
        self.compare_many(LARGER, 2048, random_tall, 40, at_ends)
        self.assertGreater(self.seen["26"], LARGER)

    def test_bits_equal_the_dense_elimination(self):
        self.compare_many(SYSTEMS, 20261115, random_system, 16, at_ends)
        self.assertGreater(self.seen["finished", None], SYSTEMS)
        for what in (*REFUSED_IN_STEPS, "14 in back substitution", *MET):
            self.assertGreater(self.seen[what], 20, what)

    def test_tall_systems(self):
        """Rows n, n+1, 2n and others, empty ones among them; whole runs of more rows than n are 26."""
        self.compare_many(TALL, 209, random_tall, 8, at_every_step)
        heights = ("n rows", "n+1 rows", "2n rows", "other rows", "empty row beyond n")
        chosen = [(way, where) for way in ("largest", "listed") for where in ("below n", "beyond n")]
        for what in (*REFUSED_IN_STEPS, *MET, "26", *heights, *chosen, *(("finished", steps) for steps in range(9))):
            self.assertGreater(self.seen[what], 50, what)

    def test_tallest(self):
        """2,048 rows: of one field, of as many places as there may be, and of the most fields."""
        random = np.random.default_rng(2048)
        for system in (filled(random, 1, 2048), filled(random, 8, 2048), banded(random, 1024, 2048)):
            with self.subTest(n=system.n):
                self.compare(random, system, at_ends)
        self.assertGreater(min(self.seen["largest", "beyond n"], self.seen["listed", "beyond n"]), 5)
        self.assertEqual((self.seen["26"], self.seen["0"]), (6, 6))

    def compare(self, random, system, cuts):
        matrix = csr(system.n, system.rows, system.data)
        self.note_rows(system)
        plan = dalumiveth.plan(matrix)
        expected = reference.plan_of(system.n, [[column + 1 for column in row] for row in system.rows])
        self.assertEqual(tuple(plan.counts), expected.counts)
        self.assertEqual(tuple(store.tolist() for store in plan.stores), expected.stores)
        chosen = np.arange(system.n)
        for rows, choose in ((None, reference.largest), (chosen, random_list(random, chosen))):
            outcomes = reference.outcomes(system.rectangle(), system.right, choose, cuts(system.n))
            self.note_refusals(outcomes, system.n)
            for steps, outcome in outcomes.items():
                self.compare_run(plan, (matrix, system.right, rows, steps), outcome)

    def compare_run(self, plan, arguments, outcome):
        number, step, state = outcome
        if number:
            with self.assertRaises(dalumiveth.Refusal) as caught:
                plan.run(*arguments)
            self.assertEqual((caught.exception.number, caught.exception.step), (number, step))
        else:
            run = plan.run(*arguments)
            self.note_finished(run, "largest" if arguments[2] is None else "listed")
            self.seen["past fainter entries"] += state.passed_over > 0
            self.assertEqual(bits(run.rectangle()), bits(state.rectangle))
            self.assertEqual(bits(run.x), bits(state.right))
            self.assertEqual(run.pivot_rows.tolist(), state.pivots.tolist())
            self.assertEqual(run.updates, state.updates)
            self.compare_slots(plan, run, state.rectangle)
        for store in plan._work:
            self.assertFalse(store.view(np.uint64).any(), "a work store is not zero")

    def compare_slots(self, plan, run, rectangle):
        """Slot by slot, along the kept lists."""
        lower = [rectangle[i, k] for k in range(plan.n) for i in plan.lower(k)]
        upper = [rectangle[k, j] for k in range(plan.n) for j in plan.upper(k)]
        self.assertEqual(bits(run.l), bits(np.array(lower, dtype=float)))
        self.assertEqual(bits(run.u), bits(np.array(upper, dtype=float)))
        self.assertEqual(bits(run.d), bits(rectangle.diagonal()))

    def note_rows(self, system):
        n, height = system.n, len(system.rows)
        self.seen[{n: "n rows", n + 1: "n+1 rows", 2 * n: "2n rows"}.get(height, "other rows")] += 1
        self.seen["empty row beyond n"] += [] in system.rows[n:]

    def note_refusals(self, outcomes, n):
        """What ends the n steps; a run that is whole may be refused before them or after them."""
        number, _, state = outcomes[n]
        self.seen["14 in a step" if number == 14 else str(number)] += 1
        self.seen["13 by the limit alone"] += number == 13 and state.by_limit
        self.seen["26"] += outcomes[None][0] == 26
        self.seen["14 in back substitution"] += number == 0 and outcomes[None][0] == 14

    def note_finished(self, run, way):
        every = np.concatenate((run.l, run.u, run.d, run.x))
        self.seen["finished", run.steps] += 1
        self.seen["-0"] += bool(np.any((every == 0) & np.signbit(every)))
        self.seen["subnormal"] += bool(np.any((every != 0) & (np.abs(every) < 2.3e-308)))
        self.seen["slot of 0"] += bool(np.any(np.concatenate((run.l, run.u)) == 0))
        self.seen["exchange"] += bool(np.any(run.pivot_rows > np.arange(run.plan.n)))
        self.seen[way, "beyond n" if np.any(run.pivot_rows >= run.plan.n) else "below n"] += 1


if __name__ == "__main__":
    unittest.main()
