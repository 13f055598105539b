#!/usr/bin/env python3
"""Tests of tools/name_paths.py, walk.py and proof_text.py.   Run: python3 tools/test_name_paths.py"""
import unittest

import proof_text
from name_paths import SHORT, TITLE, settled
from walk import Walk, asked


def chain(steps):
    return "c" + " .before" * steps


class Lts:
    """A made-up `Lts`: places one behind the other, calls among them, arms, and needs."""

    def __init__(self):
        self.lines = ["", "      pub record Start : Type 0 where", "        pub args : Args", "        pub pre : Pre"]

    def place(self, name, before, field=None, call=False):
        own = field or name.removeprefix("After-")
        if call:
            self.lines += ["", f"        abbrev pub {name}·own : Type 0", f"        {name}·own = Called.Called x"]
        self.lines += ["", f"      pub record {name} : Type 0 where", f"        pub before : {before}", f"        pub {own} : {name}·own before"]
        return name

    def need(self, name, place):
        self.lines += ["", f"      abbrev pub Need-{name} : Type 0", f"      Need-{name} =", f"          (c : {place}) →", "          X"]

    def walk(self):
        return Walk("\n".join(self.lines))


def straight(extra=0):
    """Start, six slices, the call copy_in, three arguments and as many again as the code has more, the call spread, an `if`, the end."""
    lts, last = Lts(), "Start"
    for number in ["", *range(2, 7)]:
        last = lts.place(f"After-slice-known{number}", last)
    lts.need("copy-in-requires", last)
    last = lts.place("After-copy-in", last, call=True)
    for number in ["", *range(2, 4 + extra)]:
        last = lts.place(f"After-spread-arg{number}", last)
    lts.need("sub-spread", "After-spread-arg")
    lts.need("spread-requires", last)
    last = lts.place("After-spread", last, call=True)
    lts.need("add-sum", last)
    then, other = lts.place("Then1", last, "if1"), lts.place("Else1", last, "if1")
    lts.need("returns", then)
    lts.need("returns-2", lts.place("After-x", other))
    return lts


def proof(**clauses):
    """A proof file with a signature and a clause for each need."""
    parts = [f"{name} : tie.Need-{name}\n{name} c = {body}\n" for name, body in ((name.replace("_", "-"), body) for name, body in clauses.items())]
    return "use X.Tie as tie\n\n" + "\n".join(parts)


def named(text, walk):
    return settled(text, walk, layout=lambda text: text)


class Places(unittest.TestCase):
    def test_distances_and_fields(self):
        walk = straight().walk()
        self.assertEqual(walk.distance("After-spread", "After-copy-in"), 4)
        self.assertEqual(walk.distance("After-copy-in", "After-copy-in"), 0)
        self.assertIsNone(walk.distance("After-copy-in", "After-spread"))
        self.assertIsNone(walk.distance("Then1", "Else1"))
        self.assertEqual((walk.own("After-spread"), walk.own("Start")), ("spread", None))
        self.assertEqual(walk.needs["Need-spread-requires"], "After-spread-arg3")

    def test_names_come_from_the_code(self):
        labels = straight().walk().labels
        for place, label in (("Start", "start"), ("After-copy-in", "copy-in"), ("After-slice-known6", "calling-copy-in"), ("After-spread-arg", "making-spread"),
                             ("After-spread-arg3", "calling-spread"), ("Then1", "spread-then"), ("Else1", "spread-else"), ("After-x", "end2")):
            self.assertEqual(labels[place], label)
        self.assertEqual(len(set(labels.values())), len(labels))

    def test_a_loop(self):
        lts = Lts()
        for name, before in (("At-loop", "Start"), ("In-loop", "At-loop"), ("After-slice-known", "In-loop"), ("After-loop", "At-loop")):
            lts.place(name, before)
        lts.need("loop-again", "After-slice-known")
        labels = lts.walk().labels
        self.assertEqual([labels[place] for place in ("At-loop", "In-loop", "After-slice-known", "After-loop")], ["loop", "in-loop", "loop-end", "after-loop"])

    def test_two_steps_that_ask_the_same(self):
        lts = Lts()
        for name, before in (("After-a", "Start"), ("After-b", "After-a")):
            lts.need("same-length", lts.place(name, before))
            lts.lines[-4:] = [line.replace("same-length", f"same-length-{name[-1]}") for line in lts.lines[-4:]]
        labels = lts.walk().labels
        self.assertEqual(len(set(labels.values())), 3)

    def test_what_is_asked(self):
        for need, name in (("Need-trade-requires-2", "calling-trade2"), ("Need-returns", "end"), ("Need-shared-slice-read-p", "reading-p"),
                           ("Need-slice-write-x", "writing-x"), ("Need-part-us-end", "making-us"), ("Need-loop-less", "loop-end"),
                           ("Need-shared-slice-read-if1-2", "reading-if1-2"), ("Need-same-length-7", "end")):
            self.assertEqual(asked(need)[1], name)
        self.assertIsNone(asked("Need-something"))


class Paths(unittest.TestCase):
    TEXT = proof(spread_requires=f"f ({chain(9)} .before .pre) ({chain(3)} .copy-in .ensures)",
                 add_sum=f"g ({chain(4)} .copy-in .kept) ({chain(4)} .copy-in .ensures) ({chain(11)} .pre)",
                 returns=f"h ({chain(5)} .copy-in .ensures) ({chain(12)} .args)")

    def test_named(self):
        text, notes = named(self.TEXT, straight().walk())
        self.assertEqual(notes, [])
        self.assertIn(TITLE, text)
        self.assertIn("abbrev start-from-copy-in : tie.After-copy-in → tie.Start\nstart-from-copy-in c = " + chain(7), text)
        self.assertIn(f"let at-copy-in = {chain(4)} in\n    g (at-copy-in .copy-in .kept) (at-copy-in .copy-in .ensures) (start-from-copy-in at-copy-in .pre)", text)
        self.assertLess(text.index("use X.Tie"), text.index(TITLE))
        self.assertLess(text.index(TITLE), text.index("spread-requires :"))

    def test_a_second_run_changes_nothing(self):
        once, _ = named(self.TEXT, straight().walk())
        self.assertEqual(named(once, straight().walk()), (once, []))

    def test_short_chains_stay(self):
        text = proof(returns=f"h ({chain(SHORT)} .spread-arg3 .given)")
        self.assertEqual(named(text, straight().walk())[0], text)

    def test_a_name_that_someone_gave_stays(self):
        text, _ = named(proof(returns=f"let g = {chain(12)} in h (g .pre) (g .args) ({chain(5)} .copy-in .ensures)"), straight().walk())
        self.assertIn("let g = ", text)
        self.assertNotIn("let start", text)
        self.assertLess(text.index("let at-copy-in"), text.index("let g = "))

    def test_only_what_was_learnt_is_bound(self):
        text, _ = named(proof(returns=f"h ({chain(5)} .copy-in .ensures) ({chain(5)} .copy-in .kept)"), straight().walk())
        self.assertIn(" .copy-in in\n    h (copy-in .ensures) (copy-in .kept)", text)

    def test_a_function_that_someone_wrote_is_called(self):
        text = "use X.Tie as tie\n\nabbrev entry : tie.Then1 → tie.Start\nentry c = " + chain(12) + "\n\n" + proof(returns=f"h ({chain(12)} .pre)").split("\n\n", 1)[1]
        new, _ = named(text, straight().walk())
        self.assertIn("returns c = h (entry c .pre)", new)
        self.assertNotIn(TITLE, new)

    def test_an_inner_name_hides_the_place(self):
        text = proof(returns=f"λ c. h ({chain(12)} .pre)")
        self.assertEqual(named(text, straight().walk())[0], text)

    def test_after_the_code_changed(self):
        once, _ = named(self.TEXT, straight().walk())
        text, notes = named(once, straight(extra=2).walk())
        self.assertIn("start-from-copy-in c = " + chain(7), text)
        for steps in (5, 6, 7):
            self.assertIn(f"let at-copy-in = {chain(steps)} in", text)
        self.assertTrue(notes and all("now" in note for note in notes), notes)

    def test_a_chain_is_led_to_its_field(self):
        text, notes = named(proof(returns=f"h ({chain(4)} .copy-in .ensures)"), straight().walk())
        self.assertIn(f"h ({chain(5)} .copy-in .ensures)", text)
        self.assertEqual(notes, ["c.. .copy-in: led to After-spread-arg, leads to After-copy-in now"])

    def test_no_walk(self):
        text = proof(returns=f"h ({chain(5)} .copy-in .ensures)")
        self.assertEqual(named(text, None)[0], text)


class Rewriting(unittest.TestCase):
    def test_a_let_of_the_chain_written_out(self):
        text = proof(returns=f"f (rw ({chain(5)} .copy-in .ensures) ({chain(5)} .copy-in .kept)) ({chain(12)} .pre) ({chain(12)} .args)")
        new, _ = named(text, straight().walk())
        self.assertIn(f"let at-copy-in = {chain(5)} in", new)
        self.assertIn("rw (at-copy-in .copy-in .ensures) (at-copy-in .copy-in .kept)", new)
        self.assertEqual(named(new, straight().walk())[0], new)

    def test_what_is_rewritten_counts(self):
        text = proof(returns=f"let told = rw (t .1) at ({chain(5)} .copy-in .ensures) in told .0")
        new, _ = named(text, straight().walk())
        self.assertIn(f"let copy-in = {chain(5)} .copy-in in", new)
        self.assertIn("at (copy-in .ensures)", new)
        self.assertEqual(named(new, straight().walk())[0], new)

    def test_a_path_function_in_a_rw_is_written_out(self):
        text = f"use X.Tie as tie\n\n{TITLE}\n\nabbrev copy-in-from-spread-then : tie.Then1 → tie.After-copy-in\ncopy-in-from-spread-then c = {chain(5)}\n\n" \
            + proof(returns="rw (copy-in-from-spread-then c .copy-in .ensures) x").split("\n\n", 1)[1]
        new, _ = named(text, straight().walk())
        self.assertNotIn("-from-", new.replace(TITLE, ""))
        self.assertIn(chain(5), new)


class Lines(unittest.TestCase):
    def test_broken_behind_an_operator(self):
        long = "    " + " ∙ ".join(f"at-place{number} .place .kept .1 .1 .1 .0" for number in range(8))
        parts = proof_text.broken(long)
        self.assertTrue(all(len(part) <= proof_text.WIDTH for part in parts))
        self.assertTrue(parts[0].endswith("∙"))
        self.assertEqual(" ".join(part.strip() for part in parts), long.strip())

    def test_use_of_many_names(self):
        line = "use A.B.{" + ", ".join(f"a-law-of-some-length-{number}" for number in range(20)) + "}"
        parts = proof_text.split_use(line)
        self.assertTrue(len(parts) > 1 and all(len(part) <= proof_text.WIDTH for part in parts))
        self.assertEqual(", ".join(part.removeprefix("use A.B.{").removesuffix("}") for part in parts), line.removeprefix("use A.B.{").removesuffix("}"))

    def test_comments_and_short_lines_stay(self):
        text = "-- " + "long " * 60 + "\nf : A → B\nf x = x\n"
        self.assertEqual(proof_text.broken_lines(text), text)

    def test_pieces(self):
        kinds = [piece.kind for piece in proof_text.pieces("-- a\nuse A.B\n\nf : A →\n    B\nunfolding g\nf x =\n    x\n")]
        self.assertEqual(kinds, ["comment", "use", "signature", "unfolding", "clause"])


if __name__ == "__main__":
    unittest.main()
