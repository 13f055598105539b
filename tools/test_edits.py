#!/usr/bin/env python3
"""Tests of tools/edits.py.   Run: python3 tools/test_edits.py"""
import contextlib
import io
import os
import tempfile
import unittest

import edits

ROOT = os.path.dirname(os.path.dirname(os.path.abspath(__file__)))

ONE = """# document 01, Elimination: the lowest row number if equal; the highest taken
file: src/choosing.rt
old:         if top < a {
new:         if top <= a {
"""
CODE = """    while i <= n {
        if top < a {
            top = a;
        }
    }
"""
TWO = """# document 01, Mistakes near at hand: marking a row met without handing on its step
# hands on nothing
file: src/sets.rt
old:     if a < b {
new:     if a > b {
A remark, which is not for the table.
# document 02, Ticket 5: t is the longest run
# a | b
# c
file: src/gather.rt
old:     x
new:     y
"""


class Reading(unittest.TestCase):
    def test_one_mistake(self):
        edit = edits.read_edit("run_pivot", "ties", ONE)
        self.assertEqual(edit.said, [("Elimination: the lowest row number if equal; the highest taken", [])])
        self.assertEqual(edits.kinds_of(edit), "code")

    def test_several_mistakes(self):
        edit = edits.read_edit("plan_gather", "two", TWO)
        self.assertEqual(edits.shown(edit), "Mistakes near at hand: marking a row met without handing on its step (hands on nothing). "
                                            "Ticket 5: t is the longest run (a \\| b; c)")

    def test_no_head_line(self):
        for text in ("", "file: src/lib.rt\n" + ONE, "# ties to the higher row\n" + ONE, "A remark.\n" + ONE,
                     "# document 01, Elimination\n" + ONE, "# document 01, Elimination: \n" + ONE, "# document 01, Eliminating: ties\n" + ONE,
                     "# document 02, Elimination: ties\n" + ONE, "# document 01, Ticket 5: ties\n" + ONE, "# document 03, Ticket 5: ties\n" + ONE):
            with self.assertRaises(edits.BadEdit, msg=text):
                edits.read_edit("run_pivot", "ties", text)

    def test_a_crate_that_no_document_speaks_of(self):
        edit = edits.read_edit("streams", "ties", "# blanks, not zeros\n" + ONE.partition("\n")[2])
        self.assertEqual((edit.said, edits.kinds_of(edit)), ([("blanks, not zeros", [])], "code"))
        self.assertEqual(edits.read_edit("streams", "ties", ONE).said, [("Elimination: the lowest row number if equal; the highest taken", [])])
        with self.assertRaises(edits.BadEdit):
            edits.read_edit("streams", "ties", ONE.partition("\n")[2])

    def test_kinds(self):
        for crate, path, old, kind in (
                ("foundation", "specs/Plan.antt", "x", "definition"), ("lists", "specs/Sets.antt", "x", "definition"),
                ("planning", "specs/Calls.antt", "x", "statement"), ("planning", "src/lib.rt", "    requires { a }", "statement"),
                ("planning", "src/lib.rt", "    ensures told { a", "statement"), ("planning", "src/lib.rt", "        x.new ≡ y }", "statement"),
                ("planning", "src/lib.rt", "    let ensured = a;", "code"), ("foundation", "src/lib.rt", "x", "code")):
            self.assertEqual(edits.kind_of(crate, path, old), kind, (crate, path, old))

    def test_pairs(self):
        edit = edits.read_edit("plan_gather", "two", TWO + "old: z\nnew:\nold:w\nnew: v\n")
        self.assertEqual(edit.changes, [("src/sets.rt", "    if a < b {", "    if a > b {"), ("src/gather.rt", "    x", "    y"), ("src/gather.rt", "z", ""),
                                        ("src/gather.rt", "", "v")])

    def test_an_edit_of_two_kinds(self):
        edit = edits.read_edit("planning", "both", ONE + "file: specs/Calls.antt\nold: a\nnew: b\n")
        self.assertEqual(edits.kinds_of(edit), "code, statement")
        self.assertEqual(edits.counted([edit]), "1 edits in 1 crates: 1 of code, statement.")


class Page(unittest.TestCase):
    """Whole runs, in a small repository of their own."""

    def setUp(self):
        self.folder = tempfile.TemporaryDirectory()
        self.addCleanup(self.folder.cleanup)
        self.addCleanup(os.chdir, os.getcwd())
        os.chdir(self.folder.name)
        self.put("crates/run_pivot/must-fail/ties.edit", ONE)
        self.put("crates/run_pivot/src/choosing.rt", CODE)
        self.put("docs/PROMISES.md", f"before\n{edits.BEGIN}\nold\n{edits.END}\nbehind\n")

    def put(self, path, text):
        os.makedirs(os.path.dirname(path), exist_ok=True)
        with open(path, "w", encoding="utf-8") as file:
            file.write(text)

    def page(self):
        with open("docs/PROMISES.md", encoding="utf-8") as file:
            return file.read()

    def run_words(self, *words):
        out, err = io.StringIO(), io.StringIO()
        with contextlib.redirect_stdout(out), contextlib.redirect_stderr(err):
            status = edits.main(list(words))
        return status, out.getvalue(), err.getvalue()

    def test_write_then_check(self):
        self.assertEqual(self.run_words("--check")[0], 1)
        self.assertEqual(self.run_words("--write")[0], 0)
        self.assertEqual(self.run_words("--check")[0], 0)
        printed = self.run_words()[1]
        self.assertIn("| `run_pivot` | ties | code | Elimination: ", printed)
        self.assertEqual(self.page(), f"before\n{edits.BEGIN}\n{printed}{edits.END}\nbehind\n")

    def test_another_edit(self):
        self.run_words("--write")
        self.put("crates/tally/must-fail/wraps.edit", ONE)
        status, _, said = self.run_words("--check")
        self.assertEqual(status, 1)
        self.assertIn("not that of the edits", said)

    def test_an_edit_without_its_line(self):
        self.run_words("--write")
        before = self.page()
        self.put("crates/tally/must-fail/wraps.edit", ONE.split("\n", 1)[1])
        for words in ((), ("--check",), ("--write",)):
            status, _, said = self.run_words(*words)
            self.assertEqual(status, 1)
            self.assertIn("wraps.edit: the first line", said)
        self.assertEqual(self.page(), before)

    def stale(self, text):
        """What --check says of an edit of this text, once the table has it."""
        self.put("crates/run_pivot/must-fail/ties.edit", text)
        self.assertEqual(self.run_words("--write")[0], 0)
        status, out, said = self.run_words("--check")
        self.assertEqual((status, out == ""), (1, True) if said else (0, False))
        return said

    def test_a_stale_edit(self):
        self.assertEqual(self.stale(ONE), "")
        for text, code, said in (
                (ONE, CODE.replace("top < a", "top.size < a"), "'old:         if top < a {' stands 0 times in crates/run_pivot/src/choosing.rt, not once"),
                (ONE, CODE.replace("if top < a {", "if top\n        < a {"), "'old:         if top < a {' stands 0 times in crates/run_pivot/src/choosing.rt, not once"),
                (ONE, CODE + CODE, "'old:         if top < a {' stands 2 times in crates/run_pivot/src/choosing.rt, not once"),
                (ONE.replace("old:         if top < a {", "old: "), CODE, "'old: ' stands 0 times in crates/run_pivot/src/choosing.rt, not once"),
                (ONE.replace("choosing", "chosen"), CODE, "'file: src/chosen.rt' for 'old:         if top < a {' names no file of the crate"),
                (ONE.replace("file: src/choosing.rt\n", ""), CODE, "'file: ' for 'old:         if top < a {' names no file of the crate"),
                (ONE.split("file:")[0], CODE, "it has no pair 'old: ' and 'new: '")):
            self.put("crates/run_pivot/src/choosing.rt", code)
            self.assertEqual(self.stale(text), f"edits: crates/run_pivot/must-fail/ties.edit: {said}\n")

    def test_pair_after_pair(self):
        """A pair is looked for in what the pairs before it left."""
        self.assertEqual(self.stale(ONE + "old:         if top <= a {\nnew:         if top > a {\n"), "")
        self.assertIn("'old:         if top < a {' stands 0 times", self.stale(ONE + "old:         if top < a {\nnew:         if top > a {\n"))

    def test_a_page_without_markers(self):
        for text in ("", edits.BEGIN + "\n", f"{edits.END}\n{edits.BEGIN}\n", f"{edits.BEGIN}\n{edits.END}\n{edits.BEGIN}\n{edits.END}\n"):
            self.put("docs/PROMISES.md", text)
            self.assertEqual(self.run_words("--write")[0], 1, text)
            self.assertEqual(self.page(), text)


class Repository(unittest.TestCase):
    def test_its_own_edits(self):
        self.addCleanup(os.chdir, os.getcwd())
        os.chdir(ROOT)
        read, faults = edits.read_edits()
        self.assertEqual(faults, [])
        self.assertEqual(edits.stale_edits(read), [])
        self.assertEqual(len(read), len(list(edits.edit_paths())))


if __name__ == "__main__":
    unittest.main()
