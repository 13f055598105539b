#!/usr/bin/env python3
"""Tests of tools/fence.py.   Run: python3 tools/test_fence.py"""
import contextlib
import io
import os
import tempfile
import unittest

import fence

GOOD = "pub fn plan(n: usize) -> usize\n    ensures { result ≡ n }\n{\n    n\n}\n"
ASKS = GOOD.replace("    ensures", "    requires low { 1 ≤ n }\n    ensures")
SILENT = "pub fn plan(n: usize) -> usize {\n    n\n}\n"


class Listing(unittest.TestCase):
    def assertMay(self, name, *used):
        for one in used:
            self.assertTrue(fence.may_list(name, one), f"{name} lists {one}")

    def assertMayNot(self, name, *used):
        for one in used:
            self.assertFalse(fence.may_list(name, one), f"{name} lists {one}")

    def test_an_open_crate_lists_its_own_part(self):
        self.assertMay("planning", "plan_call", "verify_call", "store_lists", "answers", "lists")
        self.assertMay("elimination", "run_call", "store_lists", "planning")
        self.assertMay("offsets", "offset_text", "numbers", "answers", "lists")
        self.assertMay("job", "job_run", "elimination")
        self.assertMayNot("planning", "run_call", "job_run")
        self.assertMayNot("elimination", "plan_call", "verify_call", "job_read")
        self.assertMayNot("job", "run_call", "plan_call")

    def test_an_inner_crate_lists_its_own_part(self):
        self.assertMay("plan_call", "plan_loop", "store_lists", "answers")
        self.assertMay("verify_call", "verify_loop", "plan_gather", "store_search")
        self.assertMay("job_run", "job_print", "elimination", "planning")
        self.assertMayNot("plan_call", "verify_loop", "run_step", "job_print")
        self.assertMayNot("run_step", "plan_gather", "verify_sides", "job_print")
        self.assertMayNot("job_run", "run_call", "plan_call")

    def test_shared_inner_crates_list_no_part(self):
        self.assertMay("store_lists", "store_search", "answers", "lists")
        self.assertMayNot("store_lists", "plan_gather", "run_slots", "planning", "elimination", "job")

    def test_the_exported_functions_list_shared_inner_crates(self):
        self.assertMay("dalumiveth", "store_clear", "offsets", "planning", "job", "numbers", "lists")
        self.assertMayNot("numbers", "store_clear")

    def test_nobody_lists_the_exported_functions(self):
        for name in ("program", "cases_planning", "job", "job_run", "store_lists", "numbers"):
            self.assertMayNot(name, "dalumiveth")

    def test_nobody_else_lists_an_inner_crate(self):
        for name in ("dalumiveth", "numbers", "tally", "program", "cases_planning", "answers"):
            self.assertMayNot(name, "plan_call", "verify_call", "run_call", "job_run", "offset_text")
        for name in ("numbers", "tally", "program", "cases_planning", "answers"):
            self.assertMayNot(name, "store_lists")
            self.assertMay(name, "planning", "lists")

    def test_names_that_are_no_inner_crate(self):
        for name in ("plan", "planning", "runs_on", "cases_job", "store", "job"):
            self.assertIsNone(fence.word_of(name))
        self.assertEqual([fence.part_of(name) for name in ("verify_call", "run_step", "job_read", "tally")], ["planning", "elimination", "job", "tally"])


class Tree(unittest.TestCase):
    """A repository of a few files in a folder of its own."""

    def setUp(self):
        folder = tempfile.TemporaryDirectory()
        self.addCleanup(folder.cleanup)
        self.addCleanup(os.chdir, os.getcwd())
        os.chdir(folder.name)

    def write(self, path, text):
        os.makedirs(os.path.dirname(path) or ".", exist_ok=True)
        with open(path, "w") as file:
            file.write(text)

    def breaches(self, crates=None, **files):
        """What the fence says of crates.txt and of the files of crates/planning/src."""
        self.write("crates.txt", crates or "# a comment\nlists:\nstore_lists: lists\nplan_call: store_lists lists\nplanning: plan_call lists\n")
        for name, text in files.items():
            self.write(f"crates/planning/src/{name.replace('__', '/')}.rt", text)
        said = io.StringIO()
        try:
            with contextlib.redirect_stdout(said):
                fence.main()
        except SystemExit as end:
            self.assertEqual(end.code, 1)
            return said.getvalue().removesuffix("\n").split("\n")
        self.assertIn("inner crates", said.getvalue())
        return []

    def assertBreach(self, part, **files):
        found = self.breaches(**files)
        self.assertEqual(len(found), 1, found)
        self.assertIn(part, found[0])


class Lists(Tree):
    def test_good(self):
        self.assertEqual(self.breaches(lib=GOOD), [])

    def test_breach(self):
        self.assertBreach("tally lists plan_call", crates="plan_call:\ntally: plan_call # not for it\n")


class Contracts(Tree):
    def test_requires(self):
        self.assertBreach("plan is open to callers and has a requires", lib=ASKS)

    def test_no_ensures(self):
        self.assertBreach("plan is open to callers and has no ensures", lib=SILENT)
        self.assertBreach("has no ensures", lib=SILENT.replace("pub fn", 'pub extern "C" fn'))

    def test_private_functions_may_ask(self):
        self.assertEqual(self.breaches(lib=GOOD + ASKS.replace("pub fn plan", "fn inner") + SILENT.replace("pub fn plan", "fn other")), [])

    def test_words_of_comments_and_of_bodies_do_not_count(self):
        self.assertEqual(self.breaches(lib="// pub fn old() requires { x } {}\n" + GOOD.replace("    n\n", "    let requires = n; // requires {\n    requires\n")), [])
        self.assertBreach("no ensures", lib=SILENT.replace(" {", " // ensures { x }\n{"))

    def test_each_clause_is_read_to_its_end(self):
        self.assertBreach("has a requires", lib=GOOD.replace("n }\n", "n × ({A : Type} → A) }\n    requires { x }\n"))

    def test_public_modules(self):
        self.assertBreach("src/side.rt: plan", lib="pub mod side;\n" + GOOD, side=ASKS)
        self.assertBreach("src/side/deep.rt: plan", lib="pub mod side;\n", side="pub mod deep;\n", side__deep=ASKS)
        self.assertEqual(self.breaches(lib="mod side;\n", side=ASKS), [])

    def test_a_module_inside_a_file(self):
        self.assertBreach("written inside a file", lib="pub mod side {\n}\n")

    def test_inner_crates_and_programs_may_ask(self):
        self.write("crates/plan_call/src/lib.rt", ASKS)
        self.write("crates/lists/src/main.rt", SILENT)
        self.assertEqual(self.breaches(lib=GOOD), [])


class HandedOn(Tree):
    def test_a_function_of_a_private_module(self):
        self.assertEqual(self.breaches(lib="mod side;\npub use side::plan;\n", side=GOOD + ASKS.replace("plan", "other")), [])
        self.assertBreach("src/side.rt: plan", lib="mod side;\npub use side::plan;\n", side=ASKS)
        self.assertBreach("src/side.rt: plan", lib="mod side;\npub use crate::side::plan;\n", side=ASKS)
        self.assertBreach("src/side.rt: plan", lib="mod side;\npub use self::side::plan;\n", side=ASKS)

    def test_a_module_inside_another(self):
        self.assertBreach("src/side/deep.rt: plan", lib="pub mod side;\n", side="mod deep;\npub use deep::plan;\n", side__deep=ASKS)

    def test_handed_on_twice(self):
        self.assertBreach("src/side/deep.rt: plan", lib="mod side;\npub use side::plan;\n", side="mod deep;\npub use deep::plan;\n", side__deep=ASKS)

    def test_a_whole_module(self):
        self.assertBreach("src/side/deep.rt: plan", lib="mod side;\npub use side::deep;\n", side="pub mod deep;\n", side__deep=ASKS)

    def test_inner_crates(self):
        self.assertBreach("hands an inner crate on", lib="pub use plan_call::judge;\n")
        self.assertBreach("hands an inner crate on", lib="pub use store_lists;\n")
        self.write("crates/lists/src/lib.rt", GOOD)
        self.assertEqual(self.breaches(lib="pub use lists::plan;\n"), [])

    def test_several_names(self):
        self.assertEqual(self.breaches(lib="mod side;\npub use side::{\n    plan, other,\n};\n", side=GOOD + ASKS.replace("plan", "third")), [])
        self.assertBreach("src/side.rt: other", lib="mod side;\npub use side::{plan, other};\n", side=GOOD + ASKS.replace("plan", "other"))
        self.assertBreach("src/side/deep.rt: plan", lib="mod side;\npub use side::plan;\n", side="mod deep;\npub use deep::{other, plan};\n", side__deep=ASKS)
        self.assertBreach("hands an inner crate on", lib="pub use plan_call::{judge};\n")

    def test_what_the_fence_cannot_follow(self):
        self.assertBreach("does not read", lib="mod side;\npub use side::{plan, deep::{other, third}};\n", side=GOOD)
        self.assertBreach("does not read", lib="mod side;\npub use side::{plan as made};\n", side=GOOD)
        self.assertBreach("does not read", lib="mod side;\npub use side::*;\n", side=ASKS)
        self.assertBreach("does not read", lib="mod side;\npub use side::plan as made;\n", side=ASKS)
        self.assertBreach("does not find", lib="use plan_call as calls;\npub use calls::judge;\n")
        self.assertBreach("does not find", lib="mod side;\npub use side::deep::plan;\n", side=GOOD)


class Citing(Tree):
    def test_specs_and_code(self):
        self.write("crates/lists/specs/Sets.antt", "-- see proofs.Members\nuse Rattle.lists.specs.Functions.{keep}\n")
        self.assertEqual(self.breaches(lib=GOOD), [])
        self.write("crates/lists/specs/Deep/More.antt", "use Rattle.std.specs.Prelude.{true}\npub use Rattle.foundation.proofs.Steps.{marked}\n")
        self.assertBreach("crates/lists/specs/Deep/More.antt:2: cites proofs", lib=GOOD)

    def test_without_a_use(self):
        self.write("crates/lists/specs/Sets.antt", "f : Rattle.lists.proofs.Once.Falling\n")
        self.assertBreach("Sets.antt:1", lib=GOOD)

    def test_code(self):
        self.assertBreach("src/lib.rt:1: cites proofs", lib="ghost use Rattle.lists.proofs.Once.{Falling};\n" + GOOD)

    def test_a_tactic_on_a_function(self):
        self.assertBreach("src/lib.rt:1: cites proofs", lib="#[tactic(auto, using(crate::proofs::Once::falls))]\n" + GOOD)

    def test_the_kit(self):
        self.write("crates/lists/specs/Sets.antt", "use Rattle.std.proofs.lemmas.List.Edits.{sets}\n")
        self.assertEqual(self.breaches(lib=GOOD), [])

    def test_proofs_may(self):
        self.write("crates/lists/proofs/Sets.antt", "use Rattle.lists.proofs.Once.{Falling}\n")
        self.assertEqual(self.breaches(lib=GOOD), [])


if __name__ == "__main__":
    unittest.main()
