#!/usr/bin/env python3
"""Tests of tools/laws_twice.py.   Run: python3 tools/test_laws_twice.py"""
import unittest

from laws_twice import Module, Tree, code_groups, read_allowed

HEAD = "use Rattle.std.specs.Prelude.{◌≡◌, List, ◌++◌, length, ℕ, ◌+◌, ◌≤◌}\nuse Rattle.std.proofs.Common.{suc}\nuse Rattle.lists.specs.Sets.{member}\n\n"


def groups(**files):
    """The groups among files of law texts, each by its members' names; a file's name is its crate's."""
    tree = Tree([Module(crate, "proofs.Laws", f"crates/{crate}/proofs/Laws.antt", HEAD + text) for crate, text in files.items()])
    return sorted((kind, sorted(member for member, _ in members)) for kind, _, members in tree.groups())


class Laws(unittest.TestCase):
    FIRST = "pub add : (a b : ℕ) → a ≤ b → suc a ≤ suc b\nadd a b e = omega arith\n"

    def assertSame(self, first, second, same=True):
        found = [group for group in groups(one=first, two=second) if group[0] == "law"]
        self.assertEqual(len(found), 1 if same else 0, found)

    def test_other_names(self):
        self.assertSame(self.FIRST, "grows : (x y : ℕ) (below : x ≤ y) → suc x ≤ suc y\ngrows x y h = up h\n")

    def test_other_hypotheses(self):
        self.assertSame(self.FIRST, "grows : (x y : ℕ) → suc x ≤ y → suc x ≤ suc y\ngrows x y h = up h\n", same=False)
        self.assertSame(self.FIRST, "grows : (x y : ℕ) → x ≤ y → y ≤ x → suc x ≤ suc y\ngrows x y h = up h\n", same=False)
        self.assertSame(self.FIRST, "grows : (x y : ℕ) → suc x ≤ suc y\ngrows x y h = up h\n", same=False)

    def test_hypotheses_in_another_order(self):
        self.assertSame("f : (a b : ℕ) → a ≤ b → 1 ≤ length xs → a ≡ b\nf a b = ?\n",
                        "g : (b a : ℕ) → 1 ≤ length xs → b ≤ a → b ≡ a\ng a b = ?\n")

    def test_variables_of_other_types(self):
        self.assertSame("f : (a : List ℕ) → length a ≤ length a\nf a = le\n", "f : (a : Row) → length a ≤ length a\nf a = le\n", same=False)

    def test_a_law_of_numbers_and_the_law_of_any_type(self):
        self.assertSame("f {ℓ} : {A : Type ℓ} (a : List A) → a ++ [] ≡ a\nf a = e\n", "f : (xs : List ℕ) → xs ++ [] ≡ xs\nf a = e\n")

    def test_parameters_of_modules(self):
        self.assertSame(self.FIRST, "module _ (x y : ℕ) (h : x ≤ y) (other : List ℕ) where\n  grows : suc x ≤ suc y\n  grows = up h\n")

    def test_parameters_that_the_proof_alone_uses(self):
        bare = "pub add : (a b : ℕ) → suc a ≤ suc b\nadd a b = ?\n"
        self.assertSame(bare, "module _ (x y : ℕ) (h : x ≤ y) where\n  grows : suc x ≤ suc y\n  grows = up h\n", same=False)
        self.assertSame(bare, "module _ (x y : ℕ) (h : x ≤ y) where\n  grows : suc x ≤ suc y\n  grows = omega arith\n", same=False)
        self.assertSame(bare, "module _ (x y : ℕ) (h : x ≤ y) where\n  grows : suc x ≤ suc y\n  grows = up\n")

    def test_parameters_through_a_law_beside_it(self):
        self.assertSame("pub add : (a b : ℕ) → suc a ≤ suc b\nadd a b = ?\n",
                        "module _ (x y : ℕ) (h : x ≤ y) where\n  low : x ≡ y\n  low = by h\n\n  grows : suc x ≤ suc y\n  grows = up low\n", same=False)

    def test_names_mean_what_their_file_says(self):
        law = "f : (x : ℕ) (xs : List ℕ) → member x xs ≡ x\nf x xs = e\n"
        self.assertSame(law, law)
        self.assertSame(law, "use Rattle.other.specs.Sets.{member}\n" + law, same=False)
        self.assertSame(law, "use Rattle.lists.specs.Sets as Sets\n" + law.replace("member", "Sets.member"))

    def test_one_name_of_the_kit_from_two_modules(self):
        law = "f : (x : ℕ) (xs : List ℕ) → replicate x x ≡ xs\nf x xs = e\n"
        self.assertSame("use Rattle.std.specs.Prelude.{replicate}\n" + law, "use Rattle.std.specs.List.{replicate}\n" + law)
        self.assertSame("use Rattle.std.specs.List.{replicate}\n" + law, "use Rattle.lists.specs.Functions.{replicate}\n" + law, same=False)

    def test_another_name_in_the_file(self):
        law = "f : (x : ℕ) (xs : List ℕ) → has x xs ≡ x\nf x xs = e\n"
        self.assertSame("use Rattle.lists.specs.Sets.{member as has}\n" + law, law.replace("has", "member"))

    def test_fields(self):
        law = "f : (w : Asks) (i : ℕ) → i ≤ w.count → i ≤ length w.plan.rows\nf w i h = e\n"
        self.assertSame(law, law.replace("w ", "asked ").replace("w.", "asked.").replace("i ", "at "))
        self.assertSame(law, law.replace(".rows", ".steps"), same=False)

    def test_handed_on_by_pub_use(self):
        tree = Tree([Module("one", "proofs.A", "a", "pub use Rattle.lists.specs.Sets.{member}\n"),
                     Module("one", "proofs.B", "b", "use Rattle.one.proofs.A.{member}\nf : (x : N) → member x ≡ x\nf x = e\n"),
                     Module("two", "proofs.C", "c", "use Rattle.lists.specs.Sets.{member}\nf : (x : N) → member x ≡ x\nf x = e\n")])
        self.assertEqual(len(list(tree.groups())), 1)

    def test_theorems_hand_laws_on(self):
        law = "pub low : (a : ℕ) → a ≤ suc a\nlow a = omega arith\n"
        theorem = "use Rattle.one.proofs.Laws.{low}\npub claim : (b : ℕ) → b ≤ suc b\nclaim b = low b\n"
        for name, count in (("proofs.Theorems", 0), ("proofs.Others", 1)):
            tree = Tree([Module("one", "proofs.Laws", "a", HEAD + law), Module("one", name, "b", HEAD + theorem)])
            self.assertEqual(len(list(tree.groups())), count, name)

    def test_a_goal_is_no_law(self):
        for stated in ("goal.returns", "(c : lts.After-fill goal.the-invariant) → length xs ≡ 0"):
            self.assertSame(f"f : {stated}\nf c = e\n", f"f : {stated}\nf c = e\n", same=False)

    def test_behind_where(self):
        self.assertSame(self.FIRST,
                        "g : (a : ℕ) → a ≡ a\ng a = grows\n  where\n    grows : (x y : ℕ) → x ≤ y → suc x ≤ suc y\n    grows x y h = up h\n")

    def test_behind_where_of_its_clause_alone(self):
        local = "g : (a : ℕ) → a ≤ b → a ≡ a\ng a h = fits\n  where\n    fits : suc a ≤ suc b\n    fits = up h\n"
        self.assertSame(local, local.replace("g ", "f ").replace("a ≡ a", "suc a ≡ suc a"), same=False)

    def test_implicit_arguments_are_no_variables(self):
        self.assertSame("f : (a : ℕ) → ◌≡◌ {A = ℕ} a one\nf a = e\n", "f : (a : ℕ) → ◌≡◌ {A = ℕ} a two\nf a = e\n", same=False)

    def test_long_statements_and_comments(self):
        self.assertSame(self.FIRST, "-- why\ngrows :\n    (x y : ℕ) -- numbers\n    → x ≤ y\n    → suc x ≤ suc y\ngrows x y h = up h\n")


class Others(unittest.TestCase):
    def test_records(self):
        one = "pub record Fits (a b : ℕ) : Type 0 where\n  pub low : 1 ≤ a\n  pub high : a ≤ b\n"
        two = "record Within (k n : ℕ) : Type 0 where\n  some : 1 ≤ k\n  most : k ≤ n\n"
        self.assertEqual(groups(one=one, two=two), [("record", ["one/proofs.Laws.Fits", "two/proofs.Laws.Within"])])
        self.assertEqual(groups(one=one, two=two.replace("k ≤ n", "n ≤ k")), [])

    def test_records_of_data(self):
        one = "pub record Sizes : Type 0 where\n  pub rows : ℕ\n  pub columns : ℕ\n"
        self.assertEqual(len(groups(one=one, two=one)), 1)
        self.assertEqual(groups(one=one, two=one.replace("rows", "steps")), [])

    def test_definitions(self):
        one = "unfoldable pub twice : (f : ℕ → ℕ) → ℕ → ℕ\ntwice f x = f (f x) + 0\n"
        self.assertEqual(len(groups(one=one, two="unfoldable again : (g : ℕ → ℕ) → ℕ → ℕ\nagain g y = g (g y) + 0\n")), 1)
        self.assertEqual(groups(one=one, two=one.replace("+ 0", "+ 1")), [])

    def test_short_names_within_a_module(self):
        one = "module _ (xs : List ℕ) (i : ℕ) where\n  abbrev from : ℕ\n  from = getD xs (i - 1) 0\n"
        self.assertEqual(groups(one=one, two=one), [])
        self.assertEqual(len(groups(one=one.replace("abbrev", "abbrev pub"), two=one.replace("abbrev", "abbrev pub"))), 1)

    def test_a_function_that_gives_data_is_no_law(self):
        self.assertEqual(groups(one="f : ℕ → ℕ\nf x = x + length (x ∷ [])\n", two="g : ℕ → ℕ\ng x = length [] + x + 3\n"), [])

    def test_fields_of_a_literal_are_no_variables(self):
        one = "abbrev low : Lent\nlow = record { n = 1; side = lower; first = 2 }\n"
        self.assertEqual(len(groups(one=one, two=one)), 1)
        self.assertEqual(groups(one=one, two=one.replace("lower", "upper")), [])

    def test_definitions_that_call_themselves(self):
        one = "unfoldable count : List ℕ → ℕ\ncount [] = 0\ncount (x ∷ xs) = suc (count xs)\n"
        self.assertEqual(len(groups(one=one, two=one.replace("count", "size").replace("xs", "rest"))), 1)


class Code(unittest.TestCase):
    ONE = """fn clear(store: &mut [usize]) ensures told { store.new ≡ x } {
        let mut i = 0; // from the front
        while i < store.len() { store[i] = 0; i = i + 1; }
    }"""

    def found(self, one, two):
        return [members for _, _, members in code_groups([("one", "a.rt", one), ("two", "b.rt", two)])]

    def test_functions(self):
        other = self.ONE.replace("clear", "wipe").replace("store", "list").replace(" i ", " at ").replace("[i]", "[at]").replace("≡ x", "≡ y")
        self.assertEqual(self.found(self.ONE, other), [[("one/clear", "a.rt:1"), ("two/wipe", "b.rt:1")]])

    def test_what_differs(self):
        self.assertEqual(self.found(self.ONE, self.ONE.replace("= 0;", "= 1;")), [])
        self.assertEqual(self.found(self.ONE, self.ONE.replace("usize", "f64")), [])
        self.assertEqual(self.found(self.ONE, self.ONE.replace(".len()", ".size()")), [])

    def test_small_ones_are_left_out(self):
        small = "fn one(a: usize) -> usize { a + 1 }"
        self.assertEqual(self.found(small, small), [])


class Allowed(unittest.TestCase):
    def test_lines(self):
        self.assertEqual(read_allowed("# why\n\na/proofs.X.f b/proofs.Y.g: another crate's, for a table\n"), [frozenset({"a/proofs.X.f", "b/proofs.Y.g"})])

    def test_a_reason_is_asked_for(self):
        with self.assertRaises(SystemExit):
            read_allowed("a/proofs.X.f b/proofs.Y.g:\n")


if __name__ == "__main__":
    unittest.main()
