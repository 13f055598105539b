#!/usr/bin/env python3
"""Tests of tools/picture.py.   Run: python3 tools/test_picture.py"""
import contextlib
import io
import os
import random
import tempfile
import unittest
import unittest.mock
import xml.etree.ElementTree as ElementTree

import picture

EXAMPLE = os.path.join(os.path.dirname(os.path.abspath(__file__)), "..", "examples", "four_fields.txt")
FOUR = "fields 4\nrow 1 1:2 3:1 = 3\nrow 2 2:1 4:1 = 2\nrow 3 1:4 3:4 = 8\nrow 4 2:2 3:1 4:4 = 7\n"
SVG = "{http://www.w3.org/2000/svg}"


def four():
    return picture.from_text(FOUR)[0]


def kinds(pivots):
    return picture.Kinds(four(), pivots)


def drawn(svg):
    """How many places of each kind a picture draws."""
    return {path.get("class"): path.get("d").count("M") for path in ElementTree.fromstring(svg).iter(SVG + "path")}


def run(*arguments):
    """Status, standard output and standard error of the command."""
    out, err = io.StringIO(), io.StringIO()
    with contextlib.redirect_stdout(out), contextlib.redirect_stderr(err):
        status = picture.main(list(arguments))
    return status, out.getvalue(), err.getvalue()


class FourFields(unittest.TestCase):
    """Document 01, "Fields worked through"."""

    def test_lists(self):
        lower, upper = picture.plan(four())
        self.assertEqual([sorted(upper[k] - {k}) for k in range(1, 5)], [[3], [3, 4], [4], []])
        self.assertEqual([sorted(lower[k] - {k}) for k in range(1, 5)], [[3], [4], [4], []])

    def test_largest(self):
        found = kinds([])
        self.assertEqual((len(found.listed), found.filled, found.left), (9, {(2, 3)}, {(3, 4)}))

    def test_list_of_m6(self):
        found = kinds([1, 2, 4, 4])
        self.assertEqual((len(found.listed), found.filled, found.left), (9, {(3, 4)}, {(2, 3)}))
        self.assertEqual(picture.eliminate(four(), [1, 2, 4, 4])[3][4], 2.0)
        self.assertEqual(picture.eliminate(four(), [])[3][4], 0.0)

    def test_list_of_m5(self):
        found = kinds([1, 2, 3, 4])
        self.assertEqual((len(found.listed), found.filled, found.left), (9, set(), {(2, 3), (3, 4)}))

    def test_drawn(self):
        self.assertEqual(drawn(picture.picture(four(), [])), {"listed": 9, "filled": 1, "left": 1})
        self.assertEqual(drawn(picture.picture(four(), [1, 2, 3, 4])), {"listed": 9, "filled": 0, "left": 2})


class Surveys(unittest.TestCase):
    def test_every_number_stands_in_a_slot(self):
        """Kinds raises where one does not; pivot rows by chance, as long as the run goes on."""
        rng = random.Random(1)
        for seed in range(12):
            equations = picture.survey(rng.randrange(8, 40), seed)
            for pivots in ([], [rng.randrange(k, equations.n + 1) for k in range(1, equations.n + 1)]):
                with contextlib.suppress(picture.Bad) if pivots else contextlib.nullcontext():
                    picture.Kinds(equations, pivots)

    def test_outside_is_noticed(self):
        equations = four()
        with unittest.mock.patch.object(picture, "slots", lambda e: {(i, j) for i in range(1, 5) for j in e.rows[i]}):
            with self.assertRaisesRegex(picture.Bad, "outside the slots"):
                picture.Kinds(equations, [])

    def test_counts(self):
        equations = picture.survey(128, 1984)
        found = picture.Kinds(equations, [])
        self.assertEqual(sum(len(row) for row in equations.rows[1:]), len(found.listed))
        self.assertEqual(drawn(picture.picture(equations, [])), {kind: len(getattr(found, kind)) for kind in ("listed", "filled", "left")})
        self.assertTrue(all((j, i) in found.listed for i, j in found.listed))

    def test_chance(self):
        """The first numbers of splitmix64 from 1234567, as they are known."""
        chance = picture.Chance(1234567)
        self.assertEqual([chance.next() for _ in range(3)], [6457827717110365317, 3203168211198807973, 9817491932198370423])


class Placed(unittest.TestCase):
    """Places by kind, as examples/householder.py --places prints them."""

    TEXT = "places 3 2\nlisted 1 1\nfactor 1 2\nlisted 2 2\nvector 3 1\nleft 3 2\n"

    def test_drawn(self):
        svg = picture.placed_picture(picture.Placed(self.TEXT))
        self.assertEqual(drawn(svg), {"listed": 2, "factor": 1, "vector": 1, "left": 1})
        words = [text.text for text in ElementTree.fromstring(svg).iter(SVG + "text")]
        self.assertIn("3 rows, 2 columns; orthogonal steps", words)
        self.assertEqual((words.count("2"), words.count("3")), (2, 1))      # a column and a row; a row alone
        self.assertEqual(words[-4:], ["2 places of the pattern", "1 further slot filled with the upper factor", "1 further slot filled with vectors",
                                      "1 further slot left at zero, kept for other numbers"])

    def test_tall_board(self):
        """Every place is a square: the frame is as much higher than wide as there are more rows than columns."""
        frames = [rect for rect in ElementTree.fromstring(picture.placed_picture(picture.Placed(self.TEXT))).iter(SVG + "rect") if rect.get("stroke")]
        self.assertEqual([(float(frame.get("width")) / 2, float(frame.get("height")) / 3) for frame in frames], [(44.0, 44.0)])

    def test_said(self):
        for text, said in (("", "no line"), ("places 3", "no line"), ("places 3 x", "no line"), ("rows 3 2", "no line"), ("places 0 0", "0 rows"),
                           ("places 2 3", "2 rows"), ("places 3 0", "3 rows"), ("places 3 2\nfilled 1 1", "no line"), ("places 3 2\n\n", "no line"),
                           ("places 3 2\nleft 1 -1", "no line"), ("places 3 2\nleft 4 1", "outside"), ("places 3 2\nleft 1 3", "outside"),
                           ("places 3 2\nleft 0 1", "outside"), ("places 3 2\nleft 1 0", "outside")):
            with self.assertRaisesRegex(picture.Bad, said, msg=text):
                picture.Placed(text)

    def test_command(self):
        with tempfile.NamedTemporaryFile("w", suffix=".txt") as file:
            file.write(self.TEXT)
            file.flush()
            status, out, _ = run("--places", file.name, "--title", "Seen twice")
            self.assertEqual((status, ElementTree.fromstring(out).find(SVG + "title").text), (0, "Seen twice"))
            for further in (("--rows", "1,2"), ("--survey", "20", "3"), (EXAMPLE,)):
                with self.assertRaises(SystemExit) as caught:
                    run("--places", file.name, *further)
                self.assertEqual(caught.exception.code, 2)
        self.assertEqual(run("--places", EXAMPLE)[0], 1)
        self.assertEqual(run("--places", EXAMPLE + ".missing")[0], 2)


class Command(unittest.TestCase):
    def test_text(self):
        status, out, _ = run(EXAMPLE, "--rows", "1,2,4,4", "--title", "A < B & C")
        self.assertEqual((status, drawn(out)), (0, {"listed": 9, "filled": 1, "left": 1}))
        self.assertEqual(ElementTree.fromstring(out).find(SVG + "title").text, "A < B & C")

    def test_a_text_brings_its_list(self):
        with tempfile.NamedTemporaryFile("w", suffix=".txt") as file:
            file.write(FOUR + "pivots 1 2 3 4\n")
            file.flush()
            self.assertEqual(drawn(run(file.name)[1]), {"listed": 9, "filled": 0, "left": 2})

    def test_market(self):
        with tempfile.NamedTemporaryFile("w", suffix=".mtx") as file:
            file.write("%%MatrixMarket matrix coordinate real general\n2 2 3\n1 1 1\n1 2 2\n2 1 3\n")
            file.flush()
            self.assertEqual(drawn(run("--matrix", file.name)[1]), {"listed": 4, "filled": 0, "left": 0})

    def test_survey(self):
        self.assertEqual(run("--survey", "20", "3")[0], 0)

    def test_one_field(self):
        for value in ("2", "@0010000000000000"):                    # 2^-1022 is a pivot
            with tempfile.NamedTemporaryFile("w", suffix=".txt") as file:
                file.write(f"fields 1\nrow 1 1:{value} = 1\n")
                file.flush()
                self.assertEqual(drawn(run(file.name)[1]), {"listed": 1, "filled": 0, "left": 0})

    def test_said(self):
        for rows, said in (("2,2,3,4", "13 at step 1"), ("1,1,3,4", "has to have 4 rows"), ("1,2", "has to have 4 rows")):
            status, out, err = run(EXAMPLE, "--rows", rows)
            self.assertEqual((status, out), (1, ""))
            self.assertIn(said, err)
        for text, said in (("row", "'fields'"), ("fields 1\nrow 1 = 1", "diagonal"), ("fields 1\nrow 1 1:1 2:1 = 1", "outside"),
                           ("fields 1\nrow 1 1:inf = 1", "finite"), ("fields 0", "0 fields"),
                           ("fields 2\nrow 1 2:1 1:1 = 0\nrow 2 2:1 = 0", "ascend"),
                           ("fields 2\nrow 1 1:1 2:1e308 = 0\nrow 2 1:1 2:-1e308 = 0", "14 at step 1"),
                           ("fields 1\nrow 1 1:-0x0.fffffffffffffp-1022 = 1", "13 at step 1"),
                           ("fields 2\nrow 1 1:@000FFFFFFFFFFFFF 2:1 = 0\nrow 2 1:@0010000000000000 2:1 = 0\npivots 1 2", "13 at step 1")):
            with tempfile.NamedTemporaryFile("w", suffix=".txt") as file:
                file.write(text)
                file.flush()
                status, _, err = run(file.name)
                self.assertEqual(status, 1, text)
                self.assertIn(said, err)

    def test_no_file(self):
        self.assertEqual(run(EXAMPLE + ".missing")[0], 2)


if __name__ == "__main__":
    unittest.main()
