#!/usr/bin/env python3
"""Tests of tools/jobs.py.   Run: python3 tools/test_jobs.py"""
import contextlib
import io
import os
import random
import re
import struct
import subprocess
import sys
import tempfile
import unittest

import job_answer
import job_bytes
import cases_job
import job_text
import jobs
import matrix_market
import seeded_load
from job_bytes import Fields, Refused, Row, bits_of

HERE = os.path.dirname(os.path.abspath(__file__))
EXAMPLES = os.path.join(HERE, "..", "examples")
FOUR = "fields 4\nrow 1 1:2 3:1 = 3\nrow 2 2:1 4:1 = 2\nrow 3 1:4 3:4 = 8\nrow 4 2:2 3:1 4:4 = 7\n"
LISTING = ("plan 4 9 2 2 3 4 31\nrows 3 4 3 4\nx 1 3FF0000000000000\nx 2 3FF0000000000000\n"
           "x 3 3FF0000000000000\nx 4 3FF0000000000000\nupdates 3\n")


def contents(name):
    with open(name, "rb") as file:
        return file.read()


def four_job():
    return job_bytes.write(job_text.parse(FOUR))


class Numbers(unittest.TestCase):
    def test_read(self):
        for text, x in (("2", 2.0), ("-2.5", -2.5), ("+.5", 0.5), ("1.", 1.0), ("1e3", 1e3), ("1E-3", 1e-3), ("-0", -0.0), ("0x1.8p+1", 3.0),
                        ("-0X1P-1074", -5e-324), ("0x.8", 0.5), ("0x10", 16.0), ("inf", float("inf")), ("0.1", 0.1), ("1e-400", 0.0)):
            self.assertEqual(job_bytes.bits_of_text(text), bits_of(x), text)
        self.assertEqual(job_bytes.bits_of_text("@7FF0000000000001"), 0x7FF0000000000001)

    def test_refused(self):
        for text in ("", "x", "1,5", "1_0", "0x", "0x1p", "1e", "--1", "infinity", "NaN", "@7FF", "1e999", "-0x1p5000", "٣", "1 2"):
            with self.assertRaises(ValueError, msg=text):
                job_bytes.bits_of_text(text)

    def test_written_numbers_read_back(self):
        rng = random.Random(1)
        for bits in [0, 1 << 63, 1, 0x7FF0000000000000, 0xFFF0000000000000, 0x7FF8000000000000, 0x7FF0000000000001] + [rng.getrandbits(64) for _ in range(2000)]:
            for as_hex in (False, True):
                self.assertEqual(job_bytes.bits_of_text(job_bytes.text_of_bits(bits, as_hex)), bits)


class Text(unittest.TestCase):
    def test_examples_agree(self):
        text = contents(os.path.join(EXAMPLES, "four_fields.txt")).decode()
        self.assertEqual(job_bytes.write(job_text.parse(text)), contents(os.path.join(EXAMPLES, "four_fields.job")))
        self.assertEqual(four_job(), contents(os.path.join(EXAMPLES, "four_fields.job")))

    def test_bytes_of_document_01(self):
        job = four_job()
        self.assertEqual(len(job), 151)
        self.assertEqual(job[:17], bytes.fromhex("4E0400 520100 4501000000000000000040"))
        self.assertEqual(job[-10:], b"B" + struct.pack("<d", 7.0) + b"Z")

    def test_layout_is_free(self):
        broken = "# a comment\n\nfields\n4\nrow 1\n1:0x1p1 # first\n3:1.0\n=\n3\nrow 2 2:1 4:1=2 row 3 1:4 3:4 =8\nrow 4 2:2 3:1 4:4 = 7"
        self.assertEqual(job_text.parse(broken), job_text.parse(FOUR))

    def test_round_trips(self):
        rng = random.Random(2)
        for _ in range(200):
            n = rng.randint(1, 9)
            rows = [Row([(rng.randint(0, 65535) if rng.random() < 0.1 else j, rng.getrandbits(64)) for j in range(1, n + 1) if j == i or rng.random() < 0.4],
                        rng.getrandbits(64)) for i in range(1, n + 1)]
            fields = Fields(n, rows, [rng.randint(0, n + 1) for _ in range(n)] if rng.random() < 0.5 else [])
            job = job_bytes.write(fields)
            self.assertEqual(job_bytes.read(job), fields)
            for as_hex in (False, True):
                self.assertEqual(job_bytes.write(job_text.parse(job_text.show(fields, as_hex), unchecked=True)), job)

    def test_bad_lines(self):
        big = "fields 128\n" + "".join(f"row {i}\n" + " ".join(f"{j}:1" for j in range(1, 129)) + " = 1\n" for i in range(1, 129))
        for text, line, part in (
                ("", 1, "ends where 'fields'"), ("# nothing\n\n", 2, "ends where 'fields'"), ("row 1\n", 1, "'row' stands where 'fields'"),
                ("fields\n", 1, "number of fields"), ("fields x\n", 1, "'x' stands where the number of fields"), ("fields -1\n", 1, "'-1'"),
                ("fields 0\n", 1, "0 fields"), ("\nfields 129\n", 2, "1 to 128"), ("fields 70000\n", 1, "too large"),
                ("fields 1\nrow 2 1:1 = 1\n", 2, "row 2 stands where row 1"), ("fields 2\nrow 1 1:1 = 1\n", 2, "ends where 'row'"),
                ("fields 2\nrow 1 1:1 = 1\nrow 1 2:1 = 1\n", 3, "row 1 stands where row 2"), ("fields 1\nrow 1 1:1\n", 2, "ends where '='"),
                ("fields 1\nrow 1 1:1 =\n", 2, "right side of row 1"), ("fields 1\nrow 1 1 = 2\n", 2, "column:value"), ("fields 1\nrow 1 1: 2 = 2\n", 2, "without its value"),
                ("fields 1\nrow 1\n1:z = 2\n", 3, "'z' is no number"), ("fields 1\nrow 1 a:1 = 2\n", 2, "a column"),
                ("fields 1\nrow 1 1:1 = 1e999\n", 2, "beyond the largest"), ("fields 1\nrow 1 1:1 = 1\nrow 2\n", 3, "follows the last row"),
                (FOUR + "pivots 1 2 x\n", 6, "a pivot row"), (FOUR + "\npivots 1 2\n", 7, "2 pivot rows"), (FOUR + "pivots\n", 6, "0 pivot rows"),
                (FOUR + "pivots 1\n1 3 4\n", 7, "has to be 2 to 4"), (FOUR + "pivots 1 2 3 4 4\n", 6, "step 5"),
                ("fields 2\nrow 1 0:1 1:1 = 1\n", 2, "refuse it: 3"), ("fields 2\nrow 1 1:1 3:1 = 1\n", 2, "refuse it: 3"),
                ("fields 2\nrow 1 1:1\n 1:2 = 1\n", 3, "refuse it: 4"), ("fields 2\nrow 1 2:1 1:1 = 1\n", 2, "column 1 follows column 2"),
                ("fields 2\nrow 1 2:1 = 1\n", 2, "refuse it: 5"), ("fields 1\nrow 1 1:inf = 1\n", 2, "refuse it: 11"),
                ("fields 1\nrow 1 1:1\n = nan\n", 3, "refuse it: 11"), (big, 257, "refuse it: 18")):
            with self.assertRaises(job_text.BadText, msg=text[:60]) as caught:
                job_text.parse(text)
            self.assertTrue(str(caught.exception).startswith(f"line {line}: "), (text[:60], str(caught.exception)))
            self.assertIn(part, str(caught.exception))


class OffsetsInText(unittest.TestCase):
    """Right sides in degrees, minutes and seconds: document 02, ticket 11."""

    def right_sides(self, *texts):
        text = f"fields {len(texts)}\n" + "".join(f"row {i} {i}:1 = {right}\n" for i, right in enumerate(texts, 1))
        return [row.right for row in job_text.parse(text).rows]

    def test_right_sides(self):
        for text, whole in (("+012 34 56.789", 45296789), ("-012 34 56.789", -45296789), ("+000 00 00.000", 0), ("-000 00 00.001", -1),
                            ("+359 59 59.999", 1295999999), ("-359 59 59.999", -1295999999)):
            self.assertEqual(self.right_sides(text), [bits_of(float(whole))], text)
        mixed = self.right_sides("3", "+012 34 56.789", "-2.5e-3", "+012", "-000 00 01.000 # a second")
        self.assertEqual(mixed, [bits_of(x) for x in (3.0, 45296789.0, -0.0025, 12.0, -1000.0)])

    def test_layout(self):
        text = "fields 2 row 1 1:1=+012 34 56.789 row 2 2:1 =\n  -000 00 00.002\npivots 1 2"
        self.assertEqual(job_text.show(job_text.parse(text)), "fields 2\nrow 1   1:1  = 45296789\nrow 2   2:1  = -2\npivots 1 2\n")

    def test_bad_lines(self):
        for right, part in (("+360 00 00.000", "'+360 00 00.000' is no offset: 360 degrees are more than 359"), ("-012 60 00.000", "60 minutes are more"),
                            ("+012 34 60.000", "60 seconds are more"), ("-000 00 00.000", "'-000 00 00.000' is no offset: zero is written with plus"),
                            ("+012 34 56,789", "'34' follows the right side"), ("+012\t34 56.789", "'34' follows the right side"),
                            ("+012 34 56.7890", "'34' follows the right side"), ("+012  34 56.789", "'34' follows the right side"),
                            ("012 34 56.789", "'34' follows the right side"), ("+012\n34 56.789", "'34' follows the right side")):
            line = 3 + right.count("\n")
            with self.assertRaises(job_text.BadText, msg=right) as caught:
                job_text.parse(f"fields 2\n# two\nrow 1 1:1 = {right}\nrow 2 2:1 = 1\n")
            self.assertTrue(str(caught.exception).startswith(f"line {line}: "), (right, str(caught.exception)))
            self.assertIn(part, str(caught.exception))

    def test_example_of_the_page(self):
        """The text and the two lines that docs/JOB.md shows."""
        page = contents(os.path.join(HERE, "..", "docs", "JOB.md")).decode()
        text = re.search(r"    fields 2\n(?:    row .*\n)+", page)[0]
        fields = job_text.parse(text)
        self.assertEqual([row.right for row in fields.rows], [bits_of(1500.0), bits_of(-45296789.0)])
        answer = "plan 2 3 1 1 1 1 10\nrows 1 2\nx 1 4097700000000000\nx 2 C1859935C8000000\nupdates 0\n"
        said, _ = job_answer.explain(answer, job_bytes.write(fields), as_offsets=True)
        self.assertIn("".join(f"    {line}\n" for line in said.splitlines()[4:]), page)

    def test_right_sides_alone(self):
        """Elsewhere three words stay three words."""
        for text, part in (("fields 1\nrow 1 1:+012 34 56.789 = 1\n", "'34' stands in row 1"), ("fields 1\nrow 1 +012 34 56.789 = 1\n", "column:value"),
                           ("fields +012 34 56.789\n", "the number of fields"), ("fields 1 row 1 1:1 = 1 pivots +012 34 56.789\n", "a pivot row")):
            with self.assertRaisesRegex(job_text.BadText, part):
                job_text.parse(text)
        self.assertEqual(matrix_market.right_side("+012 34 56.789"), [bits_of(x) for x in (12.0, 34.0, 56.789)])


class Market(unittest.TestCase):
    GENERAL = ("%%MatrixMarket matrix coordinate real general\n% four fields\n4 4 9\n1 1 2\n1 3 1\n2 2 1\n2 4 1\n3 1 4\n3 3 4\n4 2 2\n4 3 1\n4 4 4\n")

    def made(self, matrix, right, pivots=()):
        return matrix_market.from_market(matrix_market.Market(matrix), matrix_market.right_side(right), list(pivots))

    def test_four_fields(self):
        for right in ("3 2 8 7", "3\n2 # second\n8\n7\n", "%%MatrixMarket matrix array real general\n4 1\n3\n2\n8\n7\n",
                      "%%MatrixMarket matrix coordinate integer general\n4 1 4\n4 1 7\n1 1 3\n2 1 2\n3 1 8\n"):
            fields, added = self.made(self.GENERAL, right)
            self.assertEqual((job_bytes.write(fields), added), (four_job(), []))
        self.assertEqual(self.made(self.GENERAL, "3 2 8 7", [1, 2, 4, 4])[0].pivots, [1, 2, 4, 4])

    def test_symmetries_and_arrays(self):
        symmetric, added = self.made("%%MatrixMarket matrix coordinate real symmetric\n2 2 2\n1 1 5\n2 1 -3\n", "1 2")
        self.assertEqual(job_text.show(symmetric), "fields 2\nrow 1   1:5  2:-3  = 1\nrow 2   1:-3  2:0  = 2\n")
        self.assertEqual(added, [2])
        skew, added = self.made("%%MatrixMarket matrix coordinate real skew-symmetric\n2 2 1\n2 1 3\n", "1 2")
        self.assertEqual(job_text.show(skew), "fields 2\nrow 1   1:0  2:-3  = 1\nrow 2   1:3  2:0  = 2\n")
        dense, added = self.made("%%MatrixMarket matrix array real general\n2 2\n1\n0\n-0\n4\n", "1 2")
        self.assertEqual(job_text.show(dense), "fields 2\nrow 1   1:1  2:-0  = 1\nrow 2   2:4  = 2\n")
        lower, added = self.made("%%MatrixMarket matrix array real symmetric\n2 2\n1\n7\n4\n", "1 2")
        self.assertEqual(job_text.show(lower), "fields 2\nrow 1   1:1  2:7  = 1\nrow 2   1:7  2:4  = 2\n")

    def test_bad_files(self):
        head = "%%MatrixMarket matrix coordinate real general\n"
        for matrix, right, line, part in (
                ("", "", 1, "empty"), ("1 1\n", "1", 1, "begins with"),
                ("%%MatrixMarket matrix coordinate complex general\n1 1 1\n", "1", 1, "'complex'"),
                ("%%MatrixMarket matrix coordinate pattern general\n1 1 1\n", "1", 1, "'pattern'"),
                ("%%MatrixMarket matrix coordinate real hermitian\n", "1", 1, "'hermitian'"),
                (head, "1", 1, "before its sizes"), (head + "% c\n1 1\n", "1", 3, "3 sizes"), (head + "1 1 x\n", "1", 2, "'x'"),
                (head + "1 1 1\n1 1\n", "1", 3, "an entry is"),
                (head + "2 2 1\n3 1 1\n", "1", 3, "outside 2 by 2"), (head + "1 1 2\n1 1 1\n1 1 2\n", "1", 4, "listed twice"),
                (head + "1 1 2\n1 1 1\n", "1", 2, "2 entries are announced"),
                (head + "1 1 1\n1 1 q\n", "1", 3, "no number"), (head + "1 1 1\n1 1 inf\n", "1", 3, "not finite"),
                (head + "2 1 0\n", "1 2", 2, "square"), (head + "129 129 0\n", "1", 2, "1 to 128"),
                (head + "1 1 1\n1 1 1\n", "1 2", 2, "right side 2 numbers"),
                (head + "1 1 1\n1 1 1\n", "1\ny\n", 2, "'y' is no number"), (head + "1 1 1\n1 1 1\n", "\nnan", 2, "finite"),
                ("%%MatrixMarket matrix array real general\n2 2\n1\n2\n", "1 2", 2, "4 values"),
                ("%%MatrixMarket matrix array real general\n65535 65535\n1\n", "1", 2, "4294836225 values"),
                ("%%MatrixMarket matrix coordinate real symmetric\n2 1 0\n", "1", 2, "square"),
                ("%%MatrixMarket matrix coordinate real skew-symmetric\n1 1 1\n1 1 0\n", "1", 3, "no diagonal"),
                (head + "1 1 1\n1 1 1\n", "%%MatrixMarket matrix array real general\n1 2\n1\n2\n", 2, "one column")):
            with self.assertRaises(job_text.BadText, msg=matrix + right) as caught:
                self.made(matrix, right)
            self.assertTrue(str(caught.exception).startswith(f"line {line}: "), (matrix, str(caught.exception)))
            self.assertIn(part, str(caught.exception))
        for pivots in ([1, 2, 3], [1, 1, 3, 4], [1, 2, 3, 4, 4]):
            with self.assertRaises(job_text.BadText):
                self.made(self.GENERAL, "3 2 8 7", pivots)


class Answers(unittest.TestCase):
    def test_listing(self):
        said, finished = job_answer.explain(LISTING, four_job())
        self.assertTrue(finished)
        for part in ("4 fields, 9 entries", "L 2, U 2", "L 3, U 4", "reads 31, updates 3", "pivot rows: 3 4 3 4", "field 4: 1    0x1.0000000000000p+0"):
            self.assertIn(part, said)
        self.assertIn("field 1: 0.1 ", job_answer.explain("plan 1 1 0 0 0 0 2\nrows 1\nx 1 3FB999999999999A\nupdates 0\n")[0])

    def test_sexagesimal(self):
        """The same lines, each offset with its text; what cannot be written is told as such."""
        values = (45296789.0, -0.4, -1.5, 1295999999.5, -1e300, float("nan"))
        text = "plan 6 6 0 0 0 0 12\nrows 1 2 3 4 5 6\n" + "".join(f"x {i} {bits_of(x):016X}\n" for i, x in enumerate(values, 1)) + "updates 0\n"
        plain, with_offsets = (job_answer.explain(text, as_offsets=wanted)[0].splitlines() for wanted in (False, True))
        self.assertEqual(plain[:4], with_offsets[:4])
        beyond = "not written (29: it rounds beyond the largest, 1,295,999,999)"
        texts = ("+012 34 56.789", "+000 00 00.000", "-000 00 00.002", beyond, beyond, "not written (29: it is not finite)")
        self.assertEqual([line + "    " + written for line, written in zip(plain[4:], texts)], with_offsets[4:])
        self.assertEqual(job_answer.explain("refused 13 1\n", as_offsets=True), job_answer.explain("refused 13 1\n"))

    def test_sentences_of_requests(self):
        """The header's words."""
        header = dict(re.findall('case ([0-9]+): return "(.*)";', contents(os.path.join(HERE, "..", "include", "dalumiveth.h")).decode()))
        for number in (19, 23, 25, 26, 27, 28, 29):
            said = header[str(number)]
            self.assertEqual(job_answer.SENTENCES[number], said[0].upper() + said[1:] + ".")

    def test_every_refusal_has_its_sentence(self):
        self.assertEqual(sorted(job_answer.SENTENCES), [*range(1, 20), 23, *range(25, 30)])
        for number in job_answer.SENTENCES:
            step = 17 if number in (7, 8, 13, 14) else 0
            said, finished = job_answer.explain(f"refused {number} {step}\n")
            self.assertFalse(finished)
            self.assertTrue(said.startswith(f"refused, number {number}" + (", step 17\n" if step else "\n")), said)
            self.assertEqual(said.count("\n"), 3 if number in (2, 6, 9, 19, 23, *range(25, 30)) else 2)
            self.assertEqual("17" in said.splitlines()[1], bool(step))
            self.assertNotIn("{", said)
        self.assertIn("has an entry of magnitude at least 2^-1022 in column 17", job_answer.explain("refused 13 17\n")[0])

    def test_places(self):
        def job(text):
            return job_bytes.write(job_text.parse(text, unchecked=True))

        for answer, text, part in (
                ("refused 1 0\n", b"N\x81\0", "n is 129"), ("refused 1 0\n", b"N\0\0", "n is 0"),
                ("refused 3 0\n", job("fields 2 row 1 1:1 5:1 = 1 row 2 2:1 = 1"), "row 1 lists column 5"),
                ("refused 4 0\n", job("fields 2 row 1 1:1 2:1 = 1 row 2 2:1 2:1 = 1"), "in row 2 column 2 follows column 2"),
                ("refused 5 0\n", job("fields 2 row 1 1:1 = 1 row 2 1:1 = 1"), "row 2 does not list column 2"),
                ("refused 11 0\n", job("fields 1 row 1 1:inf = 1"), "row 1, column 1 is inf"),
                ("refused 11 0\n", job("fields 1 row 1 1:1 = nan"), "right side of row 1 is nan"),
                ("refused 12 0\n", job(FOUR + "pivots 1 1 3 4"), "row 1 at step 2"),
                ("refused 13 1\n", job(FOUR + "pivots 2 2 3 4"), "row 2 at step 1"),
                ("refused 15 0\n", b"X", "byte 0 is 58 (at the beginning), and only N may"),
                ("refused 15 0\n", four_job()[:37] + b"R\3\0", "names row 3, and row 2"),
                ("refused 15 0\n", four_job()[:-1] + b"P\1\0Z", "after 1 of 4"), ("refused 16 0\n", b"", "ends after byte 0"),
                ("refused 16 0\n", four_job()[:-1], "P or Z has to follow"),
                ("refused 16 0\n", four_job()[:8], "inside the command E of byte 6, in row 1"),
                ("refused 17 0\n", four_job() + b"ZZ", "the Z of byte 150 ends the job, and 2 more bytes"), ("refused 18 0\n", bytes(16386), "2 more than")):
            said, _ = job_answer.explain(answer, text)
            self.assertIn("Where: ", said)
            self.assertIn(part, said)

    def test_answer_of_another_job(self):
        for answer in [f"refused {number} 0\n" for number in job_answer.SEEN]:
            self.assertIn("belongs to another job", job_answer.explain(answer, four_job())[0])
        for job in (b"", cases_job.four([1, 2, 3, 4]), cases_job.four(right=[cases_job.NAN] * 4)):
            with self.assertRaises(job_answer.BadAnswer):
                job_answer.explain(LISTING, job)

    def test_no_whole_answer(self):
        for text in ("", "refused 20 0\n", "refused 24 0\n", "refused 0 0\n", "refused 3\n", "refused 3 0", LISTING[:-1], LISTING + "x",
                     LISTING.replace("x 2", "x 5"), "refused 3 5\n", "refused 26 1\n", "refused 7 0\n", "refused " + "9" * 5000 + " 0\n", LISTING.replace("plan 4", "plan " + "4" * 5000),
                     LISTING.replace("rows 3", "rows"), LISTING.replace("updates 3\n", ""), "plan 1\n", "garbage\n"):
            with self.assertRaises(job_answer.BadAnswer, msg=text):
                job_answer.explain(text)
        for cut in range(len(LISTING)):
            with self.assertRaises(job_answer.BadAnswer):
                job_answer.explain(LISTING[:cut])


class RecordedJobs(unittest.TestCase):
    """The recorded jobs, whose answers a dense program of another author gave."""

    def test_all(self):
        recorded = cases_job.recorded()
        self.assertGreater(len(recorded), 400)
        for number, (job, answer) in enumerate(recorded, 1):
            with self.subTest(job=number):
                said, finished = job_answer.explain(answer, job)
                self.assertEqual(finished, answer.startswith("plan "))
                self.assertNotIn(job_answer.OTHER_JOB, said)
                try:
                    fields = job_bytes.read(job)
                except Refused as refusal:
                    self.assertEqual(answer, f"refused {refusal.number} 0\n")
                else:
                    self.assertEqual(job_bytes.write(job_text.parse(job_text.show(fields), unchecked=True)), job)


class Commands(unittest.TestCase):
    def run_words(self, *words, given=b""):
        out, err = io.TextIOWrapper(io.BytesIO()), io.StringIO()
        was = sys.stdin
        sys.stdin = io.TextIOWrapper(io.BytesIO(given))
        try:
            with contextlib.redirect_stdout(out), contextlib.redirect_stderr(err):
                try:
                    status = jobs.main(list(words))
                except SystemExit as end:
                    status = end.code
        finally:
            sys.stdin = was
        out.flush()
        return status, out.buffer.getvalue(), err.getvalue()

    def test_make_show_explain(self):
        example = os.path.join(EXAMPLES, "four_fields.")
        self.assertEqual(self.run_words("make", example + "txt"), (0, contents(example + "job"), ""))
        self.assertEqual(self.run_words("make", given=FOUR.encode())[1], contents(example + "job"))
        self.assertEqual(self.run_words("make", given=FOUR.encode("utf-8-sig"))[1], contents(example + "job"))
        status, text, _ = self.run_words("show", example + "job")
        self.assertEqual((status, self.run_words("make", "-", given=text)[1]), (0, contents(example + "job")))
        self.assertIn(b"1:0x1.0000000000000p+1", self.run_words("show", "--hex", example + "job")[1])
        status, said, _ = self.run_words("explain", "--job", example + "job", given=LISTING.encode())
        self.assertEqual((status, said.split(b"\n")[0]), (0, b"finished: 4 fields, 9 entries"))
        status, with_offsets, _ = self.run_words("explain", "--sexagesimal", given=LISTING.encode())
        self.assertEqual((status, with_offsets), (0, said.replace(b"p+0\n", b"p+0    +000 00 00.001\n")))

    def test_load(self):
        """A job from a seed, read back; what is refused, by the load or by the program, is told in words and makes no job."""
        shown = "fields 5\nrow 1   1:74  3:15  4:-826  = 962\nrow 2   2:189  = 734\nrow 3   3:291  = 298\nrow 4   4:626  = -947\nrow 5   3:644  5:495  = 855\n"
        status, job, said = self.run_words("make", "--load", "1984,5,3")
        self.assertEqual((status, said), (0, ""))
        self.assertEqual(job, job_bytes.write(seeded_load.job_of(1984, 5, 3)))
        self.assertEqual(self.run_words("show", given=job), (0, shown.encode(), ""))
        self.assertIn("".join(f"    {line}\n" for line in shown.splitlines()), contents(os.path.join(HERE, "..", "docs", "JOB.md")).decode())
        for seed in ("0", "4294967295", "0007"):
            self.assertEqual(self.run_words("make", "--load", seed + ",128,20")[0], 0)
        for name, part in (("7,0,3", "refused, number 1: The number of fields is 0 or above 128"), ("7,1025,0", "refused, number 1: "),
                           ("7,18446744073709551615,3", "refused, number 1: "), ("7,5,0", "refused, number 23: The divisor d of a test load is 0."),
                           ("7,129,0", "refused, number 23: "), ("7,129,50", "129 fields: 1 to 128 are possible (the program would refuse it: 1)"),
                           ("7,128,2", "bytes, and 16384 are possible (the program would refuse it: 18)")):
            status, out, said = self.run_words("make", "--load", name)
            self.assertEqual((status, out), (1, b""), name)
            self.assertTrue(said.startswith(f"jobs: the load {name}: ") and part in said, said)

    def test_files(self):
        with tempfile.TemporaryDirectory() as folder:
            def path(name, content=None):
                if content is not None:
                    with open(os.path.join(folder, name), "w") as file:
                        file.write(content)
                return os.path.join(folder, name)

            matrix, right = path("a.mtx", Market.GENERAL.replace("4 4 4\n", "").replace("4 4 9", "4 4 8")), path("b.txt", "3 2 8 7")
            status, out, said = self.run_words("make", "--matrix", matrix, "--right", right, "--pivots", "1,2,4,4", "-o", path("job"))
            self.assertEqual((status, out), (0, b""))
            self.assertIn("hold 0: 4", said)
            self.assertIn(b"pivots 1 2 4 4", self.run_words("show", path("job"))[1])
            self.assertEqual(sorted(os.listdir(folder)), ["a.mtx", "b.txt", "job"])
            status, out, said = self.run_words("make", path("bad.txt", "fields 1\nrow 1 1:x = 1\n"), "-o", path("never"))
            self.assertEqual((status, out), (1, b""))
            self.assertIn("bad.txt: line 2: 'x' is no number", said)
            self.assertFalse(os.path.exists(path("never")))
            os.symlink(path("job"), path("link"))
            self.assertEqual(self.run_words("make", "-o", path("link"), given=FOUR.encode())[0], 0)
            self.assertTrue(os.path.islink(path("link")))
            self.assertEqual(contents(path("job")), four_job())
            os.mkfifo(path("pipe"))
            reader = os.open(path("pipe"), os.O_RDONLY | os.O_NONBLOCK)
            self.assertEqual(self.run_words("make", "-o", path("pipe"), given=FOUR.encode())[0], 0)
            self.assertEqual(os.read(reader, 1000), four_job())
            os.close(reader)

    def test_as_a_program(self):
        done = subprocess.run([sys.executable, os.path.join(HERE, "jobs.py"), "make"], input=FOUR.encode(), capture_output=True)
        self.assertEqual((done.returncode, done.stdout, done.stderr), (0, four_job(), b""))

    def test_statuses(self):
        self.assertEqual(self.run_words("explain", given=b"refused 13 2\n")[0], 1)
        for given in (b"", b"\xff", LISTING[:40].encode()):
            self.assertEqual(self.run_words("explain", given=given)[0], 2)
        status, out, said = self.run_words("show", given=b"N\4\0X")
        self.assertEqual((status, out), (1, b""))
        self.assertIn("byte 3 is 58", said)
        self.assertEqual(self.run_words("make", given=b"\xff\xfe")[0], 1)
        self.assertEqual(self.run_words("make", given=b"fields 1 row 1 2:1 = 1")[0], 1)
        self.assertEqual(self.run_words("make", "--unchecked", given=b"fields 1 row 1 2:1 = 1")[0], 0)
        for words in ((), ("make", "--matrix", "a"), ("make", "--right", "b"), ("make", "--pivots", "1"), ("make", "t", "--matrix", "a", "--right", "b"),
                      ("make", "--matrix", "a", "--right", "b", "--pivots", "x"), ("make", "--matrix", "a", "--right", "b", "--pivots", "1_0"),
                      ("make", "--matrix", "a", "--right", "b", "--pivots", ""), ("show", "/no/such/file"), ("made",),
                      ("make", "--load", "1,2"), ("make", "--load", "1,2,3,4"), ("make", "--load", "1,2,x"), ("make", "--load", "1,,3"),
                      ("make", "--load", "1, 2,3"), ("make", "--load", "-1,2,3"), ("make", "--load=-1,2,3"), ("make", "--load", "1,2_0,3"),
                      ("make", "--load", "1.0,2,3"), ("make", "--load", "4294967296,2,3"), ("make", "--load", "1,2," + "3" * 30),
                      ("make", "--load", "\u0661,2,3"), ("make", "--load"), ("make", "t", "--load", "1,2,3"), ("make", "--load", "1,2,3", "--unchecked"),
                      ("make", "--load", "1,2,3", "--pivots", "1,2"), ("make", "--load", "1,2,3", "--right", "b"),
                      ("make", "--load", "1,2,3", "--matrix", "a", "--right", "b"), ("show", "--load", "1,2,3")):
            self.assertEqual(self.run_words(*words)[0], 2, words)


if __name__ == "__main__":
    unittest.main()
