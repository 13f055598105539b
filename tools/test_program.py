#!/usr/bin/env python3
"""Tests of the job program itself, on real input and output.

  python3 tools/test_program.py       (or PROGRAM=path python3 tools/test_program.py)

The program is crates/program/out/program, which `rt run` makes in crates/program, and `rt ci` too. What it prints for the recorded jobs, for jobs that come in pieces, and what it
does where reading or writing fails (docs/JOB.md).
"""
import os
import subprocess
import sys
import time
import unittest

import cases_job

HERE = os.path.dirname(os.path.abspath(__file__))
PROGRAM = os.environ.get("PROGRAM", os.path.join(HERE, "..", "crates", "program", "out", "program"))
LISTING = ("plan 4 9 2 2 3 4 31\nrows 3 4 3 4\nx 1 3FF0000000000000\nx 2 3FF0000000000000\n"
           "x 3 3FF0000000000000\nx 4 3FF0000000000000\nupdates 3\n")
CANNOT_READ, CANNOT_WRITE = b"job: standard input cannot be read\n", b"job: standard output cannot be written\n"


def run(job):
    done = subprocess.run([PROGRAM], input=job, capture_output=True)
    return done.returncode, done.stdout.decode(), done.stderr.decode()


def shell(line):
    """A line of the shell, with the program's path in $0."""
    return subprocess.run(["sh", "-c", line, PROGRAM], capture_output=True)


class Answers(unittest.TestCase):
    def test_example(self):
        with open(os.path.join(HERE, "..", "examples", "four_fields.job"), "rb") as file:
            self.assertEqual(run(file.read()), (0, LISTING, ""))

    def test_recorded_jobs(self):
        for number, (job, answer) in enumerate(cases_job.recorded(), 1):
            with self.subTest(job=number):
                self.assertEqual(run(job), (0, answer, ""))

    def test_sizes(self):
        self.assertEqual(run(b""), (0, "refused 16 0\n", ""))
        for size in (16385, 20000, 65536, 1000000):
            self.assertEqual(shell(f"head -c {size} /dev/zero | \"$0\"").stdout, b"refused 18 0\n", size)

    def test_pieces(self):
        job = cases_job.four()
        for sizes in ([1] * len(job), [3, 3, 11, 100], [150, 1]):
            process = subprocess.Popen([PROGRAM], stdin=subprocess.PIPE, stdout=subprocess.PIPE, stderr=subprocess.PIPE)
            at = 0
            for size in sizes:
                process.stdin.write(job[at:at + size])
                process.stdin.flush()
                at += size
                time.sleep(0.002)
            self.assertEqual(process.communicate(job[at:]), (LISTING.encode(), b""))


class Failures(unittest.TestCase):
    def test_input(self):
        for line in ('"$0" <&-', '"$0" < /'):
            done = shell(line)
            self.assertEqual((done.stdout, done.stderr), (b"", CANNOT_READ), line)

    def test_output(self):
        for line in ('"$0" < /dev/null > /dev/full', '"$0" < /dev/null >&-'):
            done = shell(line)
            self.assertEqual((done.stdout, done.stderr), (b"", CANNOT_WRITE), line)

    def test_reader_gone(self):
        process = subprocess.Popen([PROGRAM], stdin=subprocess.PIPE, stdout=subprocess.PIPE, stderr=subprocess.PIPE)
        process.stdout.close()
        process.stdin.close()
        self.assertEqual((process.wait(), process.stderr.read()), (0, CANNOT_WRITE))
        process.stderr.close()

    def test_neither(self):
        self.assertEqual(shell('"$0" <&- 2>&-').stdout, b"")


if __name__ == "__main__":
    if not os.path.isfile(PROGRAM):
        sys.exit(f"test_program: there is no program {PROGRAM}: 'rt run' in crates/program makes it")
    unittest.main()
