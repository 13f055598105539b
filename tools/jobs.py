#!/usr/bin/env python3
"""Jobs as people write them, and the program's answers as people read them.

  tools/jobs.py make TEXT [-o JOB] [--unchecked]      a job from a text of fields
  tools/jobs.py make --matrix A.mtx --right B [--pivots 1,2,3] [-o JOB]
                                                      a job from a Matrix Market file and a right side
  tools/jobs.py make --load SEED,N,D [-o JOB]         a job from the test load that a seed names
  tools/jobs.py show JOB [--hex]                      a job as that text again
  tools/jobs.py explain ANSWER [--job JOB] [--sexagesimal]
                                                      the program's answer in words

A file named - (and a JOB or ANSWER that is left out) is standard input; without
-o the job goes to standard output. docs/JOB.md has the text and the job.

Status: 0 done (explain: the run finished), 1 bad text, a bad job or a refusal,
2 bad usage, a file that cannot be read, or no whole answer.
"""
import argparse
import contextlib
import os
import sys

import job_answer
import job_text
import matrix_market
import seeded_load
from job_bytes import Refused, read, write


def load(name):
    if name == "-":
        return sys.stdin.buffer.read()
    with open(name, "rb") as file:
        return file.read()


def load_text(name):
    try:
        return load(name).decode("utf-8-sig")      # some editors put a mark before the text
    except UnicodeDecodeError:
        raise job_text.BadText(1, "this is no text") from None


def save(name, content):
    """A whole file or none: a job that is written half is no job."""
    if name in (None, "-"):
        sys.stdout.buffer.write(content)
        sys.stdout.buffer.flush()
        return
    name = os.path.realpath(name)
    if os.path.exists(name) and not os.path.isfile(name):      # a device or a pipe is written to, never replaced
        with open(name, "wb") as file:
            file.write(content)
        return
    try:
        with open(name + ".part", "wb") as file:
            file.write(content)
        os.replace(name + ".part", name)
    except OSError:
        with contextlib.suppress(OSError):
            os.remove(name + ".part")
        raise


class InFile(Exception):
    """Bad text, with the file's name."""


def in_file(name, make, *arguments):
    try:
        return make(*arguments)
    except job_text.BadText as error:
        raise InFile(f"{'standard input' if name == '-' else name}: {error}") from None


def from_text(words):
    name = words.text or "-"
    return in_file(name, lambda: job_text.parse(load_text(name), words.unchecked))


def from_matrix(words):
    matrix = in_file(words.matrix, lambda: matrix_market.Market(load_text(words.matrix)))
    right = in_file(words.right, lambda: matrix_market.right_side(load_text(words.right)))
    fields, added = in_file(words.matrix, matrix_market.from_market, matrix, right, words.pivots)
    if added:
        print("jobs: diagonal places that the file does not list hold 0: " + " ".join(map(str, added)), file=sys.stderr)
    return fields


def from_load(words):
    name = "the load " + ",".join(map(str, words.load))
    try:
        return in_file(name, seeded_load.job_of, *words.load)
    except Refused as refusal:
        raise InFile(f"{name}: refused, number {refusal.number}: {job_answer.SENTENCES[refusal.number]}") from None


def make(words):
    made = from_load if words.load is not None else from_matrix if words.matrix is not None else from_text
    save(words.output, write(made(words)))
    return 0


def show(words):
    sys.stdout.write(job_text.show(read(load(words.job)), words.hex))
    return 0


def explain(words):
    try:
        text = load(words.answer).decode("ascii")
    except UnicodeDecodeError:
        raise job_answer.BadAnswer("this is not, or not all of, an answer of the program") from None
    said, finished = job_answer.explain(text, None if words.job is None else load(words.job), words.sexagesimal)
    sys.stdout.write(said)
    return 0 if finished else 1


def rows(text):
    """The row list of --pivots."""
    words = text.replace(",", " ").split()
    if not words or not all(word.isascii() and word.isdigit() and len(word) <= 5 for word in words):
        raise argparse.ArgumentTypeError(f"'{text}' is no list of rows")
    return [int(word) for word in words]


def load_name(text):
    """The seed, n and d of --load. Digits alone, at most 20 each: what passes 32 bits is no seed, and n and d have 64."""
    words = text.split(",")
    if len(words) != 3 or not all(word.isascii() and word.isdigit() and len(word) <= 20 for word in words):
        raise argparse.ArgumentTypeError(f"'{text}' is not SEED,N,D: three whole numbers")
    seed, n, d = (int(word) for word in words)
    if seed > seeded_load.LARGEST_SEED:
        raise argparse.ArgumentTypeError(f"a seed is 0 to {seeded_load.LARGEST_SEED}, not {seed}")
    return seed, n, d


def command_line():
    parser = argparse.ArgumentParser(prog="jobs.py", description=__doc__, formatter_class=argparse.RawDescriptionHelpFormatter)
    commands = parser.add_subparsers(dest="command", required=True, metavar="make|show|explain")
    made = commands.add_parser("make", help="a job from a text, from a Matrix Market file or from a test load")
    made.add_argument("text", nargs="?")
    made.add_argument("-o", dest="output", metavar="JOB")
    made.add_argument("--unchecked", action="store_true", help="write it though the program would refuse it")
    made.add_argument("--matrix", metavar="A.mtx")
    made.add_argument("--right", metavar="B", help="a Matrix Market file with one column, or numbers alone")
    made.add_argument("--pivots", type=rows, default=[], help="the row list, with --matrix")
    made.add_argument("--load", type=load_name, metavar="SEED,N,D", help="a test load: about one place in D of N rows is present, and the diagonal")
    made.set_defaults(run=make)
    shown = commands.add_parser("show", help="a job as text")
    shown.add_argument("job", nargs="?", default="-")
    shown.add_argument("--hex", action="store_true", help="values as C hex floats")
    shown.set_defaults(run=show)
    explained = commands.add_parser("explain", help="the program's answer in words")
    explained.add_argument("answer", nargs="?", default="-")
    explained.add_argument("--job", help="the job that was answered, so that places in it can be named")
    explained.add_argument("--sexagesimal", action="store_true", help="the offsets, as milliarcseconds, in degrees, minutes and seconds too")
    explained.set_defaults(run=explain)
    return parser


def main(arguments):
    parser = command_line()
    words = parser.parse_args(arguments)
    if words.command == "make" and (words.matrix is None) != (words.right is None):
        parser.error("--matrix and --right go together")
    if words.command == "make" and words.matrix is None and words.pivots:
        parser.error("--pivots goes with --matrix; a text has its own row list")
    if words.command == "make" and words.matrix is not None and (words.text is not None or words.unchecked):
        parser.error("--matrix goes with neither a text nor --unchecked")
    if words.command == "make" and words.load is not None and (words.text is not None or words.matrix is not None or words.unchecked):
        parser.error("--load goes with neither a text, --matrix nor --unchecked")
    try:
        status = words.run(words)
        sys.stdout.flush()
        return status
    except InFile as error:
        print(f"jobs: {error}", file=sys.stderr)
        return 1
    except Refused as refusal:
        print(f"jobs: this job cannot be shown: {refusal} (the program refuses it: {refusal.number})", file=sys.stderr)
        return 1
    except (OSError, job_answer.BadAnswer) as error:
        print(f"jobs: {error}", file=sys.stderr)
        return 2


if __name__ == "__main__":
    sys.exit(main(sys.argv[1:]))
