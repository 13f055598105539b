"""The program's answer in words: decimals for a solution, a sentence for a refusal.

The answer itself carries a refusal's number and step. Where the job is at hand
too, the place in it is named.
"""
import re

import offset_text
from job_bytes import MOST_BYTES, MOST_FIELDS, Refused, is_finite, number_of, read, text_of_bits

ROOM = 2048

# What is wrong, for each refusal of document 01, 13 by document 02's ticket 14, 19 and 27 by its ticket 10, 23 by its ticket 6, 25 and 26 by its ticket 9,
# 28 and 29 by its ticket 11; {k} is its step.
SENTENCES = {
    1: f"The number of fields is 0 or above {MOST_FIELDS} (in a call of the library: above 1,024, or more than 16,384 entries).",
    2: "The row starts of a pattern are not one more than its rows, do not begin with 0, fall, or do not end with the number of entries.",
    3: "A column number is 0 or larger than the number of fields.",
    4: "The columns of a row do not ascend strictly.",
    5: "A row lacks its diagonal place. Where its value is zero it has to be listed all the same.",
    6: "A starts store of the plan, a work store, or a store for a job's text, a tally, an offset or a test load has another length than docs/CALLS.md fixes for it.",
    7: f"At step {{k}} the subscripts of L need more room than is lent (in the program {ROOM:,}).",
    8: f"At step {{k}} the subscripts of U need more room than is lent (in the program {ROOM:,}).",
    9: "The lent plan is not the plan of this pattern: some count, start or used subscript differs.",
    10: f"The plan needs more value slots on a side than are lent (in the program {ROOM:,}); "
        "or, in a call of the library, a store of values has another length than it should.",
    11: "A value or a right side is not finite.",
    12: "The row list names for some step k a row before k or after the last one "
        "(or, in a call of the library, is not n long, or the run is to be cut after more than n steps).",
    13: "At step {k} there is no pivot: no row from {k} on, or not the listed row, has an entry of magnitude at least 2^-1022 in column {k}. "
        "The equations do not determine every field, or only by weights too faint to divide by, or the list is not legal.",
    14: "At step {k}, or in row {k} of the back substitution, a quotient, product or difference passes the largest 64-bit number.",
    15: "A command byte is unknown or stands where it may not, or R names another row than the next, or there are neither none nor n P.",
    16: "The job ends inside a command or before its Z.",
    17: "Bytes follow the Z.",
    18: f"The job has more than {MOST_BYTES:,} bytes.",
    19: "The member's sum in the tally would pass 4,294,967,295; the tally stays as it was.",
    23: "The divisor d of a test load is 0.",
    25: "The rows are fewer than n or more than 2,048.",
    26: "A system with more rows than n is to be solved: it can be run only when cut.",
    27: "The member number is outside 1 to 16; the tally stays as it was.",
    28: "The text is not an offset such as +012 34 56.789 (14 bytes, below 360 degrees), or it is minus zero.",
    29: "The number of milliarcseconds is not finite or rounds beyond the largest, 1,295,999,999.",
}
NOT_OF_JOBS = (2, 6, 9, 19, 23, 25, 26, 27, 28, 29)
WITH_STEP = (7, 8, 13, 14)      # the others have step 0


class BadAnswer(Exception):
    """What was handed in is no whole answer of the program."""


# ---- the answer's lines

class Finished:
    def __init__(self, counts, pivots, solution, updates):
        self.counts, self.pivots, self.solution, self.updates = counts, pivots, solution, updates


def parse(text):
    """Finished, or the number and step of a refusal."""
    if text == "":
        raise BadAnswer("there is no answer: the program could not read its input or write its output, and says so on standard error")
    refusal = re.fullmatch(r"refused ([0-9]{1,20}) ([0-9]{1,20})\n", text)
    if refusal:
        number, step = int(refusal[1]), int(refusal[2])
        if number not in SENTENCES:
            raise BadAnswer(f"{number} is the number of no refusal")
        if (step != 0) != (number in WITH_STEP):
            raise BadAnswer(f"refusal {number} does not come with step {step}")
        return number, step
    whole = re.fullmatch(r"plan((?: [0-9]{1,20}){7})\nrows((?: [0-9]{1,20})*)\n((?:x [0-9]{1,20} [0-9A-F]{16}\n)*)updates ([0-9]{1,20})\n", text)
    if not whole:
        raise BadAnswer("this is not, or not all of, an answer of the program")
    counts, pivots = [int(word) for word in whole[1].split()], [int(word) for word in whole[2].split()]
    lines = [line.split() for line in whole[3].splitlines()]
    if counts[0] != len(pivots) or [int(line[1]) for line in lines] != list(range(1, len(pivots) + 1)):
        raise BadAnswer(f"the answer has not {counts[0]} pivot rows and {counts[0]} lines x")
    return Finished(counts, pivots, [int(line[2], 16) for line in lines], int(whole[4]))


# ---- in words

def sexagesimal(bits):
    """The number as milliarcseconds in degrees, minutes and seconds, or why it is not written so."""
    try:
        return offset_text.text_of_value(number_of(bits))
    except offset_text.NoOffset as error:
        return f"not written (29: {error})"


def finished_text(answer, as_offsets=False):
    n, entries, l_subs, u_subs, l_slots, u_slots, reads = answer.counts
    lines = [f"finished: {n} fields, {entries} entries",
             f"subscripts: L {l_subs}, U {u_subs}; value slots: L {l_slots}, U {u_slots} (room for {ROOM:,} of each)",
             f"reads {reads}, updates {answer.updates}",
             "pivot rows: " + " ".join(map(str, answer.pivots))]
    for i, bits in enumerate(answer.solution, 1):
        lines.append(f"field {i}: {text_of_bits(bits)}    {number_of(bits).hex()}" + (f"    {sexagesimal(bits)}" if as_offsets else ""))
    return "\n".join(lines) + "\n"


def refused_text(number, step, where):
    lines = [f"refused, number {number}" + (f", step {step}" if step else ""), SENTENCES[number].format(k=step)]
    if number in NOT_OF_JOBS:
        lines.append("No job brings this about: it is an answer to a call of the library.")
    if where:
        lines.append("Where: " + where)
    return "\n".join(lines) + "\n"


# ---- where in the job

OTHER_JOB = "the answer belongs to another job: this one does not bring it about"
SEEN = (1, 3, 4, 5, 11, 12, 15, 16, 17, 18)     # the refusals whose place the job itself shows


def first_fault(job, before_values=False):
    """The fields, if they can be read, and the first fault that needs neither plan nor run to be seen."""
    try:
        fields = read(job)
    except Refused as refusal:
        return None, refusal
    found = first_pattern_fault(fields)
    if found is None and not before_values:
        found = first_not_finite(fields) or first_wrong_pivot(fields)
    return fields, found


def place(number, step, job):
    """Where in the job a refusal arises, in words, or None where only its step can be named."""
    fields, found = first_fault(job, number in (7, 8, 10))
    if found is not None or number in SEEN:
        return str(found) if found is not None and found.number == number else OTHER_JOB
    if number == 13 and fields.pivots and 1 <= step <= fields.n:
        return f"the row list has row {fields.pivots[step - 1]} at step {step}"
    return None


def fits_job(answer, job):
    """Whether a finished answer can be this job's."""
    fields, found = first_fault(job)
    if found is not None or [fields.n, sum(len(row.entries) for row in fields.rows)] != answer.counts[:2]:
        return False
    return fields.pivots in ([], answer.pivots)


def first_pattern_fault(fields):
    """3, 4 or 5, row by row: 3 before 4 at an entry, 5 at the row's end."""
    for i, row in enumerate(fields.rows, 1):
        before = 0
        for column, _ in row.entries:
            if not 1 <= column <= fields.n:
                return Refused(3, f"row {i} lists column {column}, and there are columns 1 to {fields.n}")
            if column <= before:
                return Refused(4, f"in row {i} column {column} follows column {before}")
            before = column
        if i not in [column for column, _ in row.entries]:
            return Refused(5, f"row {i} does not list column {i}")
    return None


def first_not_finite(fields):
    for i, row in enumerate(fields.rows, 1):
        for column, bits in row.entries:
            if not is_finite(bits):
                return Refused(11, f"the value in row {i}, column {column} is {text_of_bits(bits)}")
        if not is_finite(row.right):
            return Refused(11, f"the right side of row {i} is {text_of_bits(row.right)}")
    return None


def first_wrong_pivot(fields):
    for k, p in enumerate(fields.pivots, 1):
        if not k <= p <= fields.n:
            return Refused(12, f"the row list has row {p} at step {k}, and rows {k} to {fields.n} are possible")
    return None


def explain(text, job=None, as_offsets=False):
    """The words, and whether the run finished; the solution in degrees, minutes and seconds too if `as_offsets`."""
    answer = parse(text)
    if isinstance(answer, Finished):
        if job is not None and not fits_job(answer, job):
            raise BadAnswer(OTHER_JOB)
        return finished_text(answer, as_offsets), True
    number, step = answer
    return refused_text(number, step, place(number, step, job) if job is not None else None), False
