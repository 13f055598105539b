"""A job as people write it.

The text is words; how they are broken into lines is free, and # begins a
comment. A row is an equation:

    fields 4
    row 1   1:2  3:1   = 3        column:value .. = right side
    row 2   2:1  4:1   = +012 34 56.789     degrees, minutes and seconds: the whole milliarcseconds
    ..
    pivots 1 2 4 4                optional: the row list
"""
import re

import offset_text
from job_bytes import Fields, MOST_BYTES, MOST_FIELDS, Row, bits_of, bits_of_text, is_finite, text_of_bits, write

# A word; an offset, which has blanks, is one.
WORD = re.compile(rf"(?<!\S){offset_text.FORM}(?!\S)|\S+")


class BadText(Exception):
    """What is wrong, and the line that it stands in; None where there are no lines."""

    def __init__(self, line, what):
        super().__init__(what if line is None else f"line {line}: {what}")


# ---- from text

class Words:
    """The words of a text, each with its line."""

    def __init__(self, text):
        self.words = []
        lines = text.splitlines()
        for line, content in enumerate(lines, 1):
            for word in WORD.findall(content.split("#")[0].replace("=", " = ")):
                self.words.append((line, word))
        self.at, self.last = 0, max(1, len(lines))

    def line(self):
        """The line of the next word, or the last line."""
        return self.words[self.at][0] if self.at < len(self.words) else self.last

    def peek(self):
        return self.words[self.at][1] if self.at < len(self.words) else None

    def next(self, wanted):
        if self.at == len(self.words):
            raise BadText(self.last, f"the text ends where {wanted} has to follow")
        self.at += 1
        return self.words[self.at - 1][1]

    def named(self, name):
        line, word = self.line(), self.next(f"'{name}'")
        if word != name:
            raise BadText(line, f"'{word}' stands where '{name}' has to follow")

    def whole(self, wanted):
        """A whole number that two bytes hold."""
        line, word = self.line(), self.next(wanted)
        return whole(line, word, wanted)

    def right_side(self, wanted):
        """A value, or an offset in degrees, minutes and seconds."""
        line, word = self.line(), self.next(wanted)
        return offset(line, word) if offset_text.has_form(word) else value(line, word)


def whole(line, word, wanted):
    if not (word.isascii() and word.isdigit()):
        raise BadText(line, f"'{word}' stands where {wanted} has to follow")
    if len(word) > 5 or int(word) > 65535:
        raise BadText(line, f"{word} is too large for {wanted}: at most 65535")
    return int(word)


def value(line, word):
    try:
        return bits_of_text(word)
    except ValueError as error:
        raise BadText(line, str(error)) from None


def offset(line, word):
    try:
        return bits_of(float(offset_text.whole_of_text(word)))
    except offset_text.NoOffset as error:
        raise BadText(line, f"'{word}' is no offset: {error}") from None


def parse(text, unchecked=False):
    """The fields of a text. Unless `unchecked`, what the program would refuse is told with its line."""
    words = Words(text)
    words.named("fields")
    line, n = words.line(), words.whole("the number of fields")
    check = Checks(n, unchecked)
    check.size(line)
    rows = [parse_row(words, i, check) for i in range(1, n + 1)]
    pivots = []
    if words.peek() == "pivots":
        words.next("'pivots'")
        while words.peek() is not None:
            line, p = words.line(), words.whole("a pivot row")
            pivots.append(p)
            check.pivot(line, len(pivots), p)
        check.pivots(words.last, pivots)
    if words.peek() is not None:
        raise BadText(words.line(), f"'{words.peek()}' follows the last row; only 'pivots' may")
    fields = Fields(n, rows, pivots)
    check.bytes(words.last, fields)
    return fields


def parse_row(words, i, check):
    words.named("row")
    line, number = words.line(), words.whole("the row's number")
    if number != i:
        raise BadText(line, f"row {number} stands where row {i} has to follow")
    entries = []
    while words.peek() not in ("=", None):
        line, word = words.line(), words.next("an entry")
        column, colon, rest = word.partition(":")
        if not colon:
            raise BadText(line, f"'{word}' stands in row {i} where column:value or '=' has to follow")
        if not rest:
            raise BadText(line, f"'{word}' stands in row {i} without its value: column and value are one word, with no blank behind the colon")
        before = entries[-1][0] if entries else 0
        entries.append((whole(line, column, "a column"), value(line, rest)))
        check.entry(line, i, before, *entries[-1])
    words.named("=")
    line, right = words.line(), words.right_side(f"the right side of row {i}")
    check.row(line, i, entries, right)
    if words.peek() not in ("row", "pivots", None):
        raise BadText(words.line(), f"'{words.peek()}' follows the right side of row {i}, which is a number, or an offset as the 14 characters of +012 34 56.789")
    return Row(entries, right)


class Checks:
    """What the program would refuse, told where it is written."""

    def __init__(self, n, unchecked):
        self.n, self.unchecked = n, unchecked

    def refuse(self, fails, line, number, what):
        if fails and not self.unchecked:
            raise BadText(line, f"{what} (the program would refuse it: {number})")

    def size(self, line):
        self.refuse(not 1 <= self.n <= MOST_FIELDS, line, 1, f"{self.n} fields: 1 to {MOST_FIELDS} are possible")

    def entry(self, line, i, before, column, bits):
        self.refuse(not 1 <= column <= self.n, line, 3, f"column {column} in row {i} is outside 1 to {self.n}")
        self.refuse(column <= before, line, 4, f"column {column} follows column {before} in row {i}: columns have to ascend")
        self.refuse(not is_finite(bits), line, 11, f"the value in row {i}, column {column} is not finite")

    def row(self, line, i, entries, right):
        self.refuse(i not in [column for column, _ in entries], line, 5, f"row {i} lacks its diagonal place: write {i}:0 if it is zero")
        self.refuse(not is_finite(right), line, 11, f"the right side of row {i} is not finite")

    def pivot(self, line, k, p):
        self.refuse(not k <= p <= self.n, line, 12, f"the pivot row of step {k} is {p}, and has to be {k} to {self.n}")

    def pivots(self, line, pivots):
        self.refuse(len(pivots) != self.n, line, 15, f"{len(pivots)} pivot rows are listed, and {self.n} have to be")

    def bytes(self, line, fields):
        size = len(write(fields)) if not self.unchecked else 0
        self.refuse(size > MOST_BYTES, line, 18, f"the job would have {size} bytes, and {MOST_BYTES} are possible")


# ---- to text

def show(fields, as_hex=False):
    lines = [f"fields {fields.n}"]
    for i, row in enumerate(fields.rows, 1):
        places = "".join(f"  {column}:{text_of_bits(bits, as_hex)}" for column, bits in row.entries)
        lines.append(f"row {i} {places}  = {text_of_bits(row.right, as_hex)}")
    if fields.pivots:
        lines.append("pivots " + " ".join(map(str, fields.pivots)))
    return "\n".join(lines) + "\n"
