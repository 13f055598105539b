"""The bytes of a job (document 01, "Job"): read and written.

Numbers of 64 bits are kept as bit patterns throughout, so that no NaN and no
zero's sign is lost on the way.
"""
import math
import re
import struct

MOST_FIELDS, MOST_BYTES = 128, 16384


class Row:
    """One equation: its places as pairs of column and bit pattern, and the right side."""

    def __init__(self, entries, right):
        self.entries, self.right = entries, right

    def __eq__(self, other):
        return (self.entries, self.right) == (other.entries, other.right)


class Fields:
    """A job: n, its rows, and the row list (empty: the largest entry chooses)."""

    def __init__(self, n, rows, pivots):
        self.n, self.rows, self.pivots = n, rows, pivots

    def __eq__(self, other):
        return (self.n, self.rows, self.pivots) == (other.n, other.rows, other.pivots)


class Refused(Exception):
    """A refusal of document 01, and where: a sentence for a person."""

    def __init__(self, number, where):
        super().__init__(where)
        self.number = number


# ---- numbers

def bits_of(x):
    return struct.unpack("<Q", struct.pack("<d", x))[0]


def number_of(bits):
    return struct.unpack("<d", struct.pack("<Q", bits))[0]


def is_finite(bits):
    return bits >> 52 & 0x7FF != 0x7FF


DECIMAL = re.compile(r"[+-]?([0-9]+\.?[0-9]*|\.[0-9]+)([eE][+-]?[0-9]+)?\Z")
HEX = re.compile(r"[+-]?0[xX]([0-9a-fA-F]+\.?[0-9a-fA-F]*|\.[0-9a-fA-F]+)([pP][+-]?[0-9]+)?\Z")
PATTERN = re.compile(r"@[0-9a-fA-F]{16}\Z")


def bits_of_text(text):
    """A decimal, a C hex float, inf, -inf, nan, or @ and sixteen digits: the bit pattern itself."""
    if PATTERN.match(text):
        return int(text[1:], 16)
    if text in ("inf", "-inf", "nan"):
        return bits_of(float(text))
    try:
        if DECIMAL.match(text):
            value = float(text)
        elif HEX.match(text):
            value = float.fromhex(text)
        else:
            raise ValueError(f"'{text}' is no number")
    except OverflowError:
        value = math.inf
    if math.isinf(value):
        raise ValueError(f"{text} is beyond the largest 64-bit number")
    return bits_of(value)


def text_of_bits(bits, as_hex=False):
    """The shortest decimal that reads back to these bits (or the C hex float)."""
    value = number_of(bits)
    if math.isnan(value):
        return "nan" if bits == bits_of(math.nan) else f"@{bits:016X}"
    if math.isinf(value):
        return "inf" if value > 0 else "-inf"
    if as_hex:
        return value.hex()
    text = repr(value)
    return text[:-2] if text.endswith(".0") else text


# ---- writing

def write(fields):
    out = [b"N", struct.pack("<H", fields.n)]
    for i, row in enumerate(fields.rows, 1):
        out += [b"R", struct.pack("<H", i)]
        for column, bits in row.entries:
            out += [b"E", struct.pack("<HQ", column, bits)]
        out += [b"B", struct.pack("<Q", row.right)]
    for p in fields.pivots:
        out += [b"P", struct.pack("<H", p)]
    return b"".join(out) + b"Z"


# ---- reading

OPERANDS = {"N": "<H", "R": "<H", "E": "<HQ", "B": "<Q", "P": "<H", "Z": "<"}


class Reader:
    """Command after command, with the place of each for what is said of a bad one."""

    def __init__(self, job):
        self.job, self.at = job, 0
        self.n, self.rows, self.open, self.pivots = 0, [], None, []

    def may_stand(self):
        """The commands that may stand here, and what that place is called."""
        if self.n == 0:
            return "N", "at the beginning"
        if self.open is not None:
            return "EB", f"in row {len(self.rows) + 1}"
        if len(self.rows) < self.n:
            return "R", f"before row {len(self.rows) + 1}"
        if self.pivots:
            return ("Z" if len(self.pivots) == self.n else "P"), f"after {len(self.pivots)} of {self.n} rows of the list"
        return "PZ", "after the last row"

    def next(self):
        """The next command and its operands."""
        allowed, place = self.may_stand()
        if self.at == len(self.job):
            raise Refused(16, f"the job ends after byte {self.at}, {place}, where {either(allowed)} has to follow")
        here, letter = self.at, chr(self.job[self.at])
        if letter not in allowed:
            raise Refused(15, f"byte {here} is {self.job[here]:02X} ({place}), and only {either(allowed)} may stand there")
        size = struct.calcsize(OPERANDS[letter])
        if len(self.job) - here - 1 < size:
            raise Refused(16, f"the job ends inside the command {letter} of byte {here}, {place}")
        self.at = here + 1 + size
        return letter, struct.unpack_from(OPERANDS[letter], self.job, here + 1), here

    def take(self, letter, operands, here):
        if letter == "N":
            self.n = operands[0]
            if not 1 <= self.n <= MOST_FIELDS:
                raise Refused(1, f"n is {self.n}, and has to be 1 to {MOST_FIELDS}")
        elif letter == "R":
            if operands[0] != len(self.rows) + 1:
                raise Refused(15, f"the R of byte {here} names row {operands[0]}, and row {len(self.rows) + 1} is the next")
            self.open = []
        elif letter == "E":
            self.open.append(operands)
        elif letter == "B":
            self.rows.append(Row(self.open, operands[0]))
            self.open = None
        elif letter == "P":
            self.pivots.append(operands[0])


def either(letters):
    return " or ".join(letters)


def read(job):
    """The fields of a job; Refused with 1 or 15 to 18, as the program refuses it."""
    if len(job) > MOST_BYTES:
        raise Refused(18, f"the job has {len(job)} bytes, {len(job) - MOST_BYTES} more than {MOST_BYTES:,}")
    reader, letter = Reader(job), ""
    while letter != "Z":
        letter, operands, here = reader.next()
        reader.take(letter, operands, here)
    if reader.at != len(job):
        raise Refused(17, f"the Z of byte {reader.at - 1} ends the job, and {len(job) - reader.at} more bytes follow")
    return Fields(reader.n, reader.rows, reader.pivots)
