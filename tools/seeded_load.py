"""Test loads that a seed names, as document 02's ticket 6 has them.

Whole numbers alone, so that no library is needed.
"""
from job_bytes import Fields, Refused, Row, bits_of
from job_text import Checks

LARGEST_SEED = 2**32 - 1
MOST_ROWS, MOST_ENTRIES = 1024, 16384


class Draws:
    """The draws of a seed, one after the other; each is a number of 32 bits."""

    def __init__(self, seed):
        self.state = seed

    def next(self):
        self.state = (self.state + 2654435769) & LARGEST_SEED
        z = self.state
        z ^= z >> 16
        z ^= (z << 7) & LARGEST_SEED
        return z ^ (z >> 11)

    def value(self):
        """A value or a right side: a whole number from -1,000 to 1,000."""
        return self.next() % 2001 - 1000


def rows_of(seed, n, d):
    """The rows of a load, each as its places (pairs of column and value) and its right side; Refused with 1 or 23."""
    if not 1 <= n <= MOST_ROWS:
        raise Refused(1, f"n is {n}, and has to be 1 to {MOST_ROWS:,}")
    if d == 0:
        raise Refused(23, "d is 0")
    draws, rows, entries = Draws(seed), [], 0
    for i in range(1, n + 1):
        places = [(j, draws.value()) for j in range(1, n + 1) if j == i or draws.next() % d == 0]
        entries += len(places)
        if entries > MOST_ENTRIES:
            raise Refused(1, f"the first {i} of {n} rows have {entries} entries, and {MOST_ENTRIES:,} are possible")
        rows.append((places, draws.value()))
    return rows


def job_of(seed, n, d):
    """The fields of the job of a load. Refused with 1 or 23; BadText where the program would refuse the job."""
    if 1 <= n <= MOST_ROWS and d != 0:
        Checks(n, False).size(None)      # before any draw: of most n that are too large the draws would be many
    rows = [Row([(j, bits_of(float(value))) for j, value in places], bits_of(float(right))) for places, right in rows_of(seed, n, d)]
    fields = Fields(n, rows, [])
    Checks(n, False).bytes(None, fields)
    return fields
