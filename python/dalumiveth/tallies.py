"""The tally: a sum of updates for each member, which stays with the caller."""

import operator
import threading

import numpy as np

from .library import LARGEST_USIZE, USIZE, as_usize, call, lend
from .refusals import raise_if_refused

MEMBERS = 16
_LARGEST_SUM = 2**32 - 1


class Tally:
    """A sum of updates, at most 4,294,967,295, for each of the members 1 to 16.

    Give it the updates of each finished run: tally.add(member, run.updates). `Tally(counters)` goes on from the sixteen sums of an
    earlier one, member 1's first. Threads may share a tally: a lock makes them wait for each other.
    """

    def __init__(self, counters=(0,) * MEMBERS):
        held = [operator.index(counter) for counter in counters]
        if len(held) != MEMBERS:
            raise ValueError(f"a tally has {MEMBERS} counters, not {len(held)}")
        for member, counter in enumerate(held, 1):
            if not 0 <= counter <= _LARGEST_SUM:
                raise ValueError(f"a tally's counter is 0 to {_LARGEST_SUM}, not {counter} (member {member})")
        self._counters = np.array(held, dtype=np.uint32)
        self._lock = threading.Lock()

    @property
    def counters(self):
        """Where the tally stands: the sixteen sums, member m's at place m - 1."""
        with self._lock:
            return tuple(self._counters.tolist())

    def add(self, member, updates):
        """Adds updates to a member's sum, and gives the new sum.

        Raises `Refusal` 27 where there is no such member and 19 where its sum would pass the largest; the tally then stays as it was.
        """
        answer = np.zeros(3, dtype=USIZE)
        asked = _number_of(member), as_usize(updates, "updates")
        with self._lock:
            call("dalumiveth_tally_add", *lend(self._counters), *asked, *lend(answer))
        raise_if_refused(answer)
        return int(answer[2])

    def __reduce__(self):
        return type(self), (self.counters,)

    def __repr__(self):
        return f"dalumiveth.Tally({list(self.counters)})"


def _number_of(member):
    """A member number for a size_t parameter. What has no place there is no member: below 0 it becomes 0, past 64 bits the largest."""
    return min(max(operator.index(member), 0), LARGEST_USIZE)
