"""The dense program of different authorship that document 01 asks for ("other cases are executed and compared"), as the tools that write the cases ask it.

It is a folder with now.py, which knows whole calls by documents 01 and 02, tickets.py, which reads and writes offsets, adds to a tally and draws test loads (document 02,
tickets 11, 10 and 6), and what these import. LANDED says which requests of document 02 have landed; `Dense(FOLDER, share_end=False)` answers as if ticket 5 had not,
`Dense(FOLDER, faint=False)` as if ticket 14 had not, so that the cases can show where a request's rule makes a difference. `Dense(FOLDER, tall=False)`, without ticket 9,
takes squares alone.
"""
import collections
import os
import sys

# the rules of tickets 5, 14 and 9, by now.py's names
LANDED = {"share_end": True, "faint": True, "tall": True}
Called = collections.namedtuple("Called", "answer stores")
OFFSET_BYTES = 14


class Dense:
    """Calls, plans and reports by the rules that are in. The row count stands behind n, in calls and among the eight counts of a plan."""

    def __init__(self, folder, **other_rules):
        if os.path.abspath(folder) not in sys.path:
            sys.path.insert(0, os.path.abspath(folder))
        import now
        import tickets
        self.now, self.tickets, self.rules = now, tickets, now.Rules(**{**LANDED, **other_rules})

    # ---- plans of patterns that pass 1 to 5, given by their rows; they have as many columns, or n where that is given

    def plan(self, rows, l_room=None, u_room=None, n=None):
        return self.now.make_plan(n or len(rows), len(rows), numbered(rows), self.rules, l_room, u_room)

    def refused_at(self, rows, l_room, u_room):
        """The step at which a plan does not fit."""
        try:
            self.plan(rows, l_room, u_room)
        except self.now.Refused as refusal:
            return refusal.step
        raise AssertionError("the rooms were to be too small")

    def counts_of(self, plan):
        return list(self.now.counts_of(plan))

    def stores_of(self, plan):
        return self.now.stores_of(plan)

    def pivot_rows(self, rows, values, right, n=None):
        """The row list of all steps by the largest entry."""
        n = n or len(rows)
        return self.now.run_full(n, len(rows), numbered(rows), values, right, None, n, self.rules)[2]

    # ---- whole calls

    def plan_call(self, most, n, height, starts, columns, lengths, work):
        return Called(*self.now.plan_call(most, n, height, starts, columns, lengths, work, self.rules))

    def hold_call(self, most, n, height, starts, columns, counts, stores, work):
        return self.now.hold_call(most, n, height, starts, columns, counts, stores, work, self.rules)

    def run_call(self, most, n, height, starts, columns, counts, stores, work, values, right, listed, cut, lengths):
        return self.now.run_call(most, n, height, starts, columns, counts, stores, work, values, right, listed, cut, lengths, self.rules)

    def report(self, job):
        return self.now.report(job, self.rules)

    # ---- the tally

    def tally_add(self, counters, member, updates):
        """The answer to a call on sixteen counters, and the counters afterwards."""
        return Called(*self.tickets.tally_member(counters, member, updates))

    # ---- offsets

    def read_offset(self, text):
        return self.tickets.read_sexagesimal(text)

    def write_offset(self, value, length):
        """The whole number that is written, and the store of this length: zeros after a refusal. It knows no stores:
        that one of another length is 6, and what is left after a refusal, is said here (docs/DECISIONS.md, 85)."""
        answer = self.tickets.write_sexagesimal(value) if length == OFFSET_BYTES else ("refused", 6, 0)
        if answer[0] == "refused":
            return Called(answer, bytes(length))
        return Called(self.read_offset(answer[1]), answer[1])

    # ---- test loads

    def load(self, seed, n, d, lengths):
        """The answer, granted with the number of entries, and the stores of these lengths: row starts, columns, values, right sides. It gives lists and knows no stores: the
        zeros behind the entries, and those that a refusal leaves throughout, are said here."""
        starts, columns, values, right = lengths
        answer = self.tickets.load(seed, n, d, (columns, values, starts, right))
        granted = answer[0] == "granted"
        lists = answer[1] if granted else ([], [], [], [])
        stores = [places + [zero] * (length - len(places)) for places, zero, length in zip(lists, (0, 0, 0.0, 0.0), lengths)]
        return Called(("granted", len(lists[1])) if granted else answer, stores)


def numbered(rows):
    return dict(enumerate(rows, 1))
