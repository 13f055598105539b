#!/usr/bin/env python3
"""Writes the requests and the expected lines of the program crates/cases_tally.

  tools/cases_tally.py DENSE_FOLDER

DENSE_FOLDER holds the program of different authorship that document 01 asks for (dense_program.py). Every answer and every counter comes from it. The files stdin and
stdout of the crate are written anew; the seed is fixed, so that they come out the same.

A request: "Z" for a record made with zeros, or "A" for a call, and two numbers of eight bytes, low byte first: of a call the member and the updates.
"""
import collections
import random
import struct
import sys

from cases_files import write_files
from dense_program import Dense

MEMBERS, LARGEST, LARGEST_NUMBER = range(1, 17), 2 ** 32 - 1, 2 ** 64 - 1
# beside 1 to 16, and numbers that would be 0, 1, 16 or 17 in 8, 16, 32 or 63 bits
NO_MEMBERS = (0, 17, 18, 31, 32, 128, 255, *(2 ** bits + low for bits in (8, 16, 32, 63) for low in (0, 1, 16, 17)), LARGEST_NUMBER - 15, LARGEST_NUMBER)


class Cases:
    """The requests and the lines so far, the counters, and how often each answer came."""

    def __init__(self, dense):
        self.dense, self.bytes, self.lines, self.answers = dense, bytearray(), [], collections.Counter()
        self.fresh()

    def ask(self, kind, first, second):
        self.bytes += kind + struct.pack("<QQ", first, second)

    def fresh(self):
        """A record made with zeros; what is given is summed up beside it."""
        self.ask(b"Z", 0, 0)
        self.counters, self.given = [0] * len(MEMBERS), [0] * len(MEMBERS)
        self.lines.append(" ".join(map(str, ("record", *self.counters))))

    def add(self, member, updates):
        """A call; the refusal's number, 0 if there is none."""
        self.ask(b"A", member, updates)
        answer, self.counters = self.dense.tally_add(self.counters, member, updates)
        self.lines.append(" ".join(map(str, ("add", member, updates, *answer, "holds", *self.counters))))
        number = answer[1] if answer[0] == "refused" else 0
        if number == 0:
            self.given[member - 1] += updates
        assert self.counters == self.given, self.lines[-1]
        self.answers[number] += 1
        return number

    def expect(self, found, foreseen):
        """The generator, or the program that is asked, is at fault if an answer that follows from the document is another."""
        assert found == foreseen, (found, foreseen, self.lines[-1])


def each_member(cases):
    """Each member once and again, then no updates: its counter alone changes."""
    cases.fresh()
    for member in (*MEMBERS, *reversed(MEMBERS)):
        cases.expect(cases.add(member, 100 + member), 0)
        cases.expect(cases.add(member, 0), 0)


def no_members(cases):
    """27, on an empty record, on one with sums, and where every counter is full: 27 comes before 19."""
    for held in (0, 1000, LARGEST):
        cases.fresh()
        for member in MEMBERS:
            cases.add(member, held - member if held > 16 and member % 2 and held < LARGEST else held)
        for member in NO_MEMBERS:
            for updates in (0, 1, LARGEST, LARGEST + 1, LARGEST_NUMBER):
                cases.expect(cases.add(member, updates), 27)


def bounds(cases):
    """The largest sum met exactly and missed by one, of each member, from below and from zero; its neighbours have their own room."""
    for member in MEMBERS:
        for held in (0, 1, 2 ** 31, LARGEST - 5, LARGEST):
            cases.fresh()
            cases.expect(cases.add(member, held), 0)
            for beside in {member % 16 + 1, (member - 2) % 16 + 1}:
                cases.expect(cases.add(beside, 7), 0)
            for updates in (LARGEST - held + 1, LARGEST + 1, LARGEST_NUMBER - held, LARGEST_NUMBER - held + 1 if held else LARGEST_NUMBER, 2 ** 32 * 7):
                cases.expect(cases.add(member, updates), 19)
            cases.expect(cases.add(member, LARGEST - held), 0)
            cases.expect(cases.add(member, 1), 19)
            cases.expect(cases.add(member, 0), 0)
            for beside in {member % 16 + 1, (member - 2) % 16 + 1}:
                cases.expect(cases.add(beside, LARGEST - 7), 0)
                cases.expect(cases.add(beside, 1), 19)


def drawn_member(rng):
    return rng.choice((*MEMBERS, *MEMBERS, rng.choice(NO_MEMBERS), rng.randint(0, 20), rng.getrandbits(rng.randint(1, 64))))


def drawn_updates(rng, held):
    return rng.choice((rng.randint(0, 1000), rng.getrandbits(31), max(0, LARGEST - held + rng.randint(-2, 2)), rng.getrandbits(rng.randint(1, 64))))


def drawn(cases, rng):
    """Sequences at random; after each call every counter is the sum of what was given for its member (`add` looks)."""
    for _ in range(100):
        cases.fresh()
        for _ in range(rng.randint(0, 40)):
            member = drawn_member(rng)
            cases.add(member, drawn_updates(rng, cases.counters[member - 1] if member in MEMBERS else 0))


def main():
    if len(sys.argv) != 2:
        raise SystemExit(__doc__)
    cases = Cases(Dense(sys.argv[1]))
    each_member(cases)
    no_members(cases)
    bounds(cases)
    drawn(cases, random.Random(8443))
    assert sorted(cases.answers) == [0, 19, 27], cases.answers
    # the last request is cut short: it ends the program
    cases.bytes += b"A" + bytes(15)
    cases.lines.append("bad request")
    write_files("cases_tally", cases.bytes, "\n".join(cases.lines) + "\n")
    print(f"{sum(cases.answers.values())} calls on {cases.lines.count('record' + ' 0' * 16)} records; answers by number (0: granted) {dict(sorted(cases.answers.items()))}")


if __name__ == "__main__":
    main()
