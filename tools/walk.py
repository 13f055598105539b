"""The walk through a function's code, as its generated `Lts` tells it, with a name for each of its places."""
import re

# The number of a need among those of its name, unless the name ends in a number itself.
LAST_NUMBER = re.compile(r"(?<!\d)-(\d+)$")


def small(name):
    """The record's name as a word of a longer name: `in-loop` of In-loop."""
    return name[0].lower() + name[1:]


def asked(need):
    """What goes on where something is asked for, behind a number that is lower the better this names the place; None where nothing is known of it."""
    need = LAST_NUMBER.sub(r"\1", need.removeprefix("Need-"))
    for rank, (form, words) in enumerate((
            (r"(.+)-requires(\d*)", r"calling-\1\2"),
            (r"returns(\d*)", r"end\1"),
            (r"loop-(?:less|again|holds)(\d*)", r"loop-end\1"),
            (r"(?:shared-)?slice-read-(.+)", r"reading-\1"),
            (r"slice-write-(.+)", r"writing-\1"),
            (r"(?:add|sub|mul|cast|slice-aggregate)-(.+)", r"making-\1"),
            (r"part-(.+)-(?:start|end)(\d*)", r"making-\1\2"),
            (r"enum-(?:known-)?(.+)", r"matching-\1"),
            (r"same-length\d*", "end"))):
        if re.fullmatch(form, need):
            return rank, re.sub(form, words, need)
    return None


def record_label(place):
    """A place's name by its record alone: `copy-in` of After-copy-in, `loop` of At-loop."""
    return small(re.sub(r"^(After|At)-", "", place))


class Walk:
    """The place before each place, the fields of each place, the place of each need, and which places stand behind a call."""

    def __init__(self, text):
        self.before, self.fields, self.needs, self.calls = {}, {}, {}, set()
        self.read(text.split("\n"))
        self.places = [name for name in self.fields if name == "Start" or name in self.before]
        self.order = {place: number for number, place in enumerate(self.places)}
        self.labels = self.unique_labels()

    def read(self, lines):
        record = None
        for at, line in enumerate(lines):
            if not line.strip():
                record = None
            elif found := re.match(r"\s+pub record (\S+) .*where$", line):
                record = found.group(1)
                self.fields[record] = []
            elif record and (found := re.match(r"\s+pub (\S+) : (.*)$", line)):
                self.fields[record].append(found.group(1))
                if found.group(1) == "before":
                    self.before[record] = found.group(2).split()[0]
            elif found := re.match(r"\s+abbrev pub (After-\S+)·own\b", line):
                self.calls.add(found.group(1))
            elif found := re.match(r"\s+(Need-\S+) =(.*)$", line):
                self.read_need(found.group(1), [found.group(2)] + lines[at + 1:at + 4])

    def read_need(self, need, lines):
        """A need is a function of the place `c` at which it is asked for; its type stands within the next lines."""
        for line in lines:
            if found := re.search(r"\(c : ([^\s)]+)", line):
                self.needs[need] = found.group(1)
                return

    def is_place(self, name):
        return name in self.order

    def distance(self, place, target):
        """How many `.before` lead from a place to another one; None if none do."""
        steps = 0
        while place is not None and place != target:
            place, steps = self.before.get(place), steps + 1
        return steps if place else None

    def own(self, place):
        """The field under which a place has what was learnt there (`copy-in` of After-copy-in); None where it has several."""
        rest = [field for field in self.fields[place] if field != "before"]
        return rest[0] if place != "Start" and len(rest) == 1 else None

    # -- names

    def tells(self, place):
        """Whether a place has a name from the code: the start, a call, a loop or an arm. Others are steps of the walk (`slice-known7`)."""
        return place == "Start" or place in self.calls or bool(re.match(r"(In|At)-|After-loop|Then|Else", place))

    def arm(self, place):
        """The name of an arm of an `if`: the arms taken since the last place that is named otherwise; its number where they are many."""
        arms = []
        while found := re.match(r"(Then|Else)\d+$", place):
            arms.insert(0, small(found.group(1)))
            place = self.before[place]
            while not self.tells(place):
                place = self.before[place]
        if len(arms) > 3:
            return None
        return "-".join(([] if place == "Start" else [record_label(place)]) + arms)

    def by_needs(self, place):
        """The names of a step of the walk by what is asked for there, the best first."""
        found = [asked(need) for need, at in self.needs.items() if at == place]
        return [name for _, name in sorted(filter(None, found))]

    def names(self, place):
        """The names that a place could have, the best first; no other place has the last one."""
        best = [self.arm(place)] if re.match(r"(Then|Else)\d+$", place) else [] if self.tells(place) else self.by_needs(place)
        return [*filter(None, best), record_label(place), small(place)]

    def unique_labels(self):
        """Each place's name in the names of paths. Where two agree the one that the code names keeps it, else the first; a loop's head before its end."""
        labels, given = {}, set()
        for place in sorted(self.places, key=lambda place: (not self.tells(place), place.startswith("After-loop"))):
            labels[place] = next(name for name in self.names(place) if name not in given)
            given.add(labels[place])
        return labels

    def path_name(self, source, target):
        return f"{self.labels[target]}-from-{self.labels[source]}"

    def let_name(self, place):
        """The name that a `let` gives a place."""
        label = self.labels[place]
        return label if place == "Start" or label.startswith("in-") else "at-" + label
