#!/usr/bin/env python3
"""A pattern, its slots and what a run puts into them, as a picture (SVG).

  tools/picture.py TEXT [-o PICTURE.svg]            a text of fields, as tools/jobs.py reads it (docs/JOB.md)
  tools/picture.py --matrix A.mtx [-o PICTURE.svg]  a Matrix Market file
  tools/picture.py --survey N SEED [-o ..]          a made-up survey of N fields; with seed 1984 it is the benchmark's
  tools/picture.py --places PLACES [-o ..]          places by kind, as examples/householder.py --places prints them (docs/ORTHOGONAL.md)

--rows 1,2,4,4 gives the pivot rows; else a text's own list does, else the largest entry of each column. --title sets the title. A file named
-, or left out, is standard input; without -o the picture goes to standard output.

The picture is made without the library: planning and elimination stand below in the words of document 01, on sets and on a full square. Places
that are given by kind are drawn as they are.

Status: 0 done, 1 bad input or a run that stops, 2 bad usage or a file that cannot be read.
"""
import argparse
import math
import sys
from typing import NamedTuple

import job_text
import matrix_market
from job_bytes import number_of

MOST_FIELDS = 1024


class Bad(Exception):
    """Why there is no picture."""


class Equations:
    """Rows of the pattern as mappings from column to value, both from 1; and a title."""

    def __init__(self, title, rows):
        self.title, self.n = title, len(rows)
        self.rows = [None] + rows  # so that row i is rows[i]


# ---- where equations come from

def from_text(text):
    """The equations of a text of fields, and its row list, which may be empty."""
    fields = job_text.parse(text, unchecked=True)
    for i, row in enumerate(fields.rows, 1):
        columns = [column for column, _ in row.entries]
        if columns != sorted(set(columns)):
            raise Bad(f"the columns of row {i} do not ascend")
    rows = [{column: number_of(bits) for column, bits in row.entries} for row in fields.rows]
    return Equations(f"{fields.n} fields", rows), fields.pivots


def from_market(text):
    """A diagonal place that the file does not list is put into the pattern with 0, as tools/jobs.py does."""
    market = matrix_market.Market(text)
    if market.height != market.width:
        raise Bad(f"the matrix is {market.height} by {market.width}: it has to be square")
    rows = [{i: 0.0} for i in range(1, market.height + 1)]
    for (i, j), bits in sorted(market.places.items()):
        rows[i - 1][j] = number_of(bits)
    return Equations(f"{market.height} fields", rows)


class Chance:
    """Numbers by chance (splitmix64): the same on every machine, and the same as the benchmark's."""

    def __init__(self, seed):
        self.state = seed

    def next(self):
        self.state = (self.state + 0x9E3779B97F4A7C15) % 2 ** 64
        z = self.state
        z = (z ^ z >> 30) * 0xBF58476D1CE4E5B9 % 2 ** 64
        z = (z ^ z >> 27) * 0x94D049BB133111EB % 2 ** 64
        return z ^ z >> 31

    def below(self, limit):
        return self.next() % limit

    def value(self):
        """Between -1 and 1 and not near 0."""
        while True:
            v = (self.next() >> 11) * 2.0 ** -52 - 1.0
            if abs(v) > 1e-3:
                return v


def nearest(fields, i, count):
    """The fields that lie nearest to field i, the lower number first if equal."""
    def apart(j):
        return (fields[i][0] - fields[j][0]) ** 2 + (fields[i][1] - fields[j][1]) ** 2
    return sorted((j for j in range(len(fields)) if j != i), key=lambda j: (apart(j), j))[:count]


def survey(n, seed):
    """Fields scattered over a strip of the sky, six mean distances high, and numbered along it. Each is tied to its four nearest; one long tie
    for every 64 fields stands for a field that was seen again much later."""
    chance = Chance(seed)
    fields = sorted((chance.below(n * 1000000 // 6000), chance.below(6000)) for _ in range(n))
    tied = [{i} for i in range(n)]
    ties = [(i, j) for i in range(n) for j in nearest(fields, i, 4)]
    for i, j in ties + [(chance.below(n), chance.below(n)) for _ in range(n // 64)]:
        tied[i].add(j)
        tied[j].add(i)
    rows = []
    for i in range(n):
        rows.append({j + 1: chance.value() for j in sorted(tied[i])})
        chance.value()  # the right side, which no picture shows
    return Equations(f"A made-up survey of {n} fields", rows)


def check(equations):
    n = equations.n
    if not 1 <= n <= MOST_FIELDS:
        raise Bad(f"{n} fields: 1 to {MOST_FIELDS} are possible")
    for i in range(1, n + 1):
        if not all(1 <= j <= n for j in equations.rows[i]):
            raise Bad(f"row {i} has a column outside 1 to {n}")
        if i not in equations.rows[i]:
            raise Bad(f"row {i} lacks its diagonal place")
        if not all(map(math.isfinite, equations.rows[i].values())):
            raise Bad(f"row {i} has a value that is not finite")


def check_list(pivots, n):
    if len(pivots) != n or not all(k <= p <= n for k, p in enumerate(pivots, 1)):
        raise Bad(f"the row list has to have {n} rows, that of step k from k to {n}")


# ---- the plan (document 01, "Plan")

def plan(equations):
    """The sets L_k and U_k, place k of each list being step k's."""
    n, rows = equations.n, equations.rows
    by_column = [[] for _ in range(n + 1)]
    for i in range(1, n + 1):
        for j in rows[i]:
            by_column[j].append(i)
    met, handed = set(), [[] for _ in range(n + 1)]
    lower, upper = [set() for _ in range(n + 1)], [set() for _ in range(n + 1)]
    for k in range(1, n + 1):
        first_met = [i for i in by_column[k] if i not in met]
        met.update(first_met)
        lower[k].update(first_met)
        upper[k].update(j for i in first_met for j in rows[i])
        for l in handed[k]:
            lower[k].update(i for i in lower[l] if i >= k)
            upper[k].update(j for j in upper[l] if j >= k)
        if len(lower[k]) > 1:
            handed[min(j for j in upper[k] if j > k)].append(k)
    return lower, upper


def slots(equations):
    """The places that have a slot."""
    lower, upper = plan(equations)
    steps = range(1, equations.n + 1)
    return ({(k, k) for k in steps} | {(k, j) for k in steps for j in upper[k] if j > k} | {(i, k) for k in steps for i in lower[k] if i > k})


# ---- the run (document 01, "Elimination"; document 02, ticket 14), on the full square

LEAST_PIVOT = 2.0 ** -1022      # the least magnitude of a pivot: if any row has it, the one with the largest does

def pivot_row(square, k, pivots):
    rows = range(k, len(square))
    p = pivots[k - 1] if pivots else max(rows, key=lambda i: (abs(square[i][k]), -i))
    if abs(square[p][k]) < LEAST_PIVOT:
        raise Bad(f"the run stops: 13 at step {k}")
    return p


def reduce_rows(square, k):
    pivot = square[k]
    columns = [j for j in range(k + 1, len(pivot)) if pivot[j] != 0.0]
    for row in square[k + 1:]:
        if row[k] == 0.0:
            continue
        m = row[k] = row[k] / pivot[k]
        if m != 0.0:
            for j in columns:
                row[j] = row[j] - m * pivot[j]
        if not (math.isfinite(m) and all(math.isfinite(row[j]) for j in columns)):
            raise Bad(f"the run stops: 14 at step {k}")


def eliminate(equations, pivots):
    """The square after all steps; row 0 and column 0 are not used."""
    n = equations.n
    square = [[0.0] * (n + 1) for _ in range(n + 1)]
    for i in range(1, n + 1):
        for j, value in equations.rows[i].items():
            square[i][j] = value
    for k in range(1, n + 1):
        p = pivot_row(square, k, pivots)
        square[k][k:], square[p][k:] = square[p][k:], square[k][k:]
        reduce_rows(square, k)
    return square


class Kinds:
    """The places of a run's picture by kind."""

    def __init__(self, equations, pivots):
        square, planned = eliminate(equations, pivots), slots(equations)
        n = equations.n
        self.listed = {(i, j) for i in range(1, n + 1) for j in equations.rows[i]}
        nonzero = {(i, j) for i in range(1, n + 1) for j in range(1, n + 1) if square[i][j] != 0.0}
        if not (self.listed | nonzero) <= planned:
            raise Bad("a number stands outside the slots")  # which the library's theorems exclude
        self.filled = (planned & nonzero) - self.listed
        self.left = planned - self.listed - nonzero


# ---- places by kind

class Placed:
    """The places of a text: a line `places ROWS COLUMNS`, then one for each place, `KIND ROW COLUMN`, both from 1."""

    def __init__(self, text):
        head, *lines = [line.split() for line in text.splitlines()] or [[]]
        self.height, self.n = self.numbers(head, ("places",))
        self.kinds = {kind: set() for kind in ("listed", "factor", "vector", "left")}
        if not 1 <= self.n <= self.height:
            raise Bad(f"{self.height} rows and {self.n} columns: there has to be a column, and as many rows or more")
        for words in lines:
            i, j = self.numbers(words, self.kinds)
            if not (1 <= i <= self.height and 1 <= j <= self.n):
                raise Bad(f"place {i} {j} is outside {self.height} rows and {self.n} columns")
            self.kinds[words[0]].add((i, j))

    @staticmethod
    def numbers(words, first):
        """The two numbers of a line that begins with one of some words."""
        if len(words) != 3 or words[0] not in first or not all(word.isdecimal() for word in words[1:]):
            raise Bad(f"'{' '.join(words)}' is no line of places")
        return int(words[1]), int(words[2])


# ---- drawing

BOARD, LARGEST_CELL = 660, 44
LEFT, TOP, LINE = 62, 102, 24
INK, SOFT, FRAME = "#222222", "#666666", "#999999"
# Dark, middle and light: told apart without colours too. Vectors and factor are of one kind that the diagonal parts.
COLOURS = {"listed": "#0072b2", "filled": "#e69f00", "factor": "#e69f00", "vector": "#009e73", "left": "#d4d4d4"}


class Layer(NamedTuple):
    """The places of one kind, and what the legend says of them behind their number."""

    kind: str
    places: set
    words: str


def text(x, y, words, size=13, anchor="start", colour=INK, extra=""):
    return f'<text x="{x:g}" y="{y:g}" font-size="{size}" text-anchor="{anchor}" fill="{colour}"{extra}>{words}</text>'


def places(layer):
    """A place is a short thick line: the shortest way to write thousands of squares."""
    drawn = "".join(f"M{j - 1} {i - 1}h.9" for i, j in sorted(layer.places))
    return f'<path class="{layer.kind}" stroke="{COLOURS[layer.kind]}" d="{drawn}"/>'


def tick_distance(n):
    """At most some twelve ticks a side, at round numbers."""
    return next(step for step in (1, 2, 5, 10, 20, 50, 100, 200) if n <= 13 * step)


def ticks(rows, columns, cell):
    """Numbers along both sides, at the same distance."""
    out, step = [], tick_distance(rows)
    for k in sorted({1} | set(range(step, rows + 1, step))):
        middle = (k - 0.5) * cell
        out += [text(LEFT + middle, TOP - 8, k, 11, "middle", SOFT)] if k <= columns else []
        out += [text(LEFT - 8, TOP + middle + 4, k, 11, "end", SOFT)]
    x, y = LEFT - 42, TOP + rows * cell / 2
    turned = f' transform="rotate(-90 {x:g} {y:g})"'
    return out + [text(LEFT + columns * cell / 2, TOP - 26, "column", 12, "middle", SOFT), text(x, y, "row", 12, "middle", SOFT, turned)]


def plural(count, one, many):
    return f"{count:,} {one if count == 1 else many}"


def legend(layers, y):
    out = []
    for row, layer in enumerate(layers):
        named = ("place", "places") if layer.kind == "listed" else ("further slot", "further slots")
        top, words = y + LINE * row, plural(len(layer.places), *named) + layer.words
        out += [f'<rect x="{LEFT}" y="{top:g}" width="14" height="14" fill="{COLOURS[layer.kind]}"/>', text(LEFT + 24, top + 12, words)]
    return out


def draw(title, below, rows, columns, layers):
    """The picture of so many rows, no fewer than columns. The first layer lies uppermost; `below` stands below the title."""
    cell = min(LARGEST_CELL, BOARD / rows)
    high, wide = cell * rows, cell * columns
    width, height = LEFT + max(wide, 480) + 24, TOP + high + LINE * (len(layers) + 1)
    title = title.replace("&", "&amp;").replace("<", "&lt;")
    head = [f'<svg xmlns="http://www.w3.org/2000/svg" viewBox="0 0 {width:g} {height:g}" width="{width:g}" height="{height:g}" '
            'font-family="Helvetica, Arial, sans-serif">', f"<title>{title}</title>", f'<rect width="{width:g}" height="{height:g}" fill="#ffffff"/>',
            text(LEFT, 30, title, 18, extra=' font-weight="bold"'), text(LEFT, 50, below, 13, colour=SOFT)]
    board = [f'<rect x="{LEFT}" y="{TOP}" width="{wide:g}" height="{high:g}" fill="none" stroke="{FRAME}"/>',
             f'<g transform="translate({LEFT} {TOP}) scale({cell:g}) translate(.05 .5)" fill="none" stroke-width=".9">',
             *(places(layer) for layer in reversed(layers)), "</g>"]
    return "\n".join(head + ticks(rows, columns, cell) + board + legend(layers, TOP + high + 18) + ["</svg>"]) + "\n"


def picture(equations, pivots, title=None):
    """A run's picture."""
    kinds, n = Kinds(equations, pivots), equations.n
    chosen = "pivot rows from a list" if pivots else "pivot rows by the largest entry"
    layers = [Layer("listed", kinds.listed, " of the pattern"), Layer("filled", kinds.filled, " filled by this run: not zero at its end"),
              Layer("left", kinds.left, " left at zero, kept for other numbers and other choices of rows")]
    return draw(title or equations.title, f"{n} rows and columns; {chosen}", n, n, layers)


def placed_picture(placed, title=None):
    """The picture of what orthogonal steps left."""
    words = {"listed": " of the pattern", "factor": " filled with the upper factor", "vector": " filled with vectors",
             "left": " left at zero, kept for other numbers"}
    layers = [Layer(kind, placed.kinds[kind], words[kind]) for kind in words]
    return draw(title or f"{placed.n} fields", f"{placed.height} rows, {placed.n} columns; orthogonal steps", placed.height, placed.n, layers)


# ---- the command

def load(name):
    if name == "-":
        return sys.stdin.read()
    with open(name, encoding="utf-8") as file:
        return file.read()


def save(name, content):
    if name == "-":
        sys.stdout.write(content)
        return
    with open(name, "w", encoding="utf-8") as file:
        file.write(content)


def asked(words):
    """The equations that the command names, and the row list."""
    pivots = []
    if words.survey:
        if not 2 <= words.survey[0] <= MOST_FIELDS:
            raise Bad(f"a survey has 2 to {MOST_FIELDS} fields")
        equations = survey(*words.survey)
    elif words.matrix:
        equations = from_market(load(words.matrix))
    else:
        equations, pivots = from_text(load(words.text or "-"))
    check(equations)
    pivots = words.rows or pivots
    if pivots:
        check_list(pivots, equations.n)
    return equations, pivots


def whole_numbers(words):
    return [int(word) for word in words.replace(",", " ").split()]


def command_line():
    parser = argparse.ArgumentParser(prog="picture.py", description=__doc__, formatter_class=argparse.RawDescriptionHelpFormatter)
    parser.add_argument("text", nargs="?")
    parser.add_argument("--matrix", metavar="A.mtx")
    parser.add_argument("--survey", nargs=2, type=int, metavar=("N", "SEED"))
    parser.add_argument("--places", metavar="PLACES")
    parser.add_argument("--rows", type=whole_numbers, default=[])
    parser.add_argument("--title")
    parser.add_argument("-o", dest="output", default="-", metavar="PICTURE.svg")
    return parser


def main(arguments):
    parser = command_line()
    words = parser.parse_args(arguments)
    if sum(map(bool, (words.text, words.matrix, words.survey, words.places))) > 1:
        parser.error("one of TEXT, --matrix, --survey and --places")
    if words.places and words.rows:
        parser.error("--places come without pivot rows")
    try:
        save(words.output, placed_picture(Placed(load(words.places)), words.title) if words.places else picture(*asked(words), words.title))
        return 0
    except (Bad, job_text.BadText, UnicodeDecodeError) as error:
        print(f"picture: {error}", file=sys.stderr)
        return 1
    except OSError as error:
        print(f"picture: {error}", file=sys.stderr)
        return 2


if __name__ == "__main__":
    sys.exit(main(sys.argv[1:]))
