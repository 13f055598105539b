#!/usr/bin/env python3
"""How cost grows with n, as a picture: growth.py GROWTH.txt PICTURE.svg

GROWTH.txt has the lines of `bench --growth`: series, n, our microseconds, the square's. Both axes are logarithmic, so that a cost of
n to the power of p is a straight line with slope p.
"""
import math
import os
import sys

WIDTH, HEIGHT = 860, 520
LEFT, RIGHT, TOP, BOTTOM = 74, 238, 46, 62
INK, FAINT, PAPER = "#222222", "#dddddd", "#ffffff"
# Series, name, colour (told apart by the colour-blind too), shape of the mark.
SERIES = [
    ("dense", "dense pattern", "#d55e00", "square"),
    ("filled", "arrow that fills the square", "#cc79a7", "diamond"),
    ("grid", "grid", "#0072b2", "circle"),
    ("strip", "strip", "#009e73", "triangle"),
]


def read(text):
    """Each series as a list of (n, ours, the square's)."""
    found = {}
    for line in text.splitlines():
        series, n, ours, square = line.split()
        found.setdefault(series, []).append((int(n), float(ours), float(square)))
    return found


class Axes:
    """From n and microseconds to places in the picture."""

    def __init__(self, found):
        ns = [n for points in found.values() for n, _, _ in points]
        costs = [cost for points in found.values() for point in points for cost in point[1:]]
        self.low_n, self.high_n = math.log2(min(ns)), math.log2(max(ns))
        self.low, self.high = math.floor(math.log10(min(costs))), math.ceil(math.log10(max(costs)))

    def x(self, n):
        return LEFT + (math.log2(n) - self.low_n) / (self.high_n - self.low_n) * (WIDTH - LEFT - RIGHT)

    def y(self, cost):
        return HEIGHT - BOTTOM - (math.log10(cost) - self.low) / (self.high - self.low) * (HEIGHT - TOP - BOTTOM)


def text(x, y, words, anchor="start", size=13, extra=""):
    return f'<text x="{x:.1f}" y="{y:.1f}" text-anchor="{anchor}" font-size="{size}" fill="{INK}"{extra}>{words}</text>'


def line(x1, y1, x2, y2, colour, width=1.0, extra=""):
    return f'<line x1="{x1:.1f}" y1="{y1:.1f}" x2="{x2:.1f}" y2="{y2:.1f}" stroke="{colour}" stroke-width="{width}"{extra}/>'


def microseconds(power):
    """1, 10, 100 µs, 1 ms, .."""
    units = ("ns", "µs", "ms", "s")
    index = (power + 3) // 3
    return f"{10 ** ((power + 3) % 3)} {units[index]}"


def grid_lines(axes):
    out = []
    for power in range(axes.low, axes.high + 1):
        y = axes.y(10.0 ** power)
        out += [line(LEFT, y, WIDTH - RIGHT, y, FAINT), text(LEFT - 8, y + 4, microseconds(power), "end")]
    for power in range(math.ceil(axes.low_n), math.floor(axes.high_n) + 1):
        x = axes.x(2 ** power)
        out += [line(x, TOP, x, HEIGHT - BOTTOM, FAINT), text(x, HEIGHT - BOTTOM + 20, f"{2 ** power:,}", "middle")]
    middle = (LEFT + WIDTH - RIGHT) / 2
    return out + [text(middle, HEIGHT - 16, "n, the number of fields", "middle"),
                  text(LEFT, 24, "Factor and solve, one thread", size=16, extra=' font-weight="bold"')]


def mark(shape, x, y, colour):
    if shape == "circle":
        return f'<circle cx="{x:.1f}" cy="{y:.1f}" r="4.5" fill="{colour}"/>'
    corners = {"square": [(-4, -4), (4, -4), (4, 4), (-4, 4)], "diamond": [(0, -6), (5, 0), (0, 6), (-5, 0)],
               "triangle": [(0, -5.5), (5, 4), (-5, 4)]}[shape]
    points = " ".join(f"{x + dx:.1f},{y + dy:.1f}" for dx, dy in corners)
    return f'<polygon points="{points}" fill="{colour}"/>'


def path(points, colour, extra):
    joined = " ".join(f"{x:.1f},{y:.1f}" for x, y in points)
    return f'<polyline points="{joined}" fill="none" stroke="{colour}"{extra}/>'


def slope(points):
    """The power of n by which the cost grows: the straight line nearest to the last points, from an eighth of the largest n on."""
    logs = [(math.log(n), math.log(cost)) for n, cost in points if 8 * n >= points[-1][0]]
    middle_x, middle_y = (sum(column) / len(logs) for column in zip(*logs))
    return sum((x - middle_x) * (y - middle_y) for x, y in logs) / sum((x - middle_x) ** 2 for x, _ in logs)


def series_lines(axes, points, colour, shape):
    ours = [(axes.x(n), axes.y(cost)) for n, cost, _ in points]
    square = [(axes.x(n), axes.y(cost)) for n, _, cost in points]
    return ([path(square, colour, ' stroke-width="1.5" stroke-dasharray="3 4"'), path(ours, colour, ' stroke-width="2.5"')]
            + [mark(shape, x, y, colour) for x, y in ours])


def legend(found):
    out, x, y = [], WIDTH - RIGHT + 20, TOP + 10
    for key, name, colour, shape in SERIES:
        if key in found:
            grows = slope([point[:2] for point in found[key]])
            out += [line(x, y, x + 30, y, colour, 2.5), mark(shape, x + 15, y, colour), text(x + 40, y + 4, name),
                    text(x + 40, y + 20, f"grows as n to the {grows:.1f}", size=11)]
            y += 46
    out += [line(x, y + 4, x + 30, y + 4, INK, 1.5, ' stroke-dasharray="3 4"'), text(x + 40, y + 8, "the same on a full"),
            text(x + 40, y + 24, "square in C")]
    return out


def picture(found):
    axes = Axes(found)
    body = grid_lines(axes)
    for key, _, colour, shape in SERIES:
        if key in found:
            body += series_lines(axes, found[key], colour, shape)
    head = (f'<svg xmlns="http://www.w3.org/2000/svg" viewBox="0 0 {WIDTH} {HEIGHT}" width="{WIDTH}" height="{HEIGHT}" '
            f'font-family="Helvetica, Arial, sans-serif">')
    background = f'<rect width="{WIDTH}" height="{HEIGHT}" fill="{PAPER}"/>'
    return "\n".join([head, "<title>How the cost of factor and solve grows with n</title>", background, *body, *legend(found), "</svg>"]) + "\n"


def main(growth_name, picture_name):
    with open(growth_name) as file:
        found = read(file.read())
    os.makedirs(os.path.dirname(picture_name) or ".", exist_ok=True)
    with open(picture_name, "w") as file:
        file.write(picture(found))


if __name__ == "__main__":
    if len(sys.argv) != 3:
        sys.exit(__doc__)
    main(*sys.argv[1:])
