#!/usr/bin/env python3
"""Puts a table that the benchmark wrote between the two marks of a page: table.py TABLE.md PAGE.md

The machine and the day are written above it, for a table without them says little.
"""
import datetime
import os
import platform
import sys

BEGIN, END = "<!-- table: written by make -C bench table -->", "<!-- end of table -->"


def processor():
    try:
        with open("/proc/cpuinfo") as file:
            for line in file:
                if line.startswith("model name"):
                    return line.split(":", 1)[1].strip()
    except OSError:
        pass
    return platform.machine()


def measured():
    load = ", ".join(f"{x:.2f}" for x in os.getloadavg())
    day = datetime.datetime.now(datetime.timezone.utc).strftime("%Y-%m-%d")
    return f"Measured on {day}, {processor()}, {os.cpu_count()} cores, load {load} (1, 5 and 15 minutes) at the end."


def with_table(page, table):
    """The page with the table between its marks."""
    before, begin, rest = page.partition(BEGIN)
    _, end, after = rest.partition(END)
    if not (begin and end):
        raise SystemExit("table.py: the page lacks its marks")
    return f"{before}{BEGIN}\n{measured()}\n\n{table.strip()}\n{END}{after}"


def main(table_name, page_name):
    with open(table_name) as file:
        table = file.read()
    with open(page_name) as file:
        page = file.read()
    whole = with_table(page, table)
    with open(page_name, "w") as file:
        file.write(whole)


if __name__ == "__main__":
    if len(sys.argv) != 3:
        sys.exit(__doc__)
    main(*sys.argv[1:])
