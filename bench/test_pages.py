#!/usr/bin/env python3
"""Tests of table.py and growth.py.   Run: python3 bench/test_pages.py"""
import unittest
import xml.etree.ElementTree as ElementTree

import growth
import table

GROWTH = "strip 16 1.0 2.0\nstrip 32 2.0 8.0\nstrip 64 4.0 32.0\ngrid 16 3 2\ngrid 64 48 30\n"


class Table(unittest.TestCase):
    def test_only_what_stands_between_the_marks_changes(self):
        page = f"before\n{table.BEGIN}\nold\n{table.END}\nafter\n"
        once = table.with_table(page, "| a |\n|---|\n")
        self.assertTrue(once.startswith(f"before\n{table.BEGIN}\nMeasured on "))
        self.assertTrue(once.endswith(f"\n\n| a |\n|---|\n{table.END}\nafter\n"))
        self.assertNotIn("old", once)
        self.assertEqual(table.with_table(once, "| b |").count("Measured on"), 1)

    def test_marks_missing(self):
        for page in ("", table.BEGIN, table.END, table.END + table.BEGIN):
            with self.assertRaises(SystemExit):
                table.with_table(page, "| a |")


class Growth(unittest.TestCase):
    def test_slope(self):
        for power in (1, 2, 3):
            self.assertAlmostEqual(growth.slope([(n, 0.5 * n ** power) for n in (16, 64, 128, 512, 1024)]), power)

    def test_units(self):
        self.assertEqual([growth.microseconds(power) for power in (-1, 0, 2, 3, 6)], ["100 ns", "1 µs", "100 µs", "1 ms", "1 s"])

    def test_picture(self):
        svg = ElementTree.fromstring(growth.picture(growth.read(GROWTH)))
        lines = [line for line in svg.iter("{http://www.w3.org/2000/svg}polyline")]
        self.assertEqual(sorted(len(line.get("points").split()) for line in lines), [2, 2, 3, 3])


if __name__ == "__main__":
    unittest.main()
