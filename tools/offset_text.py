"""Offsets in degrees, minutes and seconds, as document 02's ticket 11 has them: +012 34 56.789.

Whole numbers and fractions alone, so that every text and every rounding is exact.
"""
import math
import re
from fractions import Fraction

LARGEST = 1295999999        # milliarcseconds: +359 59 59.999

# What looks like an offset; one that passes a bound is none all the same.
FORM = r"[+-][0-9]{3} [0-9]{2} [0-9]{2}\.[0-9]{3}"


class NoOffset(Exception):
    """A text that does not read, or a value that is not written, in a few words."""


def has_form(text):
    return re.fullmatch(FORM, text) is not None


def whole_of_text(text):
    """The whole milliarcseconds of a text."""
    if not has_form(text):
        raise NoOffset("it is not written as +012 34 56.789")
    degrees, minutes, seconds, rest = int(text[1:4]), int(text[5:7]), int(text[8:10]), int(text[11:])
    for name, part, bound in (("degrees", degrees, 360), ("minutes", minutes, 60), ("seconds", seconds, 60)):
        if part >= bound:
            raise NoOffset(f"{part} {name} are more than {bound - 1}")
    whole = ((degrees * 60 + minutes) * 60 + seconds) * 1000 + rest
    if text[0] == "-" and whole == 0:
        raise NoOffset("zero is written with plus")
    return -whole if text[0] == "-" else whole


def text_of_whole(whole):
    seconds, rest = divmod(abs(whole), 1000)
    minutes, seconds = divmod(seconds, 60)
    degrees, minutes = divmod(minutes, 60)
    return f"{'-' if whole < 0 else '+'}{degrees:03} {minutes:02} {seconds:02}.{rest:03}"


def text_of_value(value):
    """The text of a float of milliarcseconds: the nearest whole number, the even one at a half."""
    if not math.isfinite(value):
        raise NoOffset("it is not finite")
    whole = round(Fraction(value))
    if abs(whole) > LARGEST:
        raise NoOffset(f"it rounds beyond the largest, {LARGEST:,}")
    return text_of_whole(whole)
