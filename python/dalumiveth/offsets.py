"""Offsets in degrees, minutes and seconds: the 14 bytes of +012 34 56.789, read and written."""

import operator
from typing import NamedTuple

import numpy as np

from .library import USIZE, call, lend
from .refusals import raise_if_refused

_BYTES = 14       # the places of the text's store; of another length it is 6
_BEYOND = 2**53   # beyond every offset, and a float


class Offset(NamedTuple):
    """What a text reads as.

    whole  whole milliarcseconds, -1,295,999,999 to 1,295,999,999
    value  the float equal to it; 0.0 for zero
    """

    whole: int
    value: float


def read_offset(text):
    """The offset that a text such as "+012 34 56.789" is, str or bytes.

    Sign, three digits of degrees (000 to 359), space, two of minutes, space, two of seconds (both 00 to 59), point, three of
    thousandths. Raises `Refusal` 28 for any other text, minus zero included: nothing is stripped.
    """
    if isinstance(text, str):
        text = text.encode("utf-8", "surrogatepass")  # a sign that is not ASCII becomes bytes that no offset has
    if not isinstance(text, (bytes, bytearray, memoryview)):
        raise TypeError(f"an offset's text is str or bytes, not {type(text).__name__}")
    text = bytes(text)  # in one piece: a memoryview may have gaps
    read = np.frombuffer(text, dtype=np.uint8) if text else np.zeros(0, dtype=np.uint8)
    value = np.empty(1, dtype=np.float64)
    answer = np.zeros(4, dtype=USIZE)
    call("dalumiveth_read_offset", *lend(read, value, answer))
    raise_if_refused(answer)
    size = int(answer[3])
    return Offset(-size if answer[2] else size, float(value[0]))


def write_offset(value):
    """The text of a float of milliarcseconds, such as "+012 34 56.789".

    It goes to the nearest whole milliarcsecond, the even one at a half; zero has plus. A whole number is taken too. Raises
    `Refusal` 29 for what is not finite or rounds beyond the largest, 1,295,999,999.
    """
    out = np.empty(_BYTES, dtype=np.uint8)
    answer = np.zeros(4, dtype=USIZE)
    call("dalumiveth_write_offset", _as_float(value), *lend(out, answer))
    raise_if_refused(answer)
    return out.tobytes().decode("ascii")


def _as_float(value):
    """A float as it is; a whole number as the float equal to it, or one beyond every offset where there may be none."""
    if isinstance(value, float):
        return value
    try:
        whole = operator.index(value)
    except TypeError:
        raise TypeError(f"milliarcseconds are a float or a whole number, not {type(value).__name__}") from None
    return float(max(-_BEYOND, min(whole, _BEYOND)))
