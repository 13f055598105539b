"""The shared object: where it stands, its functions, and how numpy arrays are lent to them."""

import ctypes
import functools
import operator
import os
from pathlib import Path

import numpy as np

USIZE = np.dtype(np.uint64)
LARGEST_USIZE = 2**64 - 1

# In C a slice is a pointer followed by its length in elements.
_SLICE = [ctypes.c_void_p, ctypes.c_size_t]
_NUMBER = [ctypes.c_size_t]
_SEED = [ctypes.c_uint32]            # ctypes drops what passes 32 bits: loads.py sees to it that nothing does
_REAL = [ctypes.c_double]

_PATTERN = 3 * _NUMBER + 2 * _SLICE  # most, n, row count; starts, columns
_COUNTS = _SLICE
_STORES = 6 * _SLICE                 # subscripts, starts and slots of L, then of U
_SYSTEM = 2 * _SLICE                 # values, right side
_ROWS = _NUMBER + _SLICE             # by list or not, the rows
_EXTENT = 2 * _NUMBER                # cut or not, steps
_RESULTS = 5 * _SLICE                # l, u, d, x, pivots
_WORK = 6 * _SLICE                   # row heads and links, set heads and links, list, spare
_RUN_WORK = _WORK + 2 * _SLICE       # and copy, dense
_ANSWER = _SLICE

_PARAMETERS = {
    "dalumiveth_plan": _PATTERN + _STORES + _WORK + _ANSWER,
    "dalumiveth_verify": _PATTERN + _COUNTS + _STORES + _WORK + _ANSWER,
    "dalumiveth_run": _PATTERN + _COUNTS + _STORES + _SYSTEM + _ROWS + _EXTENT + _RESULTS + _RUN_WORK + _ANSWER,
    "dalumiveth_tally_add": _SLICE + 2 * _NUMBER + _ANSWER,
    "dalumiveth_job": 2 * _SLICE + _ANSWER,
    "dalumiveth_read_offset": 2 * _SLICE + _ANSWER,
    "dalumiveth_write_offset": _REAL + _SLICE + _ANSWER,
    "dalumiveth_load": _SEED + 2 * _NUMBER + 4 * _SLICE + _ANSWER,
}


def library_path():
    """The path of the shared object: DALUMIVETH_LIBRARY, or target/libdalumiveth.so of the repository."""
    named = os.environ.get("DALUMIVETH_LIBRARY")
    if named:
        return Path(named)
    return Path(__file__).resolve().parents[2] / "target" / "libdalumiveth.so"


@functools.lru_cache(maxsize=None)
def functions():
    """The exported functions by name, loaded once. ctypes lets other threads run during a call."""
    path = library_path()
    if not path.exists():
        raise OSError(f"{path} is not there: `make shared` makes it, or DALUMIVETH_LIBRARY names another")
    loaded = ctypes.CDLL(str(path))
    found = {}
    for name, parameters in _PARAMETERS.items():
        function = getattr(loaded, name)
        function.argtypes = parameters
        function.restype = ctypes.c_size_t
        found[name] = function
    return found


def lend(*arrays):
    """Pointer and length of each array, in order. The caller keeps the arrays alive during the call."""
    lent = []
    for array in arrays:
        lent += (array.ctypes.data, array.size)
    return tuple(lent)


def call(name, *arguments):
    """Calls an exported function with numbers and with what `lend` gave; the returned number."""
    return functions()[name](*arguments)


def as_usize(number, name):
    """A whole number for a size_t parameter. What passes 64 bits becomes the largest: never a small number by wrapping."""
    number = operator.index(number)
    if number < 0:
        raise ValueError(f"{name} is {number}: it cannot be below 0")
    return min(number, LARGEST_USIZE)
