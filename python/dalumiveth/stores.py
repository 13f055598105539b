"""Which numpy arrays can be lent to the library as they are. Nothing is copied: what does not fit is a TypeError."""

import numpy as np

from .library import USIZE


def floats(array, name):
    """The array, if it is one row of float64 without gaps."""
    return _lendable(array, name, np.dtype(np.float64))


def usizes(array, name):
    """The array, if it is one row of uint64 without gaps."""
    return _lendable(array, name, USIZE)


def _lendable(array, name, dtype):
    """The array, if it is one row of such numbers without gaps."""
    if not isinstance(array, np.ndarray):
        raise TypeError(f"{name} is a {type(array).__name__}, not a numpy array of {dtype}")
    if array.dtype != dtype:
        raise TypeError(f"{name} has dtype {array.dtype}, not {dtype}: pass {name}.astype('{dtype}')")
    if array.ndim != 1:
        raise TypeError(f"{name} has {array.ndim} dimensions, not one: pass {name}.ravel()")
    if not (array.flags.c_contiguous and array.flags.aligned):
        raise TypeError(f"{name} is not contiguous and aligned: pass {name}.copy()")
    return array


def whole_numbers(numbers, name):
    """The numbers as a one-dimensional array of some whole type; a list will do."""
    array = np.asarray(numbers)
    if array.ndim != 1:
        raise TypeError(f"{name} has {array.ndim} dimensions, not one")
    if array.size == 0:
        return np.zeros(0, dtype=np.int64)
    if array.dtype.kind not in "iu":
        raise TypeError(f"{name} has dtype {array.dtype}: whole numbers are needed")
    return array
