"""The functions of libruzgalt over arrays of numpy. The library is found and loaded at the first call.

Points are seconds from 1970 on, as int64. Classes, groups and amounts are int64 too. Indices come as uint32.
"""
from __future__ import annotations

import ctypes
import os
from functools import lru_cache
from threading import Lock
from typing import Any, List, NamedTuple, Optional, Sequence, Tuple

import numpy as np
import numpy.typing as npt

from ruzgalt import which
from ruzgalt.errors import OutOfMemory, Stopped

Array = npt.NDArray[Any]
Columns = Sequence[Array]

# The most rows of a list.
ROWS = 1_000_000
FUNCTIONS = ("count", "sum", "min", "max")
NO_MEMORY, NO_ROOM = 4, 5
FAULTS = {
    1: "arrays that must be equally long are not",
    2: f"an array has more than {ROWS:,} rows, or there are more parts than that",
    3: "a row doesn't end after it starts, or isn't of the years 0001 to 9999",
    6: f"the function must be one of {', '.join(FUNCTIONS)}",
}
# An array is passed as its address and its length, a single number of an answer by its address.
LIST, NUMBER = [ctypes.c_void_p, ctypes.c_size_t], ctypes.c_void_p
ARGUMENTS = {
    "dip": [*LIST * 3, NUMBER, NUMBER],
    "join": [*LIST * 10, NUMBER],
    "anti": [*LIST * 9, NUMBER],
    "agg": [*LIST * 4, ctypes.c_uint32, *LIST * 5, NUMBER],
    "check": [*LIST * 3, ctypes.c_uint32, ctypes.c_int64, NUMBER, NUMBER, NUMBER],
}
LOCK = Lock()


class Rows(NamedTuple):
    """The columns of a side: classes, starts, and the first points after the rows."""

    classes: Array
    start: Array
    end: Array


def version() -> str:
    """Returns the version of the library, the time of the commit that it was made of."""
    text: bytes = library().ruzgalt_version()
    return text.decode()


def dip(start: Array, end: Array) -> Tuple[Array, int, Optional[int]]:
    """Divides rows into the fewest parts without an overlap.

    Returns the part of each row, the number of parts, and the first point at which that many rows hold.
    """
    part, parts, instant = np.empty(len(start), np.uint32), ctypes.c_uint32(), ctypes.c_int64()
    call("dip", ints(start), ints(end), part, ctypes.byref(parts), ctypes.byref(instant))
    return part, parts.value, instant.value if len(start) else None


def join(left: Columns, right: Columns) -> List[Array]:
    """Returns left index, right index, start and end of each pair of rows, by start, end and both indices."""
    kinds = (np.uint32, np.uint32, np.int64, np.int64)
    return filled("join", [*lists(left), *lists(right)], kinds, len(left[0]) + len(right[0]))


def anti(left: Columns, right: Columns) -> List[Array]:
    """Returns index, start and end of the time of left rows without a right one of their class, by index and start."""
    kinds = (np.uint32, np.int64, np.int64)
    return filled("anti", [*lists(left), *lists(right)], kinds, len(left[0]) + len(right[0]))


def agg(rows: Columns, amount: Array, function: str) -> List[Array]:
    """Returns class, start, end and value of each constant interval, by class and start.

    Values are Python's numbers if one of them has more than 64 bits.
    """
    kinds = (np.int64, np.int64, np.int64, np.uint64, np.int64)
    number = FUNCTIONS.index(function) if function in FUNCTIONS else len(FUNCTIONS)
    given = [*lists(rows), ints(amount), number]
    *periods, low, high = filled("agg", given, kinds, 2 * len(amount))
    value = low.view(np.int64)
    if (high != value >> 63).any():
        value = (high.astype(object) << 64) + low.astype(object)
    return [*periods, value]


def check(start: Array, end: Array, part: Array, parts: int, instant: int) -> Tuple[int, int, int]:
    """Returns the first fault of a claimed division, by its number in ruzgalt.h, and the fault's two numbers."""
    verdict, first, second = ctypes.c_uint32(), ctypes.c_uint64(), ctypes.c_uint64()
    given = [ints(start), ints(end), np.ascontiguousarray(part, np.uint32), parts, instant]
    call("check", *given, *map(ctypes.byref, (verdict, first, second)))
    return verdict.value, first.value, second.value


def ints(array: Array) -> Array:
    return np.ascontiguousarray(array, np.int64)


def lists(rows: Columns) -> List[Array]:
    return list(map(ints, rows))


def filled(name: str, given: Sequence[Any], kinds: Sequence[Any], capacity: int) -> List[Array]:
    """Returns the arrays of an answer, for which the library is called once more if it has more rows than expected."""
    made, count = [np.empty(capacity, kind) for kind in kinds], ctypes.c_uint64()
    if call(name, *given, *made, ctypes.byref(count)) == NO_ROOM:
        return filled(name, given, kinds, count.value)
    return [one[:count.value] for one in made]


def call(name: str, *given: Any) -> int:
    """Calls a function. Raises OutOfMemory, and ValueError of what a caller owes. Returns NO_ROOM or 0."""
    words: List[Any] = []
    for one in given:
        words += (one.ctypes.data, len(one)) if isinstance(one, np.ndarray) else (one,)
    code: int = getattr(library(), f"ruzgalt_{name}")(*words)
    if code == NO_MEMORY:
        reason = f"there is too little memory for {len(given[0]):,} rows"
        raise OutOfMemory(f"libruzgalt: {reason}: give fewer rows in a call, of Dask more partitions")
    if code in FAULTS:
        raise ValueError(f"libruzgalt: {FAULTS[code]}")
    return code


def library() -> Any:
    with LOCK:
        return loaded()


@lru_cache(maxsize=1)
def loaded() -> Any:
    """Loads the library. Raises Stopped if it isn't there, or isn't the one that this package needs."""
    file = which.library()
    refuse_unmade(file)
    try:
        # By its path, even of a bare name, which the system would look for elsewhere.
        found = ctypes.CDLL(os.path.abspath(file))
        for name, arguments in ARGUMENTS.items():
            function = getattr(found, f"ruzgalt_{name}")
            function.argtypes, function.restype = arguments, ctypes.c_int32
        found.ruzgalt_version.restype = ctypes.c_char_p
    except (OSError, AttributeError) as error:
        raise Stopped(f"{file} isn't a libruzgalt of this version ({error}): {remedy_of(file)}") from None
    return found


def refuse_unmade(file: str) -> None:
    """Raises Stopped if the library is missing, or if a clone's was made from other sources."""
    if not os.path.isfile(file):
        raise Stopped(f"{file} is missing, the library that frames need: {remedy_of(file)}")
    crate = which.crate_of(file)
    if crate and not which.is_built(crate):
        raise Stopped(f"{file}: the library isn't made from these sources: {remedy_of(file)}")


def remedy_of(file: str) -> str:
    if which.crate_of(file):
        return "`make library` makes it"
    if "RUZGALT_LIBRARY" in os.environ:
        return "`make library` makes one, in a clone of the version that is installed here"
    return "install the package again, or name a library by the variable RUZGALT_LIBRARY"
