"""Types of arrays of numpy, and arrays of objects."""
from __future__ import annotations

from typing import Any, List, Sequence

import numpy as np
import numpy.typing as npt

Ints = npt.NDArray[np.int64]
Bytes = npt.NDArray[np.uint8]
Marks = npt.NDArray[np.bool_]
Hashes = npt.NDArray[np.uint64]
# Any dtype, objects too.
Cells = npt.NDArray[Any]

NO_INTS: Ints = np.empty(0, np.int64)


def of_objects(cells: Sequence[Any]) -> Cells:
    """Returns an array of objects. numpy would make a matrix of tuples, and convert datetimes."""
    array = np.empty(len(cells), object)
    array[:] = cells
    return array


def equal_to(cells: Cells, value: object) -> Marks:
    """Returns which cells are this number or text. numpy would drop zero bytes at the end of a text."""
    marked: Marks = np.asarray(cells == (of_objects([value]) if isinstance(value, str) else value), bool)
    return marked


def joined(parts: List[Cells]) -> Cells:
    return parts[0] if len(parts) == 1 else np.concatenate(parts)


def narrowed(numbers: Cells) -> Cells:
    """Returns Python's numbers as int64, if all of them fit."""
    if numbers.dtype == object and not np.asarray((numbers < -(2**63)) | (numbers >= 2**63), bool).any():
        return numbers.astype(np.int64)
    return numbers
