"""The columns of an answer: collected in order, known by position, and named last.
"""
from __future__ import annotations

from typing import Any, Iterable, List, Optional, Sequence, Tuple

import pandas as pd

from ruzgalt.convert import named, points
from ruzgalt.convert.arrays import Ints
from ruzgalt.convert.errors import Refused
from ruzgalt.convert.named import same
from ruzgalt.convert.points import Form
from ruzgalt.frames.options import Options
from ruzgalt.frames.sides import Side
from ruzgalt.script import naming

# A name, and cells: a Series by positions from 0 on, or an array.
Column = Tuple[Any, Any]


class Columns:
    """Columns of an answer. Nothing is looked up by name, so equal names don't matter."""

    def __init__(self, own: Iterable[Column] = ()) -> None:
        """own: columns that the answer itself names; these names stay as they are."""
        self.names: List[Any] = []
        self.cells: List[Any] = []
        self.suffixes: List[Optional[str]] = []
        self.add(own)

    def add(self, columns: Iterable[Column], suffix: Optional[str] = None) -> None:
        """Adds columns after the others. The suffix is put after a name that is taken."""
        for name, cells in columns:
            self.names.append(same(name))
            self.cells.append(cells)
            self.suffixes.append(suffix)

    def frame(self) -> Any:
        """Raises Refused (TwiceNamed) if names still are equal."""
        names = naming.with_suffixes(self.names, self.suffixes)
        for name in naming.twice(names):
            remedy = ".rename(columns=..), or other suffixes=" if any(self.suffixes) else ".rename(columns=..)"
            raise Refused("TwiceNamed", f"two columns of the answer have this name: {remedy}", name)
        return frame_of(names, self.cells)

    def of_table(self) -> Any:
        return frame_of(naming.apart(self.names), self.cells)


def of_two(own: Iterable[Column], sides: Iterable[Iterable[Column]], suffixes: Iterable[Optional[str]]) -> Any:
    """Returns an answer of two frames or tables: its own columns, then theirs, each side with its suffix."""
    columns = Columns(own)
    for side, suffix in zip(sides, suffixes):
        columns.add(side, suffix)
    return columns.frame()


def frame_of(names: Sequence[Any], cells: Sequence[Any]) -> Any:
    # pandas aligns each Series, but would search an array of objects for dates. No other frame has these cells.
    arrays = [one.array if isinstance(one, pd.Series) and one.dtype != object else one for one in cells]
    made = pd.DataFrame(dict(enumerate(arrays)), pd.RangeIndex(len(cells[0]) if cells else 0), copy=False)
    made.columns = index_of(names)
    return made


def index_of(names: Sequence[Any]) -> Any:
    """Returns the names as they are: of 1 and None pandas makes 1.0 and NaN."""
    index = pd.Index(names)
    if all(type(name) is str for name in names):
        return index
    is_kept = list(map(repr, index)) == list(map(repr, names))
    return index if is_kept else pd.Index(names, dtype=object, tupleize_cols=False)


def period_of(start: Ints, end: Ints, both: Sequence[Side], options: Options, form: Form,
              index: Any = None) -> List[Column]:
    """Returns the period's columns of an answer, named as in the left frame."""
    period = options.periods[0]
    kind = options.kind_of(period, *(side.kind for side in both))
    return named.columns_of(period, points.series_of(start, kind, index), form.restored_ends(end, kind, index))


def with_labels_twice(frame: Any) -> Any:
    """Returns the frame, and allows repeated labels, since an answer may have them."""
    return frame.set_flags(allows_duplicate_labels=True)
