"""A frame's columns by their names, whatever these are: texts, numbers, tuples, None. Columns are taken by position.

The period of a frame is two columns, or one of intervals, or a level of the index that has intervals. Intervals are
closed on the left and open on the right.
"""
from __future__ import annotations

from typing import Any, List, Sequence, Tuple

import numpy as np
import pandas as pd

from ruzgalt.convert.errors import Refused, refuse
from ruzgalt.convert.kinds import UNITS, Kind
from ruzgalt.script import naming

# Remedies begin with this: a column of intervals as its two sides.
BY_SIDES = "as two columns, their .array.left and .array.right, "
SIDES = {"right": "the right", "both": "both sides", "neither": "no side"}


def same(name: Any) -> Any:
    """Returns the name; a number or text of numpy as Python's own."""
    return name.item() if isinstance(name, (np.number, np.str_)) else name


def names_of(frame: Any) -> List[Any]:
    return list(map(same, frame.columns))


def place_of(frame: Any, name: Any) -> int:
    """Returns the position of the column of this name. Raises Refused (NoColumn)."""
    there, wanted = names_of(frame), same(name)
    places = {one: place for place, one in enumerate(there)}
    if wanted not in places:
        remedy = "; it is in the index, and .reset_index() makes it a column" if wanted in frame.index.names else ""
        raise Refused("NoColumn", f"no such column; the columns are {there}{remedy}", name)
    if wanted in naming.twice(there):
        raise Refused("NoColumn", "several columns have this name; .rename(columns=..) them", name)
    return places[wanted]


def column_of(frame: Any, name: Any) -> Any:
    """Returns the column of this name as a Series. Raises Refused (NoColumn)."""
    columns = frame.columns
    # This takes a tenth of the time, and finds the same column.
    if type(name) is str and type(columns) is pd.Index and columns.is_unique and name in columns:
        return frame[name]
    return frame.iloc[:, place_of(frame, name)]


def with_levels(frame: Any, names: Sequence[Any]) -> Any:
    """Returns the frame with those levels of its index as first columns that are named here.

    So pandas.merge and groupby take them. Raises Refused (NoColumn) if a column or another level has such a name too.
    """
    levels, columns = [same(name) for name in frame.index.names if name is not None], names_of(frame)
    found = [name for name in dict.fromkeys(map(same, names)) if name in levels]
    for name in found:
        if name in columns or name in naming.twice(levels):
            remedy = ".rename_axis(..) gives levels other names, .reset_index(drop=True) drops them"
            raise Refused("NoColumn", f"several columns or levels of the index have this name: {remedy}", name)
    # Only columns can have names of several parts.
    if not found or frame.columns.nlevels > 1:
        return frame
    made = frame.copy(deep=False)
    for place, name in enumerate(found):
        made.insert(place, name, frame.index.get_level_values(levels_place(frame, name)))
    return made


def levels_place(frame: Any, name: Any) -> int:
    return list(map(same, frame.index.names)).index(name)


def refuse_twice(frame: Any) -> None:
    for name in naming.twice(names_of(frame)):
        raise Refused("TwiceNamed", "two columns of the frame have this name: .rename(columns=..) one", name)


# Periods.

def are_in(period: Sequence[Any]) -> bool:
    """Returns whether a period has intervals: it has one name instead of two."""
    return len(period) == 1


def bounds_of(frame: Any, period: Sequence[Any]) -> Tuple[Any, Any]:
    """Returns the columns of starts and of ends. Raises Refused (NoColumn, WrongKind, BadPoint)."""
    if not are_in(period):
        start, end = period
        return column_of(frame, start), column_of(frame, end)
    column = spans_of(frame, period[0])
    refuse_others(column)
    remedy = f".dropna(subset=[{column.name!r}]) leaves such rows out"
    refuse(column.isna().to_numpy(), column, "BadPoint", f"no interval is given; {remedy}")
    left, right = (pd.Series(one, frame.index, name=column.name) for one in (column.array.left, column.array.right))
    return left, right


def spans_of(frame: Any, name: Any) -> Any:
    """Returns the column of this name, or the level of the index. Raises Refused (NoColumn)."""
    if is_level(frame, name):
        level = frame.index.get_level_values(levels_place(frame, name))
        return pd.Series(level.array, frame.index, name=name)
    return column_of(frame, name)


def is_level(frame: Any, name: Any) -> bool:
    return same(name) not in names_of(frame) and same(name) in list(map(same, frame.index.names))


def refuse_others(column: Any) -> None:
    """Raises Refused if the column doesn't have intervals that are closed only on the left."""
    dtype = column.dtype
    if not isinstance(dtype, pd.IntervalDtype):
        remedy = "pandas.arrays.IntervalArray(..) makes them of objects; period=('from', 'to') names two columns"
        raise Refused("WrongKind", f"{dtype}: a period of one column must be of intervals; {remedy}", column.name)
    closed = column.array.closed
    if closed != "left":
        remedy = ".array.set_closed('left') makes a start the first point, and an end the first point after it"
        if closed == "both":
            remedy += f"; {BY_SIDES}last_day=True reads an end as the last day"
        reason = f"intervals closed on {SIDES[closed]}: they must be closed on the left; {remedy}"
        raise Refused("WrongKind", reason, column.name)


def kind_of(period: Sequence[Any], joint: Kind, first: Kind) -> Kind:
    """Returns the kind of an answer's points; intervals have datetime64: the joint unit, the first frame's, or ns."""
    if not are_in(period):
        return joint
    return next((kind for kind in (joint, first) if kind.name in UNITS), Kind("ns", first.zone))


def columns_of(period: Sequence[Any], starts: Any, ends: Any) -> List[Tuple[Any, Any]]:
    """Returns the period's columns of an answer, from Series of starts and of ends."""
    if not are_in(period):
        return list(zip(period, (starts, ends)))
    spans = pd.arrays.IntervalArray.from_arrays(starts, ends, closed="left")
    return [(period[0], pd.Series(spans, starts.index))]


def with_cells(frame: Any, name: Any, cells: Any) -> None:
    """Replaces the cells of a column, or of a level of the index."""
    if not is_level(frame, name):
        frame.isetitem(names_of(frame).index(same(name)), cells)
        return
    levels = [frame.index.get_level_values(place) for place in range(frame.index.nlevels)]
    levels[levels_place(frame, name)] = pd.Index(cells.array)
    is_alone = len(levels) == 1
    frame.index = levels[0].rename(name) if is_alone else pd.MultiIndex.from_arrays(levels, names=frame.index.names)
