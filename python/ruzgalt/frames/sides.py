"""Period rows on their way to the library: periods as seconds, and the columns that are compared, grouped or added.

The library matches rows by key codes: a number for each row instead of its compared values, equal exactly if all values
are equal.
"""
from __future__ import annotations

from dataclasses import dataclass, field, replace
from functools import cached_property, reduce
from itertools import chain, count
from typing import Any, Iterable, List, Mapping, Optional, Sequence, Tuple

import numpy as np
import pandas as pd

from ruzgalt.convert import kinds, named, values
from ruzgalt.convert.arrays import NO_INTS, Hashes, Ints
from ruzgalt.convert.errors import Refused, label_at
from ruzgalt.convert.kinds import Kind, refuse_two_zones
from ruzgalt.convert.named import column_of, same
from ruzgalt.convert.points import Form
from ruzgalt.convert.values import Values

# The names of the columns of starts and of ends, or the name of one of intervals.
Period = Tuple[Any, ...]
# Greater codes are replaced by their ranks, since rows are counted by code.
MOST = 1 << 22
# The codes of rows, and a bound above all of them: at most MOST, or the count of different codes.
Numbered = Tuple[Ints, int]


@dataclass(frozen=True)
class Side:
    """Rows: the seconds of their starts and of the first points after them, their values, their positions in the frame.

    kind is the kind of the frame's points; labels is its index; has_intervals: its periods are intervals.
    """

    start: Ints
    end: Ints
    columns: List[Values] = field(default_factory=list)
    kind: Kind = Kind("S")
    labels: Any = None
    places: Ints = field(default_factory=lambda: NO_INTS)
    has_intervals: bool = False

    def __len__(self) -> int:
        return len(self.start)

    def take(self, which: Ints) -> Side:
        columns = [column.take(which) for column in self.columns]
        return replace(self, start=self.start[which], end=self.end[which], columns=columns, places=self.places[which])

    def during(self, start: Ints, end: Ints) -> Side:
        return replace(self, start=start, end=end)

    def clipped(self, low: Optional[int], high: Optional[int]) -> Side:
        """Returns the rows that hold from one second on and before another, cut there."""
        start = self.start if low is None else np.maximum(self.start, low)
        end = self.end if high is None else np.minimum(self.end, high)
        return self.during(start, end).take(np.flatnonzero(start < end))

    def blocks(self, size: int) -> List[Side]:
        """Returns the rows in blocks of this size."""
        return [self.take(np.arange(first, min(first + size, len(self)))) for first in range(0, len(self), size)]

    @cached_property
    def hashes(self) -> Hashes:
        """A number for each row, the same for rows of one period and equal values."""
        times = [Values(None, "int", one) for one in (self.start, self.end)]
        found: Hashes = values.hashes([*times, *self.columns])
        return found


def together(sides: Sequence[Side]) -> Side:
    """Returns the rows of several parts of one side."""
    columns = [
        replace(one, codes=np.concatenate([side.columns[place].codes for side in sides]))
        for place, one in enumerate(sides[0].columns)
    ]
    times = {name: np.concatenate([getattr(side, name) for side in sides]) for name in ("start", "end", "places")}
    return replace(sides[0], columns=columns, **times)


def side_of(frame: Any, names: Sequence[Any], period: Period, form: Form, decimals: Mapping[Any, int]) -> Side:
    """Returns the rows of a DataFrame with the columns of these names. Raises Refused."""
    starts, ends = named.bounds_of(frame, period)
    found = [column_of(frame, name) for name in names]
    start, first = form.starts_of(starts)
    end, last = form.ends_of(ends)
    refuse_two_zones(first, last, ends.name)
    is_empty = start >= end
    if is_empty.any():
        place = int(is_empty.argmax())
        reason = f"it starts at {starts.iloc[place]} and ends at {ends.iloc[place]}"
        remedy = "an end is the first point after a row"
        if start[place] == end[place] and not form.has_last_days:
            remedy += "; last_day=True reads it as the last day"
        raise Refused("BadPeriod", f"{reason}: {remedy}", ends.name, label_at(is_empty, ends.index))
    columns = [values.values_of(column, decimals.get(same(column.name))) for column in found]
    kind = kinds.joint_kind(first, last)
    return Side(start, end, columns, kind, frame.index, np.arange(len(start)), named.are_in(period))


def with_codes(sides: Sequence[Side]) -> List[Side]:
    """Returns both sides with key codes instead of their compared columns, if they have any."""
    if not sides[0].columns:
        return list(sides)
    numbers, _ = codes_of(zip(*(side.columns for side in sides)))
    codes = np.split(numbers, [len(sides[0])])
    return [replace(side, columns=[Values(None, "int", own)]) for side, own in zip(sides, codes)]


def codes_of(columns: Iterable[Sequence[Values]], sort: bool = False) -> Numbered:
    """Returns a code for each row of columns. A column has the cells of one side after the other side's.

    With sort, codes rise with the values. The first column counts most.
    """
    return reduce(lambda one, other: crossed(one, other, sort), (numbered(column, sort) for column in columns))


def numbered(column: Sequence[Values], sort: bool) -> Numbered:
    """Returns codes of one column's cells. Texts are compared by their UTF-8."""
    if column[0].kind == "text":
        first, *others = (one.texts.cells for one in column)
        numbers = dict(zip(sorted({*first, *chain(*others)}) if sort else first, count()))
        # A text of the right side that the left one lacks gets the next free number.
        tables = [np.fromiter(map(numbers.get, own, count(len(numbers))), np.int64) for own in (first, *others)]
        bound = len(numbers) + sum(map(len, others))
        return np.concatenate([table[one.codes] for table, one in zip(tables, column)]), bound
    cells = np.concatenate([one.codes for one in column])
    low, high = (int(cells.min()), int(cells.max())) if len(cells) else (0, 0)
    return (cells - low, high - low + 1) if high - low < MOST else anew(cells, sort)


def crossed(one: Numbered, other: Numbered, sort: bool) -> Numbered:
    """Returns codes of both together. No product needs more than 64 bits, since each bound is below 2^32."""
    numbers, bound = one[0] * other[1] + other[0], one[1] * other[1]
    return (numbers, bound) if bound <= MOST else anew(numbers, sort)


def anew(numbers: Ints, sort: bool) -> Numbered:
    codes, found = pd.factorize(numbers, sort=sort)
    return codes.astype(np.int64, copy=False), len(found)
