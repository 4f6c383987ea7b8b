"""Divisions of frames of pandas: dip and check. A store's table has a Division too."""
from __future__ import annotations

from dataclasses import dataclass
from typing import Any, Generic, Iterator, Tuple, TypeVar

import numpy as np
import pandas as pd

from ruzgalt.convert import checks, points
from ruzgalt.convert.errors import Refused
from ruzgalt.convert.kinds import Kind
from ruzgalt.frames import groups, split
from ruzgalt.frames.answer import period_of
from ruzgalt.frames.options import Options
from ruzgalt.kernel import library, threads
from ruzgalt.kernel.library import Rows

# That many groups are shown.
SHOWN = 10
# The number that the library has for an overlap of two rows of a part.
OVERLAP = 6
OTHERWISE = "agg(frame, 'count') has the number of parts as its greatest count, and the instant as that period's start"
REMEDY = "its parts are division.parts: frame.assign(part=division.parts)"
OPERATIONS = """eq ne lt le gt ge add radd sub rsub mul rmul truediv rtruediv floordiv rfloordiv mod rmod pow rpow
and rand or ror xor rxor neg pos abs invert bool int float index len iter getitem setitem contains array
array_function"""
# A Series for a frame's division, a DataFrame for a store's.
Parts = TypeVar("Parts")


@dataclass(frozen=True, eq=False, repr=False)
class Division(Generic[Parts]):
    """The answer of dip. It isn't a Series: `parts` is one.

    Attributes
    ----------
    parts : Series or DataFrame
        The part of each row, from 0 on in each group: a Series with the frame's index, or of Store.dip a frame.
    count : int, or Series by group
        The number of parts.
    instant : point or None, or Series by group
        The first point when `count` rows hold: fewer parts aren't enough.

    Examples
    --------
    >>> day = pd.to_datetime
    >>> stay = pd.DataFrame({"from": day(["2024-01-01", "2024-01-03"]), "to": day(["2024-01-05", "2024-01-08"])})
    >>> division = ruzgalt.dip(stay)
    >>> division
    2 parts of 2 rows, as many as hold at 2024-01-03 00:00:00
    >>> division.count, division.instant, division.parts.tolist()
    (2, Timestamp('2024-01-03 00:00:00'), [0, 1])
    >>> ruzgalt.dip(stay.assign(ward=["A", "B"]), by="ward")
    2 rows in 2 groups of 1 part
    'A': 1 part, as many as hold at 2024-01-01 00:00:00
    'B': 1 part, as many as hold at 2024-01-03 00:00:00
    """

    parts: Parts
    count: Any
    instant: Any

    # So that arrays leave `array == division` to the division, and don't compare it as one object.
    __array_priority__ = 1000

    def __repr__(self) -> str:
        parts: Any = self.parts
        if isinstance(self.count, pd.Series):
            return "\n".join(lines_of_groups(len(parts), self.count, self.instant))
        text = f"{many(self.count, 'part')} of {many(len(parts), 'row')}"
        return text if self.instant is None else f"{text}, as many as hold at {self.instant}"

    def __getattr__(self, name: str) -> Any:
        raise AttributeError(f"a Division has no {name}; {REMEDY}")


def refuse_use(division: Division[Any], *_: Any, **__: Any) -> Any:
    """Every operation of a Series. Without it pandas would put the division itself into each row, or compare with it.

    Raises Refused, since pandas takes a TypeError of a comparison for False.
    """
    raise Refused("BadCommand", f"a Division isn't a Series or an array; {REMEDY}")


for word in OPERATIONS.split():
    setattr(Division, f"__{word}__", refuse_use)


def many(number: int, word: str) -> str:
    return f"{number:,} {word}{'s' * (number != 1)}"


def lines_of_groups(rows: int, count: Any, instant: Any) -> Iterator[str]:
    """What a division of groups is shown as: how many parts they have, and each group's, of many the first ones."""
    bounds = " to ".join(f"{one:,}" for one in sorted({count.min(), count.max()})) if len(count) else "no"
    yield f"{many(rows, 'row')} in {many(len(count), 'group')} of {bounds} part{'s' * (bounds != '1')}"
    for group, parts, point in zip(count.index[:SHOWN], count[:SHOWN], instant[:SHOWN]):
        yield f"{shown(group)}: {many(parts, 'part')}, as many as hold at {point}"
    if len(count) > SHOWN:
        yield f".. and {len(count) - SHOWN:,} more: .count and .instant have all"


def shown(group: Any) -> str:
    """A group's value, or several."""
    if isinstance(group, tuple):
        return ", ".join(map(shown, group))
    return repr(group) if isinstance(group, str) else str(group)


@dataclass(frozen=True, repr=False)
class Checked:
    """The answer of check. It is true if no two rows of a part overlap.

    Attributes
    ----------
    count, least : int
        The number of parts, and the least number that is enough.
    rows : tuple
        The labels of two rows of a part that overlap, if there are such.
    part : value or tuple of values
        Their part.
    start, end : point
        The time that they share.

    Examples
    --------
    >>> day = pd.to_datetime
    >>> stay = pd.DataFrame({"from": day(["2024-01-01", "2024-01-03"]), "to": day(["2024-01-05", "2024-01-08"])})
    >>> checked = ruzgalt.check(stay.assign(bed=7), part="bed")
    >>> bool(checked), checked.rows, checked.part, checked.least
    (False, (0, 1), 7, 2)
    """

    count: int
    least: int
    rows: Tuple[Any, ...] = ()
    part: Any = None
    start: Any = None
    end: Any = None

    def __bool__(self) -> bool:
        return not self.rows

    def __repr__(self) -> str:
        if self.rows:
            one, other = map(shown, self.rows)
            times = " to ".join(str(point).replace(" 00:00:00", "") for point in (self.start, self.end))
            return f"No: rows {one} and {other} of part {shown(self.part)} both hold from {times}."
        enough = "is enough" if self.least == 1 else "are enough"
        number = f"The rows have {many(self.count, 'part')}, and {self.least:,} {enough}"
        if self.count == self.least:
            number = f"Fewer than {many(self.count, 'part')} aren't enough"
        return f"Yes: no two rows of a part hold at one time. {number}."


def check(frame: Any, options: Options) -> Checked:
    """Checks the division whose parts are the values of `by`."""
    if not options.by:
        given = None if options.by is None else []
        raise checks.wrong("part", given, "must be the name of a column, or a list of names")
    whole, side, codes, firsts, _ = groups.grouped(frame, [], options)
    refuse_many(len(side), "a frame")
    _, least, second = split.answer(library.dip, side.start, side.end)
    count = len(firsts) if len(side) else 0
    found = split.answer(library.check, side.start, side.end, codes.codes, count, second or 0)
    if found[0] != OVERLAP:
        return Checked(count, least)
    rows = np.array(found[1:], np.int64)
    part = [pythons(cells.iloc[0]) for _, cells in groups.groups_at(whole, options.by, rows[:1])]
    start, end = side.start[rows].max(keepdims=True), side.end[rows].min(keepdims=True)
    bounds = [cells.iloc[0] for _, cells in period_of(start, end, [side], options, options.form)]
    first, last = bounds if len(bounds) == 2 else (bounds[0].left, bounds[0].right)
    return Checked(count, least, tuple(frame.index[rows]), tuple(part) if len(part) > 1 else part[0], first, last)


def pythons(cell: Any) -> Any:
    """Returns a number of numpy as Python's own, other cells as they are."""
    return cell.item() if isinstance(cell, np.generic) else cell


def dip(frame: Any, options: Options) -> Division[Any]:
    """Divides the rows, or with `by` the rows of each group."""
    by = options.by or ()
    whole, side, codes, firsts, _ = groups.grouped(frame, [], options)
    refuse_many(int(np.bincount(codes.codes).max(initial=0)), "a group" if by else "a frame")
    rows = Rows(codes.codes, side.start, side.end)
    part, counts, seconds = split.answer(threads.dips, rows, options.workers)
    parts = pd.Series(part, frame.index, name="part")
    if not by:
        return Division(parts, *((int(counts[0]), point_of(seconds[0], side.kind)) if len(side) else (0, None)))
    index = groups.index_at(whole, by, firsts)
    instant = points.series_of(seconds, side.kind, index).rename("instant")
    return Division(parts, pd.Series(counts, index, name="count"), instant)


def refuse_many(rows: int, what: str) -> None:
    if rows > split.ROWS:
        reason = f"{what} of {rows:,} rows, but a division takes {split.ROWS:,}, and can't be made in parts"
        raise Refused("Full", f"{reason}: {OTHERWISE}")


def point_of(second: int, kind: Kind) -> Any:
    """A point of the kind. It is some row's start, so the kind of these has it."""
    return points.series_of(np.array([second]), kind).iloc[0]
