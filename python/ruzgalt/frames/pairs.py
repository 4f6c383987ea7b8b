"""Pairs of rows of frames of pandas: join, anti and overlaps.

The library gets periods and key codes. All other columns are taken from the frames by the indices that it answers.
"""
from __future__ import annotations

from dataclasses import dataclass, replace
from functools import cached_property
from typing import Any, List, Mapping, Optional, Sequence, Tuple

import numpy as np
import pandas as pd

from ruzgalt.convert import named, values
from ruzgalt.convert.arrays import Ints
from ruzgalt.convert.errors import Refused
from ruzgalt.convert.kinds import refuse_two_zones
from ruzgalt.convert.named import column_of, names_of, place_of, refuse_twice, same, with_levels
from ruzgalt.convert.points import Form
from ruzgalt.convert.values import Values
from ruzgalt.frames import answer, doubts, sides, split
from ruzgalt.frames.answer import Column, period_of, with_labels_twice
from ruzgalt.frames.options import Options
from ruzgalt.frames.sides import Period, Side, with_codes
from ruzgalt.frames.split import Found


def join(left: Any, right: Any, options: Options) -> Any:
    for frame in (left, right):
        refuse_twice(frame)
    frames, both = prepared((left, right), options)
    return framed(frames, matched(both, options), both, options)


def anti(left: Any, right: Any, options: Options) -> Any:
    _, both = prepared((left, right), options)
    start, end, places = split.anti(both, options.workers)
    made = with_labels_twice(left).take(places)
    for name, cells in period_of(start, end, both, options, options.forms[0], made.index):
        named.with_cells(made, name, cells)
    return made


def overlaps(frame: Any, options: Options) -> Any:
    """Returns the join of a frame with itself in the columns of `by`, if the left row is before the right one."""
    refuse_twice(frame)
    by = options.by or ()
    frame = with_levels(frame, by)
    side = sides.side_of(frame, by, options.period, options.form, options.decimals)
    doubts.of_frame(frame, side, side.columns, options)
    found = split.join(with_codes([side, side]), options.workers)
    is_first = found[2] < found[3]
    options = replace(options, left_on=by, right_on=by)
    return framed([frame, frame], [column[is_first] for column in found], [side, side], options)


def prepared(frames: Sequence[Any], options: Options) -> Tuple[List[Any], List[Side]]:
    """Returns frames with compared levels of their indexes as columns, and their rows. Warns of possible mistakes."""
    frames = [with_levels(frame, names) for frame, names in zip(frames, options.keys)]
    both = sides_of(frames, options)
    coded = with_codes(both)
    if not options.is_part:
        codes = [column.codes for side in coded for column in side.columns]
        doubts.of_pair(frames, both, codes, options)
    return frames, coded


def sides_of(frames: Sequence[Any], options: Options) -> List[Side]:
    """Returns the rows of both frames, with their compared columns. Raises Refused."""
    for pair in zip(*([column_of(frame, name) for name in own] for frame, own in zip(frames, options.keys))):
        refuse_float_and_int(*pair)
    each = zip(frames, options.keys, options.periods, options.forms)
    both = [sides.side_of(frame, own, period, form, options.decimals) for frame, own, period, form in each]
    if not options.is_part:
        # A partition may have no row, while others have texts.
        both = [like(one, other) for one, other in (both, both[::-1])]
    for one, other in zip(both[0].columns, both[1].columns):
        refuse_two_kinds(one, other)
    refuse_two_zones(both[0].kind, both[1].kind, options.periods[1][0])
    return both


def like(side: Side, other: Side) -> Side:
    """Returns the side. If it has no rows, its columns of objects, which have no kind, get the other's."""
    if len(side):
        return side
    columns = [
        replace(own, kind=its.kind, digits=its.digits) if own.dtype == object else own
        for own, its in zip(side.columns, other.columns)
    ]
    return replace(side, columns=columns)


def refuse_float_and_int(one: Any, other: Any) -> None:
    """Raises Refused. decimals= would be refused for the integer, and without it the float would be refused."""
    if "".join(sorted(column.dtype.kind for column in (one, other))) in ("fi", "fu"):
        reason = f"it is {one.dtype}, but {other.name!r} of the right frame is {other.dtype}"
        others = f".astype('float64') of both with decimals={{{one.name!r}: 2}} takes numbers of two decimals"
        raise Refused("WrongKind", f"{reason}; .astype('Int64') of both takes whole numbers, {others}", one.name)


def refuse_two_kinds(one: Values, other: Values) -> None:
    if one.kind != other.kind:
        reason = f"it is {one.kind}, but {other.name!r} of the right frame is {other.kind}"
        remedy = ".astype('int64') makes numbers of texts such as '001', .astype(str) makes texts of numbers"
        raise Refused("WrongKind", f"{reason}; {remedy}", one.name)
    if one.digits != other.digits:
        one_has, other_has = ("no" if column.digits is None else column.digits for column in (one, other))
        reason = f"it has {one_has} decimals, but {other.name!r} of the right frame has {other_has} decimals"
        raise Refused("WrongKind", f"{reason}; give both the same decimals=", one.name)


def matched(both: Sequence[Side], options: Options) -> Found:
    """Returns start, end, index of the left row and of the right one, in this order; -1 for no row comes last.

    Both sides have key codes.
    """
    found = [split.join(both, options.workers)]
    if options.how in ("left", "outer"):
        start, end, left = split.anti(both, options.workers)
        found.append((start, end, left, np.full(len(left), -1, np.int64)))
    if options.how in ("right", "outer"):
        start, end, right = split.anti(both[::-1], options.workers)
        found.append((start, end, np.full(len(right), -1, np.int64), right))
    return found[0] if len(found) == 1 else split.by_period(split.all_of(found))


def framed(frames: Sequence[Any], found: Sequence[Ints], both: Sequence[Side], options: Options) -> Any:
    """Returns the answer of a join. Partitions have the same dtypes, whether a row of theirs is unmatched or not."""
    start, end, *rows = found
    may_miss = [options.is_part and options.how in (one, "outer") for one in ("right", "left")]
    taken = list(map(Taken, frames, rows, may_miss))
    # Last days if the left frame has them, and missing ends if one of the frames has them.
    form = Form(bool(options.open_end), options.forms[0].has_last_days)
    own = period_of(start, end, both, options, form)
    kept = [one.period(period) for one, period in zip(taken, options.periods) if options.keep_periods]
    others = columns_of_both(taken, options.shared, options.decimals, options.periods)
    return answer.of_two(own, [*kept, *others], [*(options.suffixes if kept else ()), *options.suffixes])


def columns_of_both(
    taken: Sequence[Taken], shared: Sequence[Any], decimals: Mapping[Any, Optional[int]],
    left_out: Sequence[Period] = ((), ()),
) -> Any:
    """Returns the columns of both sides except some; shared ones once, at their positions in the left frame."""
    others = [one.others([*away, *shared]) for one, away in zip(taken, left_out)]
    others[0] += [shared_column(taken, name, decimals.get(name)) for name in shared]
    others[0].sort(key=lambda column: place_of(taken[0].frame, column[0]))
    return others


def shared_column(taken: Sequence[Taken], name: Any, digits: Optional[int]) -> Column:
    """Returns a compared column of both: the left row's cell, or the right row's if the left row is missing."""
    if taken[0].has_all:
        return taken[0].column(name)
    one, other = (column_of(with_labels_twice(side.frame), name) for side in taken)
    return name, values.either(one, other, [side.rows for side in taken], taken[0].is_wide, digits)


@dataclass(frozen=True)
class Taken:
    """Rows of a frame by their indices. -1 means no row, like in values.rows_at."""

    frame: Any
    rows: Ints
    is_wide: bool

    @cached_property
    def has_all(self) -> bool:
        """Whether no row is missing, nor may be in another partition."""
        return not self.is_wide and not (self.rows < 0).any()

    def at(self, columns: Any) -> Any:
        return values.rows_at(with_labels_twice(columns), self.rows, self.is_wide)

    def period(self, names: Sequence[Any]) -> List[Column]:
        """Returns the frame's own period: two columns, or one of intervals, or a level of the index."""
        return [(name, self.at(named.spans_of(self.frame, name).to_frame()).iloc[:, 0]) for name in names]

    def column(self, name: Any) -> Column:
        """Returns a column, if no row is missing. pandas would search an array of objects for dates."""
        column = column_of(self.frame, name)
        cells = column.array.take(self.rows)
        return name, pd.Series(cells, dtype=object) if column.dtype == object else cells

    def others(self, left_out: Sequence[Any]) -> List[Column]:
        away = list(map(same, left_out))
        kept = [place for place, name in enumerate(names_of(self.frame)) if name not in away]
        names = [names_of(self.frame)[place] for place in kept]
        if self.has_all:
            return list(map(self.column, names))
        taken = self.at(self.frame.iloc[:, kept])
        return [(name, taken.iloc[:, place]) for place, name in enumerate(names)]
