"""Frames of pandas by groups of rows: agg, coalesce and gaps; and the rows that hold at a time: at, during."""
from __future__ import annotations

from dataclasses import replace
from typing import Any, Callable, List, Mapping, NamedTuple, Optional, Sequence, Tuple

import numpy as np
import pandas as pd

from ruzgalt.convert import checks, instants
from ruzgalt.convert.arrays import Ints
from ruzgalt.convert.errors import refuse
from ruzgalt.convert.instants import Span
from ruzgalt.convert.kinds import Kind
from ruzgalt.convert.named import column_of, with_levels
from ruzgalt.convert.points import Form
from ruzgalt.convert.values import Values, no_value
from ruzgalt.frames import doubts, measures, sides, split
from ruzgalt.frames.answer import Column, Columns, period_of, with_labels_twice
from ruzgalt.frames.measures import Measures
from ruzgalt.frames.options import Options
from ruzgalt.frames.sides import Side


class Groups(NamedTuple):
    """A frame's rows, the code of each row's group, by group its first row, and the time that counts, if not all."""

    frame: Any
    side: Side
    codes: Values
    firsts: Ints
    span: Optional[Span]


def grouped(frame: Any, asked: Measures, options: Options) -> Groups:
    """Returns the rows by groups, with the columns that the measures need. Warns of possible mistakes."""
    by, span = options.by or (), None
    frame = with_levels(frame, by)
    side = side_of(frame, asked, options)
    doubts.of_frame(frame, side, side.columns[:len(by)], options)
    if side.kind.is_long and (options.within is not None or options.amount):
        # A longer period may not have the bounds of pieces.
        side = replace(side, kind=Kind("D"))
    if options.within is not None:
        span = instants.span(*options.within, options.form, side.kind.zone)
        doubts.of_span(span, side, options)
    return Groups(frame, side, *group_codes(side, len(by)), span)


def framed(groups: Groups, start: Ints, end: Ints, group: Ints, values: Sequence[Column], options: Options) -> Any:
    """Returns an answer as a frame: the columns of `by`, the period, and values."""
    columns = Columns(groups_at(groups.frame, options.by or (), groups.firsts[group]))
    columns.add(period_of(start, end, [groups.side], options, options.form))
    columns.add(values)
    return columns.frame()


def agg(frame: Any, asked: Measures, options: Options) -> Any:
    groups = grouped(frame, asked, options)
    amounts = amounts_in(groups.side, asked)
    rows = replace(groups.side, columns=[groups.codes])
    start, end, group, *values = measures.measured(rows, amounts, asked, options.workers)
    return framed(groups, start, end, group, measures.columns_of(values, asked, amounts), options)


def gaps(frame: Any, options: Options) -> Any:
    """Returns the time when no row of a group holds: an anti-join of each group's whole time."""
    groups = grouped(frame, [], options)
    side, codes, span = groups.side, groups.codes.codes, groups.span
    # If no row is there, all of the span is a gap of the one group that there is without `by`.
    numbers = np.arange(len(groups.firsts) if span else min(len(groups.firsts), len(side)))
    if span is not None:
        start, end = (np.full(len(numbers), second, np.int64) for second in span)
    else:
        start = pd.Series(side.start).groupby(codes).min().to_numpy()
        end = pd.Series(side.end).groupby(codes).max().to_numpy()
    whole = Side(start, end, [Values(None, "int", numbers)], side.kind, places=numbers)
    start, end, group = split.anti([whole, replace(side, columns=[groups.codes])], options.workers)
    return framed(groups, start, end, group, [], options)


def held(frame: Any, options: Options, span_of: Callable[[Any, Form], Span]) -> Any:
    """Returns the rows that hold within the span of seconds that is returned for a time zone and the options' form."""
    is_spread = checks.are_spread(frame=frame)
    side = side_of(frame._meta if is_spread else frame, [], options)
    span = span_of(side.kind.zone, options.form)
    doubts.of_span(span, side, options)
    if is_spread:
        from ruzgalt.frames import partitions
        return partitions.parted(frame, held_part, span, options)
    doubts.of_frame(frame, side, [], options)
    return held_part(frame, span, options, side)


def held_part(frame: Any, span: Span, options: Options, side: Optional[Side] = None) -> Any:
    side = side_of(frame, [], options) if side is None else side
    return frame.iloc[np.flatnonzero((side.start < span[1]) & (span[0] < side.end))]


def side_of(frame: Any, asked: Measures, options: Options) -> Side:
    """Returns the rows with the columns of `by` and of the measures. Raises Refused."""
    names = [*(options.by or ()), *measures.amounts_of(asked)]
    side = sides.side_of(frame, names, options.period, options.form, options.decimals)
    measures.refuse_texts(asked, amounts_in(side, asked))
    for one in asked:
        if one.function == "count" and one.is_of_column:
            counted_column = column_of(frame, one.column)
            refuse(counted_column.isna().to_numpy(), counted_column, "BadNumber", no_value(one.column))
    return side


def amounts_in(side: Side, asked: Measures) -> Mapping[Any, Values]:
    """Returns the columns whose numbers are added up, which are the last ones of the side."""
    names = measures.amounts_of(asked)
    return dict(zip(names, side.columns[len(side.columns) - len(names):]))


def groups_at(frame: Any, names: Sequence[Any], rows: Ints) -> List[Column]:
    """Returns the cells of these rows in the columns of a group."""
    return [(name, column_of(with_labels_twice(frame), name).take(rows).reset_index(drop=True)) for name in names]


def index_at(frame: Any, names: Sequence[Any], rows: Ints) -> Any:
    """Returns an index of the groups of these rows."""
    columns = groups_at(frame, names, rows)
    if len(columns) == 1:
        return pd.Index(columns[0][1], name=columns[0][0])
    levels, codes = zip(*(level_of(cells) for _, cells in columns))
    return pd.MultiIndex(levels, codes, names=[name for name, _ in columns])


def level_of(cells: Any) -> Tuple[Any, Ints]:
    """Returns a level of an index, and the cells' positions in it. pandas would end texts at a zero byte."""
    if pd.api.types.infer_dtype(cells) == "string" and not isinstance(cells.dtype, pd.CategoricalDtype):
        found, places = np.unique(np.asarray(cells, object), return_inverse=True)
        return pd.Index(found, dtype=cells.dtype), places
    made = pd.MultiIndex.from_arrays([cells])
    return made.levels[0], made.codes[0]


def by_category(column: Values) -> Values:
    """Returns a category's values as numbers in the order of its categories, as groupby has them.

    Values that aren't categories come last: a store's change may have added some. Other columns stay as they are.
    """
    if not isinstance(column.dtype, pd.CategoricalDtype):
        return column
    cells: Any = column.texts.cells
    codes = column.codes
    if column.kind == "int":
        cells, codes = np.unique(codes, return_inverse=True)
    ranks = {cell: rank for rank, cell in enumerate(column.dtype.categories.tolist())}
    for cell in sorted(cells):
        ranks.setdefault(cell, len(ranks))
    return Values(None, "int", np.array([ranks[cell] for cell in cells], np.int64)[codes])


def group_codes(side: Side, count: int) -> Tuple[Values, Ints]:
    """Returns the rank of each row's group, by its first `count` values from the left, and each group's first row."""
    if not count:
        return Values(None, "int", np.zeros(len(side), np.int64)), np.zeros(1, np.int64)
    numbers, bound = sides.codes_of(([by_category(column)] for column in side.columns[:count]), sort=True)
    is_there = np.zeros(bound, bool)
    is_there[numbers] = True
    codes = (np.cumsum(is_there) - 1)[numbers]
    firsts = np.empty(int(is_there.sum()), np.int64)
    # Of several rows that are assigned to one group the last one stays.
    firsts[codes[::-1]] = np.arange(len(side))[::-1]
    return Values(None, "int", codes), firsts
