"""Frames of Dask: rows are sent to partitions by their values, and each partition is answered as a frame of pandas.

The partition of a value depends on values.hashes. Dask's own hash of -1 differs between int32 and int64, so equal rows
would be in different partitions. A row is sent by set_index, with the partition's number as its division.
"""
from __future__ import annotations

import inspect
from contextlib import contextmanager
from dataclasses import replace
from typing import Any, Callable, Dict, Iterator, List, Mapping, Sequence

import dask
import dask.dataframe as dd
import numpy as np
import pandas as pd

from ruzgalt.convert import values
from ruzgalt.convert.errors import Refused
from ruzgalt.convert.named import column_of, names_of, with_levels
from ruzgalt.frames import doubts, groups, measures, split
from ruzgalt.frames.answer import with_labels_twice
from ruzgalt.frames.measures import Ask, Measures
from ruzgalt.frames.options import Options
from ruzgalt.frames.sides import Period
from ruzgalt.frames.split import Found
from ruzgalt.frames.worker import sent

# Columns that are added while rows are sent, and one that Dask itself adds.
PART, LABEL, OF_DASK = "_ruzgalt_part", "_ruzgalt_label", "_partitions"
# The way to send rows that takes all dtypes and is in all versions. Its option had another name before 2024.
WORDS = inspect.signature(dd.DataFrame.shuffle).parameters
HOW = {"shuffle_method" if "shuffle_method" in WORDS else "shuffle": "tasks"}
# Partitions whose answers are combined at once.
COMBINED = 16
INTERVALS = "Dask can't send intervals: give two columns, their .array.left and .array.right"
OBJECTS = "objects: a partition doesn't know the kind of the others; .astype('datetime64[s]') makes one kind of all"
Answers = Dict[Ask, Found]


@contextmanager
def keeping_objects(*metas: Any) -> Iterator[None]:
    """Makes Dask keep columns of objects while a graph of frames with these columns is made.

    If pyarrow is installed, Dask without its query planner converts objects to texts in each frame that it makes. Only
    a setting of all threads prevents it, so it is set only if a frame has such columns.
    """
    if all(map(is_kept, metas)):
        yield
        return
    with dask.config.set({"dataframe.convert-string": False}):
        yield


def is_kept(meta: Any) -> bool:
    """Returns whether Dask doesn't change the dtypes of an empty frame."""
    made = as_one(meta)._meta
    return bool(made.dtypes.equals(meta.dtypes) and made.index.dtype == meta.index.dtype)


def as_one(frame: Any) -> Any:
    """Returns a frame of one partition. By from_pandas it may have other dtypes."""
    return dd.from_delayed([dask.delayed(frame)], meta=frame.iloc[:0], verify_meta=False)


def paired(asked: Callable[..., Any], left: Any, right: Any, options: Options) -> Any:
    """Returns the answers of two frames' partitions. One of the frames may be of pandas."""
    options, names = replace(options, is_part=True), options.keys
    if not names[0]:
        raise Refused("BadCommand", "frames of Dask need on=: without it, each row may meet each")
    # Dask doesn't know labels of several levels, which become tuples.
    spread = [frame if isinstance(frame, dd.DataFrame) else
              with_labels_twice(frame).set_axis(frame.index.to_flat_index()) for frame in (left, right)]
    metas = [frame._meta if isinstance(frame, dd.DataFrame) else frame.iloc[:0] for frame in spread]
    for meta, period in zip(metas, options.periods):
        refuse_unsent(meta, period)
    doubts.of_decimals(options.decimals, *map(with_levels, metas, names))
    meta = asked(*metas, options)
    with keeping_objects(meta, *metas):
        frames = [frame if isinstance(frame, dd.DataFrame) else as_one(frame) for frame in spread]
        parts = max(frame.npartitions for frame in frames)
        rows = [by_value(frame, own, options.decimals, parts) for frame, own in zip(frames, names)]
        words = {"meta": meta, "align_dataframes": False, "transform_divisions": False}
        return dd.map_partitions(sent(asked, options), *rows, **words)


def refuse_unsent(meta: Any, period: Period) -> None:
    """Raises Refused for columns that Dask can't send without loss."""
    for name, dtype in zip([*names_of(meta), meta.index.name], [*meta.dtypes, meta.index.dtype]):
        if isinstance(dtype, pd.IntervalDtype):
            raise Refused("WrongKind", INTERVALS, name)
    for name in period:
        if column_of(meta, name).dtype == object:
            raise Refused("WrongKind", OBJECTS, name)


def parted(frame: Any, asked: Callable[..., Any], span: Any, options: Options) -> Any:
    """Returns some of the rows of each partition."""
    refuse_unsent(frame._meta, options.period)
    with keeping_objects(frame._meta):
        return frame.map_partitions(sent(asked, span, options), meta=frame._meta)


def grouped(asked: Callable[..., Any], frame: Any, given: Sequence[Any], options: Options) -> Any:
    """Returns the answers of a frame's partitions. Each has all rows of its groups."""
    refuse_unsent(frame._meta, options.period)
    # Warns of possible mistakes in the options.
    groups.grouped(frame._meta, [], options)
    by, options = options.by or (), replace(options, is_part=True)
    if not by and asked is not groups.agg:
        raise Refused("BadCommand", "a frame of Dask needs by=: without it, all rows belong together")
    meta = asked(frame._meta, *given, options)
    with keeping_objects(meta, frame._meta):
        if not by:
            return dd.from_delayed([agg_of_all(frame, given[0], options)], meta=meta, verify_meta=False)
        rows = by_value(frame, by, options.decimals, frame.npartitions)
        return rows.map_partitions(sent(asked, *given, options), meta=meta, transform_divisions=False)


def agg_of_all(frame: Any, asked: Measures, options: Options) -> Any:
    """Returns an aggregate of all rows as one task: the answers of partitions are rows of another aggregate."""
    found = [delayed(answers_of, asked, options)(part) for part in frame.to_delayed()]
    while len(found) > 1:
        lots = [found[first:first + COMBINED] for first in range(0, len(found), COMBINED)]
        found = [delayed(combined, options.workers)(lot) for lot in lots]
    return delayed(framed, asked, options, frame._meta)(found[0])


def delayed(function: Callable[..., Any], *given: Any) -> Any:
    return dask.delayed(sent(function, *given))


def answers_of(frame: Any, asked: Measures, options: Options) -> Answers:
    rows = groups.grouped(frame, asked, options)
    numbered = replace(rows.side, columns=[rows.codes])
    return measures.answers(numbered, groups.amounts_in(rows.side, asked), asked, options.workers)


def combined(found: Sequence[Answers], workers: int) -> Answers:
    """Returns the answers of all rows, from the answers of some rows each. Counts are added."""
    rows = {ask: split.side_of(split.all_of([one[ask] for one in found])) for ask in found[0]}
    return {ask: split.agg(side, "sum" if ask[0] == "count" else ask[0], workers) for ask, side in rows.items()}


def framed(found: Answers, asked: Measures, options: Options, meta: Any) -> Any:
    rows = groups.grouped(meta, asked, options)
    start, end, group, *cells = measures.together(found, asked)
    values = measures.columns_of(cells, asked, groups.amounts_in(rows.side, asked))
    return groups.framed(rows, start, end, group, values, options)


def by_value(frame: Any, names: Sequence[Any], decimals: Mapping[Any, int], parts: int) -> Any:
    """Returns the rows, with all rows of equal values in one partition."""
    meta = frame._meta
    for name in (PART, LABEL, OF_DASK):
        if name in names_of(frame):
            raise Refused("BadName", "Dask can't take a column of this name: .rename(columns=..) it", name)
    labelled = with_label_column(meta)
    tagged = frame.map_partitions(
        sent(with_part, list(names), dict(decimals), parts), meta=labelled.assign(**{PART: np.empty(0, np.int64)}),
    )
    placed = tagged.set_index(PART, divisions=[*range(parts), parts - 1], **HOW)
    # The divisions were the partitions' numbers.
    return placed.map_partitions(sent(with_labels, labelled), meta=meta).clear_divisions()


def with_part(frame: Any, names: List[Any], decimals: Mapping[Any, int], parts: int) -> Any:
    keyed = with_levels(frame, names)
    hashed = values.hashes([values.values_of(column_of(keyed, name), decimals.get(name)) for name in names])
    made = with_label_column(with_labels_twice(frame))
    made[PART] = (hashed % np.uint64(parts)).astype(np.int64)
    return made


def with_label_column(frame: Any) -> Any:
    """Returns the frame with its labels as a column, in their dtype, and with numbers as labels."""
    made = frame.copy(deep=False)
    made.index = pd.RangeIndex(len(frame), name=frame.index.name)
    made[LABEL] = pd.Series(frame.index, made.index, dtype=frame.index.dtype)
    return made


def with_labels(frame: Any, labelled: Any) -> Any:
    """Returns the frame with the labels that are in a column, as this empty one has them."""
    labels, made = frame[LABEL], frame.drop(columns=[LABEL])
    made.index = pd.Index(labels.array, labels.dtype, name=labelled.index.name, tupleize_cols=False)
    return made
