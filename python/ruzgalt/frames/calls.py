"""The calls: of frames of pandas, or of Dask."""
# Answers have the types of frames, which no module below knows.
# mypy: disable-error-code="no-any-return"
from __future__ import annotations

from typing import TYPE_CHECKING, Any, Callable, Mapping, Optional, TypeVar, Union

import pandas as pd

from ruzgalt.convert import checks, instants
from ruzgalt.convert.errors import Refused
from ruzgalt.frames import amounts, division, groups, measures, pairs
from ruzgalt.frames.division import Checked, Division
from ruzgalt.frames.options import (
    INNER, MONTH, NO_DECIMALS, PERIOD, SUFFIXES, WORKERS, Functions, Names, OneSided, Options, PairOfSuffixes,
    PeriodNames, documented, options_in,
)
from ruzgalt.frames.progress import of_call

if TYPE_CHECKING:
    import dask.dataframe as dd

Frame = TypeVar("Frame", bound="Union[pd.DataFrame, dd.DataFrame]")
Right = TypeVar("Right", bound="Union[pd.DataFrame, dd.DataFrame]")


@documented
def join(left: Frame, right: Right, on: Names = None, *, left_on: Names = None, right_on: Names = None,
         how: str = INNER, period: PeriodNames = PERIOD, left_period: Optional[PeriodNames] = None,
         right_period: Optional[PeriodNames] = None, keep_periods: bool = False, open_end: OneSided = False,
         last_day: OneSided = False, decimals: Mapping[Any, int] = NO_DECIMALS, suffixes: PairOfSuffixes = SUFFIXES,
         workers: int = WORKERS, progress: Optional[bool] = None) -> Union[Frame, Right]:
    """Returns the pairs of a left and a right row with equal values in `on`, each for the time when both hold.

    Returns DataFrame: The period as in the left frame, then the left and the right frame's other columns; compared
    columns of one name once. Missing cells change dtypes as in pandas.merge; points of two kinds become period[S] or
    the coarser kind. Rows are by start, end, left and right position, unmatched ones last.

    >>> ruzgalt.join(pay, contract, on="person", open_end=True)
            from         to person  cents centre
    0 2024-02-01 2024-07-01    Ada   5000  press
    1 2024-07-01 2024-09-01    Ada   5400  press
    >>> ruzgalt.join(pay, contract, on="person", how="left", open_end=True)
            from         to person  cents centre
    0 2024-01-01 2024-02-01    Ada   5000    NaN
    1 2024-02-01 2024-07-01    Ada   5000  press
    2 2024-03-01 2024-10-01  Grace   4800    NaN
    3 2024-07-01 2024-09-01    Ada   5400  press
    4 2024-09-01        NaT    Ada   5400    NaN
    """
    return paired(pairs.join, left, right, options_in("join", locals()))


@documented
def anti(left: Frame, right: Right, on: Names = None, *, left_on: Names = None, right_on: Names = None,
         period: PeriodNames = PERIOD, left_period: Optional[PeriodNames] = None,
         right_period: Optional[PeriodNames] = None, open_end: OneSided = False, last_day: OneSided = False,
         decimals: Mapping[Any, int] = NO_DECIMALS, workers: int = WORKERS,
         progress: Optional[bool] = None) -> Union[Frame, Right]:
    """Returns the left rows, each for the time when no right row with equal values in `on` holds.

    Returns DataFrame: The left frame's columns, dtypes and labels, by left position and start. A row may come several
    times, or not at all.

    >>> ruzgalt.anti(pay, contract, on="person", open_end=True)
            from         to person  cents
    0 2024-01-01 2024-02-01    Ada   5000
    1 2024-09-01        NaT    Ada   5400
    2 2024-03-01 2024-10-01  Grace   4800
    """
    return paired(pairs.anti, left, right, options_in("anti", locals()))


@documented
def agg(frame: Frame, function: Functions, column: Any = None, *, by: Names = None, period: PeriodNames = PERIOD,
        open_end: bool = False, last_day: bool = False, decimals: Mapping[Any, int] = NO_DECIMALS,
        workers: int = WORKERS, progress: Optional[bool] = None) -> Frame:
    """Returns count, sum, min, max or mean of the rows that hold, for each period while it stays the same.

    Returns DataFrame: The columns of `by`, the period, and the values, named count or FUNCTION_COLUMN: means are
    floats, counts and sums of whole numbers int64, or Python's ints past 64 bits; others have the column's dtype. By
    group and start.

    >>> ruzgalt.agg(pay, "sum", "cents", open_end=True)
            from         to  sum_cents
    0 2024-01-01 2024-03-01       5000
    1 2024-03-01 2024-07-01       9800
    2 2024-07-01 2024-10-01      10200
    3 2024-10-01        NaT       5400
    >>> ruzgalt.agg(pay, {"person": "count", "cents": ["max", "mean"]}, open_end=True)
            from         to  count_person  max_cents  mean_cents
    0 2024-01-01 2024-03-01             1       5000      5000.0
    1 2024-03-01 2024-07-01             2       5000      4900.0
    2 2024-07-01 2024-10-01             2       5400      5100.0
    3 2024-10-01        NaT             1       5400      5400.0
    """
    options = options_in("agg", locals())
    return grouped(groups.agg, frame, options, measures.of_call(function, column))


@documented
def dip(frame: pd.DataFrame, by: Names = None, *, period: PeriodNames = PERIOD, open_end: bool = False,
        last_day: bool = False, decimals: Mapping[Any, int] = NO_DECIMALS,
        workers: int = WORKERS, progress: Optional[bool] = None) -> Division[pd.Series]:
    """Divides the rows into the fewest parts so that no two rows of a part hold at one time.

    Returns Division: All rows divided, or with `by` each group.

    >>> division = ruzgalt.dip(stay)
    >>> division
    2 parts of 3 rows, as many as hold at 2024-01-03 00:00:00
    >>> division.parts.tolist(), division.count, division.instant
    ([0, 1, 0], 2, Timestamp('2024-01-03 00:00:00'))
    >>> ruzgalt.dip(stay, by="bed").count.to_dict()
    {7: 2, 8: 1}
    """
    options = options_in("dip", locals())
    if checks.are_spread(frame=frame):
        raise Refused("BadCommand", f"dip can't be called with a frame of Dask; {division.OTHERWISE}")
    with of_call(options.call, options.progress):
        return division.dip(frame, options)


@documented
def check(frame: pd.DataFrame, part: Names, *, period: PeriodNames = PERIOD, open_end: bool = False,
          last_day: bool = False) -> Checked:
    """Returns whether no two rows of a part overlap.

    Returns Checked: True, or false with two rows of a part that overlap.

    >>> ruzgalt.check(stay, part="bed")
    No: rows 0 and 1 of part 7 both hold from 2024-01-03 to 2024-01-05.
    >>> ruzgalt.check(stay.assign(bed=[7, 8, 9]), part="bed")
    Yes: no two rows of a part hold at one time. The rows have 3 parts, and 2 are enough.
    """
    options = options_in("check", {**locals(), "by": part})
    if checks.are_spread(frame=frame):
        raise Refused("BadCommand", "check can't be called with a frame of Dask; overlaps(frame, by=PART) can")
    return division.check(frame, options)


@documented
def at(frame: Frame, point: Any, *, period: PeriodNames = PERIOD, open_end: bool = False,
       last_day: bool = False) -> Frame:
    """Returns the rows that hold at a point. Points without a time zone are in the frame's.

    Returns DataFrame: These rows, unchanged, in their order.

    >>> ruzgalt.at(pay, "2024-07-01", open_end=True)
            from         to person  cents
    1 2024-07-01        NaT    Ada   5400
    2 2024-03-01 2024-10-01  Grace   4800
    """
    return groups.held(frame, options_in("at", locals()), lambda zone, _: instants.one_second(point, zone))


@documented
def during(frame: Frame, start: Any, end: Any, *, period: PeriodNames = PERIOD, open_end: bool = False,
           last_day: bool = False) -> Frame:
    """Returns the rows that hold at some point of a time. Points without a time zone are in the frame's.

    Returns DataFrame: These rows, unchanged, in their order.

    >>> ruzgalt.during(pay, "2024-10-01", None, open_end=True)
            from  to person  cents
    1 2024-07-01 NaT    Ada   5400
    """
    options = options_in("during", locals())
    return groups.held(frame, options, lambda zone, form: instants.span(start, end, form, zone))


@documented
def coalesce(frame: Frame, by: Names = None, *, period: PeriodNames = PERIOD, open_end: bool = False,
             last_day: bool = False, decimals: Mapping[Any, int] = NO_DECIMALS, workers: int = WORKERS,
             progress: Optional[bool] = None) -> Frame:
    """Returns the longest periods when some row of a group holds.

    Returns DataFrame: The columns of `by` and the period, by group and start.

    >>> ruzgalt.coalesce(pay, "person", open_end=True)
      person       from         to
    0    Ada 2024-01-01        NaT
    1  Grace 2024-03-01 2024-10-01
    """
    return grouped(groups.agg, frame, options_in("coalesce", locals()), [measures.HELD])


@documented
def gaps(frame: Frame, by: Names = None, *, within: Any = None, period: PeriodNames = PERIOD, open_end: bool = False,
         last_day: bool = False, decimals: Mapping[Any, int] = NO_DECIMALS, workers: int = WORKERS,
         progress: Optional[bool] = None) -> Frame:
    """Returns the longest periods when no row of a group holds.

    Gaps are within `within`, by default between a group's first start and last end. Categories without a row
    aren't groups.

    Returns DataFrame: The columns of `by` and the period, by group and start.

    >>> ruzgalt.gaps(pay, "person", within=("2024-01-01", "2025-01-01"), open_end=True)
      person       from         to
    0  Grace 2024-01-01 2024-03-01
    1  Grace 2024-10-01 2025-01-01
    """
    return grouped(groups.gaps, frame, options_in("gaps", locals()))


@documented
def overlaps(frame: Frame, by: Names = None, *, keep_periods: bool = False, period: PeriodNames = PERIOD,
             open_end: bool = False, last_day: bool = False, decimals: Mapping[Any, int] = NO_DECIMALS,
             suffixes: PairOfSuffixes = SUFFIXES, workers: int = WORKERS, progress: Optional[bool] = None) -> Frame:
    """Returns the pairs of different rows of a group, each for the time when both hold.

    Returns DataFrame: As a join with itself on `by`, each pair once: the left row is the earlier one in the frame.

    >>> ruzgalt.overlaps(stay, "bed")
            from         to  bed who_left who_right
    0 2024-01-03 2024-01-05    7      Ada     Grace
    """
    return grouped(pairs.overlaps, frame, options_in("overlaps", locals()))


@documented
def spread(frame: Frame, column: Any, *, amount: Optional[str] = None, each: str = MONTH, by: Names = None,
           within: Any = None, exact: bool = False, period: PeriodNames = PERIOD, open_end: bool = False,
           last_day: bool = False, decimals: Mapping[Any, int] = NO_DECIMALS, workers: int = WORKERS,
           progress: Optional[bool] = None) -> Frame:
    """Returns the amounts of a group's rows in each month, quarter, year, week or day.

    An amount "per month" counts in each whole month. Part of a month has its part by days, or by seconds if a point has
    a time of day. A group's whole numbers add up to its exact sum, rounded half up: the largest remainders are rounded
    up, the first of equal ones.

    An amount "in total" is divided over a row's own period. The pieces up to any point add up to their part of it,
    rounded half up.

    Rows without an end need `within`.

    Returns DataFrame: The columns of `by`, each piece that a row of the group touches, and its sum, named as the
    column, in the dtype of agg's sum; by group and start. Periods longer than days become period[D].

    >>> ruzgalt.spread(pay, "cents", amount="per month", each="Q", within=("2024-01-01", "2024-10-01"), open_end=True)
            from         to  cents
    0 2024-01-01 2024-04-01  19800
    1 2024-04-01 2024-07-01  29400
    2 2024-07-01 2024-10-01  30600
    >>> premium = pd.DataFrame({"from": day(["2024-01-15"]), "to": day(["2025-01-15"]), "euros": 1200})
    >>> ruzgalt.spread(premium, "euros", amount="in total", each="Y")
            from         to  euros
    0 2024-01-01 2025-01-01   1154
    1 2025-01-01 2026-01-01     46
    """
    options = options_in("spread", locals())
    return grouped(amounts.spread, frame, options, checks.name("column", column))


def paired(asked: Callable[..., Any], left: Any, right: Any, options: Options) -> Any:
    """Returns the answer of two frames. One may be of Dask."""
    if checks.are_spread(left=left, right=right):
        from ruzgalt.frames import partitions
        return partitions.paired(asked, left, right, options)
    with of_call(options.call, options.progress):
        return asked(left, right, options)


def grouped(asked: Callable[..., Any], frame: Any, options: Options, *given: Any) -> Any:
    """Returns the answer of one frame, which may be of Dask."""
    if checks.are_spread(frame=frame):
        from ruzgalt.frames import partitions
        return partitions.grouped(asked, frame, given, options)
    with of_call(options.call, options.progress):
        return asked(frame, *given, options)
