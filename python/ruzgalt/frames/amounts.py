"""The amounts of groups in each piece of the calendar: spread.

Numbers are int64 if all of them provably fit, and Python's otherwise.
"""
from __future__ import annotations

from dataclasses import replace
from fractions import Fraction
from math import lcm
from typing import Any, NamedTuple, Optional, Tuple

import numpy as np

from ruzgalt import periods as pieces
from ruzgalt.convert import instants, points
from ruzgalt.convert.arrays import Cells, Ints, narrowed, of_objects
from ruzgalt.convert.errors import Refused, label_at
from ruzgalt.convert.instants import Span
from ruzgalt.convert.kinds import DAY, begins_of, has_time, walls_of
from ruzgalt.convert.values import GREATEST, Values
from ruzgalt.frames import groups, split
from ruzgalt.frames.measures import Measure
from ruzgalt.frames.options import AMOUNTS, IN_TOTAL, PIECES, Options
from ruzgalt.frames.sides import Side
from ruzgalt.frames.split import Found
from ruzgalt.periods import Calendar

# Pieces are of seconds from the year 1 on.
OFFSET = -points.FIRST
# An end from then on means that no end is known.
NO_END = instants.second_of("9999-01-01")


class Shares(NamedTuple):
    """A row for each piece that a row of a group touches, by group and start; value is the amount in it."""

    start: Ints
    end: Ints
    group: Ints
    value: Cells


def spread(frame: Any, column: Any, options: Options) -> Any:
    whole = groups.grouped(frame, [Measure("sum", column)], options)
    amount, zone = whole.side.columns[-1], whole.side.kind.zone
    side = replace(whole.side, columns=[whole.codes, amount])
    sums = sums_of(side, counted(side, whole.span, options), options)
    start, end = (begins_of(walls, zone) for walls in (sums.start, sums.end))
    values = [(amount.name, restored(sums.value, amount, options.exact))]
    return groups.framed(whole, start, end, sums.group, values, options)


def sums_of(side: Side, rows: Side, options: Options) -> Shares:
    """Returns the sums of the rows that count. Raises Refused if one in total has no end."""
    each = pieces.calendar(PIECES[options.each])
    if options.amount != IN_TOTAL:
        found = split.agg(rows, "sum", options.workers)
        return per_piece(found, each, pieces.calendar(AMOUNTS[options.amount]), options.exact)
    whole = side.take(rows.places)
    refuse_endless(whole, "no end is known, up to which the amount is divided; give one, or drop the row", options)
    whole, (group, amount) = shown(whole, options), rows.columns
    rows_of_groups = rows.start, rows.end, group.codes, amount.codes
    return in_total(rows_of_groups, whole.start, whole.end, each, options.exact)


def counted(side: Side, span: Optional[Span], options: Options) -> Side:
    """Returns the rows in the time that counts, as clocks show it. Raises Refused if a row's end isn't known."""
    rows = side if span is None else side.clipped(*span)
    refuse_endless(rows, "no end is known; give within=(START, END), up to whose end it counts", options)
    return shown(rows, options)


def refuse_endless(side: Side, reason: str, options: Options) -> None:
    is_endless = side.end >= NO_END
    if is_endless.any():
        raise Refused("BadPoint", reason, options.period[-1], label_at(is_endless, side.labels[side.places]))


def shown(side: Side, options: Options) -> Side:
    """Returns the rows with the days of their zone, each from midnight on, even if clocks begin it at one.

    Raises Refused for times, since clocks may show an hour twice.
    """
    zone = side.kind.zone
    if zone is None:
        return side
    for name, seconds in zip((options.period[0], options.period[-1]), (side.start, side.end)):
        is_time = has_time(seconds, zone)
        if is_time.any():
            reason = f"in {zone} days have 23 to 25 hours, so points must be days; .dt.floor('D') drops the time"
            raise Refused("BadPoint", reason, name, label_at(is_time, side.labels[side.places]))
    walls = [walls_of(seconds, zone) for seconds in (side.start, side.end)]
    return side.during(*(one - one % DAY for one in walls))


def restored(sums: Cells, amount: Values, is_exact: bool) -> Any:
    """Returns exact sums as Fractions, others as agg does: in the column's dtype if it has decimals."""
    if is_exact:
        return of_objects([one / 10 ** (amount.digits or 0) for one in sums])
    return sums if amount.digits is None else amount.restored(sums)


def per_piece(found: Found, each: Calendar, per: Calendar, is_exact: bool) -> Shares:
    """Of sums by group and start, whose rows don't overlap within a group, and are amounts for each piece of `per`.

    The whole numbers of a group add up to its exact sum, rounded once, half up; exact ones are Fractions.
    """
    start, end, group, value = found
    edges, whole, unit = edges_of(start, end, each), edges_of(start, end, per), unit_of(start, end)
    cuts = np.union1d(edges, whole)
    rows, cut = touched(start, end, cuts)
    held = (np.minimum(end[rows], cuts[cut + 1]) - np.maximum(start[rows], cuts[cut])) // unit
    below = (np.diff(whole) // unit)[place_in(whole, cuts[cut])]
    common = lcm(*np.unique(below).tolist())
    # At most this number of pieces of `per` touch one of `each`.
    many = int(np.diff(edges).max(initial=0)) // int(np.diff(whole).min(initial=GREATEST)) + 2
    value = lengthened(value, many * max(common, len(edges)))
    sums = summed(edges, group[rows], place_in(edges, cuts[cut]), value[rows] * held * (common // below))
    if is_exact:
        return sums._replace(value=of_objects([Fraction(one, common) for one in sums.value.tolist()]))
    return sums._replace(value=narrowed(wholes(sums, common)))


def in_total(found: Found, begin: Ints, finish: Ints, each: Calendar, is_exact: bool) -> Shares:
    """Of rows that may be cut, with their group's rank, and amounts for all of their time from begin to finish.

    Up to an instant a row has the part of its amount by time, rounded half up. So its pieces add up to its amount.
    """
    start, end, group, value = found
    edges, unit = edges_of(start, end, each), unit_of(start, end, begin, finish)
    rows, piece = touched(start, end, edges)
    first = (np.maximum(start[rows], edges[piece]) - begin[rows]) // unit
    last = (np.minimum(end[rows], edges[piece + 1]) - begin[rows]) // unit
    length = (finish - begin)[rows] // unit
    value = lengthened(value, max(2 * int(length.max(initial=0)), len(rows)))[rows]
    if is_exact:
        fractions = zip((value * (last - first)).tolist(), length.tolist())
        parts = of_objects([Fraction(above, below) for above, below in fractions])
    else:
        parts = rounded(value * last, length) - rounded(value * first, length)
    order = np.lexsort((piece, group[rows]))
    sums = summed(edges, group[rows][order], piece[order], parts[order])
    return sums if is_exact else sums._replace(value=narrowed(sums.value))


def edges_of(start: Ints, end: Ints, calendar: Calendar) -> Ints:
    """Where pieces start, from the one with the first start on, and where the one with the last end ends."""
    if not len(start):
        return np.zeros(1, np.int64)
    first, last = (calendar.number_of(int(second) + OFFSET) for second in (start.min(), end.max() - 1))
    return np.array([calendar.start_of(number) - OFFSET for number in range(first, last + 2)], np.int64)


def unit_of(*seconds: Ints) -> int:
    """The longest time that divides a day and all of these: a day if no point has a time."""
    return int(np.gcd.reduce(np.concatenate(seconds), initial=DAY))


def touched(start: Ints, end: Ints, edges: Ints) -> Tuple[Ints, Ints]:
    """A row's and a piece's index for each piece that a row touches."""
    first = place_in(edges, start)
    count = np.searchsorted(edges, end) - first
    rows = np.repeat(np.arange(len(start)), count)
    return rows, np.arange(len(rows)) + np.repeat(first + count - np.cumsum(count), count)


def place_in(edges: Ints, seconds: Ints) -> Ints:
    """The index of the piece that has each second."""
    found: Ints = np.searchsorted(edges, seconds, "right") - 1
    return found


def lengthened(value: Cells, factor: int) -> Cells:
    """The numbers, as Python's if they may need more than 64 bits after a multiplication by the factor."""
    most = max(abs(int(value.min(initial=0))), abs(int(value.max(initial=0))))
    return value.astype(object) if (most + 1) * factor > GREATEST else value.astype(np.int64)


def summed(edges: Ints, group: Ints, piece: Ints, value: Cells) -> Shares:
    """The sums of rows with the same group and piece, which are next to each other."""
    firsts = np.flatnonzero((np.diff(piece, prepend=-1) != 0) | (np.diff(group, prepend=-1) != 0))
    sums = np.add.reduceat(value, firsts) if len(firsts) else value
    return Shares(edges[piece[firsts]], edges[piece[firsts] + 1], group[firsts], sums)


def rounded(above: Cells, below: Ints) -> Cells:
    """Fractions as the nearest whole numbers, a half away from zero."""
    whole = (2 * np.abs(above) + below) // (2 * below)
    return np.where(np.asarray(above < 0, bool), -whole, whole)


def wholes(sums: Shares, below: int) -> Cells:
    """Each is the next lesser whole number, or one more if its remainder is among the largest ones of its group."""
    if not len(sums.group):
        return sums.value
    whole, rest = sums.value // below, (sums.value % below).astype(np.int64)
    firsts = np.flatnonzero(np.diff(sums.group, prepend=-1))
    count = np.diff(firsts, append=len(rest))
    missing = missing_of(np.add.reduceat(whole, firsts), np.add.reduceat(rest, firsts), below)
    # The sort keeps the order of equal remainders, so the first piece comes first.
    order = np.lexsort((-rest, sums.group))
    rank = np.empty(len(rest), np.int64)
    rank[order] = np.arange(len(rest)) - np.repeat(firsts, count)
    return whole + (rank < np.repeat(missing, count))


def missing_of(whole: Cells, rests: Ints, below: int) -> Ints:
    """How much groups' sums, rounded half up, are more than the sums of their whole numbers."""
    more, rest = np.divmod(rests, below)
    is_below = np.asarray(whole + more < 0, bool)
    # A half counts away from zero.
    found: Ints = more + np.where(is_below, 2 * rest > below, 2 * rest >= below)
    return found
