"""Calls of the library over rows. If there are too many rows for a call, they are split, and the answers combined.

Rows of different values never meet, so whole values go into parts. A value with too many rows for a call is cut by
time: rows are clipped at the cut, each half is answered, and periods that go on over the cut are joined. If too many
rows hold at one time for that, rows go into blocks. A join pairs each block of left rows with each block of right ones.
In an anti-join each block of right rows leaves less of the left ones. The answers of an aggregate's blocks are the rows
of another one.
"""
from __future__ import annotations

from typing import Any, Callable, Iterator, List, Sequence, Tuple

import numpy as np

from ruzgalt.convert.arrays import NO_INTS, Cells, Ints
from ruzgalt.convert.errors import Refused
from ruzgalt.convert.values import Values
from ruzgalt.errors import Stopped
from ruzgalt.frames import worker
from ruzgalt.frames.sides import Side, together
from ruzgalt.kernel import library, threads
from ruzgalt.kernel.library import Rows

# A call takes that many rows of a side; less in tests.
ROWS = library.ROWS
# A cut by time pays if at most one row of four holds on both sides of it.
HELD = 4
# The columns of an answer: start, end, and what its rows differ in.
Found = Tuple[Cells, ...]
Sides = Sequence[Side]
Asked = Callable[[Sides], Found]


def answer(asked: Callable[..., Any], *given: Any) -> Any:
    """Calls a function of the library. Raises Stopped, which names the worker of Dask that called it."""
    try:
        return asked(*given)
    except Stopped as ended:
        place = worker.place()
        raise type(ended)(f"{ended};{place}" if place else str(ended)) from None


def rows_of(side: Side) -> Rows:
    """Returns the rows with the codes of their only column as classes. Without a column they have one class."""
    classes = side.columns[0].codes if side.columns else np.zeros(len(side), np.int64)
    return Rows(classes, side.start, side.end)


def pairs_of(sides: Sides, workers: int) -> Found:
    """Returns start, end, index of the left row and index of the right row of a join, in this order, by one call."""
    left, right = sides
    if not len(left) or not len(right):
        return (NO_INTS,) * 4
    one, other, start, end = answer(threads.join, *map(rows_of, sides), workers)
    return start, end, left.places[one], right.places[other]


def rest_of(sides: Sides, workers: int) -> Side:
    """Returns the rest of the left rows of an anti-join, by index and start, by one call."""
    left, right = sides
    if not len(left) or not len(right):
        return left
    index, start, end = answer(threads.anti, *map(rows_of, sides), workers)
    return left.take(index).during(start, end)


def found_of(side: Side) -> Found:
    return side.start, side.end, side.places


def steps_of(side: Side, function: str, workers: int) -> Found:
    """Returns start, end, group and value of an aggregate, by one call.

    The side has a column of groups and, except for `count`, one of amounts.
    """
    group, start, end, value = answer(threads.agg, rows_of(side), side.columns[-1].codes, function, workers)
    return start, end, group, value


def fits(sides: Sides) -> bool:
    return max(map(len, sides)) <= ROWS


def by_value(sides: Sides) -> Iterator[Sides]:
    """Yields parts of whole classes, each with at most ROWS rows of a side, or of a single class that has more."""
    if not sides[0].columns:
        yield sides
        return
    for lot in threads.lots_of([side.columns[0].codes for side in sides], 1, ROWS):
        yield [side.take(rows) for side, rows in zip(sides, lot)]


def over_time(sides: Sides, asked: Asked, otherwise: Asked) -> Found:
    """Returns the answer of rows that may be too many for a call, by `otherwise` if a cut parts too few of them."""
    if fits(sides) or not all(map(len, sides)):
        return asked(sides)
    seconds = np.concatenate([times for side in sides for times in (side.start, side.end)])
    cut = int(np.partition(seconds, len(seconds) // 2)[len(seconds) // 2])
    before, after = [side.clipped(None, cut) for side in sides], [side.clipped(cut, None) for side in sides]
    counts = [sum(map(len, one)) for one in (sides, before, after)]
    if counts[1] + counts[2] > counts[0] + counts[0] // HELD or max(counts[1:]) == counts[0]:
        return otherwise(sides)
    first, second = (over_time(half, asked, otherwise) for half in (before, after))
    return closed_up(first, second, cut)


def closed_up(before: Found, after: Found, cut: int) -> Found:
    """Returns both answers, with one row for two that meet at the cut and have equal columns after start and end."""
    ending, starting = np.flatnonzero(before[1] == cut), np.flatnonzero(after[0] == cut)
    pairs = matches([column[ending] for column in before[2:]], [column[starting] for column in after[2:]])
    first, second = ending[pairs[0]], starting[pairs[1]]
    end = before[1].copy()
    end[first] = after[1][second]
    is_left = np.ones(len(after[0]), bool)
    is_left[second] = False
    return tuple(np.concatenate([one, other[is_left]]) for one, other in zip((before[0], end, *before[2:]), after))


def matches(left: List[Cells], right: List[Cells]) -> Tuple[Ints, Ints]:
    """Returns the indices of equal rows; a side has each row once. By Python's numbers, since sums may be long."""
    rows = [list(zip(*(column.tolist() for column in columns))) for columns in (left, right)]
    places = {row: place for place, row in enumerate(rows[0])}
    found = [(places[row], place) for place, row in enumerate(rows[1]) if row in places]
    return np.array([one for one, _ in found], np.int64), np.array([other for _, other in found], np.int64)


def all_of(found: List[Found]) -> Found:
    return tuple(map(np.concatenate, zip(*found)))


def join(sides: Sides, workers: int) -> Found:
    """Returns start, end, index of the left row and index of the right row, in this order. The sides have key codes."""
    def asked(part: Sides) -> Found:
        return pairs_of(part, workers)

    def by_blocks(part: Sides) -> Found:
        return all_of([asked([left, right]) for left in part[0].blocks(ROWS) for right in part[1].blocks(ROWS)])

    if fits(sides):
        return asked(sides)
    return by_period(all_of([over_time(part, asked, by_blocks) for part in by_value(sides)]))


def by_period(found: Found) -> Found:
    """Orders answers of joins by start, end and left row. Rows that are equal in these keep their order."""
    return tuple(threads.in_order(found, threads.by_period(*found[:3])))


def anti(sides: Sides, workers: int) -> Found:
    """Returns start, end and index of the rest of the left rows, by index and start. The sides have key codes."""
    def asked(part: Sides) -> Found:
        return found_of(rest_of(part, workers))

    def by_blocks(part: Sides) -> Found:
        left = part[0]
        for right in part[1].blocks(ROWS):
            left = together([rest_of([block, right], workers) for block in left.blocks(ROWS)] or [left])
        return found_of(left)

    if fits(sides):
        return asked(sides)
    found = all_of([over_time(part, asked, by_blocks) for part in by_value(sides)])
    return tuple(threads.in_order(found, found[2]))


def agg(side: Side, function: str, workers: int) -> Found:
    """Returns start, end, group and value, by group and start. The side has the columns that steps_of needs."""
    def asked(part: Sides) -> Found:
        return steps_of(part[0], function, workers)

    def by_blocks(part: Sides) -> Found:
        blocks = part[0].blocks(ROWS)
        # One row of each block's answer holds at a time, so the answers can be cut by time.
        if len(blocks) > ROWS // HELD:
            raise Refused("Full", f"{len(part[0]):,} rows of one value at one time are too many")
        found = all_of([asked([block]) for block in blocks])
        return agg(side_of(found), "sum" if function == "count" else function, workers)

    if fits([side]):
        return asked([side])
    return all_of([over_time(part, asked, by_blocks) for part in by_value([side])])


def side_of(found: Found) -> Side:
    """Returns the answers of some aggregates as rows."""
    start, end, group, value = found
    if value.dtype == object:
        raise Refused("Full", "sums past 64 bits of more rows at one time than a call takes: give smaller numbers")
    columns = [Values(None, "int", group), Values(None, "int", value)]
    return Side(start, end, columns, places=np.arange(len(start)))
