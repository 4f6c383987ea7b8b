"""The functions of the library by several calls at once, each on a thread. Whole classes are dealt to the calls.

Rows of different classes never meet, so the answers of all calls together are the answer. Classes are numbers from 0
on, and most numbers below the greatest are used.
"""
from __future__ import annotations

from concurrent.futures import ThreadPoolExecutor
from typing import Callable, Iterator, List, Optional, Sequence, Tuple

import numpy as np

from ruzgalt.kernel import library
from ruzgalt.kernel.library import ROWS, Array, Columns

# The least number of rows of a side for a call: with fewer rows a thread costs more than it spares.
FEW = 20_000
# The first second of the year 0001. An index has INDEX bits, and the lower part of a point LOW bits of 39.
FIRST, INDEX, LOW = -62_135_596_800, 28, 25
# The rows of a call, as an array of indices for each side.
Lot = Sequence[Array]
# A column of an answer that rises, and what makes sort keys of an answer.
Order = Tuple[int, Callable[[Columns], Array]]


def join(left: Columns, right: Columns, workers: int) -> Columns:
    """Returns what library.join does."""
    order = 2, lambda found: by_period(found[2], found[3], found[0])
    return dealt(library.join, [left, right], workers, 2, order)


def anti(left: Columns, right: Columns, workers: int) -> Columns:
    """Returns what library.anti does."""
    order = 0, lambda found: found[0]
    return dealt(library.anti, [left, right], workers, 1, order)


def agg(rows: Columns, amount: Array, function: str, workers: int) -> Columns:
    """Returns what library.agg does. Classes rise from lot to lot, so the answers only have to be concatenated."""
    return dealt(lambda side: library.agg(side[:3], side[3], function), [[*rows, amount]], workers)


def dips(rows: Columns, workers: int) -> Columns:
    """Divides the rows of each class.

    Returns the part of each row; by class the number of parts, and the first point at which that many rows hold.
    """
    indices, found, *by_class = dealt(divisions, [rows], workers, 1)
    part = np.empty(len(found), np.int64)
    part[indices] = found
    return [part, *by_class]


def divisions(side: Columns) -> Columns:
    """Returns the indices of rows by class, their parts, and by class what dips returns."""
    order = np.argsort(side[0], kind="stable")
    classes, start, end = (column[order] for column in side)
    ends = np.flatnonzero(np.diff(classes, append=-1)) + 1
    part, counted = np.empty(len(order), np.int64), []
    for first, last in zip([0, *ends[:-1].tolist()], ends.tolist()):
        part[first:last], *found = library.dip(start[first:last], end[first:last])
        counted.append(found)
    return [order, part, *np.array(counted, np.int64).reshape(len(counted), 2).T]


def dealt(call: Callable[..., Columns], sides: Sequence[Columns], workers: int, indices: int = 0,
          order: Optional[Order] = None) -> Columns:
    """Returns the answers of calls over lots of the sides' rows, concatenated or in order.

    The first `indices` columns of an answer are indices of the sides' rows.
    """
    def asked(lot: Lot) -> Columns:
        found = call(*([column[rows] for column in side] for side, rows in zip(sides, lot)))
        return [*(rows[own] for rows, own in zip(lot, found[:indices])), *found[indices:]]

    def merged(parts: Sequence[Columns]) -> Columns:
        found = joined(parts)
        return in_order(found, order[1](found)) if order is not None else found

    wanted = min(workers, max(len(side[0]) for side in sides) // FEW)
    lots = lots_of([side[0] for side in sides], wanted) if wanted > 1 else []
    if len(lots) < 2:
        return call(*sides)
    with ThreadPoolExecutor(min(workers, len(lots))) as threads:
        parts = list(threads.map(asked, lots))
        return joined(list(threads.map(merged, stretches(parts, order[0]) if order is not None else [parts])))


def stretches(parts: Sequence[Columns], first: int) -> Iterator[Sequence[Columns]]:
    """Cuts all parts at the same values of their column `first`. Yields the pieces of all parts between two cuts."""
    longest = max((part[first] for part in parts), key=len)
    cuts = longest[len(longest) * np.arange(1, len(parts)) // len(parts)] if len(longest) else longest
    bounds = [[0, *np.searchsorted(part[first], cuts).tolist(), len(part[first])] for part in parts]
    for stretch in zip(*(zip(own, own[1:]) for own in bounds)):
        yield [[column[low:high] for column in part] for part, (low, high) in zip(parts, stretch)]


def joined(parts: Sequence[Columns]) -> Columns:
    return parts[0] if len(parts) == 1 else [np.concatenate(columns) for columns in zip(*parts)]


def lots_of(classes: Sequence[Array], wanted: int, most: int = ROWS) -> List[Lot]:
    """Deals classes, in their order, to about `wanted` lots of about equal size.

    A lot has at most `most` rows of a side, unless it has one class.
    """
    count = max(int(one.max(initial=0)) for one in classes) + 1
    sums = [np.append(0, np.cumsum(np.bincount(one, minlength=count))) for one in classes]
    ends = list(ends_of(sums, wanted, most))
    number_of = np.repeat(np.arange(len(ends)), np.diff(ends, prepend=0)).astype(np.min_scalar_type(len(ends)))
    orders = [np.argsort(number_of[one], kind="stable") for one in classes]
    return list(zip(*(np.split(order, total[ends[:-1]]) for order, total in zip(orders, sums))))


def ends_of(sums: Sequence[Array], wanted: int, most: int) -> Iterator[int]:
    """Yields the first class after each lot. `sums` has for each side the count of rows before each class."""
    both = np.sum(sums, axis=0)
    targets = both[-1] * np.arange(1, wanted) // wanted
    after = np.searchsorted(both, targets, "right")
    nearest = np.where(both[after] - targets <= targets - both[after - 1], after, after - 1)
    begin = 0
    for end in np.unique([*nearest[nearest > 0], len(both) - 1]).tolist():
        while begin < end:
            fitting = min(int(np.searchsorted(total, total[begin] + most, "right")) - 1 for total in sums)
            begin = max(begin + 1, min(end, fitting))
            yield begin


def by_period(start: Array, end: Array, index: Array) -> Array:
    """Returns sort keys for start, end and index. The index -1 is the greatest.

    Keys are complex numbers, whose real parts numpy compares first. Each part holds 53 of the 39 + 39 + 28 bits.
    """
    key = np.empty(len(start), complex)
    seconds = end - FIRST
    key.real = (start - FIRST << 39 - LOW) + (seconds >> LOW)
    key.imag = ((seconds & (1 << LOW) - 1) << INDEX) + (index & (1 << INDEX) - 1)
    return key


def in_order(columns: Columns, key: Array) -> Columns:
    """Returns the columns in the order of a key. This is fast if the key consists of a few sorted pieces."""
    order = np.argsort(key, kind="stable")
    return [column[order] for column in columns]
