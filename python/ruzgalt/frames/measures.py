"""The measures of an aggregate: count, sum, min, max and mean, one or several at once.

A mean is a sum divided by a count, a fraction in lowest terms until it is returned. Several measures are cut at the
edges of all, so that each has one value in a period, and coalesced if successive periods have the same values.
"""
from __future__ import annotations

from dataclasses import dataclass, replace
from typing import Any, Dict, List, Mapping, Sequence, Tuple

import numpy as np

from ruzgalt.convert import checks
from ruzgalt.convert.arrays import Cells, Ints
from ruzgalt.convert.errors import Refused
from ruzgalt.convert.named import same
from ruzgalt.convert.values import GREATEST, Values
from ruzgalt.frames import split
from ruzgalt.frames.answer import Column
from ruzgalt.frames.sides import Side
from ruzgalt.frames.split import Found

FUNCTIONS = ("count", "sum", "min", "max", "mean")
# A function of the library, and the column whose numbers it takes, except for a count.
Ask = Tuple[Any, ...]


@dataclass(frozen=True)
class Measure:
    """A function and its column; a count may have no column."""

    function: str
    column: Any = None
    is_of_column: bool = True

    @property
    def name(self) -> str:
        """The name of the answer's column."""
        return f"{self.function}_{self.column}" if self.is_of_column else self.function

    @property
    def amount(self) -> Tuple[Any, ...]:
        """The column whose numbers it takes, if any."""
        return (self.column,) if self.function not in ("count", "held") else ()

    @property
    def asks(self) -> Sequence[Ask]:
        """The questions to the library."""
        if self == HELD:
            return [("max",)]
        functions = ("sum", "count") if self.function == "mean" else (self.function,)
        return [(one, *(self.amount if one != "count" else ())) for one in functions]


Measures = Sequence[Measure]
# Floats hold each whole number up to this one.
EXACT = 2**53
# Whether some row holds: the greatest of a column that has 1 in each row. Answers don't have it as a column.
HELD = Measure("held", None, False)


def of_call(function: Any, column: Any) -> List[Measure]:
    """Returns the measures of a call: of a function with its column, or of a dict of columns with functions."""
    if not isinstance(function, Mapping):
        refuse_call(function, column)
        return [Measure(function, same(column), column is not None)]
    if column is not None:
        wanted = "can't be given with a dict, which has columns: agg(frame, {'cents': ['sum', 'max']})"
        raise checks.wrong("column", column, wanted)
    named = [(same(checks.name("column", name)), several) for name, several in function.items()]
    found = [Measure(one, name) for name, several in named for one in functions(several)]
    if not found or len(set(found)) < len(found):
        raise checks.wrong("function", function, "must be columns with functions, each once")
    return found


def functions(given: Any) -> List[str]:
    several = given if isinstance(given, (list, tuple)) else [given]
    return [checks.one_of("function", one, FUNCTIONS) for one in several]


def refuse_call(function: Any, column: Any) -> None:
    checks.one_of("function", function, FUNCTIONS)
    if function == "count" and column is not None:
        raise checks.wrong("column", column, "a count is of rows, and takes no column: agg(frame, 'count')")
    if function != "count" and column is None:
        raise Refused("BadCommand", f"{function} needs a column: agg(frame, {function!r}, COLUMN)")
    if column is not None:
        checks.name("column", column)


def amounts_of(measures: Measures) -> List[Any]:
    """Returns the columns whose numbers the measures take, each once."""
    return list(dict.fromkeys(name for one in measures for name in one.amount))


def refuse_texts(measures: Measures, columns: Mapping[Any, Values]) -> None:
    """Raises Refused for texts, and for min or max of a category that has another order than its numbers."""
    for function, column in ((one.function, columns[name]) for one in measures for name in one.amount):
        if column.kind != "int":
            reason = f"{function} needs numbers, but these are texts"
            remedy = ".astype('int64') makes numbers of texts such as '12'"
            raise Refused("WrongKind", f"{reason}; {remedy}", column.name)
        is_ordered = getattr(column.dtype, "ordered", False) and not column.dtype.categories.is_monotonic_increasing
        if is_ordered and function in ("min", "max"):
            reason = f"{function} needs numbers, but this category has another order"
            raise Refused("WrongKind", f"{reason}; .astype('int64') makes numbers of it", column.name)


def measured(side: Side, columns: Mapping[Any, Values], measures: Measures, workers: int) -> Found:
    """Returns start, end, group and values of the measures, by group and start. The side has the groups' numbers."""
    return together(answers(side, columns, measures, workers), measures)


def answers(side: Side, columns: Mapping[Any, Values], measures: Measures, workers: int) -> Dict[Ask, Found]:
    """Returns the library's answer to each ask of the measures."""
    def answer(asked: Ask) -> Found:
        ones = Values(None, "int", np.ones(len(side), np.int64))
        amounts = [columns[name] for name in asked[1:]] or ([ones] if asked[0] != "count" else [])
        return split.agg(replace(side, columns=[*side.columns, *amounts]), asked[0], workers)

    return {asked: answer(asked) for asked in dict.fromkeys(asked for one in measures for asked in one.asks)}


def together(found: Mapping[Ask, Found], measures: Measures) -> Found:
    """Returns the answers in one. A mean is two values: a sum and a count, in lowest terms."""
    start, end, group, *columns = cut_at_all(list(found.values()))
    there = dict(zip(found, columns))
    values = [value for one in measures for value in in_lowest_terms(*(there[asked] for asked in one.asks))]
    return (start, end, group, *values) if len(found) == 1 else closed_up((start, end, group, *values))


def in_lowest_terms(value: Cells, *count: Cells) -> Sequence[Cells]:
    """Returns a value, or a sum and a count as the fraction that is their mean: equal exactly if the means are."""
    if not count:
        return [value]
    # The rest has the same divisors with the count, and no sign.
    common = np.gcd(value % count[0], count[0])
    return [value // common, count[0] // common]


def cut_at_all(found: Sequence[Found]) -> Found:
    """Cuts aggregates of the same rows at the edges of all. Returns start, end, group, and the value of each aggregate.

    All have values at the same time of a group. So a period begins at the start of any row, and ends at the first end
    of the rows that hold there.
    """
    if len(found) == 1 or not len(found[0][0]):
        return (*found[0][:3], *(one[3] for one in found))
    start, group = (np.concatenate([one[place] for one in found]) for place in (0, 2))
    order = by_group(start, group)
    is_new = np.ones(len(order), bool)
    is_new[1:] = (np.diff(start[order]) != 0) | (np.diff(group[order]) != 0)
    ranks = np.empty(len(order), np.int64)
    ranks[order] = np.cumsum(is_new) - 1
    firsts = order[is_new]
    begins = np.split(ranks, np.cumsum([len(one[0]) for one in found])[:-1])
    # The last row of each aggregate that began at or before each start.
    rows = [np.cumsum(np.bincount(begun, minlength=len(firsts))) - 1 for begun in begins]
    end = np.minimum.reduce([one[1][row] for one, row in zip(found, rows)])
    return (start[firsts], end, group[firsts], *(one[3][row] for one, row in zip(found, rows)))


def by_group(start: Ints, group: Ints) -> Ints:
    """Returns the order by group and start. Rows are several sorted lists, so sorting by one number is fast."""
    low, many = int(start.min()), int(start.max()) - int(start.min()) + 1
    fits = (int(group.max()) + 1) * many <= GREATEST
    order: Ints = np.argsort(group * many + (start - low), kind="stable") if fits else np.lexsort((start, group))
    return order


def closed_up(found: Found) -> Found:
    """Coalesces rows that follow one another and differ only in their periods."""
    start, end, *columns = found
    is_new = np.ones(len(start), bool)
    is_new[1:] = start[1:] != end[:-1]
    for column in columns:
        is_new[1:] |= np.asarray(column[1:] != column[:-1], bool)
    firsts = np.flatnonzero(is_new)
    lasts = np.append(firsts, len(start))[1:] - 1
    return (start[firsts], end[lasts], *(column[firsts] for column in columns))


def columns_of(values: Sequence[Cells], measures: Measures, columns: Mapping[Any, Values]) -> List[Column]:
    """Returns the values as columns of an answer."""
    left = iter(values)
    pairs = [(one, [next(left) for _ in one.asks]) for one in measures]
    return [(one.name, restored(own, one, columns)) for one, own in pairs if one != HELD]


def restored(value: Sequence[Cells], measure: Measure, columns: Mapping[Any, Values]) -> Any:
    """Returns min, max and a sum of decimals in the column's dtype, other sums as int64 or Python's numbers."""
    if measure.function == "count":
        return value[0]
    column = columns[measure.column]
    if measure.function == "mean":
        return nearest(value[0], value[1], 10 ** (column.digits or 0))
    return column.restored(value[0]) if measure.function != "sum" or column.digits is not None else value[0]


def nearest(above: Cells, below: Cells, scale: int) -> Cells:
    """Returns the floats nearest to fractions: numpy's division if floats hold both numbers, otherwise Python's."""
    is_held = np.asarray((-EXACT <= above) & (above <= EXACT) & (below <= EXACT // scale), bool)
    found = np.empty(len(above), "f8")
    found[is_held] = above[is_held].astype("f8") / (below[is_held].astype("f8") * scale)
    rest = zip(above[~is_held].tolist(), below[~is_held].tolist())
    found[~is_held] = [one / (many * scale) for one, many in rest]
    return found
