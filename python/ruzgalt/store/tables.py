"""A store's tables and commands: columns of frames, with their names and cells in the store.

A column of a frame may have any name. In the store its name is a word of the language: `Table.words` has both.
"""
from __future__ import annotations

import datetime
from contextlib import contextmanager
from dataclasses import dataclass, field, replace
from decimal import Decimal
from functools import lru_cache
from types import MappingProxyType
from typing import Any, Iterable, Iterator, List, Mapping, NamedTuple, Optional, Sequence, Tuple, Union

import numpy as np
import pandas as pd

from ruzgalt.convert import checks, instants, kinds, named, points, values
from ruzgalt.convert.arrays import Cells, equal_to
from ruzgalt.convert.errors import Refused, refuse
from ruzgalt.convert.kinds import WITHOUT_ZONE, Kind
from ruzgalt.convert.named import column_of, names_of, same
from ruzgalt.convert.points import Form
from ruzgalt.convert.values import Texts, Values
from ruzgalt.errors import Misfit
from ruzgalt.frames import sides
from ruzgalt.frames.options import Options
from ruzgalt.frames.sides import Period, Side
from ruzgalt.script import forms, naming
from ruzgalt.script.schemas import Column, Schema
from ruzgalt.script.schemas import Kind as Kinds

# A cell as the store has it: a number, in a column's smallest units, or a text.
Cell = Union[int, str]
# The columns of a table that isn't made yet.
NO_COLUMNS: Mapping[Any, Values] = MappingProxyType({})
# What the tools' options are called here.
PARAMETERS = (
    ("(line ", "(commit "), ("--again", "again=True"), ("--round half-up", "round='half-up'"),
    ("--retroactive", "retroactive=True"), ("by --where", "by where="), (" --", " "),
)
# The remedy for a question about a column that may have missing cells.
OF_FRAMES = "take rows(), .dropna() to leave such rows out, and ruzgalt.join, anti or agg"


# Commands.

class Script(bytes):
    """The accepted changes of a store, as bytes.

    Attributes
    ----------
    names : dict
        For each table a dict of the columns' names in the script with their names in frames.

    Examples
    --------
    >>> day = pd.to_datetime
    >>> rent = pd.DataFrame({"from": day(["2024-01-01"]), "to": day(["2025-01-01"]), "Löhne €": [5000]})
    >>> store = ruzgalt.Store()
    >>> store.table("rent", rent)
    commit 2: 1 added, 0 closed
    >>> script = store.script()
    >>> script.decode().splitlines()[0], script.names
    ('table,rent,lohne,int', {'rent': {'lohne': 'Löhne €'}})
    """

    names: Mapping[str, Mapping[str, Any]]

    def __new__(cls, data: bytes, names: Optional[Mapping[str, Mapping[str, Any]]] = None) -> Script:
        made = super().__new__(cls, data)
        made.names = {} if names is None else names
        return made


class Command(NamedTuple):
    """A command's fields, its bytes with its block, and for an update by a frame's row the row's label."""

    fields: Sequence[str]
    data: bytes
    label: Any = None

    @property
    def word(self) -> str:
        return self.fields[0]


def record(fields: Sequence[str]) -> bytes:
    text = ",".join(fields)
    if text.count(",") >= len(fields) or any(mark in text for mark in '"\r\n'):
        text = ",".join(map(values.quoted, fields))
    return f"{text}\n".encode("utf-8", "surrogateescape")


def command(*fields: str, label: Any = None) -> Command:
    return Command(fields, record(fields), label)


def load(table: str, side: Side) -> Command:
    return Command(("load", table), b"".join([record(("load", table)), rows_of(side), b"end\n"]))


def rows_of(side: Side) -> bytes:
    """Returns the `row` records."""
    times = [points.texts_of(side.start), points.texts_of(side.end)]
    rows = zip(*times, *map(values.fields_of, side.columns))
    return "".join(["row,", "\nrow,".join(map(",".join, rows)), "\n"]).encode() if len(side) else b""


# Tables.

@dataclass(frozen=True)
class Table:
    """A table's name, its columns without cells, its key, the options of its frames, and the kind of their points.

    words        each column's name in the store
    first, last  no row starts before the second `first` or ends after the second `last`
    """

    name: str
    columns: Mapping[Any, Values]
    key: Sequence[Any]
    options: Options
    words: Mapping[Any, str] = field(default_factory=dict)
    kind: Kind = Kind()
    first: int = points.LAST
    last: int = points.FIRST

    @property
    def period(self) -> Period:
        return self.options.period

    @property
    def form(self) -> Form:
        return self.options.form

    @property
    def schema(self) -> Schema:
        """The table as the language has it."""
        columns = tuple(Column(self.words[name], Kinds(one.kind)) for name, one in self.columns.items())
        return Schema(self.name, columns, tuple(map(list(self.columns).index, self.key)))

    @property
    def readers(self) -> str:
        """The kinds of the columns, for lists.columns_of."""
        return "".join("i" if one.kind == "int" else "t" for one in self.columns.values())

    def column(self, name: Any) -> Values:
        """Returns the column of this name. Raises Refused (NoColumn)."""
        found = self.columns.get(same(name))
        if found is None:
            raise Refused("NoColumn", f"{self.name} has no such column; its columns are {listed(self.columns)}", name)
        return found

    def word(self, name: Any) -> str:
        """Returns the column's name in the store. Raises Refused (NoColumn)."""
        return self.words[self.column(name).name]

    # Input.

    def side_of(self, frame: Any, names: Sequence[Any]) -> Side:
        """Returns a frame's rows with these columns; the frame may have no others. Raises Refused."""
        for name in names_of(frame):
            if name not in self.period:
                self.column(name)
        side = side_of(frame, names, self.options, self.columns)
        for given in side.columns:
            wanted = self.column(given.name).kind
            if given.kind != wanted:
                remedy = ".astype('int64') makes numbers" if wanted == "int" else ".astype(str) makes texts"
                reason = f"it is {given.kind}, and the column of {self.name} is {wanted}; {remedy}"
                raise Refused("WrongKind", reason, given.name)
        return side

    def portion(self, start: Any, end: Any) -> Tuple[int, int]:
        """Returns the seconds of a change's start and end, the first point after it.

        Raises Refused (BadPoint, BadPeriod).
        """
        start, end = written(start), written(end)
        is_text = isinstance(start, str) and (end is None or isinstance(end, str))
        portion = portion_of_texts(start, end, self.form) if is_text else portion_of(start, end, self.form)
        if portion[0] >= portion[1]:
            last = "the last day" if self.form.has_last_days else "the first point after it"
            reason = f"it starts at {start} and ends at {end}: a portion must start before its end, which is {last}"
            raise Refused("BadPeriod", reason)
        return portion

    def pairs(self, word: str, given: Any) -> List[str]:
        """Returns the columns and values of set= or where= as fields of a change. Raises Refused."""
        if not isinstance(given, (dict, Mapping)):
            reason = "must be a dict of columns with values, such as {'person': 'Ada'}"
            raise checks.wrong(word, given, reason)
        if not given:
            remedy = "leave it out for all rows" if word == "where" else "give columns to change"
            raise Refused("BadCommand", f"{word}={{}} has no column: {remedy}")
        return [text for name, value in given.items() for text in (self.word(name), self.field_of(name, value))]

    def condition(self, where: Any) -> List[str]:
        """Returns where= as fields of a change. Raises Refused."""
        return [] if where is None else ["where", *self.pairs("where", where)]

    def field_of(self, name: Any, value: Any) -> str:
        """Returns a single value of a column as a field. Raises Refused."""
        column, stand_in = self.column(name), self.stand_in(name)
        if stand_in is not None and values.is_missing(value):
            return str(stand_in)
        cell = cell_of(column, value)
        if cell == stand_in:
            raise Refused("BadCommand", f"missing= has {checks.shown(value)} for a missing cell: give None", name)
        return str(cell)

    def stand_in(self, name: Any) -> Optional[Cell]:
        """Returns the value that is stored for a missing cell of the column."""
        given = self.options.missing.get(same(name))
        return None if given is None else stand_in_of(self.column(name), given)

    def refuse_missing(self, name: Any, doing: str, remedy: str = OF_FRAMES) -> None:
        """Raises Refused if the column doesn't exist, or has missing cells, with which this can't be done."""
        if self.stand_in(name) is not None:
            raise Refused("WrongKind", f"it has missing cells, and their value {doing}; {remedy}", name)

    def with_rows(self, side: Side) -> Table:
        """Returns the table after a load of rows."""
        first, last = int(side.start.min(initial=self.first)), int(side.end.max(initial=self.last))
        return replace(self, kind=kinds.joint_kind(self.kind, side.kind), first=first, last=last)

    def widened(self, portion: Sequence[int]) -> Table:
        """Returns the table after its rows were cut at these seconds: its kind of points then has them."""
        inside = tuple(one for one in portion if self.first < one < self.last)
        if not inside or has_all(self.kind.name, inside):
            return self
        return replace(self, kind=Kind("datetime" if self.kind.name in ("", "date") else "S"))

    # Output.

    def cells(self, cells: Iterator[Cells]) -> List[Tuple[str, Any]]:
        """Returns the next columns of an answer as the table's columns."""
        return [(one.name, self.restored(one, next(cells))) for one in self.columns.values()]

    def restored(self, column: Values, cells: Cells) -> Any:
        return restored_cells(column, cells, self.stand_in(column.name))

    def period_cells(self, start: Cells, end: Cells, *others: Kind, is_open: bool = False) -> List[Tuple[Any, Any]]:
        """Returns starts and ends of an answer as the period.

        others: the kinds of points of other tables in the question. is_open: these have missing ends.
        """
        kind = self.options.kind_of(self.period, self.kind, *others)
        # An interval has no missing end.
        form = self.form if named.are_in(self.period) else replace(self.form, is_open=self.form.is_open or is_open)
        return named.columns_of(self.period, points.series_of(start, kind), form.restored_ends(end, kind))


def table_of(name: str, side: Side, key: Sequence[Any], options: Options) -> Table:
    """Returns a table without rows that has the columns of its first rows. Raises Refused."""
    columns = [replace(one, name=same(one.name), codes=one.codes[:0], texts=Texts()) for one in side.columns]
    names = [one.name for one in columns]
    for column in key:
        if column not in names:
            raise Refused("NoColumn", f"key= has it, but the table's columns are {listed(names)}", column)
    words = dict(zip(names, naming.of_store(names)))
    return checked(Table(name, dict(zip(names, columns)), list(key), options, words, side.kind))


def checked(table: Table) -> Table:
    """Returns the table.

    Raises Refused if missing= has a name that isn't a column, a column of the key, or a value that can't be one.
    """
    for name in table.options.missing:
        table.stand_in(name)
        if name in table.key:
            raise Refused("BadCommand", "missing= can't have a column of the key, which has a value in each row", name)
    return table


def listed(names: Iterable[Any]) -> str:
    """Returns names of columns for a message."""
    shown = (one if isinstance(one, str) and forms.is_name(one) else checks.shown(one) for one in names)
    return ", ".join(shown) or "none"


def in_python(reason: object) -> str:
    """Returns a message of the tools with parameters instead of options, and commits instead of lines."""
    text = str(reason)
    for word, parameter in PARAMETERS:
        text = text.replace(word, parameter)
    return text[2:] if text.startswith("--") else text


@contextmanager
def refusing() -> Iterator[None]:
    """Within, a Misfit becomes Refused."""
    try:
        yield
    except Misfit as misfit:
        raise Refused("BadCommand", in_python(misfit)) from None


# Points. Changes often have the same ones, and pandas and numpy take long for a single one.

text_of = lru_cache(maxsize=1024)(points.text_of)


def written(point: Any) -> Any:
    """Returns a date or datetime as a text of the language, if there is one; all else as it was given."""
    text = point.isoformat() if isinstance(point, datetime.date) else point
    return text if isinstance(text, str) and instants.written(text) else point


def portion_of(start: Any, end: Any, form: Form) -> Tuple[int, int]:
    """Returns the seconds of a start, and of the first point after an end; None means without an end."""
    first, last = instants.portion(start, end, form).tolist()
    return first, last


portion_of_texts = lru_cache(maxsize=1024)(portion_of)


@lru_cache(maxsize=1024)
def has_all(kind: str, seconds: Tuple[int, ...]) -> bool:
    """Returns whether a column of points of this kind can have these seconds."""
    return points.has_all(Kind(kind), np.array(seconds, np.int64))


# Columns and cells.

def side_of(frame: Any, names: Sequence[Any], options: Options, known: Mapping[Any, Values] = NO_COLUMNS) -> Side:
    """Returns a frame's rows with these columns. Raises Refused, also for months and zones, which stores don't have.

    known: the columns of the table. A column of objects without rows doesn't show its kind, so the table's is taken.
    """
    found = [column_of(frame, name) for name in names]
    side = sides.side_of(frame, [], options.period, options.form, {})
    if side.kind.is_long:
        reason = f"a store's points are days or times, but these are period[{side.kind.name}]"
        remedy = ".dt.asfreq('D', 'start') of starts, .dt.asfreq('D', 'end') of ends with last_day=True"
        raise Refused("WrongKind", f"{reason}; {remedy}", options.period[0])
    if side.kind.zone is not None:
        reason = f"a store's points have no time zone, but these have {side.kind.zone}"
        remedy = f".dt.tz_convert(ZONE){WITHOUT_ZONE} gives the days and times of a zone"
        raise Refused("WrongKind", f"{reason}; {remedy}", options.period[0])

    def values_in(column: Any) -> Values:
        name = same(column.name)
        if name in known and column.dtype == object and not len(column):
            return known[name]
        return column_values(column, options.decimals.get(name), options.missing.get(name))

    return replace(side, columns=list(map(values_in, found)))


def coded(column: Values, cells: Cells) -> Values:
    """Returns the column with the cells of an answer."""
    if column.kind == "int":
        return replace(column, codes=cells)
    codes, found = values.codes_by_dict(cells)
    return replace(column, codes=codes, texts=Texts(found))


def cell_of(column: Values, value: Any) -> Cell:
    """Returns a single value as a cell of the column. Raises Refused."""
    # Most values, in a fraction of the time.
    if type(value) is str and column.kind == "text" and len(value) <= forms.TEXT_LIMIT and value.isascii():
        return value
    is_whole = type(value) is int and column.digits is None and column.dtype == np.int64
    if is_whole and values.LEAST <= value <= values.GREATEST:
        return int(value)
    refuse_type(column, value)
    try:
        found = values.values_of(series_of(column, value), column.digits)
    except Refused as error:
        raise Refused(error.name, error.reason, column.name) from None
    except OverflowError:
        bounds = f"numbers have 64 bits, from {values.LEAST} to {values.GREATEST}"
        raise Refused("BadNumber", f"{checks.shown(value)}: {bounds}", column.name) from None
    return int(found.codes[0]) if found.kind == "int" else found.texts.cells[0]


def refuse_type(column: Values, value: Any) -> None:
    """Raises Refused if the value has another type than the column's."""
    if column.digits is not None:
        is_right = checks.is_whole(value) or isinstance(value, (float, np.floating, Decimal))
        wanted = f"numbers of {column.digits} decimals; decimal.Decimal(..) makes a number of a text"
    elif column.kind == "text":
        is_right, wanted = isinstance(value, str), "texts; str(..) makes a text of a number"
    elif values.is_bool(column.dtype):
        is_right, wanted = checks.is_flag(value), "True and False; bool(..) converts a number"
    else:
        is_right = checks.is_whole(value)
        others = f"decimals={{{column.name!r}: 2}}, when the table is made, takes others"
        wanted = f"whole numbers; int(..) makes one of a text; {others}"
    if not is_right:
        raise Refused("WrongKind", f"{checks.shown(value)}: the column has {wanted}", column.name)


def series_of(column: Values, value: Any) -> Any:
    """Returns a Series of one value, in a dtype of the column's frames."""
    if column.digits is None:
        return pd.Series([value], dtype="int64" if column.kind == "int" else object, name=column.name)
    if column.dtype == object:
        return pd.Series([Decimal(int(value)) if checks.is_whole(value) else value], dtype=object, name=column.name)
    if isinstance(value, Decimal) and values.whole_of(value, column.digits) is None:
        raise Refused("BadNumber", f"{value} isn't a number of {column.digits} decimals; quantize() makes it one")
    return pd.Series([float(value)], dtype=column.dtype, name=column.name)


# Stand-ins. A store has a number or a text in each row. The option missing= names a value that is stored for a missing
# cell. No cell of a frame may have that value, so it comes back as missing.

def stand_in_of(column: Values, given: Any) -> Cell:
    """Returns the stand-in of a column. Raises Refused if the column can't have the value, or it is True or False."""
    if not values.is_bool(column.dtype):
        return cell_of(column, given)
    if not checks.is_whole(given) or given in (0, 1):
        reason = f"missing= has {checks.shown(given)}: for True and False it must be a number other than 0 and 1"
        raise Refused("WrongKind", reason, column.name)
    return int(given)


def column_values(column: Any, digits: Optional[int], given: Any) -> Values:
    """Returns a Series as a column, with the stand-in `given`, if it isn't None, for missing cells. Raises Refused."""
    if given is None:
        try:
            return values.values_of(column, digits)
        except Refused as error:
            if error.reason != values.no_value(column.name):
                raise
            remedy = f"missing={{{column.name!r}: ..}}, when the table is made, gives a value for it"
            raise Refused(error.name, f"{error.reason}; {remedy}", error.column, error.label) from None
    is_missing = column.isna().to_numpy()
    there = values.values_of(column.iloc[np.flatnonzero(~is_missing)], digits)
    code, texts = stand_in_of(there, given), there.texts
    if isinstance(code, str):
        # Each text that differs has one code, so the stand-in has its own code, or the next one.
        distinct = list(dict.fromkeys([*there.texts.cells, code]))
        code, texts = distinct.index(code), Texts(distinct)
    codes = np.full(len(column), code, np.int64)
    codes[~is_missing] = there.codes
    reason = f"missing= has {checks.shown(given)} for a missing cell; the column has this value: give another one"
    refuse((codes == code) & ~is_missing, column, "BadCommand", reason)
    return replace(there, codes=codes, texts=texts)


def restored_cells(column: Values, cells: Cells, stand_in: Optional[Cell]) -> Any:
    """Returns cells of an answer in the column's dtype; if some are missing, in a dtype that has missing cells."""
    if stand_in is None:
        return column.restored(cells)
    is_missing = equal_to(cells, stand_in)
    there = column.restored(cells[~is_missing])
    if not is_missing.any():
        return there
    if getattr(there.dtype, "kind", "") in "iub" and isinstance(there, (np.ndarray, pd.arrays.SparseArray)):
        there = pd.array(np.asarray(there))
    if there.dtype == object:
        found = np.full(len(cells), None, object)
        found[~is_missing] = there
        return found
    return pd.Series(there, np.flatnonzero(~is_missing)).reindex(range(len(cells)))
