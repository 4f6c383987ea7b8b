"""The changes of a store: their commands, counts and possible mistakes."""
from __future__ import annotations

from typing import TYPE_CHECKING, Any, Callable, Iterator, List, NamedTuple, Optional, Sequence, Tuple

import numpy as np
import pandas as pd

from ruzgalt.convert import checks, points, values
from ruzgalt.convert.errors import REMEDIES, Refused
from ruzgalt.convert.named import names_of, same
from ruzgalt.convert.values import Values
from ruzgalt.frames import doubts
from ruzgalt.frames.options import Names, Options
from ruzgalt.frames.sides import Side
from ruzgalt.lint import rows as of_rows, scripts as marks
from ruzgalt.periods import ROUNDINGS
from ruzgalt.script import commands, forms, raises
from ruzgalt.script.answers import Answer
from ruzgalt.script.records import Record, visible
from ruzgalt.store import labels, tables
from ruzgalt.store.tables import Command, Table

if TYPE_CHECKING:
    from ruzgalt.store.state import State

# The remedy for a raise of a column that may have missing cells.
OF_ROWS = "take rows(), .dropna() to leave such rows out, and give update_rows the new amounts"


# How many versions each of some commits added, and how many it closed.
Counts = List[Tuple[int, int]]


def sums(counts: Counts) -> Tuple[int, int]:
    return sum(one for one, _ in counts), sum(one for _, one in counts)


class Changed:
    """A change of a store that was done. Within a batch, calls return None instead.

    Attributes
    ----------
    commit : int
        Its commit, or the last of several.
    added : int
        How many versions of rows it added.
    closed : int
        How many it closed, which no later commit shows.

    Examples
    --------
    >>> day = pd.to_datetime
    >>> pay = pd.DataFrame({"from": day(["2024-01-01"]), "to": day(["2025-01-01"]), "cents": [5000]})
    >>> changed = ruzgalt.Store().table("pay", pay)
    >>> changed.commit, changed.added, changed.closed
    (2, 1, 0)
    """

    added: int
    closed: int

    def __init__(self, commit: int, *counts: int, later: Optional[Callable[[], Counts]] = None) -> None:
        """later: returns the counts of its commits when they are first needed."""
        self.commit, self._later = commit, later
        if counts:
            self.added, self.closed = counts

    def __getattr__(self, name: str) -> Any:
        if name not in ("added", "closed") or self._later is None:
            raise AttributeError(name)
        (self.added, self.closed), self._later = sums(self._later()), None
        return getattr(self, name)

    def __eq__(self, other: object) -> bool:
        return isinstance(other, Changed) and self.__reduce__() == other.__reduce__()

    def __hash__(self) -> int:
        return hash(self.commit)

    def __repr__(self) -> str:
        return f"commit {self.commit}: {self.added} added, {self.closed} closed"

    def __reduce__(self) -> Tuple[Any, ...]:
        return Changed, (self.commit, self.added, self.closed)


class Change(NamedTuple):
    """A call that changes a table. Each of its commands is a commit.

    made     the table, if the call makes it
    side     the rows that its last command loads
    portion  the seconds that may cut rows, of updates or a delete
    """

    name: str
    commands: Sequence[Command]
    made: Optional[Table] = None
    side: Optional[Side] = None
    portion: Sequence[int] = ()


class Done(NamedTuple):
    """A change that was accepted: the commit before it, its last commit, and whether its rows were loaded before."""

    change: Change
    before: int
    last: int
    is_repeated: bool


# Commands.

def making(name: Any, frame: Any, key: Names, options: Options) -> Change:
    """Returns the change that makes a table of a frame's columns, and loads its rows. Raises Refused."""
    if not isinstance(name, str) or not forms.is_name(name):
        reason = "it is a word of the language" if name in forms.RESERVED else REMEDIES["BadName"]
        raise Refused("BadName", f"{checks.shown(name)} can't be the name of a table: {reason}")
    frame = checks.frame("frame", frame)
    names = [column for column in names_of(frame) if column not in options.period]
    side = tables.side_of(frame, names, options)
    doubts.of_decimals(options.decimals, frame)
    made = tables.table_of(name, side, checks.names("key", key) or (), options)
    warn_of_ends(made, side)
    command = tables.command(*made.schema.fields)
    return Change(name, [command, *([tables.load(name, side)] if len(side) else [])], made, side)


def loading(table: Table, frame: Any) -> Change:
    side = table.side_of(checks.frame("frame", frame), list(table.columns))
    warn_of_ends(table, side)
    return Change(table.name, [tables.load(table.name, side)], side=side)


def changing(word: str, table: Table, start: Any, end: Any, condition: Sequence[str]) -> Change:
    """Returns an update or a delete."""
    portion = table.portion(start, end)
    return Change(table.name, [tables.command(word, table.name, *map(tables.text_of, portion), *condition)],
                  portion=portion)


def updating(table: Table, frame: Any, where: Names) -> Change:
    """Returns an update for each row of a frame, for the rows of the table with equal values in `where`."""
    equal = checks.names("where", where) or table.key
    if not equal:
        raise Refused("BadCommand", f"{table.name} has no key: give by where= the columns that find rows")
    for name in equal:
        table.column(name)
    set_to = [one for one in names_of(checks.frame("frame", frame)) if one not in table.period and one not in equal]
    side = table.side_of(frame, [*set_to, *equal])
    if not set_to:
        raise Refused("BadCommand", "the frame has no column to set besides the period and where=")
    warn_of_ends(table, side)
    words, cut, made = [table.word(column.name) for column in side.columns], 2 * len(set_to), []
    times = points.texts_of(side.start), points.texts_of(side.end)
    for start, end, label, *texts in zip(*times, frame.index, *map(texts_of, side.columns)):
        pairs = [text for pair in zip(words, texts) for text in pair]
        portion = "update", table.name, start, end
        made.append(tables.command(*portion, "set", *pairs[:cut], "where", *pairs[cut:], label=label))
    return Change(table.name, made, portion=np.concatenate([side.start, side.end]).tolist())


def warn_of_ends(table: Table, side: Side) -> None:
    """Warns of ends that look like last days, or the other way round. A diary may have each day."""
    if tuple(table.columns) != labels.COLUMNS:
        key = [one for one in side.columns if same(one.name) in table.key]
        doubts.of_ends(side, key, table.period[-1], table.form.has_last_days)


def texts_of(column: Values) -> List[str]:
    """Returns the cells as texts without quotes."""
    if column.kind == "int":
        return values.fields_of(column)
    return [column.texts.cells[code] for code in column.codes.tolist()]


# Raises.

def raise_of(state: State, table: Table, column: Any, how: Tuple[Any, ...], is_again: bool) -> raises.Raise:
    """Returns the steps of a raise. Raises Refused, also if the same amounts were raised from that start on.

    how: the percentage, the start, the end, where= and round=.
    """
    percent, start, end, where, rounding = how
    first, last = map(points.text_of, table.portion(start, end))
    pairs = table.condition(where)[1:]
    table.refuse_missing(column, "would be raised too", OF_ROWS)
    if rounding is not None:
        checks.one_of("round", rounding, list(ROUNDINGS))
    wish = raises.Wish(
        table.name, table.word(column), str(percent), first, None if end is None else last,
        list(zip(pairs[::2], pairs[1::2])), rounding,
    )
    rows = state.answer_to(f"rows,{table.name}")
    with tables.refusing():
        made = raises.Raise(rows, wish)
        if not is_again:
            made.refuse_again(list(updates_of(state, table.name)))
    raised = np.array([one.raised for one in made.steps], np.int64)
    values.refuse_unheld(raised, table.column(column), "a raised amount is")
    return made


def updates_of(state: State, name: str) -> Iterator[Answer]:
    """Yields the accepted updates of a table."""
    for number, one in enumerate(state.commands, 1):
        if one.word == "update" and one.fields[1] == name:
            yield Answer(number, commands.Command(Record(number, number, one.fields), []), number, {})


# Possible mistakes.

def mistakes_in(done: Done, table: Table, counts: Optional[Counts]) -> Iterator[str]:
    """Yields the possible mistakes in a change that was accepted. counts: its commits' counts, if known."""
    change, side = done.change, done.change.side
    closed = [one for _, one in counts or ()]
    if side is not None and len(side):
        yield from mistakes_in_load(change.name, side, done.is_repeated)
    elif not change.commands or side is not None and change.made is None:
        yield f"{change.name}: the frame has no rows, so nothing was changed"
    elif change.commands[-1].label is not None:
        yield from mistakes_in_rows(change, closed)
    elif closed and change.commands[-1].word in marks.PORTIONS:
        yield from mistakes_in_portion(change, table, closed[-1])


def mistakes_in_load(name: str, side: Side, is_repeated: bool) -> Iterator[str]:
    is_twin = pd.Series(side.hashes).duplicated().to_numpy()
    if is_twin.any():
        row = int(is_twin.argmax())
        one, other = two_rows(side.labels, row, int((side.hashes == side.hashes[row]).argmax()))
        yield f"load of {name}: {of_rows.of_twins(one, other, int(is_twin.sum()))}"
    if is_repeated:
        yield f"load of {name}: all its rows were loaded before, so each occurs twice unless changed since"


def two_rows(row_labels: Sequence[Any], *numbers: int) -> List[str]:
    """Returns two rows' names: their labels, or if these are equal their positions."""
    names = [f"row {row_labels[number]!r}" for number in numbers]
    return names if names[0] != names[1] else [f"row {number} by position" for number in numbers]


def mistakes_in_portion(change: Change, table: Table, closed: int) -> Iterator[str]:
    fields = change.commands[-1].fields
    named, reason = f"{fields[0]} of {change.name}", marks.of_touched(fields, closed)
    if reason:
        # It names the change, since there may be many.
        pairs = [f"{fields[index]} is '{visible(fields[index + 1])}'" for index in commands.where_places(fields)]
        yield f"{named}{' where ' * bool(pairs)}{' and '.join(pairs)}: {reason}"
    if closed and not table.form.has_last_days and change.portion[-1] < table.last:
        reason = marks.of_end(fields[3])
        if reason:
            yield f"{named}: {reason}"


def mistakes_in_rows(change: Change, closed: Sequence[int]) -> Iterator[str]:
    """Yields the possible mistakes in updates by rows of a frame."""
    named = f"update of {change.name}"
    idle = [one for one, count in zip(change.commands, closed) if not count]
    if idle:
        yield f"{named}: row {idle[0].label!r}: {marks.of_touched(idle[0].fields, 0)}{more(len(idle))}"
    updated = [(one.fields[2], *one.fields[commands.where_place(one.fields):]) for one in change.commands]
    is_later = pd.Series(updated).duplicated().to_numpy()
    if is_later.any():
        number = int(is_later.argmax())
        one, other = two_rows([one.label for one in change.commands], number, updated.index(updated[number]))
        reason = f"{one} updates the same rows from the same point on as {other}, and the later one counts"
        yield f"{named}: {reason}{more(int(is_later.sum()))}"


def more(count: int) -> str:
    return f"; {count - 1} more rows do so" if count > 1 else ""
