"""The columns of a table, and of the answer to each command."""
from dataclasses import dataclass, field
from enum import Enum
from typing import Callable, Dict, Iterable, Iterator, List, NamedTuple, Optional, Sequence, Tuple, Union

from ruzgalt.errors import Misfit
from ruzgalt.script import naming
from ruzgalt.script.commands import Answered, Command, Role, key_place
from ruzgalt.script.forms import POINTS, is_name, is_printed, is_sum, read_point
from ruzgalt.script.records import visible

MOST_COLUMNS = 16


class Kind(Enum):
    INT, TEXT, POINT = "int", "text", "point"


class Column(NamedTuple):
    name: str
    kind: Kind


def listed(names: Sequence[str]) -> str:
    """The columns that there are, for a message that one is missing."""
    return f"its columns are {', '.join(names)}" if names else "it has none"


def refuse_other_kinds(places: str, ones: Iterable[Column], others: Iterable[Column]) -> None:
    """Refuses columns of one name that have numbers in one of two answers, and texts in the other."""
    for one, other in zip(ones, others):
        if one.kind is not other.kind:
            raise Misfit(f"{places}: {one.name} is {one.kind.value} in one, and {other.kind.value} in the other")


@dataclass(frozen=True)
class Schema:
    """A table of the store: its name, its columns, and the indices of its key's columns."""

    name: str
    columns: Tuple[Column, ...]
    key: Tuple[int, ...] = ()

    @property
    def names(self) -> List[str]:
        return [column.name for column in self.columns]

    @property
    def fields(self) -> List[str]:
        columns = [text for column in self.columns for text in (column.name, column.kind.value)]
        key = ["key", *(self.names[place] for place in self.key)] if self.key else []
        return ["table", self.name, *columns, *key]

    def index_of(self, name: str) -> int:
        if name not in self.names:
            raise Misfit(f"the table {self.name} has no column {name}; {listed(self.names)}")
        return self.names.index(name)

    @staticmethod
    def read(fields: Sequence[str]) -> "Schema":
        """Returns the table of a `table` record that was accepted."""
        end = key_place(fields)
        columns = tuple(Column(name, Kind(kind)) for name, kind in zip(fields[2:end:2], fields[3:end:2]))
        names = [column.name for column in columns]
        return Schema(fields[1], columns, tuple(names.index(name) for name in fields[end + 1:]))


def is_schema(fields: Sequence[str]) -> bool:
    """Whether a `table` record has a name, a kind for each column, and a key of its columns, each named once."""
    try:
        made = Schema.read(fields)
    except (IndexError, ValueError):
        return False
    is_once = all(len(set(some)) == len(some) for some in (made.names, made.key))
    # Reading leaves out a column without a kind, and `key` with nothing after it.
    is_whole = made.fields == list(fields) and len(made.names) <= MOST_COLUMNS
    has_kinds = all(column.kind is not Kind.POINT for column in made.columns)
    return is_once and is_whole and has_kinds and all(map(is_name, [made.name, *made.names]))


Value = Union[int, str, None]


@dataclass(frozen=True)
class Table:
    """An answer as a table. An empty field, such as the end of an open version, is None."""

    columns: List[Column]
    records: Sequence[Sequence[Optional[str]]] = field(default_factory=list)

    @property
    def names(self) -> List[str]:
        return [column.name for column in self.columns]

    def values(self) -> Iterator[List[Value]]:
        """The records with numbers as numbers."""
        is_int = [column.kind is Kind.INT for column in self.columns]
        return (
            [int(text) if number and text is not None else text for number, text in zip(is_int, record)]
            for record in self.records
        )

    def texts(self) -> Iterator[List[str]]:
        return (["" if text is None else text for text in record] for record in self.records)

    def index_of(self, name: str) -> int:
        if name not in self.names:
            raise Misfit(f"the answer has no column {name}; {listed(self.names)}")
        return self.names.index(name)


def ints(*names: str) -> List[Column]:
    return [Column(name, Kind.INT) for name in names]


PERIOD = [Column("valid_from", Kind.POINT), Column("valid_to", Kind.POINT)]
COMMIT = [*ints("number", "caller"), Column("kind", Kind.TEXT), Column("of_table", Kind.TEXT), *ints("added", "closed")]
VERDICT = [Column("verdict", Kind.TEXT), Column("reason", Kind.TEXT), *ints("count", "part", "row_id", "other_row_id")]
DIVISION = [*ints("part", "row_id"), Column("instant", Kind.POINT)]
# An answer's own columns, which precede the table's.
OWN: Dict[Answered, List[Column]] = {
    Answered.ROWS: [*ints("row_id"), *PERIOD],
    Answered.VERSIONS: [*ints("row_id"), *PERIOD, *ints("sys_from", "sys_to")],
    Answered.PAIRS: [*PERIOD, *ints("left_id", "right_id")], Answered.LOG: COMMIT, Answered.DIVISION: DIVISION,
    Answered.VERDICT: VERDICT,
}
# Before the names of a table's columns.
SIDES = {Answered.ROWS: [""], Answered.VERSIONS: [""], Answered.PAIRS: ["left_", "right_"]}


def header(command: Command, tables: Dict[str, Schema]) -> List[Column]:
    """Returns the columns of the answer to an accepted query. Raises KeyError if its table or point doesn't exist."""
    form, front = command.form, command.front
    named = [tables[name] for name in front[1:1 + form.tables]]
    if form.more == (Role.POINT,) and (len(front) != 3 or read_point(front[2]) is None):
        raise KeyError(command.word)
    if form.answered is Answered.STEPS:
        return of_steps(front, named[0])
    sides = zip(SIDES.get(form.answered, []), named)
    columns = [Column(side + column.name, column.kind) for side, table in sides for column in table.columns]
    return unique([*OWN[form.answered], *columns])


def of_steps(front: Sequence[str], table: Schema) -> List[Column]:
    named = front[2] if front[2] == "count" else "_".join(front[2:4])
    group = [table.columns[table.index_of(front[-1])]] if group_of(front) else []
    # The period is found by its names, so it keeps them if the group has one of them.
    start, end, *others = unique([*PERIOD, *group, *ints(named)])
    return [*others[:-1], start, end, others[-1]]


def group_of(front: Sequence[str]) -> Optional[str]:
    return front[-1] if len(front) in (5, 6) and front[-2] == "by" else None


def unique(columns: Iterable[Column]) -> List[Column]:
    """The columns, each under a name of its own."""
    given = list(columns)
    names = naming.apart([column.name for column in given])
    return [Column(name, column.kind) for name, column in zip(names, given)]


# Names of columns, each with a record's value there.
Where = Sequence[Tuple[str, str]]
FORMS: Dict[Kind, Callable[[str], bool]] = {Kind.INT: is_sum, Kind.POINT: is_printed}
# The reasons if a value isn't of its column's kind.
NO_VALUE = {
    Kind.INT: "not a whole number in digits only, such as 480050 for cents, or -8",
    Kind.POINT: f"not a date or time as it is printed, such as {POINTS}; a midnight is printed as its date",
}


def wanted_in(of: Union[Schema, Table], where: Where) -> List[Tuple[int, str]]:
    """Returns the index of each column with its value.

    Raises Misfit if the column doesn't exist, or can't have such a value: an empty answer would hide that.
    """
    found = [(of.index_of(name), value) for name, value in where]
    for place, value in found:
        column = of.columns[place]
        has_form = FORMS.get(column.kind)
        # The end of a version that is open is empty.
        if has_form and not has_form(value) and (value or column.name != "sys_to"):
            raise Misfit(f"--where {column.name}={visible(value)}: {NO_VALUE[column.kind]}")
    return found


def has_values(record: Sequence[str], wanted: Sequence[Tuple[int, str]]) -> bool:
    return all(record[place] == value for place, value in wanted)
