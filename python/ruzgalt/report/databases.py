"""Answers as tables of an SQLite database: all that is done with it is kept, or nothing is."""
import re
import sqlite3
from contextlib import closing, contextmanager
from pathlib import Path
from typing import Iterator, List, NamedTuple, Optional, Sequence

from ruzgalt import files
from ruzgalt.errors import Misfit
from ruzgalt.report import picks
from ruzgalt.report.picks import Pick
from ruzgalt.report.shown import Look
from ruzgalt.script.forms import POINTS, is_integer, printed, read_point
from ruzgalt.script.records import short, to_text
from ruzgalt.script.schemas import Column, Kind, Table

MEMORY = ":memory:"
# Texts, names in their three kinds of quotes, and comments.
QUOTED = re.compile(r"'(?:[^']|'')*'|\"(?:[^\"]|\"\")*\"|`[^`]*`|\[[^\]]*\]|--[^\n]*|/\*.*?\*/", re.DOTALL)
SQL = re.compile(r"\s*(?:select|with|insert|update|delete|create|drop|alter|pragma|vacuum)\s", re.IGNORECASE)
# What a view is called that has the records of a table which hold on a day.
OF_DAY = "{}_day"


class Wishes(NamedTuple):
    """Whether tables of these names are replaced, whether an end in the year 9999 is NULL, and the day of views."""

    is_replacing: bool = False
    has_null: bool = False
    day: Optional[str] = None


def refuse_words(name: str, wishes: Wishes, queries: Sequence[str]) -> None:
    """Refuses wrong words before anything is read or opened."""
    if picks.is_pick(name):
        raise Misfit(f"{name}: the DATABASE is missing: it comes after SCRIPT, and before the first PICK")
    if not name.strip() or SQL.match(name):
        raise Misfit(f"{short(name)}: not the name of a DATABASE, which comes after SCRIPT; give SQL by --query")
    if wishes.day is not None and read_point(wishes.day) is None:
        raise Misfit(f"--day {short(wishes.day)}: not a date or time, such as {POINTS}")
    if not all(query.strip("; \t\r\n") for query in queries):
        raise Misfit("--query: the query is empty")


@contextmanager
def opened(name: str) -> Iterator[sqlite3.Connection]:
    """Yields the database in one transaction. A new file is made elsewhere, and moved at the end."""
    try:
        if name == MEMORY or Path(name).exists():
            with transaction(name) as database:
                yield database
        else:
            with files.whole([Path(name)], False) as [path], transaction(str(path)) as database:
                yield database
    except sqlite3.Error as error:
        raise Misfit(f"{error} ({name})") from None


@contextmanager
def transaction(name: str) -> Iterator[sqlite3.Connection]:
    with closing(sqlite3.connect(name, isolation_level=None)) as database:
        database.execute("begin immediate")
        yield database
        if not database.in_transaction:
            raise Misfit("--query: a query ended the transaction: leave out commit and rollback")
        database.execute("commit")


def make_tables(found: Sequence[Pick], database: sqlite3.Connection, wishes: Wishes) -> List[str]:
    """A table for each answer. Numbers are integers, all else is text. With a day, views of what holds then.

    None is made if one of their names exists and isn't replaced. Returns the columns of numbers that are texts there.
    """
    if not wishes.is_replacing:
        refuse_present(found, database, wishes.day is not None)
    texts: List[str] = []
    for pick in found:
        texts.extend(make_table(pick, database, wishes.has_null))
        if wishes.day is not None and has_period(pick):
            make_view(pick, database, wishes.day)
    return texts


def make_table(pick: Pick, database: sqlite3.Connection, has_null: bool) -> Iterator[str]:
    table, name = pick.answer.table, quoted(pick.name)
    typed = list(zip(table.columns, kinds(table)))
    declared = ", ".join(f"{quoted(column.name)} {kind}" for column, kind in typed)
    database.execute(f"drop table if exists {name}")
    database.execute(f"create table {name} ({declared})")
    # SQLite turns a number's text into an integer where the column is one.
    places = ", ".join("?" * len(table.columns))
    database.executemany(f"insert into {name} values ({places})", table.records)
    if has_null and has_period(pick):
        database.execute(f"update {name} set valid_to = null where valid_to >= '9999'")
    return (f"{pick.name}.{column.name}" for column, kind in typed if column.kind is Kind.INT and kind == "text")


def has_period(pick: Pick) -> bool:
    return "valid_to" in pick.answer.table.names


def make_view(pick: Pick, database: sqlite3.Connection, point: str) -> None:
    """The records of a table that hold at the point."""
    name, view = quoted(pick.name), quoted(OF_DAY.format(pick.name))
    day = f"'{printed(point)}'"
    holds = f"valid_from <= {day} and ({day} < valid_to or valid_to is null)"
    database.execute(f"drop view if exists {view}")
    database.execute(f"create view {view} as select * from {name} where {holds}")


def refuse_present(found: Sequence[Pick], database: sqlite3.Connection, has_views: bool) -> None:
    """Refuses names that the database has. It doesn't distinguish capitals and small letters in names."""
    present = {name.casefold() for name, in database.execute("select name from sqlite_master")}
    names = [pick.name for pick in found]
    names.extend(OF_DAY.format(pick.name) for pick in found if has_views and has_period(pick))
    for name in names:
        if name.casefold() in present:
            raise Misfit(f"{name} is already in the database, so no table was made: --replace replaces it")


def listing(found: Sequence[Pick]) -> str:
    """The tables that were made, and how many rows each has."""
    return to_text([["table", "rows"], *([pick.name, str(len(pick.answer.table.records))] for pick in found)])


def kinds(table: Table) -> List[str]:
    """The kinds of the table's columns in SQLite, which has no integer for the longest sums: they are texts."""
    numbers = [place for place, column in enumerate(table.columns) if column.kind is Kind.INT]
    # No shorter number is past an integer's limits.
    texts = ((place, record[place] or "") for record in table.records for place in numbers)
    longest = {place for place, text in texts if len(text) > 18 and not is_integer(text)}
    return ["integer" if place in numbers and place not in longest else "text" for place in range(len(table.columns))]


def quoted(name: str) -> str:
    return '"' + name.replace('"', '""') + '"'


def shown(answers: Sequence[Table], look: Look) -> str:
    """Returns the answers to queries as a person reads them; nothing of a query without an answer."""
    look.refuse_strangers(*answers)
    return "".join(to_text([table.names, *table.texts()]) for table in map(look.of, answers) if table.columns)


def ask(database: sqlite3.Connection, query: str, made: Sequence[Pick]) -> Table:
    """Returns the answer to a query. Each column may have numbers, since SQLite gives no kinds.

    If SQLite refuses it, the message names the tables and their columns.
    """
    try:
        found = database.execute(with_names(query))
        columns = [Column(name, Kind.INT) for name, *_ in found.description or ()]
        return Table(columns, [list(map(printed_field, row)) for row in found])
    except sqlite3.OperationalError as error:
        tables = "; ".join(f"{pick.name}({', '.join(pick.answer.table.names)})" for pick in made)
        missing = re.fullmatch("no such column: (.*)", str(error), re.DOTALL)
        is_quoted = missing is not None and quoted(missing[1]) in query
        remedy = "; put a text in single quotes" if is_quoted else ""
        raise Misfit(f"--query: {error}{remedy}; the tables are {short(tables)}") from None


def printed_field(field: object) -> str:
    if isinstance(field, bytes):
        return field.decode("utf-8", "surrogateescape")
    return "" if field is None else str(field)


def with_names(query: str) -> str:
    """The query with names in backquotes where they are in double ones.

    SQLite takes a name in double quotes for a text if no column has that name, so a misspelt one would be
    an answer. Not all versions of Python can have it refuse that; in backquotes it is always a name.
    """
    return QUOTED.sub(lambda found: in_backquotes(found[0]) if found[0].startswith('"') else found[0], query)


def in_backquotes(name: str) -> str:
    return "`" + name[1:-1].replace('""', '"').replace("`", "``") + "`"
