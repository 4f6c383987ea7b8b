"""Divisions with their rows' periods and values, a division for each group of rows, and counts of parts."""
from typing import Dict, Iterable, Iterator, List, NamedTuple, Optional, Sequence, Tuple

from ruzgalt.errors import Misfit
from ruzgalt.script import run
from ruzgalt.script.answers import Answer
from ruzgalt.script.run import Past, Version
from ruzgalt.script.schemas import DIVISION, PERIOD, Column, Kind, Schema, Table, ints, unique

Values = Tuple[str, ...]
COUNTS = [*ints("rows", "parts"), Column("instant", Kind.POINT)]


class Group(NamedTuple):
    """Rows of equal values in some columns, by rising id."""

    values: Values
    rows: List[Version]


def with_rows(past: Past, answer: Answer) -> Table:
    """Returns the records of a division, each with its row's period and values."""
    by_id = {str(row.row_id): row for row in rows_of(past, answer)}
    records = [[*record, *fields_of(by_id[record[1]])] for record in answer.table.texts()]
    return Table(unique([*DIVISION, *PERIOD, *answer.schema.columns]), records)


def by_groups(past: Past, answer: Answer, names: Sequence[str]) -> Table:
    """Returns the division of each group of equal values in these columns, which the program makes of the group's rows.

    Groups are by their values, columns from the left and numbers by size.
    """
    found = ((group.rows[int(place) - 1], part, instant) for group, division in of_groups(past, answer, names)
             for part, place, instant in division.texts())
    records = [[part, str(row.row_id), instant, *fields_of(row)] for row, part, instant in found]
    return Table(unique([*DIVISION, *PERIOD, *answer.schema.columns]), records)


def of_groups(past: Past, answer: Answer, names: Sequence[str]) -> Iterator[Tuple[Group, Table]]:
    """Yields each group of equal values in these columns with its division, whose ids are 1, 2, 3 and so on."""
    groups = groups_of(rows_of(past, answer), answer.schema, names)
    trials = run.tried(past.program, ([
        ["table", f"g{number}"], ["load", f"g{number}"], *(["row", row.start, row.end] for row in group.rows), ["end"],
        ["dip", f"g{number}"],
    ] for number, group in enumerate(groups)))
    return ((group, found[-1].table) for group, found in zip(groups, trials))


def rows_of(past: Past, answer: Answer) -> List[Version]:
    """Returns the rows that a division divides."""
    refuse_others(answer)
    return past.versions(answer.command.front[1]).at(answer.commit)


def counted(answer: Answer) -> Table:
    """How many rows and parts a division has, and its instant, as one record."""
    refuse_others(answer)
    return Table(COUNTS, [counts_of(answer.table)])


def counted_by_groups(past: Past, answer: Answer, names: Sequence[str]) -> Table:
    """Returns the same of each group's division, with the group's values. Groups are by their values."""
    records = [[*counts_of(division), *group.values] for group, division in of_groups(past, answer, names)]
    columns = (answer.schema.columns[answer.schema.index_of(name)] for name in names)
    return Table(unique([*COUNTS, *columns]), records)


def counts_of(division: Table) -> List[Optional[str]]:
    """Rows, parts, and the instant, which a division without rows hasn't."""
    records = list(division.texts())
    parts = {part for part, _, _ in records}
    return [str(len(records)), str(len(parts)), records[0][2] if records else None]


def refuse_others(answer: Answer) -> None:
    if answer.command.word != "dip":
        raise Misfit(f"{answer.shown}: not a division: ask by `dip`")


def fields_of(row: Version) -> List[str]:
    return [row.start, row.end, *row.values]


def groups_of(rows: Iterable[Version], schema: Schema, names: Sequence[str]) -> List[Group]:
    """Returns the groups by their values, columns from the left and numbers by size."""
    places = [schema.index_of(name) for name in names]
    found: Dict[Values, List[Version]] = {}
    for row in rows:
        found.setdefault(tuple(row.values[place] for place in places), []).append(row)
    columns = [schema.columns[place] for place in places]
    is_int = [column.kind is Kind.INT for column in columns]
    by_size = sorted(found, key=lambda values: [int(one) if number else one for number, one in zip(is_int, values)])
    return [Group(values, found[values]) for values in by_size]
