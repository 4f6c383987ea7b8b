"""What really changed between two answers, and by each commit of a table; which commit was the newest at a point."""
from bisect import bisect_left, bisect_right
from collections import Counter, defaultdict
from typing import (
    Callable, Counter as Counts, DefaultDict, Dict, Iterable, Iterator, List, NamedTuple, Optional, Sequence, Tuple,
    TypeVar,
)

from ruzgalt.errors import Misfit
from ruzgalt.script import refusals, schemas
from ruzgalt.script.answers import Answer
from ruzgalt.script.commands import CHANGES, Answered
from ruzgalt.script.forms import at_second, print_point, printed, seconds
from ruzgalt.script.records import short
from ruzgalt.script.run import Version, Versions
from ruzgalt.script.schemas import PERIOD, Column, Kind, Schema, Table, ints, refuse_other_kinds, unique

# Ids are new after each change, so they aren't compared.
IDS = {Answered.ROWS: ("row_id",), Answered.PAIRS: ("left_id", "right_id"), Answered.STEPS: ()}
CHANGE = [Column("change", Kind.TEXT), *PERIOD]
# A start, an end, and values.
Held = Tuple[str, str, Tuple[str, ...]]


def between(before: Answer, after: Answer) -> Table:
    """Returns `-` with the time when values held before and don't now, and `+` the other way round."""
    kept = compared(before), compared(after)
    names = [",".join(column.name for column in columns) for columns, _ in kept]
    both = f"{before.where} and {after.where}: {short(before.command.text)} and {short(after.command.text)}"
    if names[0] != names[1]:
        remedy = "ask one question of two commits, or of two tables of the same columns"
        raise Misfit(f"{both}: {names[0]} can't be compared with {names[1]}: {remedy}")
    refuse_other_kinds(both, *(columns for columns, _ in kept))
    if point_of(before) != point_of(after):
        raise Misfit(f"{both}: an `at` is of one point only: ask both for the same, or both by `rows`")
    is_aggregate = before.command.form.answered is Answered.STEPS
    found = sorted(changes(kept[0][1], kept[1][1]), key=order(kept[0][0], is_aggregate))
    return Table(unique([*CHANGE, *kept[0][0]]), found)


def point_of(answer: Answer) -> Optional[str]:
    return printed(answer.command.front[2]) if answer.command.word == "at" else None


def compared(answer: Answer) -> Tuple[List[Column], List[Held]]:
    """Returns the columns that are compared, and of each record the period and the values."""
    ids = IDS.get(answer.command.form.answered)
    if ids is None:
        raise Misfit(f"{answer.shown}: its records aren't periods with values, so they can't be compared")
    table = answer.table
    start = table.names.index("valid_from")
    left_out = {start, start + 1, *map(table.names.index, ids)}
    places = [place for place in range(len(table.columns)) if place not in left_out]
    # Before and after the second of an `at` nothing is known.
    point = point_of(answer)
    second = (point, print_point(at_second(seconds(point) + 1))) if point and table.records else ("", "")
    held = [
        (*(second if point else (record[start], record[start + 1])), tuple(record[place] for place in places))
        for record in table.texts()
    ]
    return [table.columns[place] for place in places], held


def order(columns: Sequence[Column], is_aggregate: bool = False) -> Callable[[List[str]], Tuple[object, ...]]:
    """Returns the key that sorts changes by values and start; an aggregate's by group and start."""
    is_int = [column.kind is Kind.INT for column in columns]

    def key(change: List[str]) -> Tuple[object, ...]:
        sign, start, _, *texts = change
        values = tuple(int(text) if number else text for number, text in zip(is_int, texts))
        # `-` comes first, though its character comes after `+`.
        return (*values[:-1], start, sign == "+", values[-1]) if is_aggregate else (*values, start)

    return key


def changes(before: Iterable[Held], after: Iterable[Held]) -> Iterator[List[str]]:
    """Yields the periods when one answer has more records of some values than the other."""
    steps: DefaultDict[Tuple[str, ...], Counts[str]] = defaultdict(Counter)
    for sign, rows in ((-1, before), (1, after)):
        for start, end, values in rows:
            steps[values][start] += sign
            steps[values][end] -= sign
    for values, step in steps.items():
        # The texts of points are in the order of time.
        points = sorted(point for point in step if step[point])
        more = 0
        for start, end in zip(points, points[1:]):
            more += step[start]
            yield from [["+" if more > 0 else "-", start, end, *values]] * abs(more)


# How many commits without a day are named.
COMMITS = 5
# The first days of a diary, each with the newest commit from then on.
Days = List[Tuple[str, int]]


class Entry(NamedTuple):
    """A change by a commit: `-` or `+`, the period and the values; and the day of the commit by a diary."""

    commit: int
    day: Optional[str]
    change: List[str]


class History(NamedTuple):
    """The changes of a table by commit, possible mistakes in the diary, and whether no row ever had the values."""

    entries: List[Entry]
    doubts: List[str]
    is_of_none: bool


def history(
    versions: Versions, wanted: Sequence[Tuple[int, str]], commits: range, days: Optional[Days] = None,
    is_retroactive: bool = False,
) -> History:
    """Returns what these commits changed of rows with these values.

    is_retroactive: Only of the time before the day of the commit, cut there.
    """
    found = list(changes_of(versions.schema, versions.all, wanted))
    entered = entered_on(days or [], (commit for commit, _ in found))
    without, doubts = [commit for commit, day in entered.items() if day is None and days is not None], []
    if without:
        more = f" and {len(without) - COMMITS} more" if len(without) > COMMITS else ""
        some = f"{', '.join(map(str, without[:COMMITS]))}{more}"
        doubts = [f"commits without a day, which --retroactive leaves out: {some}"]
    entries = [Entry(commit, entered[commit], change) for commit, change in found if commit in commits]
    if is_retroactive:
        entries = [
            Entry(commit, day, [sign, start, min(end, day), *values])
            for commit, day, (sign, start, end, *values) in entries if day is not None and start < day
        ]
    return History(entries, doubts, bool(wanted and not found))


def changes_of(
    schema: Schema, versions: Sequence[Version], wanted: Sequence[Tuple[int, str]],
) -> Iterator[Tuple[int, List[str]]]:
    """Yields what each commit changed of the rows that have these values."""
    sides: DefaultDict[int, Tuple[List[Held], List[Held]]] = defaultdict(lambda: ([], []))
    for version in versions:
        if schemas.has_values(version.values, wanted):
            held = version.start, version.end, version.values
            sides[version.made][1].append(held)
            if version.closed is not None:
                sides[version.closed][0].append(held)
    for commit, (before, after) in sorted(sides.items()):
        yield from ((commit, change) for change in sorted(changes(before, after), key=order(schema.columns)))


def of_table(answers: Sequence[Answer], schema: Schema, entries: Sequence[Entry], has_days: bool) -> Table:
    """Returns a history as a table, with the line of each change in the script."""
    lines = {one.commits: one.where for one in answers if not one.refusal and one.command.word in CHANGES}
    day = [Column("entered", Kind.POINT)] * has_days
    columns = unique([*ints("commit"), Column("place", Kind.TEXT), *day, *CHANGE, *schema.columns])
    return Table(columns, [
        [str(one.commit), lines[one.commit], *([one.day] * has_days), *one.change] for one in entries
    ])


# Diaries.

def schema_of(found: Sequence[Answer], name: str) -> Schema:
    """Returns a table at the script's end. Raises Misfit if it isn't there."""
    tables = found[-1].tables if found else {}
    if name not in tables:
        there = f"the tables are {', '.join(tables)}" if tables else "the script has none"
        raise Misfit(f"{name}: no such table; {there}")
    return tables[name]


def refuse_no_commits(schema: Schema) -> None:
    if not schema.columns or schema.columns[0].kind is not Kind.INT:
        must = "a diary's first column must be an int, the newest commit from a row's start on"
        raise Misfit(f"{schema.name}: {must}")


def days_in(diary: Versions) -> Days:
    return days_of(diary.schema, ((one.start, one.end, *one.values) for one in diary.all if one.closed is None))


def days_of(schema: Schema, rows: Iterable[Sequence[str]]) -> Days:
    """Returns the days of a diary, by rows of start, end and values. One with 0 is of no commit's day."""
    refuse_no_commits(schema)
    return sorted((start, int(newest)) for start, _, newest, *_ in rows if int(newest))


def strange_commits(days: Days, newest: int) -> Iterator[str]:
    """Names a commit of a diary that isn't there."""
    strange = [number for _, number in days if not 0 <= number <= newest]
    if strange:
        yield f"it names commit {strange[0]}, which doesn't exist: the newest is {newest}"


def steps_back(days: Days) -> Iterator[str]:
    """Names a commit that is the newest from a day on, though a later one was before that."""
    for (_, before), (day, commit) in zip(days, days[1:]):
        if commit < before:
            yield f"commit {commit} is the newest from {day} on, but {before} before that"


def entered_on(days: Days, commits: Iterable[int]) -> Dict[int, Optional[str]]:
    """Returns for commits in their order the first day on which each was there."""
    newest: List[int] = []
    for _, commit in days:
        newest.append(max(commit, newest[-1] if newest else 0))
    places = ((commit, bisect_left(newest, commit)) for commit in commits)
    return {commit: days[place][0] if place < len(days) else None for commit, place in places}


Point = TypeVar("Point", str, int)


def newest_at(days: Sequence[Point], commits: Sequence[int], point: Point) -> Optional[int]:
    """Returns the newest commit at a point, from days in their order; of several on one day the last counts."""
    place = bisect_right(days, point)
    return commits[place - 1] if place else None


def commits_at(diary: Answer, points: Iterable[str]) -> Dict[str, int]:
    """Returns for each point the commit that was the newest then, by the rows of a diary after the script.

    Raises Misfit if the table isn't a diary, or has no row for a point.
    """
    name, rows = diary.command.front[1], [record[1:] for record in diary.table.texts()]
    days = days_of(diary.tables[name], rows)
    for reason in [*strange_commits(days, diary.commits), *steps_back(days)]:
        raise Misfit(f"--diary {name}: {reason}")
    return {point: commit_at(name, rows, days, point) for point in points}


def commit_at(name: str, rows: Iterable[Sequence[str]], days: Days, point: str) -> int:
    """Returns the newest commit at a point. Raises Misfit if no row has one."""
    wrong, instant = refusals.of_point(point), printed(point)
    if wrong:
        raise Misfit(f"asof {point} {wrong}")
    commit = newest_at([day for day, _ in days], [number for _, number in days], instant)
    if commit is None:
        first = f"the first day in {name} is {days[0][0]}" if days else f"{name} has no day of a commit"
        raise Misfit(f"asof {point}: {first}")
    end = max(end for start, end, newest, *_ in rows if int(newest) == commit and start <= instant)
    if end <= instant:
        last = f"its last row before that, of commit {commit}, ends {end}"
        raise Misfit(f"asof {point}: {name} doesn't say which commit was the newest then: {last}")
    return commit
