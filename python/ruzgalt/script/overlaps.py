"""Rows of one key that hold at one time, for which a change was refused. The program finds them."""
from bisect import bisect_right
from dataclasses import replace
from itertools import islice
from operator import itemgetter
from typing import Dict, Iterable, Iterator, List, NamedTuple, Sequence, Set, Tuple

from ruzgalt.script import run, schemas
from ruzgalt.script.answers import Answer
from ruzgalt.script.commands import Command, where_places
from ruzgalt.script.forms import printed
from ruzgalt.script.records import Block, to_record
from ruzgalt.script.run import Past, Trial, Version, versions_of
from ruzgalt.script.schemas import Table

# How many pairs of rows are listed of one refusal.
PAIRS = 20
Values = Tuple[str, ...]


class Held(NamedTuple):
    """A row with its period, its values, and where it comes from, for a person."""

    start: str
    end: str
    values: Values
    origin: str


class Loaded(NamedTuple):
    """A row of a load: the line on which it begins, its period as the program prints it, and its values."""

    line: int
    start: str
    end: str
    values: Values


def rows_of(load: Command) -> Iterator[Loaded]:
    if isinstance(load.block, Block):
        for line, (_, start, end, *values) in load.block.numbered():
            yield Loaded(line, printed(start), printed(end), tuple(values))


# What a refused change would have done: the rows that it adds, and the ids of the rows that it closes.
Change = Tuple[List[Held], Set[int]]


def explained(past: Past, refused: Sequence[Answer]) -> Dict[int, List[str]]:
    """Returns for each load or update that was refused for a key, by its number, the rows: lines for a person."""
    refused = [answer for answer in refused if answer.refused.name == "KeyOverlap"]
    past.ask(*(versions_of(answer.schema.name) for answer in refused))
    changes = changes_of(past, refused)
    cases = [groups_of(past, answer, *changes[answer.number]) for answer in refused]
    counted = zip(refused, cases, crowded(past.program, cases))
    return {answer.number: list(lines_of(answer, groups, counts)) for answer, groups, counts in counted}


def changes_of(past: Past, refused: Sequence[Answer]) -> Dict[int, Change]:
    """Returns what each refused change would have done. The program tries updates on a table without the key."""
    found: Dict[int, Change] = {}
    updates: List[Tuple[Answer, List[Version]]] = []
    for answer in refused:
        texts, record = answer.command.record.fields, answer.command.record
        if answer.command.word == "load":
            found[answer.number] = [
                Held(one.start, one.end, one.values, answer.where if record.is_asked else f"line {one.line}")
                for one in rows_of(answer.command)
            ], set()
        else:
            wanted = [(answer.schema.index_of(texts[place]), texts[place + 1]) for place in where_places(texts)]
            rows = past.versions(answer.schema.name).at(answer.commits)
            updates.append((answer, [one for one in rows if schemas.has_values(one.values, wanted)]))
    for (answer, rows), tried in zip(updates, run.tried(past.program, (updating(*one) for one in updates))):
        found[answer.number] = updated(answer, rows, tried[-1].table)
    return found


def updating(answer: Answer, rows: Sequence[Version]) -> Trial:
    """Returns a script that loads these rows, updates them, and lists all versions."""
    schema = replace(answer.schema, name=f"t{answer.number}", key=())
    loaded = (["row", row.start, row.end, *row.values] for row in rows)
    update, _, *others = answer.command.record.fields
    change = [[update, schema.name, *others], versions_of(schema.name).split(",")]
    return [schema.fields, ["load", schema.name], *loaded, ["end"], *change]


def updated(answer: Answer, rows: Sequence[Version], listed: Table) -> Change:
    """Returns what an update does to rows, which have the ids 1, 2, 3 and so on in this list of versions.

    New rows are in the order of the rows that they replace. The last one that replaces a row ends where that one ends.
    """
    added: List[Held] = []
    closed: Set[int] = set()
    records = list(listed.texts())
    new = iter(records[len(rows):])
    for row, (_, _, end, _, is_closed, *_) in zip(rows, records):
        if is_closed:
            closed.add(row.row_id)
            for _, start, last, _, _, *values in new:
                added.append(Held(start, last, tuple(values), f"{answer.where} in place of row {row.row_id}"))
                if last == end:
                    break
    return added, closed


def groups_of(past: Past, answer: Answer, added: Sequence[Held], closed: Set[int]) -> List[List[Held]]:
    """Returns the rows that the change would leave for each value of the key that it adds rows of."""
    key_of = itemgetter(*answer.schema.key)
    groups: Dict[object, List[Held]] = {}
    for row in added:
        groups.setdefault(key_of(row.values), []).append(row)
    # A refused command changes nothing.
    for one in past.versions(answer.schema.name).at(answer.commits):
        group = groups.get(key_of(one.values))
        if group is not None and one.row_id not in closed:
            group.append(Held(one.start, one.end, one.values, f"row {one.row_id}, made by commit {one.made}"))
    return list(groups.values())


def crowded(program: str, cases: Iterable[Sequence[Sequence[Held]]]) -> Iterator[Table]:
    """Yields for each case how many rows of each group hold over time. The program counts them."""
    trials: List[Trial] = []
    for number, groups in enumerate(cases):
        name = f"t{number}"
        rows = (["row", one.start, one.end, str(place)] for place, group in enumerate(groups) for one in group)
        trials.append([["table", name, "n", "int"], ["load", name], *rows, ["end"], ["agg", name, "count", "by", "n"]])
    return (tried[-1].table for tried in run.tried(program, trials))


def pairs(groups: Sequence[Sequence[Held]], counts: Table) -> Iterator[Tuple[Held, Held]]:
    """Yields pairs of rows of a group. Both hold when the second begins."""
    spans: List[List[Tuple[str, str]]] = [[] for _ in groups]
    for number, start, end, count in counts.texts():
        if int(count) > 1:
            spans[int(number)].append((start, end))
    for group, own in zip(groups, spans):
        ordered = sorted(group, key=itemgetter(0)) if own else []
        for place, row in enumerate(ordered):
            # A time that begins with the row comes before such a one without an end.
            span = bisect_right(own, (row.start, "~")) - 1
            if span >= 0 and row.start < own[span][1]:
                yield from ((other, row) for other in ordered[:place] if row.start < other.end)


def lines_of(answer: Answer, groups: Sequence[Sequence[Held]], counts: Table) -> Iterator[str]:
    """Yields for each pair of rows a line with the key and the time, and a line for each row."""
    schema = answer.schema
    found = pairs(groups, counts)
    for one, other in islice(found, PAIRS):
        key = ", ".join(f"{schema.names[index]} {to_record([one.values[index]])}" for index in schema.key)
        yield f"{key}: both hold from {other.start} to {min(one.end, other.end)}"
        yield from (f"  {row.origin}: {to_record([row.start, row.end, *row.values])}" for row in (one, other))
    if next(found, None):
        yield "and more pairs of rows"
