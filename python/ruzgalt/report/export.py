"""Answers as CSV, for a spreadsheet too, as JSON, and as a table and a load of another script."""
import csv
import io
import json
import re
from functools import partial
from itertools import chain, islice
from pathlib import Path
from typing import Any, Callable, Dict, Iterator, List, NamedTuple, Sequence, Tuple

from ruzgalt import files
from ruzgalt.errors import Misfit
from ruzgalt.report.picks import Pick
from ruzgalt.script.answers import Answer, Listed
from ruzgalt.script.changes import IDS
from ruzgalt.script.forms import NAME_HAS, is_integer, is_name
from ruzgalt.script.records import BYTE_ORDER_MARK, PIECE, encode, is_seen, short, to_record, to_text, visible
from ruzgalt.script.schemas import MOST_COLUMNS, PERIOD, Column, Kind, Schema, Table

Pieces = Iterator[bytes]


def in_pieces(records: Iterator[Any], printed: Callable[[List[Any]], str]) -> Pieces:
    """Yields the bytes of records, so many at a time."""
    piece = list(islice(records, PIECE))
    while piece:
        yield encode(printed(piece))
        piece = list(islice(records, PIECE))


def to_csv(table: Table) -> Pieces:
    """The table with a header, by pieces."""
    yield encode(to_text([table.names]))
    if isinstance(table.records, Listed) and table.records.has_lines:
        yield from table.records.lines()
    else:
        yield from in_pieces(table.texts(), to_text)


def to_folder(picks: Sequence[Pick], folder: Path, is_replacing: bool, printed: Callable[[Table], Pieces]) -> None:
    """Writes a file NAME.csv for each answer.

    None is written if one of them exists and isn't replaced.
    """
    places = [folder / f"{pick.name}.csv" for pick in picks]
    for pick, file in zip(picks, places):
        if "/" in pick.name or pick.name.startswith(".") or not all(map(is_seen, pick.name)):
            raise Misfit(f"{visible(pick.name)}: not a file's name")
        refuse_present(file, is_replacing, "no file")
    folder.mkdir(parents=True, exist_ok=True)
    with files.whole(places, is_replacing) as paths:
        for pick, path in zip(picks, paths):
            with path.open("wb") as written:
                written.writelines(printed(pick.answer.table))


def refuse_present(file: Path, is_replacing: bool, what: str) -> None:
    if file.exists() and not is_replacing:
        raise Misfit(f"{file} already exists, so {what} was written: --replace replaces it")


def to_json(picks: Sequence[Pick]) -> str:
    return json.dumps([as_object(pick) for pick in picks], indent=1, ensure_ascii=False) + "\n"


def as_object(pick: Pick) -> Dict[str, Any]:
    answer, table, record = pick.answer, pick.answer.table, pick.answer.command.record
    return {
        "name": pick.name, "number": answer.number, "line": answer.line, "record": record.number,
        "command": list(record.fields),
        "columns": [{"name": column.name, "kind": column.kind.value} for column in table.columns],
        "records": [dict(zip(table.names, values)) for values in table.values()],
    }


def listing(answers: Sequence[Answer]) -> str:
    """Returns a record for each answer: its number, line, record, result and command."""
    header = ["number", "line", "record", "answer", "records", "command"]
    return to_text([header, *map(listed, answers)])


def listed(answer: Answer) -> List[str]:
    command = answer.command
    what, count = command.word, str(len(answer.table.records))
    if answer.refusal:
        what, count = answer.refusal.name, ""
    elif answer.table.names == ["commit"]:
        # A block makes no commit: it says which one its queries read.
        is_block = command.word == "together"
        what, count = f"{'together' if is_block else 'commit'} {answer.table.records[0][0]}", ""
    elif command.word == "check":
        what = " ".join(field for field in answer.table.records[0] if field is not None)
    return [str(answer.number), str(command.line), str(command.record.number), what, count, command.text]


FORMULA = re.compile("(?![+-]\\Z)(?:[=+@\t\r\n\uff1d\uff0b\uff0d\uff20]|-(?!\\d+(?:[.,]\\d+)?\\Z))", re.ASCII)
# The bytes of records have one of these if a field may begin so: a rare sign, or a minus after the end of a field that
# isn't a number's. In quotes a number may continue after its comma, so any minus counts.
SIGNS = (b"=", b"+", b"@", b"\t", b"\r", b"\xef\xbc")
MINUSES = (b",-", b'"-', b"\n-")
MAY_RUN = re.compile(rb"[,\n](?:\"?(?:[=+@\t\r]|\xef\xbc[\x8b\x8d\x9d\xa0])|\"-|-(?!\d+[,\n]))")
GUARD = "'"


def run_in(table: Table) -> List[str]:
    """Returns the fields of a table that a spreadsheet would run. Numbers and points never begin so."""
    places = text_places(table)
    if not places or not may_run(table):
        return []
    return list(filter(FORMULA.match, (record[place] or "" for record in table.records for place in places)))


def may_run(table: Table) -> bool:
    """Returns whether some field may be a formula, from the bytes if each record is a line of the answers."""
    records = table.records
    if not isinstance(records, Listed) or not records.has_lines:
        return True
    pieces = (b"\n" + piece for piece in records.lines())
    return any(any(sign in piece for sign in (*SIGNS, *MINUSES)) and MAY_RUN.search(piece) for piece in pieces)


def text_places(table: Table) -> List[int]:
    return [place for place, column in enumerate(table.columns) if column.kind is Kind.TEXT]


def to_spreadsheet(table: Table, is_german: bool) -> Iterator[bytes]:
    """The table with a header, by pieces; for a German spreadsheet with semicolons."""
    yield BYTE_ORDER_MARK
    places = text_places(table)
    records = chain([table.names], (guarded(record, places) for record in table.texts()))
    yield from in_pieces(records, partial(to_lines, mark=";" if is_german else ","))


def guarded(record: List[str], places: Sequence[int]) -> List[str]:
    for place in places:
        if FORMULA.match(record[place]):
            record[place] = GUARD + record[place]
    return record


def to_lines(records: Sequence[Sequence[str]], mark: str) -> str:
    text = io.StringIO()
    csv.writer(text, delimiter=mark, lineterminator="\r\n").writerows(records)
    return text.getvalue()


class Wish(NamedTuple):
    """The table's name; the columns that it has, each with its name there; its key; whether it has ids."""

    table: str
    columns: Sequence[Tuple[str, str]] = ()
    key: Sequence[str] = ()
    has_ids: bool = False


def pieces(answer: Answer, wish: Wish) -> Iterator[bytes]:
    """The records of the table and of its load, in the order of the answer's."""
    places, schema = schema_of(answer, wish)
    start = answer.table.index_of(PERIOD[0].name)
    numbers = [place for place, column in zip(places, schema.columns) if column.kind is Kind.INT]
    yield encode(f"{to_record(schema.fields)}\nload,{schema.name}\n")
    records = (refuse_long_numbers(answer, record, numbers) for record in answer.table.texts())
    rows = (["row", *record[start:start + 2], *(record[place] for place in places)] for record in records)
    yield from in_pieces(rows, to_text)
    yield b"end\n"


def schema_of(answer: Answer, wish: Wish) -> Tuple[List[int], Schema]:
    """Returns the indices of the columns that are taken, and the table that they make."""
    refuse_others(answer)
    if not is_name(wish.table):
        raise Misfit(f"--table {visible(wish.table)}: not a table's name, which has {NAME_HAS}")
    named = wish.columns or [(name, name) for name in own_names(answer, wish.has_ids)]
    places = [answer.table.index_of(name) for name, _ in named]
    names = [name for _, name in named]
    refuse_names(names)
    for name in wish.key:
        if name not in names:
            raise Misfit(f"--key {short(name)}: not one of the table's columns {', '.join(names)}")
        if wish.key.count(name) > 1:
            raise Misfit(f"--key {name}: given twice")
    # A point is a text there.
    are_int = (answer.table.columns[place].kind is Kind.INT for place in places)
    columns = (Column(name, Kind.INT if is_int else Kind.TEXT) for name, is_int in zip(names, are_int))
    return places, Schema(wish.table, tuple(columns), tuple(map(names.index, wish.key)))


def refuse_others(answer: Answer) -> None:
    """Refuses an answer whose records have no period, or are of several commits."""
    if answer.command.form.answered not in IDS:
        remedy = "ask by `rows`, `at`, `join`, `anti` or `agg`"
        raise Misfit(f"{answer.shown}: its records aren't rows of one commit: {remedy}")


def own_names(answer: Answer, has_ids: bool) -> List[str]:
    """Returns the columns besides the period, without the script's ids."""
    left_out = {column.name for column in PERIOD} | set(() if has_ids else IDS[answer.command.form.answered])
    return [name for name in answer.table.names if name not in left_out]


def refuse_names(names: Sequence[str]) -> None:
    """Refuses names that a table's columns can't have."""
    for name in names:
        if not is_name(name):
            why = f"not a column's name, which has {NAME_HAS}"
            raise Misfit(f"{visible(name)}: {why}; --column {visible(name)}=NAME renames it")
        if names.count(name) > 1:
            raise Misfit(f"{name} would be the name of two columns: --column COLUMN=NAME renames one")
    if len(names) > MOST_COLUMNS:
        raise Misfit(f"{len(names)} columns, but a table has {MOST_COLUMNS} at most: choose some by --column")


def refuse_long_numbers(answer: Answer, record: List[str], places: Sequence[int]) -> List[str]:
    """Returns the record. Refuses a sum that no column of a table can have."""
    for place in places:
        if not is_integer(record[place]):
            what = f"{answer.table.names[place]} is {record[place]}, which has more than 64 bits"
            raise Misfit(f"{short(to_record(record))}: {what}, too many for a table")
    return record
