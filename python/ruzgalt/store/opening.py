"""A script as a store: the program reads it once, and its accepted changes are kept."""
from __future__ import annotations

import csv
import os
import re
from pathlib import Path
from typing import Any, Iterator, List, Mapping, Optional, Set, Union

import numpy as np

from ruzgalt.convert import checks, kinds, points
from ruzgalt.convert.arrays import NO_INTS
from ruzgalt.convert.errors import Refused, doubt
from ruzgalt.convert.named import same
from ruzgalt.convert.values import Texts, Values
from ruzgalt.errors import Misfit
from ruzgalt.frames.options import OF_TABLE, options_of
from ruzgalt.kernel.live import unreadable
from ruzgalt.script import answers, commands, naming, refusals
from ruzgalt.script.commands import COMMANDS, NONE
from ruzgalt.script.records import BYTE_ORDER_MARK, Block, Source, long_fields
from ruzgalt.script.schemas import Kind, Schema
from ruzgalt.store import labels, tables
from ruzgalt.store.state import State
from ruzgalt.store.tables import Command, Script, Table

# A script, or the file that has it.
Given = Union[bytes, str, "os.PathLike[str]"]
# The most refused changes that a warning names.
NAMED = 10
# A command that is refused. If it is answered by itself, all commands before it are complete.
LAST_OF_ALL = b"rows\n"
# The bytes that may come before a quote that begins a field, or after one that ends it, or next to one in a field.
NEXT_TO_QUOTES = np.frombuffer(b',\n"', np.uint8)
# What each point with a time has, and other texts seldom.
HOUR = re.compile(rb"T\d\d:")
# A row or a change whose start or end isn't midnight, nor the last second that there is.
TIMES = re.compile(
    rb'(?:^|[\r\n])"?(?:row|(?:update|delete)"?,[^,]*)"?(?:,"?\d{4}-\d\d-\d\d(?:T00:00:00)?"?)?'
    rb',"?(?!9999-12-31T)\d{4}-\d\d-\d\dT(?!00:00:00)'
)


def read(state: State, given: Given, options: Any, diary: Any) -> None:
    """Fills an empty state with a script's accepted changes, and with the labels and days of a diary, if it is named.

    Raises Refused, Stopped; warns of refused changes.
    """
    with_times = fill(state, bytes_of(given))
    schemas = {one.fields[1]: Schema.read(one.fields) for one in state.commands if one.word == "table"}
    refuse_options(options, schemas)
    names = given.names if isinstance(given, Script) else {}
    for name, schema in schemas.items():
        of_table = {"names": names.get(name, {}), **options.get(name, {})}
        state.tables[name] = table_of(schema, of_table, name in with_times)
    if diary is not None:
        cells = state.block(["rows", diary], "-pp" + state.known(diary).readers)
        state.diary = labels.read(schemas[diary], list(cells), state.newest)


def fill(state: State, data: bytes) -> Set[str]:
    """Puts the accepted changes of a script into a state. The program reads it once. Warns of refused changes.

    Returns the names of the tables with times. A last command shows that all before it are complete, and their answers
    too. Raises Refused (Unended), Stopped.
    """
    text = data + b"\n" * (not data.endswith((b"\n", b"\r"))) + LAST_OF_ALL
    begun: List[Command] = []
    with_times: List[bool] = []

    def count() -> int:
        # While the program works. A hash is kept by its bytes.
        begun[:] = plain_commands(text) or all_commands(text)
        with_times[:] = [bool(HOUR.search(one.data) and TIMES.search(one.data)) for one in begun]
        state.loads = {one.data for one in begun if one.word == "load"}
        return len(begun)

    found = state.answers(text, count)
    others = [(one.word, answer) for one, answer in zip(begun, found) if not answer.startswith(b"ok,")]
    # A question may be refused; each other answer is a refused change, or of no command at all.
    if any(answer.startswith(b"error,") and not COMMANDS.get(word, NONE).is_query for word, answer in others):
        warn_of_refused(text, b"".join(found))
    done = [(one, has_times) for one, has_times, answer in zip(begun, with_times, found) if answer.startswith(b"ok,")]
    state.commands = [one for one, _ in done]
    state.loads = {one.data for one in state.commands if one.word == "load"}
    return {one.fields[1] for one, has_times in done if has_times}


def plain_commands(text: bytes) -> Optional[List[Command]]:
    """Returns the commands of a script, or None if it isn't plain. It doesn't read the rows of a load one by one."""
    if not is_plain(text):
        return None
    place, found = 0, []
    while place < len(text):
        end = end_of(b"\n", text, place, place)
        try:
            fields: List[str] = next(csv.reader([text[place:end].decode(errors="surrogateescape")]), [])
        except csv.Error:
            # It has a long field.
            return None
        if fields[:1] in (["together"], ["check"]):
            return None
        if fields[:1] == ["load"]:
            end = end_of(b"\nend\n", text, end, end - 1)
        if fields:
            found.append(Command(fields, text[place:end]))
        place = end
    return found


def is_plain(text: bytes) -> bool:
    """Returns whether each line end after an even number of quotes ends a record, and each `end` is a line."""
    if text.startswith(BYTE_ORDER_MARK) or any(mark in text for mark in (b"\r", b"\0", b'"end"')):
        return False
    cells = np.frombuffer(text, np.uint8)
    quotes = np.flatnonzero(cells == ord('"'))
    # The last byte, a line end, comes before the first one.
    near = np.concatenate([cells[quotes[::2] - 1], cells[quotes[1::2] + 1]])
    return len(quotes) % 2 == 0 and bool(np.isin(near, NEXT_TO_QUOTES).all())


def end_of(mark: bytes, text: bytes, begin: int, place: int) -> int:
    """Returns the end of the first mark, from `place` on, with an even number of quotes between `begin` and it."""
    found = text.find(mark, place)
    while found >= 0 and text.count(b'"', begin, found) % 2:
        found = text.find(mark, found + 1)
    if found < 0:
        raise unended(text)
    return found + len(mark)


def all_commands(text: bytes) -> Iterator[Command]:
    """Yields the commands of any script."""
    with long_fields():
        begun = list(commands.commands(Source(text)))
    if begun[-1].record.fields != ["rows"]:
        raise unended(text)
    for one in begun:
        rows = one.block.bytes() if isinstance(one.block, Block) else b""
        # The script's last line may have no end.
        end = b"\n" if rows and not rows.endswith((b"\n", b"\r")) else b""
        yield Command(list(one.record.fields), tables.record(one.record.fields) + rows + end)


def unended(text: bytes) -> Refused:
    with long_fields():
        last = list(commands.commands(Source(text)))[-1]
    what = "the script ends within a block, or between quotes"
    return Refused("Unended", f"{last.where}: {what}: give all of it, with the block's `end`")


def warn_of_refused(text: bytes, output: bytes) -> None:
    with long_fields():
        try:
            found = answers.of_commands(commands.commands(Source(text)), output)
        except Misfit as misfit:
            raise unreadable(misfit) from None
        refused = [one for one in found[:-1] if one.refusal and not one.command.form.is_query]
        reasons = "; ".join(map(refusals.described, refused[:NAMED]))
    more = f"; and {len(refused) - NAMED} more" if len(refused) > NAMED else ""
    doubt(f"refused changes are left out: {reasons}{more}")


def bytes_of(given: Given) -> bytes:
    if isinstance(given, bytes):
        return given
    wanted = "must be the bytes of a script, or the path of its file"
    if not isinstance(given, (str, os.PathLike)):
        raise checks.wrong("script", given, wanted)
    try:
        return Path(given).read_bytes()
    except (OSError, ValueError) as error:
        raise checks.wrong("script", given, f"{getattr(error, 'strerror', None) or error}; {wanted}") from None


def refuse_options(options: Any, schemas: Mapping[str, Schema]) -> None:
    """Raises Refused if options aren't a dict of dicts, or a table doesn't exist."""
    if not isinstance(options, Mapping) or not all(isinstance(one, Mapping) for one in options.values()):
        wanted = "must be a dict of tables, each with a dict, such as {'pay': {'open_end': True}}"
        raise checks.wrong("options", options, wanted)
    for name in options:
        if name not in schemas:
            raise Refused("NoTable", f"options= has {name!r}, but the script's tables are {', '.join(schemas)}")


def table_of(schema: Schema, given: Mapping[str, Any], has_times: bool) -> Table:
    """Returns a table of the script, with the options of its frames. Raises Refused."""
    of_frames = {option: value for option, value in given.items() if option != "names"}
    for word in of_frames:
        if word not in OF_TABLE:
            reason = f"the options of a table are {', '.join([*OF_TABLE, 'names'])}"
            raise Refused("BadCommand", f"options= of {schema.name} has {word!r}, but {reason}")
    options = options_of(**of_frames)
    names = names_of(schema, given["names"])
    kind_of = dict(zip(names, (column.kind for column in schema.columns)))
    for name in options.decimals:
        if kind_of.get(name) is not Kind.INT:
            raise Refused("NoColumn", f"decimals= needs a column of numbers; {schema.name} has none of this name", name)
    columns = {}
    for name, kind in kind_of.items():
        digits = options.decimals.get(name)
        dtype = np.dtype("int64") if kind is Kind.INT and digits is None else np.dtype(object)
        columns[name] = Values(name, kind.value, NO_INTS, Texts(), dtype, digits)
    key = [names[place] for place in schema.key]
    if has_times and options.form.has_last_days:
        reason = f"{schema.name} has points with times, so its ends can't be last days: leave out last_day=True"
        raise Refused("BadPoint", reason)
    words, kind_of_points = dict(zip(names, schema.names)), kinds.Kind("S" if has_times else "D")
    return tables.checked(Table(
        schema.name, columns, key, options, words, kind_of_points, points.FIRST, points.NO_END
    ))


def names_of(schema: Schema, given: Any) -> List[Any]:
    """Returns the names of the columns in frames, by names=. Raises Refused."""
    if not isinstance(given, Mapping) or not all(map(checks.is_name, given.values())):
        raise checks.wrong("names", given, "must be a dict of the script's columns with their names in frames")
    for word in given:
        if word not in schema.names:
            reason = f"names= has it, but the columns of {schema.name} in the script are {tables.listed(schema.names)}"
            raise Refused("NoColumn", reason, word)
    names = [same(given.get(word, word)) for word in schema.names]
    for name in naming.twice(names):
        raise Refused("TwiceNamed", f"names= of {schema.name}: two columns would have this name", name)
    return names
