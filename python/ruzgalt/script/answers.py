"""Reads a script with its answers: the command of each answer, its line, and its table or refusal."""
from dataclasses import dataclass, field
from itertools import islice
from pathlib import Path
from typing import Dict, Iterable, Iterator, List, Mapping, NamedTuple, Optional, Sequence, Union

from ruzgalt.errors import Misfit
from ruzgalt.script import commands, schemas
from ruzgalt.script.commands import Answered, Command
from ruzgalt.script.forms import is_count
from ruzgalt.script.records import Place, Reader, Record, Row, Rows, Source, long_fields, short
from ruzgalt.script.schemas import Column, Schema, Table

# Bytes, or the file that has them.
Given = Union[bytes, str, Path]


class Refusal(NamedTuple):
    """The name of a refusal, and the record that is at fault."""

    name: str
    record: Record


@dataclass(frozen=True)
class Answer:
    """The answer to a command: a table, or a refusal. `commits` is the number of commits after it."""

    number: int
    command: Command
    commits: int
    tables: Dict[str, Schema] = field(repr=False)
    table: Table = field(default_factory=lambda: Table([]))
    refusal: Optional[Refusal] = None

    @property
    def line(self) -> int:
        return self.command.line

    @property
    def where(self) -> str:
        return self.command.where

    @property
    def shown(self) -> str:
        return f"{self.where}: {short(self.command.text)}"

    @property
    def schema(self) -> Schema:
        """The table that the command names first."""
        return self.tables[self.command.record.fields[1]]

    @property
    def refused(self) -> Refusal:
        """Returns the refusal. Raises ValueError if the command was accepted."""
        if self.refusal is None:
            raise ValueError(f"{self.where}: no refusal")
        return self.refusal

    @property
    def commit(self) -> int:
        """The commit that a query reads."""
        return self.commits if self.command.as_of is None else int(self.command.as_of)


def of(script: Given, output: Given) -> List[Answer]:
    """Returns the answers in the program's output, each with its command.

    Raises Misfit if the output has another form than answers to this script. Values aren't compared with the script.
    """
    data = [one if isinstance(one, bytes) else Path(one).read_bytes() for one in (script, output)]
    with long_fields():
        return of_commands(commands.commands(Source(data[0])), data[1])


def of_commands(script: Iterable[Command], output: bytes) -> List[Answer]:
    return list(Reading(Source(output)).answers(script))


class Reading:
    """The answers' records, read one after another, and the store's tables and commits at that position."""

    def __init__(self, output: Source) -> None:
        self.source, self.output = output, Reader(output)
        self.place = self.output.place
        self.tables: Dict[str, Schema] = {}
        self.commits = 0
        # The queries of a block read the commit that it began with, and its load is the next.
        self.held: Optional[int] = None

    def answers(self, script: Iterable[Command]) -> Iterator[Answer]:
        for number, command in enumerate(script, 1):
            if not command.in_together:
                self.held = None
            yield self.answer(number, command)
        extra = self.output.next()
        if extra is not None:
            raise Misfit(f"the script has no command for the answer at line {extra.line}: {short(extra.text)}")

    def answer(self, number: int, command: Command) -> Answer:
        self.place = self.output.place
        first = self.there(self.output.next(), command, "an answer")
        refusal = self.refusal(command, first) if first.word == "error" else None
        table = Table([]) if refusal else self.table(command, first)
        commits = self.commits if self.held is None or command.word == "load" and not refusal else self.held
        return Answer(number, command, commits, self.tables, table, refusal)

    def table(self, command: Command, first: Record) -> Table:
        """Returns the table of the answer that begins with this record."""
        answered = command.form.answered
        if answered in (Answered.COMMIT, Answered.TOGETHER):
            return self.number(command, first)
        if answered not in READERS or not command.is_ended:
            raise misfit(command, "error,RECORD,NAME", first)
        try:
            columns = schemas.header(command, self.tables)
        except (KeyError, IndexError, Misfit):
            raise misfit(command, "error,RECORD,NAME, since its tables, columns or point don't exist", first) from None
        return Table(columns, READERS[answered](self, command, first, columns))

    def there(self, record: Optional[Record], command: Command, wanted: str) -> Record:
        if record is None:
            raise Misfit(f"{command.where}: {short(command.text)}: the answers end before {wanted}")
        return record

    def refusal(self, command: Command, record: Record) -> Refusal:
        number = record.fields[1] if len(record.fields) == 3 else ""
        at_fault = command.record_of(int(number)) if is_count(number) else None
        if at_fault is None:
            raise misfit(command, "a refusal that it can have", record)
        return Refusal(record.fields[2], at_fault)

    def number(self, command: Command, record: Record) -> Table:
        """Returns the number of the commit that a change made, or that a block reads."""
        is_change = command.form.answered is Answered.COMMIT
        wanted = ["ok", str(self.commits + 1)] if is_change else ["together", str(self.commits)]
        is_right = command.is_ended and (is_change or len(command.record.fields) == 1)
        if not is_right or list(record.fields) != wanted:
            raise misfit(command, ",".join(wanted), record)
        if command.word == "table":
            self.tables = {**self.tables, command.record.fields[1]: Schema.read(command.record.fields)}
        if is_change:
            self.commits += 1
        else:
            self.held = self.commits
        return Table(schemas.ints("commit"), [wanted[1:]])

    def listed(self, command: Command, first: Record, columns: List[Column]) -> Sequence[Row]:
        """Returns the records of a list up to its end, which counts them. They are read when they are needed."""
        word = {Answered.VERSIONS: "version", Answered.LOG: "commit"}.get(command.form.answered, "row")
        place, count, record = self.place, 0, first
        if word == first.word and len(first.fields) == len(columns) + 1:
            record = self.there(self.output.after_list(word), command, "the list's end")
            count = record.number - first.number
        if list(record.fields) != ["end", str(count)]:
            names = ",".join(column.name for column in columns)
            raise misfit(command, f"{word},{names} or end,{count}", record)
        return Listed(self.source, place, count, record.line)

    def divided(self, command: Command, first: Record, columns: List[Column]) -> Sequence[Row]:
        """Returns a record for each row of each part, with the instant that all have."""
        if first.word != "dip" or len(first.fields) != 4 or not is_count(first.fields[2]):
            raise misfit(command, "dip,ROWS,PARTS,INSTANT", first)
        _, _, parts, instant = first.fields
        place, found = self.output.place, 0
        for part in range(int(parts)):
            record = self.there(self.output.next(), command, f"part,{part}")
            if list(record.fields[:2]) != ["part", str(part)]:
                raise misfit(command, f"part,{part} with ids", record)
            found += len(record.fields) - 2
        return Rows(found, lambda: (
            [record.fields[1], row_id, instant]
            for record in islice(Reader(self.source, place), int(parts)) for row_id in record.fields[2:]
        ))

    def judged(self, command: Command, first: Record, columns: List[Column]) -> Sequence[Row]:
        """Returns the record of a verdict, each number in its column."""
        fields = list(first.fields)
        if fields == ["yes"]:
            return [["yes", *[None] * 5]]
        verdict = VERDICTS.get(fields[1]) if fields[0] == "no" and len(fields) > 2 else None
        if verdict is None or len(fields) != 2 + len(verdict[0]):
            raise misfit(command, "yes, or no and its reason", first)
        numbers = dict(zip(verdict[0], fields[2:]))
        return [[*fields[:2], *map(numbers.get, NUMBERS)]]


LISTS = (Answered.ROWS, Answered.VERSIONS, Answered.PAIRS, Answered.STEPS, Answered.LOG)
READERS = {
    **dict.fromkeys(LISTS, Reading.listed), Answered.DIVISION: Reading.divided, Answered.VERDICT: Reading.judged,
}


class Listed(Rows[Row]):
    """The records of a list, without their first word."""

    # How many bytes are printed at once.
    STRIDE = 1 << 20

    def __init__(self, source: Source, place: Place, count: int, end: int) -> None:
        super().__init__(count, self.rows)
        self.source, self.place, self.end = source, place, end

    def rows(self) -> Iterator[Row]:
        reader = Reader(self.source, self.place)
        for fields in islice(filter(None, reader.fields), self.size):
            row: List[Optional[str]] = [*fields[1:]]
            if fields[0] == "version" and row[4] == "-":
                row[4] = None
            yield row

    def lines(self) -> Iterator[bytes]:
        """Yields the bytes of the records without their first word, if each is a line of the answers."""
        data, byte, last = self.source.data, self.source.byte_of(self.place.line), self.source.byte_of(self.end)
        while byte < last:
            end = min(data.find(b"\n", byte + self.STRIDE) + 1 or last, last)
            yield data[byte:end].replace(b"\nrow,", b"\n")[4:]
            byte = end

    @property
    def has_lines(self) -> bool:
        data, first, last = self.source.data, self.source.byte_of(self.place.line), self.source.byte_of(self.end)
        is_plain = not self.source.has_zero and b"\r" not in data and data.startswith(b"row,", first)
        return is_plain and data.count(b"\n", first, last) == self.size


def misfit(command: Command, wanted: str, found: Record) -> Misfit:
    other = f"the answer at line {found.line} is {short(found.text)}, not {wanted}"
    return Misfit(f"{command.where}: {short(command.text)}: {other}")


# A verdict's numbers, in the order of its columns.
NUMBERS = ("count", "part", "row_id", "other_row_id")
# By the reason of a `no`: what its numbers are, and its sentence. `parts` is the number of parts that is claimed.
VERDICTS = {
    "WrongCount": (["count"], "No: {parts} parts are claimed, but there are {count}."),
    "EmptyPart": (["part"], "No: part {part} has no row."),
    "Unknown": (["row_id"], "No: no row has the id {row_id}."),
    "Twice": (["row_id"], "No: row {row_id} occurs twice."),
    "Missing": (["row_id"], "No: row {row_id} is in no part."),
    "Overlap": (["row_id", "other_row_id"], "No: rows {row_id} and {other_row_id} are in one part, and overlap."),
    "NotCrowded": (["count"], "No: {parts} parts are enough, but {which}: it doesn't show that fewer aren't."),
}
YES = "Yes: no two rows of a part overlap, and fewer parts than {parts} aren't enough: {why}."


def sentence_of(answer: Answer) -> str:
    _, reason, *numbers = next(answer.table.texts())
    parts, instant = answer.command.front[2:4]
    return sentence(reason, dict(zip(NUMBERS, numbers)), parts, instant)


def sentence(reason: str, numbers: Mapping[str, object], parts: object, instant: str) -> str:
    """Returns the sentence for a verdict's reason (empty for `yes`), its numbers by name, and the claim."""
    if not reason:
        why = "the table has no rows" if instant == "-" else f"{parts} rows hold on {instant}"
        return YES.format(parts=parts, why=why)
    which = "no day is claimed" if instant == "-" else f"{instant} needs only {numbers.get('count')}"
    return VERDICTS[reason][1].format(parts=parts, which=which, **numbers)
