"""The language's commands, as docs/LANGUAGE.md defines them: one table of them, and the commands of a script.

A new command is a line in COMMANDS if its fields and its answer are such as others have.
"""
from dataclasses import dataclass, replace
from enum import Enum
from typing import Dict, Iterator, List, NamedTuple, Optional, Sequence, Tuple

from ruzgalt.script.records import Block, Place, Reader, Record, Source


# The role of a field.
Role = Enum("Role", "TABLE COLUMN KEY POINT COUNT SUFFIX VALUE")
# The fields after a command's word. TABLE: a table, and the fields of Form.more. PORTION: a table, a portion, and pairs
# of a column and a value. TABLES: two tables, and pairs of their columns.
Fields = Enum("Fields", "NOTHING SCHEMA TABLE PORTION TABLES AGGREGATE")
# The kind of a command's answer, unless it is refused.
Answered = Enum("Answered", "NOTHING COMMIT TOGETHER ROWS VERSIONS PAIRS STEPS LOG DIVISION VERDICT")


class Form(NamedTuple):
    """A command as it is shown to a person, its answer, and its fields.

    more    the fields directly after the table
    part    the word of each record of its block, which ends by `end`
    """

    text: str
    answered: Answered
    fields: Fields = Fields.TABLE
    more: Tuple[Role, ...] = ()
    part: str = ""

    @property
    def tables(self) -> int:
        return {Fields.NOTHING: 0, Fields.TABLES: 2}.get(self.fields, 1)

    @property
    def is_query(self) -> bool:
        """Whether it is answered by a table."""
        return self.answered not in (Answered.NOTHING, Answered.COMMIT, Answered.TOGETHER)


SIDES = "L,R[,on,LCOL,RCOL..][,asof,N]"
SPAN = (Role.COUNT, Role.COUNT)
AGG = "agg,T,count[,by,COLUMN][,asof,N], or agg,T,FUNC,COLUMN[,by,COLUMN][,asof,N] (FUNC is sum, min or max)"
COMMANDS: Dict[str, Form] = {
    "table": Form("table,T,COLUMN,KIND..[,key,COLUMN..] (KIND is int or text)", Answered.COMMIT, Fields.SCHEMA),
    "load": Form("load,T", Answered.COMMIT, part="row"),
    "log": Form("log", Answered.LOG, Fields.NOTHING),
    "update": Form("update,T,FROM,TO,set,COLUMN,VALUE..[,where,COLUMN,VALUE..]", Answered.COMMIT, Fields.PORTION),
    "rows": Form("rows,T[,asof,N]", Answered.ROWS),
    "delete": Form("delete,T,FROM,TO[,where,COLUMN,VALUE..]", Answered.COMMIT, Fields.PORTION),
    "at": Form("at,T,POINT[,asof,N]", Answered.ROWS, more=(Role.POINT,)),
    "between": Form("between,T,M,N", Answered.VERSIONS, more=SPAN),
    "fromto": Form("fromto,T,M,N", Answered.VERSIONS, more=SPAN),
    "join": Form(f"join,{SIDES}", Answered.PAIRS, Fields.TABLES),
    "anti": Form(f"anti,{SIDES}", Answered.ROWS, Fields.TABLES),
    "dip": Form("dip,T[,asof,N]", Answered.DIVISION),
    "agg": Form(AGG, Answered.STEPS, Fields.AGGREGATE),
    "check": Form("check,T,PARTS,INSTANT[,asof,N]", Answered.VERDICT, more=(Role.COUNT, Role.POINT), part="part"),
    "together": Form("together", Answered.TOGETHER, Fields.NOTHING),
}
# The form of an unknown word.
NONE = Form("", Answered.NOTHING)
# Each has a block.
BLOCKS = tuple(word for word, form in COMMANDS.items() if form.part)
# Each is a commit.
CHANGES = tuple(word for word, form in COMMANDS.items() if form.answered is Answered.COMMIT)


def words_of(*fields: Fields) -> Tuple[str, ...]:
    return tuple(word for word, form in COMMANDS.items() if form.fields in fields)


@dataclass(frozen=True)
class Command:
    """A command that has one answer: its first record, its block's records, and whether the block has its end."""

    record: Record
    block: Sequence[Record]
    is_ended: bool = True
    in_together: bool = False

    @property
    def word(self) -> str:
        return self.record.word

    @property
    def form(self) -> Form:
        return COMMANDS.get(self.word, NONE)

    @property
    def line(self) -> int:
        return self.record.line

    @property
    def where(self) -> str:
        return self.record.where

    @property
    def text(self) -> str:
        return self.record.text

    @property
    def as_of(self) -> Optional[str]:
        """Returns the number in its suffix `asof,N`, if it has one."""
        fields = self.record.fields
        has_suffix = "asof" in self.form.text and len(fields) > 2 and fields[-2] == "asof"
        return fields[-1] if has_suffix else None

    @property
    def front(self) -> List[str]:
        return list(self.record.fields[:-2] if self.as_of is not None else self.record.fields)

    @property
    def rows(self) -> Sequence[Record]:
        """Returns the records of its block without the `end`."""
        return self.block.rows if isinstance(self.block, Block) else self.block

    def record_of(self, number: int) -> Optional[Record]:
        """Returns the record of that number, if it belongs to this command."""
        place = number - self.record.number
        return self.record if not place else self.block[place - 1] if 0 < place <= len(self.block) else None


def commands(source: Source, number: int = 1) -> Iterator[Command]:
    """Yields the commands of a script, in the order of their answers; a block's own command comes before the others.

    The first record has this number.
    """
    reader = Reader(source, Place(1, number))
    for record in reader:
        if record.word != "together":
            yield command_of(record, reader)
            continue
        place = reader.place
        inner, is_ended = commands_within(reader)
        yield Command(record, Block(source, place, reader.number - place.number, reader.line, is_ended), is_ended)
        if is_ended and len(record.fields) == 1:
            yield from inner


def commands_within(reader: Reader) -> Tuple[List[Command], bool]:
    """Returns the commands of a `together` from its second record on, and whether it has its `end`."""
    inner: List[Command] = []
    for record in reader:
        if record.is_end():
            return inner, True
        inner.append(replace(command_of(record, reader), in_together=True))
    return inner, False


def command_of(opening: Record, reader: Reader) -> Command:
    """Returns the command that begins with this record. Its block runs to the next `end`, whatever is in it."""
    if opening.word not in BLOCKS:
        return Command(opening, [])
    block = reader.block()
    return Command(opening, block, block.is_ended)


def key_place(texts: Sequence[str]) -> int:
    """Returns the index of the word `key` in a `table` record, or the number of its fields."""
    return next((place for place in range(2, len(texts), 2) if texts[place] == "key"), len(texts))


def where_place(texts: Sequence[str]) -> int:
    """Returns the index of the word `where` in an update or a delete: at a column's position, with pairs after it."""
    places = range(5, len(texts) - 1, 2) if texts[0] == "update" else range(4, min(5, len(texts)))
    return next((place for place in places if texts[place] == "where"), len(texts))


def where_places(texts: Sequence[str]) -> range:
    return range(where_place(texts) + 1, len(texts) - 1, 2)
