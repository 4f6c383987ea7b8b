"""Explains refused commands to a person: the field at fault, its mistake, and the remedy."""
from typing import Callable, Dict, Iterator, List, NamedTuple, Optional, Sequence, Tuple, Union

from ruzgalt.script import forms
from ruzgalt.script.answers import Answer
from ruzgalt.script.commands import BLOCKS, COMMANDS, Answered, Command, Fields, Form, Role, key_place, where_place
from ruzgalt.script.records import Record, short, to_record, visible
from ruzgalt.script.schemas import Column, Kind, Schema, listed
from ruzgalt.which import LOAD


class Field(NamedTuple):
    """A field's number from 0 on, its text, its role, and its table and column if these are known."""

    number: int
    text: str
    role: Role
    table: Optional[Schema] = None
    column: Optional[Column] = None

    @property
    def kind(self) -> Optional[Kind]:
        return self.column.kind if self.column else None

    @property
    def shown(self) -> str:
        column = f" ({self.column.name})" if self.column and self.role is Role.VALUE else ""
        text = visible(to_record([self.text]))
        return f"field {self.number + 1}{column}, {text if text == text.strip() else repr(text)}"


# The index of a field, its role, the table that it names a column of, and the column's name.
Spot = Tuple[int, Role, Optional[Schema], str]


def fields_of(answer: Answer) -> List[Field]:
    """Returns the fields of the record for which a command was refused, each with its role."""
    command, texts = answer.command, answer.refused.record.fields
    if answer.refused.record is command.record:
        found = list(spots(command.front, command.form, answer.tables))
        found.extend([(len(texts) - 1, Role.SUFFIX, None, "")] * (command.as_of is not None))
    elif texts[0] == "part":
        found = [(index, Role.COUNT, None, "") for index in range(1, len(texts))]
    else:
        table = answer.tables.get((*command.record.fields, "")[1])
        names = enumerate(table.names if table else (), 3)
        found = [(1, Role.POINT, None, ""), (2, Role.POINT, None, "")]
        found.extend((index, Role.VALUE, table, name) for index, name in names)
    return [
        Field(index, texts[index], role, table, {one.name: one for one in (table.columns if table else ())}.get(name))
        for index, role, table, name in found if index < len(texts)
    ]


def spots(texts: Sequence[str], form: Form, tables: Dict[str, Schema]) -> Iterator[Spot]:
    """Yields the fields of a command's first record, without its words such as `set`."""
    name, count = (*texts, "")[1], len(texts)
    yield 1, Role.TABLE, None, ""
    if form.fields is Fields.SCHEMA:
        end = key_place(texts)
        made = Schema(name, tuple(Column(one, Kind.TEXT) for one in texts[2:end:2]))
        yield from ((index, Role.COLUMN, made, texts[index]) for index in range(2, end, 2))
        yield from ((index, Role.KEY, made, texts[index]) for index in range(end + 1, count))
    elif form.fields is Fields.PORTION:
        end = where_place(texts)
        yield from [(2, Role.POINT, None, ""), (3, Role.POINT, None, "")]
        for index in [*range(5 if texts[0] == "update" else end, end - 1, 2), *range(end + 1, count - 1, 2)]:
            yield index, Role.COLUMN, tables.get(name), texts[index]
            yield index + 1, Role.VALUE, tables.get(name), texts[index]
    elif form.fields is Fields.TABLES:
        yield 2, Role.TABLE, None, ""
        yield from ((index, Role.COLUMN, tables.get(texts[1 + index % 2]), texts[index]) for index in range(4, count))
    elif form.fields is Fields.AGGREGATE:
        indices = [3] * (count > 3 and texts[2] != "count") + [count - 1] * ("by" in texts[3:-1])
        yield from ((index, Role.COLUMN, tables.get(name), texts[index]) for index in indices)
    else:
        yield from ((index, role, None, "") for index, role in enumerate(form.more, 2))


# The mistake of a field, and the remedy. The text is empty if it isn't the field that is at fault.

COLUMNS = (Role.COLUMN, Role.KEY)


def bad_name(field: Field, answer: Answer) -> str:
    if field.role not in (Role.TABLE, *COLUMNS) or forms.is_name(field.text):
        return ""
    if field.text == "asof" and answer.command.form.fields is Fields.PORTION:
        return "is only for queries: a change acts on the rows of the newest commit"
    if field.text in forms.RESERVED:
        *most, last = forms.RESERVED
        return f"is a word of the language: {', '.join(most)} and {last} can't be names; {field.text}_ can"
    return f"isn't a name, which has {forms.NAME_HAS}"


def of_point(text: str) -> str:
    """Returns why a text isn't a point, or an empty text if it is one."""
    if forms.read_point(text):
        return ""
    if not forms.POINT.fullmatch(text):
        return f"isn't a date or time, such as {forms.POINTS}"
    day = forms.read_point(text[:10])
    return "isn't a time of day: the last is 23:59:59" if day else "isn't a day that exists"


def bad_number(field: Field, answer: Answer) -> str:
    is_value = field.role is Role.VALUE
    if field.kind is not Kind.INT if is_value else field.role not in (Role.COUNT, Role.SUFFIX):
        return ""
    if forms.is_integer(field.text, -(1 << 63) if is_value else 0):
        return ""
    digits = field.text[1:] if field.text.startswith("-") else field.text
    if digits.isascii() and digits.isdigit():
        if digits.startswith("0") and field.text != "0":
            return "has a zero in front, or a minus before 0: leave it out"
        return f"isn't a number from {-(1 << 63) if is_value else 0} to {(1 << 63) - 1}"
    if is_value:
        return "isn't a whole number in digits only, such as 5000 or -8, or 500050 for cents"
    is_commit = field.role is Role.SUFFIX or answer.command.form.answered is Answered.VERSIONS
    return "isn't a commit's number, such as the 2 of `ok,2`" if is_commit else "isn't a whole number from 0 on"


def bad_period(field: Field, answer: Answer) -> str:
    """A `between` may begin and end with one commit."""
    about = {
        "between": "is greater than the next field",
        "fromto": "isn't less than the next field: for one commit, end on the next one",
    }.get(answer.command.word, "isn't before the next field: for one day, end on the next one")
    return about if field.role in (Role.POINT, Role.COUNT) else ""


def no_table(field: Field, answer: Answer) -> str:
    if field.role is not Role.TABLE or field.text in answer.tables:
        return ""
    there = ", ".join(answer.tables)
    return f"isn't a table; the tables are {there}" if there else "isn't a table: make it by a `table` record before"


def no_column(field: Field, answer: Answer) -> str:
    table = field.table
    if field.role not in COLUMNS or table is None or field.column:
        return ""
    if field.role is not Role.KEY:
        return f"isn't a column of {table.name}; {listed(table.names)}"
    columns = ", ".join(table.names) or "none is there"
    number = key_place(answer.command.record.fields) + 1
    what = f"isn't a column before `key`, field {number} ({columns}): names of its columns follow it"
    return f"{what}, and a column itself needs another name, such as key_"


def wrong_kind(field: Field, answer: Answer) -> str:
    """Of an aggregate the function's column is at fault; of a join the second of the first pair of two kinds."""
    texts, other = answer.command.front, field.number - 1
    if field.role is not Role.COLUMN:
        return ""
    if answer.command.word == "agg":
        return f"is a text, but {texts[2]} needs an int" if field.kind is Kind.TEXT else ""
    before = next((one for one in fields_of(answer) if one.number == other and one.role is Role.COLUMN), field)
    if field.number % 2 == 0 or field.kind is before.kind:
        return ""
    kinds = ("an int", "a text") if field.kind is Kind.INT else ("a text", "an int")
    return f"is {kinds[0]}, but field {field.number}, {texts[other]}, is {kinds[1]}"


def future(field: Field, answer: Answer) -> str:
    if field.role is not Role.SUFFIX:
        return ""
    if answer.command.in_together:
        after = "ask for a later one, such as its load's, after the block's end"
        return f"is a later commit than the one that the block reads, {answer.commits}; {after}"
    return f"is a commit that doesn't exist yet: the newest is {answer.commits}; `log` lists them"


def named_twice(field: Field, answer: Answer) -> str:
    before = [(one.text, one.role) for one in fields_of(answer) if one.number < field.number]
    return "is given twice" if field.role in COLUMNS and (field.text, field.role) in before else ""


def is_text(field: Field) -> bool:
    return field.role is Role.VALUE and field.kind is Kind.TEXT


RULES: Dict[str, Callable[[Field, Answer], str]] = {
    "BadName": bad_name, "BadNumber": bad_number, "BadPeriod": bad_period, "TwiceNamed": named_twice,
    "Future": future, "NoTable": no_table, "NoColumn": no_column, "WrongKind": wrong_kind,
    # A check of a table without rows names no point.
    "BadPoint": lambda field, answer: "" if field.role is not Role.POINT or (
        answer.command.word, field.text) == ("check", "-") else of_point(field.text),
    "TableExists": lambda field, _: "exists already: one `table` record makes it, and a load adds rows" * (
        field.role is Role.TABLE),
    "TooLong": lambda field, _: "has more than 4,096 bytes" * (is_text(field) and not forms.is_short(field.text)),
    "BadUtf8": lambda field, _: "isn't UTF-8; `iconv -f WINDOWS-1252 -t UTF-8` converts a file from Windows" * (
        is_text(field) and not forms.is_utf8(field.text)),
}


def described(answer: Answer) -> str:
    """Returns line, command, refusal and reason, in one line."""
    record = answer.refused.record
    return f"{record.where}: {short(answer.command.text)}: {answer.refused.name}: {reason(answer)}"


def reason(answer: Answer) -> str:
    name = answer.refused.name
    of_record = OF_RECORDS.get(name)
    if of_record is not None:
        return of_record if isinstance(of_record, str) else of_record(answer)
    rule = RULES.get(name, lambda _, __: "")
    for field in fields_of(answer):
        about = rule(field, answer)
        if about:
            has_space = name.startswith("Bad") and field.text != field.text.strip()
            return f"{field.shown}, {about}{'; spaces are part of a field, so leave none next to a comma' * has_space}"
    return f"see {answer.command.word} in docs/LANGUAGE.md"


# Refusals of whole records.

def key_overlap(answer: Answer) -> str:
    schema = answer.schema
    key = ", ".join(schema.names[place] for place in schema.key)
    about = f"two rows with the same key ({key}) would hold at the same time"
    return f"{about}: end one before the other starts, or change it by an update"


def wrong_width(answer: Answer) -> str:
    record = answer.refused.record
    wanted = ",".join(["row", "FROM", "TO", *answer.schema.names])
    count = f"{len(record.fields)} fields, not the {wanted.count(',') + 1} of {wanted}"
    return f"{visible(record.text)} has {count}; put a text with a comma in double quotes, right between commas"


def bad_command(answer: Answer) -> str:
    command, texts = answer.command, answer.command.record.fields
    if answer.refused.record is not command.record:
        return bad_part(answer.refused.record, command)
    if command.word == "end":
        return "an end without a block"
    for index in range(3, key_place(texts), 2) if command.word == "table" else ():
        if texts[index] not in ("int", "text"):
            return f"field {index + 1}, {visible(to_record([texts[index]]))}, isn't a KIND, int or text"
    form = command.form.text
    if command.word == "agg" and "by" in command.front[3:-2]:
        return f"the form is {form}; `by` takes one column: load one that has the values of both"
    return f"the form is {form}" if form else f"field 1, {visible(to_record([command.word]))}, {no_word(command.word)}"


def bad_part(record: Record, command: Command) -> str:
    """Returns the mistake in a record of a block."""
    remedy = f"; each begins with the word {command.form.part}"
    if record.word in COMMANDS:
        remedy = "; is its end missing before it?"
    elif is_like_end(record):
        remedy = "; its end is just the word end"
    return f"a {command.word} has only {command.form.part} records, not {visible(record.text)}{remedy}"


def no_word(word: str) -> str:
    """Returns why a word isn't a command, and the likely remedy."""
    plain = word.strip(" \ufeff").lower()
    mark = next((one for one in ";\t " if one in word), None)
    known = f"isn't a command; the commands are {', '.join(COMMANDS)}"
    mistakes = (
        (word.startswith("\ufeff"),
         "begins with a byte order mark, which only the start of a script may have: `tail -c +4` leaves it out"),
        (word == "csv-to-load failed", f"replaces a load: {LOAD} has reported why on standard error"),
        (plain in COMMANDS, f"isn't a command; {plain} is"),
        ("\0" in word, "isn't UTF-8; `iconv -f UTF-16 -t UTF-8` converts a file from Windows"),
        (mark and word.partition(mark)[0] in COMMANDS, "isn't a command: separate fields by commas"),
        (plain.startswith(("#", "--", "//")), "isn't a command: a script has no comments"),
        (plain.startswith("sep="), "isn't a command, but a spreadsheet's first line: leave it out"),
        (True, f"{known}; {LOAD} makes a load of a CSV file with a header"),
    )
    return next(about for is_it, about in mistakes if is_it)


def unended(answer: Answer) -> str:
    command = answer.command
    about = "the block has no end, so the rest of the script was skipped"
    for record in command.block:
        if is_like_end(record):
            return f"{about}; {record.where}, {visible(to_record(record.fields))}, isn't just the word end"
    for record in command.block:
        if any("\n" in field for field in record.fields):
            return f"{about}; is a second quote missing in {record.where}? a field there continues to other lines"
    if command.word == "load" and len(command.record.fields) > 2:
        return f"{about}; the form is load,T and then rows: no file is read"
    has_inner = command.word == "together" and any(record.word in BLOCKS for record in command.block)
    return f"{about}; a load or a check in it needs an end of its own" if has_inner else about


def is_like_end(record: Record) -> bool:
    """Returns whether it is an end with capitals, blanks or commas: `END`, `end `, or a spreadsheet's `end,,`."""
    return not record.is_end() and [field.strip().lower() for field in record.fields if field.strip()] == ["end"]


def not_in_block(answer: Answer) -> str:
    if answer.command.word == "load":
        return "a second load between `together` and its `end`: put it after, or its rows of one table into the first"
    return f"{answer.command.word} isn't allowed between `together` and its `end`: put it before or after"


OF_RECORDS: Dict[str, Union[str, Callable[[Answer], str]]] = {
    "BadCommand": bad_command, "KeyOverlap": key_overlap, "NotInBlock": not_in_block, "Unended": unended,
    "WrongWidth": wrong_width,
    "TooMany": "a table has at most 16 columns, and a script 64 tables",
    "Full": "there can be at most 1,000,000 changes, and 1,000,000 versions of a table",
}
