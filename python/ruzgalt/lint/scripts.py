"""Possible mistakes in a script: changes of no row or of all, last days, joins of nothing, rows held twice, quotes."""
import re
from collections import Counter, defaultdict
from typing import Callable, DefaultDict, Dict, Iterable, Iterator, List, NamedTuple, Optional, Sequence, Set, Tuple

from ruzgalt.lint import rows, texts
from ruzgalt.script import overlaps
from ruzgalt.script.answers import Answer, sentence_of
from ruzgalt.script.commands import CHANGES, COMMANDS, Command, Fields, where_places, words_of
from ruzgalt.script.forms import NO_END, is_month_end, printed
from ruzgalt.script.records import LOOKED_AT, Block, Record, visible
from ruzgalt.script.run import Beginnings, Past, versions_of
from ruzgalt.script.schemas import Kind, Schema
from ruzgalt.which import ANSWERS

# A line of a field that looks like a record: a field that goes on to such lines may lack its second quote.
ALONE = words_of(Fields.NOTHING)
PARTS = [form.part for form in COMMANDS.values() if form.part]
WITH_FIELDS, WITHOUT = "|".join(sorted({*COMMANDS, *PARTS} - set(ALONE))), "|".join(["end", *ALONE])
TAKEN = re.compile(rf"[\r\n](?:(?:{WITH_FIELDS}),|(?:{WITHOUT})(?=[\r\n]|$))")
QUOTE_AFTER_BLANK = re.compile(r'[ \t]+".*', re.DOTALL)
SINGLE = re.compile(r"\s*'.*'\s*", re.DOTALL)
# A blank at an end of a field, except before a quote or next to single quotes.
BLANK_AT_END = re.compile(r"""[ \t]+[^\s"'].*|[^\s"'](?:.*[^\s'])?[ \t]+""", re.DOTALL)
# The bytes of a block match this if a field may have a blank before its quote, or single quotes.
MAY_BE = re.compile(rb""",[ \t]+"|,[ \t]*'""")
# And this if a field may have a blank at an end, or after a comma in it.
BLANKS = re.compile(rb"""[,"][ \t]|[ \t](?:[,\r\n"]|$)""")


# Rules for fields, each with its note, and whether it is also for refused commands.
FIELD_RULES = [
    (TAKEN.search, "continues to lines that look like records: is its second quote missing?", True),
    (QUOTE_AFTER_BLANK.fullmatch, "has a blank before its quote, so blank and quotes are part of it", True),
    (BLANK_AT_END.fullmatch, "has a blank at an end, which is part of it", False),
    (SINGLE.fullmatch, "has single quotes, which are part of it: fields are quoted by double quotes", True),
]


def of_fields(command: Command, is_refused: bool) -> Iterator[Tuple[str, str]]:
    """Yields possible mistakes in the fields of a command and of a load's rows, each kind once with a count."""
    records = looked_at(command)
    for is_one, about, is_of_refused in FIELD_RULES:
        looked = records if is_of_refused or not is_refused else ()
        found = [(record, text) for record in looked for text in record.fields if is_one(text)]
        for record, text in found[:1]:
            more = f" ({len(found) - 1} more such fields)" if len(found) > 1 else ""
            yield f"{record.where}: {visible(text)} {about}{more}", about


def looked_at(command: Command) -> Sequence[Record]:
    """Returns the command's own record, and its block's records if their bytes show that one may have such a quote."""
    block = command.block
    if command.word != "load" or not isinstance(block, Block):
        return [command.record]
    data = block.bytes()
    has_breaks = data.count(b"\n") + data.count(b"\r") - data.count(b"\r\n") > len(block)
    has_blanks = len(block) <= LOOKED_AT and BLANKS.search(data)
    return [command.record, *block] if has_breaks or has_blanks or MAY_BE.search(data) else [command.record]


# Rows are checked if a table has fewer loads, since each load's rows are searched in the script.
LOADS = 1_000


class Loads:
    """The loads of a table: rules about all rows, if they are few. A row's key, or its first column, is its fact."""

    def __init__(self, schema: Schema) -> None:
        self.places = list(schema.key) or list(range(len(schema.columns)))[:1]
        self.ends = rows.Ends("TO", ", ".join(schema.names[place] for place in self.places), False)
        self.ends.remedies = ("a row no longer holds on that day; one that has it ends on the next", "")
        self.alike = {place: texts.LookAlikes() for place in self.places if schema.columns[place].kind is Kind.TEXT}
        self.pairs: Dict[str, str] = {}
        self.answers: List[Answer] = []
        self.count, self.are_few = 0, True

    def add(self, answer: Answer) -> None:
        """Adds the rows of an accepted load, if the table has few enough to check them."""
        self.count += len(answer.command.rows)
        self.are_few = self.count <= LOOKED_AT and len(self.answers) < LOADS
        if not self.are_few or answer.command.record.is_asked or not self.places:
            return
        self.answers.append(answer)
        held = list(overlaps.rows_of(answer.command))
        keys = [tuple(row.values[place] for place in self.places) for row in held]
        self.ends.add([row.line for row in held], keys, [row.start for row in held], [row.end for row in held])
        for place, alike in self.alike.items():
            pairs = ((alike.other(value), value) for value in dict.fromkeys(row.values[place] for row in held))
            self.pairs.update((other, value) for other, value in pairs if other is not None)

    def notes(self) -> Iterator[str]:
        if self.are_few:
            yield from self.ends.notes()
            if self.pairs:
                yield texts.described(list(self.pairs.items()))


HOURS = re.compile(rb",\"?\d{4}-\d\d-\d\dT(?!00:00:00)\d\d:")
LAST_SECOND = re.compile(rb"row,[^,\r\n]*,(?!9999)\d{4}-\d\d-\d\dT23:59:59")
JOINS, PORTIONS = words_of(Fields.TABLES), words_of(Fields.PORTION)
Values = Set[Tuple[str, ...]]
# The kind of marks of changes that touched no row, and those of checks that say no and of joins without columns.
OF_NOTHING, REFUTED, UNCOMPARED = "nothing", "refuted", "uncompared"


class Mark(NamedTuple):
    """A possible mistake in the command of an answer. Marks of one kind say the same of several commands."""

    answer: Answer
    note: str
    kind: str


def by_kind(found: Sequence[Mark]) -> List[List[Mark]]:
    """The marks of each kind, in the order of the first."""
    kinds: Dict[str, List[Mark]] = {}
    for mark in found:
        kinds.setdefault(mark.kind, []).append(mark)
    return list(kinds.values())


def without_key(found: Sequence[Answer]) -> Iterator[Schema]:
    """Yields the tables without a key, or with one of all columns, if they have few enough loaded rows to check them.

    A key of all columns lets in two salaries of one person at a time, unless they are equal.
    """
    counts: Counter[str] = Counter()
    for load in (one.command for one in found if one.command.word == "load" and not one.refusal):
        counts[load.record.fields[1]] += len(load.rows)
    for schema in found[-1].tables.values() if found else ():
        if schema.columns and len(schema.key) in (0, len(schema.columns)) and 1 < counts[schema.name] <= LOOKED_AT:
            yield schema


def questions_for(found: Sequence[Answer]) -> Iterator[str]:
    """Yields the questions that the marks need: all versions only of tables whose versions are checked."""
    for word, fields in ((one.command.word, one.command.record.fields) for one in found if not one.refusal):
        if word in JOINS:
            yield from map(versions_of, fields[1:3])
        elif word in PORTIONS:
            yield "log"
            if is_looked_at(fields):
                yield versions_of(fields[1])
    yield from (versions_of(schema.name) for schema in without_key(found))


def is_looked_at(portion: Sequence[str]) -> bool:
    """Whether the rows that an update or a delete closed say whether its end is a possible mistake."""
    return of_end(portion[3]) is not None or portion[0] == "update" and printed(portion[3]) < "9999"


def of(found: Sequence[Answer], past: Past) -> List[Mark]:
    """Returns all marks of a script by the order of its answers, with the kinds that come first."""
    past.ask(*questions_for(found))
    marks = list(Marks(found, past).all())
    return sorted(marks, key=lambda mark: (mark.kind not in (REFUTED, UNCOMPARED), mark.answer.number))


class Marks:
    """Finds the marks of a script's answers, one answer after another."""

    def __init__(self, found: Sequence[Answer], past: Past) -> None:
        self.found, self.past, self.beginnings = found, past, Beginnings(found)
        # The line of each load by its table and rows; the loads of each table; tables with times of day.
        self.lines: Dict[Tuple[str, int], int] = {}
        self.loads: Dict[str, Loads] = {}
        self.with_hours: Set[str] = set()
        # The number of the last accepted load of each table, and of each row of a table.
        self.last: Dict[Tuple[str, ...], int] = {}
        for one in found if any(one.refusal for one in found) else ():
            if one.command.word == "load" and not one.refusal:
                name = one.command.record.fields[1]
                self.last.update(((name, *row.fields), one.number) for row in one.command.rows)
                self.last[(name,)] = one.number

    def all(self) -> Iterator[Mark]:
        """Yields all marks, also of whole tables. Without a kind, marks of the same words are of one kind."""
        for answer in self.found:
            for note, kind in self.of_answer(answer):
                yield Mark(answer, note, kind or note)
        for loads in self.loads.values():
            yield from (Mark(loads.answers[-1], note, note) for note in loads.notes())
        for schema in without_key(self.found):
            changes = (one for one in self.found if not one.refusal and one.command.word in CHANGES)
            last = [one for one in changes if one.command.record.fields[1] == schema.name][-1]
            yield from (Mark(last, note, note) for note in of_overlap(schema, self.past))

    def of_answer(self, answer: Answer) -> Iterator[Tuple[str, str]]:
        command, fields = answer.command, list(answer.command.record.fields)
        is_answered = fields[0] == "error" or fields in (["ok", "1"], ["end", "0"], ["together", "0"])
        if answer.number == 1 and is_answered:
            yield "these are answers, not a script: give the script that they answer", ""
        # Why a block has no end its refusal says.
        if command.is_ended:
            yield from of_fields(command, bool(answer.refusal))
        if answer.refusal:
            yield from ((note, "") for note in self.left_out(answer) if command.word == "load")
            return
        yield from ((note, "") for note in self.beginnings.notes_of(answer))
        if command.word == "check" and sentence_of(answer).startswith("No"):
            yield sentence_of(answer), REFUTED
        for words, find in self.rules:
            if command.word in words:
                yield from find(self, answer)

    def of_load(self, answer: Answer) -> Iterator[Tuple[str, str]]:
        table, block = answer.command.record.fields[1], answer.command.block
        data = block.bytes().rstrip(b"\r\n") if isinstance(block, Block) else b""
        self.loads.setdefault(table, Loads(answer.tables[table])).add(answer)
        line = self.lines.setdefault((table, hash(data)), answer.line)
        if line != answer.line and len(block) > 1:
            yield f"it has the same rows as the load at line {line}, so each occurs twice", ""
        # Most loads have only days, and no colon shows that at once.
        has_times = b":" in data
        if has_times and HOURS.search(data):
            self.with_hours.add(table)
        last = LAST_SECOND.search(data) if has_times else None
        if last:
            yield f"{last[0].decode()} doesn't hold in that second: a day ends at the next one's midnight", ""

    def of_portion(self, answer: Answer) -> Iterator[Tuple[str, str]]:
        fields, (_, count) = answer.command.record.fields, self.past.counts[answer.commits]
        closed = self.past.versions(fields[1]).closed_by if count and is_looked_at(fields) else {}
        last = max((version.end for version in closed.get(answer.commits, ())), default="")
        notes = [
            (of_end(fields[3]) if fields[3] < last else None, "portion"),
            (of_touched(fields, count), "count" if count else OF_NOTHING), (of_reach(fields, last), "reach"),
        ]
        yield from ((note, kind) for note, kind in notes if note)

    def of_point(self, answer: Answer) -> Iterator[Tuple[str, str]]:
        _, table, point = answer.command.front
        if len(point) == 10 and table in self.with_hours:
            midnight = "this is the midnight that begins the day: `rows` has the whole day"
            yield f"{table} has times of day, and {midnight}", ""

    def of_join(self, answer: Answer) -> Iterator[Tuple[str, str]]:
        word, one, other, *on = answer.command.front
        if word == "join" and not on and answer.tables[one].columns and answer.tables[other].columns:
            every = f"each row of {one} is joined with every row of {other} of the same time"
            yield f"it has no `on`, so {every}", UNCOMPARED
        note = of_values(answer, *(
            values_of(self.past, answer, name, columns) for name, columns in ((one, on[1::2]), (other, on[2::2]))
        ))
        yield from [(note, "")] if note else []

    rules: Sequence[Tuple[Iterable[str], Callable[["Marks", Answer], Iterator[Tuple[str, str]]]]] = [
        (["load"], of_load), (PORTIONS, of_portion), (["at"], of_point), (JOINS, of_join),
    ]

    def left_out(self, answer: Answer) -> Iterator[str]:
        """Notes how many rows of a refused load are in no later load, if there is a later one."""
        name, at_fault = answer.command.record.fields[1:2], answer.refused.record
        is_of_row = at_fault is not answer.command.record and len(answer.command.rows) > 1
        if is_of_row and self.last.get(tuple(name), 0) > answer.number:
            others = [(*name, *record.fields) for record in answer.command.rows if record != at_fault]
            count = sum(self.last.get(row, 0) < answer.number for row in others)
            if count:
                yield f"it was refused whole, and {count} of its other rows are in no later load"


def of_end(end: str) -> Optional[str]:
    """Notes a portion's end that looks like a last day, or a last second."""
    if "T23:59" in end and not end.startswith("9999"):
        return f"{end} isn't in it: a day ends at the next one's midnight"
    if end < NO_END and is_month_end(end):
        return f"{end} isn't in it: a portion ends before its TO, so one with this day ends on the next"
    return None


def of_reach(fields: Sequence[str], last: str) -> Optional[str]:
    """Notes an update up to a day after the ends of all rows that it changed: it may be meant to lengthen one."""
    if last and fields[0] == "update" and last < printed(fields[3]) < "9999":
        ends = f"each row that it changed ends by {last}, before {fields[3]}"
        return f"{ends}: an update can't lengthen a row; load the rest of the time"
    return None


def of_touched(fields: Sequence[str], count: int) -> Optional[str]:
    """Notes an update or a delete that changed nothing, or everything."""
    has_where = bool(where_places(fields))
    if not count:
        has_what = "of that time matches its `where`" if has_where else "holds in that time"
        return f"no row {has_what}, so nothing was changed"
    if not has_where and count > 1:
        return f"it has no `where`, so it changed all rows of that time: {count}"
    return None


def of_overlap(schema: Schema, past: Past) -> Iterator[str]:
    """Offers the question for rows of equal texts that hold at one time, whatever their numbers are."""
    places = [place for place, one in enumerate(schema.columns) if one.kind is Kind.TEXT] or range(len(schema.columns))
    groups: DefaultDict[Tuple[str, ...], List[overlaps.Held]] = defaultdict(list)
    for version in past.versions(schema.name).at(past.newest):
        values = tuple(version.values[place] for place in places)
        groups[values].append(overlaps.Held(version.start, version.end, values, str(version.row_id)))
    held = list(groups.values())
    found = next(overlaps.pairs(held, *overlaps.crowded(past.program, [held])), None)
    if found is None:
        return
    names = " ".join(schema.names[place] for place in places)
    one, other = (row.origin for row in found)
    both = f"rows {one} and {other}, equal in {names.replace(' ', ', ')}, hold at the same time"
    question = f"`{ANSWERS} overlaps SCRIPT {names} --ask rows,{schema.name}` lists such rows"
    yield f"{schema.name} has {'a key of all columns' if schema.key else 'no key'}, and {both}; {question}"


def of_values(answer: Answer, left: Values, right: Values) -> Optional[str]:
    """Notes values of two tables that match nowhere, or everywhere in an anti-join, or that look alike."""
    word, one, other, *on = answer.command.front
    if on and left and right and not left & right:
        return f"{one} and {other} have no value of these columns in common, so no row matches{like(left, right)}"
    if word == "anti" and left and not len(answer.table.records):
        more = f"for the rows of {other} without one of {one}, ask by anti,{other},{one}"
        return f"each row of {one} is matched for all of its time; {more}"
    pairs = like(left - right, right - left) if on else ""
    return f"some values don't match{pairs}" if pairs else None


def values_of(past: Past, answer: Answer, name: str, columns: Sequence[str]) -> Values:
    places = [answer.tables[name].index_of(column) for column in columns]
    return {tuple(one.values[place] for place in places) for one in past.versions(name).at(answer.commit)}


def like(left: Values, right: Values) -> str:
    """Two values that look alike."""
    folded = {tuple(map(texts.fold, values)): values for values in sorted(right)}
    found = ((values, folded.get(tuple(map(texts.fold, values)))) for values in sorted(left))
    pairs = [(",".join(values), ",".join(other)) for values, other in found if other is not None]
    return f": {texts.described(pairs)}" if pairs else ""
