"""A load, or updates or deletes, made of a CSV file with a header, piece by piece; and a check of a division."""
import re
from argparse import Namespace
from itertools import repeat
from operator import ge
from os.path import isfile
from typing import Dict, Iterator, List, Optional, Sequence, Set, Tuple, cast

from ruzgalt.errors import Misfit
from ruzgalt.lint.rows import Changes, Ends, Notes, Repeats, Rule, Totals
from ruzgalt.lint.texts import LookAlikes
from ruzgalt.load.columns import Column, End, Start, Text, form_of, mark_of
from ruzgalt.load.dates import as_good_swapped, without_half
from ruzgalt.load.numbers import UNIT, Doubtful, Marks, Scale, readings
from ruzgalt.load.sheets import Piece, Records, line_with, pieces_of
from ruzgalt.load.table import refuse_twins
from ruzgalt.script import records
from ruzgalt.script.forms import NO_END, SPACES, is_count, is_name, read_point, shifted
from ruzgalt.script.records import short, to_text, visible
from ruzgalt.script.schemas import PERIOD, Schema
from ruzgalt.which import ANSWERS

# What a script and a table can have; from nine tenths on that is reported.
MOST_BYTES, MOST_ROWS = 67_108_864, 1_000_000
FAULTS = 20
# The names of a column that has the last day of each row, and not the day after it.
LAST_DAY_NAME = re.compile(r"last[ _-]?day|letzte[rn]?[ _-]tag|inclusive|inklusive|einschlie(?:ß|ss)lich|einschl\.")


class Equals:
    """Leaves out rows that equal an earlier one in all of the file's fields."""

    def __init__(self) -> None:
        self.met: Set[Tuple[str, ...]] = set()
        # The lines of the rows that are left out.
        self.lines: List[int] = []

    def is_new(self, line: int, record: Sequence[str]) -> bool:
        row = tuple(record)
        if row in self.met:
            self.lines.append(line)
            return False
        self.met.add(row)
        return True

    def note(self) -> str:
        equal = "equal to an earlier one in all of the file's fields"
        if len(self.lines) > 1:
            return f"--drop-equal: {len(self.lines):,} rows were left out, {equal} (the first at line {self.lines[0]})"
        one = f"1 row was left out, {equal} (line {self.lines[0]})" if self.lines else f"no row is {equal}"
        return f"--drop-equal: {one}"


class Load:
    """The records made of a sheet's rows, with the faults of rows and the notes on columns."""

    def __init__(self, sheet: Records, options: Namespace, schema: Optional[Schema]) -> None:
        self.sheet, self.options, self.schema = sheet, options, schema
        # The first word of the record that a row of the file becomes.
        self.word = "delete" if options.delete else "update" if options.update else "row"
        self.is_load = self.word == "row"
        self.names = [options.start, options.end, *options.column]
        # If no row has a known end, the file needs no column of ends.
        self.has_ends = options.end != NO_END or NO_END in sheet.header
        names = self.names if self.has_ends else [options.start, *options.column]
        refuse_header(sheet, names, schema.names if schema else [])
        refuse_other_ends(options)
        header = [*sheet.header, NO_END]
        self.places = [header.index(name) for name in self.names]
        self.marks = Marks(mark_of(options), bool(options.decimal_mark))
        self.keys = self.key_places()
        end = End(options.end, options) if self.has_ends else Column(NO_END, str)
        self.columns = [Start(options.start, options), end, *self.value_columns()]
        self.scales = [one.convert for one in self.columns if isinstance(one.convert, Scale)]
        self.stored = self.names_in_store()
        self.faults: List[str] = []
        self.count_of_faults = self.rows = self.bytes = 0
        # The line of each number that could be read in two ways.
        self.doubtful: Dict[Doubtful, int] = {}
        self.notes, self.rules = Notes(), list(self.rules_of_rows())
        self.left_out: Optional[str] = None
        self.equals = Equals()
        self.nameless = [place for place, name in enumerate(sheet.header) if not name.strip()]

    def key_places(self) -> List[int]:
        """Returns the columns that identify a fact: the table's key, or otherwise the first column; for updates and
        deletes the columns that select rows."""
        if self.options.delete:
            return list(range(len(self.options.column)))
        if self.options.update:
            return [self.options.column.index(name) for name in self.options.update]
        if self.schema and self.schema.key:
            return list(self.schema.key)
        return [0] if self.options.column else []

    def rules_of_rows(self) -> Iterator[Rule]:
        """Yields the rules by which possible mistakes in rows are found."""
        options = self.options
        key = ", ".join(options.column[place] for place in self.keys) or "table"
        yield Ends(options.end, key, options.last_day)
        yield Repeats(self.word, not self.is_load or not options.column or bool(self.schema and self.schema.key))
        if not self.is_load:
            yield Changes(key, options.delete)
            return
        others = [place for place in range(len(options.column)) if place not in self.keys]
        yield Totals({2 + place: options.column[place] for place in others or self.keys})

    def value_columns(self) -> Iterator[Column]:
        digits = dict(self.options.decimals)
        for place, name in enumerate(self.options.column):
            kind = self.schema.columns[place].kind if self.schema else None
            if name in digits:
                yield Column(name, Scale(name, digits[name], self.marks, self.options.bare))
            else:
                yield Text(name, self.options, kind, place in self.keys)

    def made(self) -> Iterator[bytes]:
        """Returns the records made of the rows, by pieces. After a fault, the rest is read for its faults only."""
        for piece in pieces_of(self.sheet):
            whole = self.whole(piece)
            yield self.made_of(whole.where(self.equals.is_new) if self.options.drop_equal else whole)
        self.refuse_doubtful()
        for fault in self.sheet.faults(self.places[2:]):
            self.add_fault(fault)

    def made_of(self, piece: Piece) -> bytes:
        """The records made of a piece; none where something is at fault in it, or was before."""
        fields: List[Sequence[str]] = list(zip(*piece.records)) or [()] * len(self.sheet.header)
        fields.append([NO_END] * len(piece.records))
        values = [fields[place] for place in self.places]
        found = [column.made(one) for column, one in zip(self.columns, values)]
        self.look_at(piece.lines, values, found)
        self.look_at_nameless(piece.lines, fields)
        self.rows += len(piece.records)
        if self.count_of_faults:
            return b""
        columns = cast(List[Sequence[str]], found)
        keys = self.keys_of(columns[2:]) or [""] * len(piece.lines)
        for rule in self.rules:
            rule.add(piece.lines, keys, *columns)
        rows = zip(repeat("row"), *columns) if self.is_load else map(self.change_of, zip(*columns))
        made = records.encode("\n".join([*map(",".join, rows), ""]))
        self.bytes += len(made)
        return made

    def look_at_nameless(self, lines: Sequence[int], fields: List[Sequence[str]]) -> None:
        """Notes the first value in a column without a name: it may be after a mark of thousands, without quotes."""
        for place in self.nameless:
            found = next((row for row, text in enumerate(fields[place]) if text.strip()), None)
            if found is not None and self.left_out is None:
                text = visible(fields[place][found])
                self.left_out = f"line {lines[found]}: '{text}' is left out: its column, {place + 1}, has no name"

    def whole(self, piece: Piece) -> Piece:
        """Returns the records that have the header's number of fields."""
        return piece if {len(self.sheet.header)}.issuperset(map(len, piece.records)) else piece.where(self.is_whole)

    def is_whole(self, line: int, record: Sequence[str]) -> bool:
        width, quoted = len(self.sheet.header), "put a field with a separator in it in double quotes"
        if len(record) != width:
            self.add_fault(f"line {line}: {len(record)} fields, and the header has {width}; {quoted}")
        return len(record) == width

    def look_at(
        self, lines: Sequence[int], values: List[Sequence[str]], found: List[Sequence[Optional[str]]],
    ) -> None:
        # A column without faults has none in this piece.
        faulty = {row for column, made in zip(self.columns, found) if column.faults
                  for row, one in enumerate(made) if one is None}
        for row in sorted(faulty):
            for column, texts, made in zip(self.columns, values, found):
                if made[row] is None:
                    text = texts[row]
                    self.add_fault(f"line {lines[row]}: {column.name} is '{visible(text)}': {column.faults[text]}")
        for column, texts in zip(self.columns, values):
            self.notes.count(column.name, column.doubts, lines, texts)
        for one in filter(None, [self.marks.either, *(scale.unmarked for scale in self.scales)]):
            if one not in self.doubtful:
                self.doubtful[one] = lines[values[self.names.index(one.name)].index(one.text)]
        if not faulty:
            # None is at fault, so each is a text.
            self.refuse_empty_periods(lines, *cast(List[Sequence[str]], found[:2]))

    def refuse_empty_periods(self, lines: Sequence[int], starts: Sequence[str], ends: Sequence[str]) -> None:
        # The texts of points are in the order of time.
        for line, start, end in zip(lines, starts, ends) if any(map(ge, starts, ends)) else ():
            if start >= end:
                self.add_fault(f"line {line}: {self.options.start}, {start}, {self.empty_period(start, end)}")

    def empty_period(self, start: str, end: str) -> str:
        """Why it has no point, with the end as the file has it."""
        last = shifted(end, -1) if self.options.last_day else ""
        if last:
            return f"is after {self.options.end}, {last}"
        if self.options.day_after:
            return f"the day after the last one there, isn't before {self.options.end}, {end}"
        more = "; if that is the last day, use --last-day" if start == end and len(end) == 10 else ""
        return f"isn't before {self.options.end}, {end}{more}"

    def keys_of(self, values: Sequence[Sequence[str]]) -> Sequence[object]:
        if len(self.keys) == 1:
            return values[self.keys[0]]
        return list(zip(*(values[place] for place in self.keys)))

    def refuse_doubtful(self) -> None:
        """Refuses numbers that could be read in two ways, which only all rows together show."""
        either = self.marks.either
        if either and not self.marks.is_settled:
            why = "its mark may separate thousands or decimals, and no other number of the file shows which"
            what = f"{either.name} is '{visible(either.text)}': {why}: {readings(either.bare, '.,')}"
            self.add_fault(f"line {self.doubtful[either]}: {what}")
        for scale in self.scales:
            if scale.unmarked and scale.mixed():
                self.add_fault(f"line {self.doubtful[scale.unmarked]}: {scale.mixed()}")

    def add_fault(self, what: str) -> None:
        self.count_of_faults += 1
        if len(self.faults) < FAULTS:
            self.faults.append(what)

    def names_in_store(self) -> List[str]:
        """Returns the names of the table's columns. Without a table they are the file's, if changes need names."""
        if self.schema:
            return self.schema.names
        names = [self.options.renamed.get(column, column) for column in self.options.column]
        wrong = [name for name in names if not is_name(name)]
        if wrong and not self.is_load:
            remedy = f"give the table's by NAME={visible(wrong[0])} or --table"
            raise Misfit(f"{visible(wrong[0])} can't be the name of a table's column: {remedy}")
        if not self.is_load:
            refuse_twins(self.options, names)
        return names

    def change_of(self, row: Sequence[str]) -> Sequence[str]:
        """The update or the delete, within the row's period, of the rows that have its values of the key.

        Fields that need quotes have them already.
        """
        start, end, *values = row
        pairs = list(zip(self.stored, values))
        changed = [text for place, pair in enumerate(pairs) if place not in self.keys for text in pair]
        known = [text for place in self.keys for text in pairs[place]]
        portion, where = [self.options.table, start, end], ["where", *known] if known else []
        return [self.word, *portion, *(["set", *changed] if changed else []), *where]

    def noted(self) -> Iterator[str]:
        """Yields possible mistakes."""
        if not self.rows:
            yield f"no row follows the header, so {'the load has none' if self.is_load else 'nothing is changed'}"
        yield from self.notes.notes()
        for rule in self.rules:
            yield from rule.notes()
        yield from self.notes_of_scales()
        if self.left_out:
            yield self.left_out
        yield from [*self.notes_of_points(), *self.notes_of_words()]
        if self.options.drop_equal:
            yield self.equals.note()
        yield from self.sheet.notes(self.places[:1 + self.has_ends], self.places[2:])
        if self.rows > MOST_ROWS * 9 // 10 or self.bytes > MOST_BYTES * 9 // 10:
            limits = f"a script can have {MOST_BYTES:,} bytes, a table {MOST_ROWS:,} versions of rows"
            room = f"{self.rows:,} rows in {self.bytes:,} bytes leave little room for later changes"
            yield f"{room}: {limits}; make two scripts of two files, each with all rows of its keys"

    def notes_of_words(self) -> Iterator[str]:
        """Reports an option for ends that no row has."""
        end = self.columns[1]
        for text in sorted(end.no_ends - end.met) if self.rows and isinstance(end, End) else []:
            word, what = (f"--no-end '{visible(text)}'", f"'{visible(text)}'") if text else ("--open", "empty")
            yield f"{word}: no row's {self.options.end} is {what}"

    def notes_of_points(self) -> Iterator[str]:
        """Reports dates that could have day and month the other way round, and times if only some have AM or PM."""
        texts = [text.strip(SPACES) for column in self.columns[:2] for text in column]
        both = f"{self.options.start} and {self.options.end}"
        yield from (f"{both}: {note}" for note in as_good_swapped(texts, form_of(self.options) or ""))
        plain = without_half(texts)
        if plain:
            yield f"{both}: '{visible(plain)}' has neither AM nor PM, which others have, and is read by 24 hours"

    def notes_of_scales(self) -> Iterator[str]:
        for name in self.options.column:
            unit = UNIT.search(name)
            if unit:
                yield f"{visible(name)}: its name has {unit[0]}, and its numbers are loaded as they are"
        for scale in self.scales:
            if scale.currency:
                others = f"but '{visible(scale.plain)}' has none" if scale.plain else "which are all of it"
                yield f"{scale.name}: the currency {scale.currency} was left out of its numbers, {others}"
            if scale.digits > 2 and 0 < scale.longest < scale.digits:
                count = f"its numbers have at most {scale.longest} decimals, and --decimals gives {scale.digits}"
                yield f"{scale.name}: {count}; --decimals {scale.name}={scale.longest} takes them as they are"


def refuse_header(sheet: Records, names: List[str], of_table: Sequence[str]) -> None:
    """Refuses a file whose header lacks a name, or has one twice."""
    header = sheet.header
    if not header:
        raise Misfit("the file has no header, just empty lines")
    unknown = [name for name in names if name not in header]
    if unknown:
        shown = ", ".join(f"'{visible(name)}'" for name in header)
        mark = next((mark for mark in "|:^~ " if mark in header[0]), "") if len(header) == 1 < len(names) else ""
        remedy = f"; `(echo 'sep={mark}'; cat FILE)` makes '{mark}' the separator of its fields" if mark else ""
        file = next((name for name in unknown if isfile(name)), None)
        remedy = f"; {visible(file)} is a file: give it as the last word, by --file or by `<`" if file else remedy
        line = 0 if file else line_with(sheet, names)
        remedy = f"; the header seems to be line {line}: use --skip {line - 1}" if line else remedy
        word = next((word for word in names[:2] if word in unknown and "=" in word), None)
        remedy = f"; FROM and TO are columns too, and {visible(word)} isn't: did you forget one?" if word else remedy
        # Without COLUMNs the names come from the table, or its key.
        same = next((name for name in unknown if name in of_table), None)
        remedy = f"; {same}=COLUMN names the one for the table's {same}" if same and not remedy else remedy
        raise Misfit(f"not in the header: {', '.join(map(visible, unknown))}; it has {shown}{remedy}")
    if any(read_point(name) for name in names[:2]):
        raise Misfit(f"the first line must have the columns' names, but it has a date: {visible(','.join(header))}")
    twice = [name for name in names if header.count(name) > 1]
    if twice:
        raise Misfit(f"two columns of the header have the name {visible(twice[0])}")


def refuse_other_ends(options: Namespace) -> None:
    """Refuses a column of starts or ends if its name says that they are meant otherwise."""
    start, end = options.start, options.end
    if not options.day_after and LAST_DAY_NAME.search(start.lower()):
        why = "its name says that it is a last day, and here it is where rows start"
        raise Misfit(f"{visible(start)}: {why}; use --day-after if rows start on the next day")
    if not options.last_day and LAST_DAY_NAME.search(end.lower()):
        raise Misfit(f"{visible(end)}: its name says that it is the last day of a row; use --last-day")
    if options.last_day and end == PERIOD[1].name:
        remedy = "leave out --last-day, or rename the column if it has last days"
        raise Misfit(f"{end}: {ANSWERS} prints the day after a row's last day there; {remedy}")


def check_of(sheet: Records, table: str, part: str, row_id: str, instant: str) -> Tuple[str, List[str]]:
    """The `check` of the parts, by their first rows: a row for each row of the table, with its part and its id.

    It comes with notes on the parts' names.
    """
    refuse_header(sheet, [part, row_id], [])
    places = sheet.header.index(part), sheet.header.index(row_id)
    parts: Dict[str, List[str]] = {}
    for piece in pieces_of(sheet):
        for line, record in zip(*piece):
            if len(record) != len(sheet.header) or not is_count(record[places[1]].strip()):
                raise Misfit(f"line {line}: {visible(','.join(record))}: not a row with a part and an id")
            parts.setdefault(record[places[0]].strip(), []).append(record[places[1]].strip())
    opening = ["check", table, str(len(parts)), instant]
    return to_text([opening, *(["part", *ids] for ids in parts.values()), ["end"]]), list(notes(part, parts))


def notes(column: str, parts: Dict[str, List[str]]) -> Iterator[str]:
    """Yields possible mistakes in the parts' names."""
    if "" in parts:
        ids = short(", ".join(parts[""]))
        yield f"{visible(column)} is empty in {len(parts['']):,} rows, which are one part: {ids}"
    looks = LookAlikes()
    for name, other in ((name, looks.other(name)) for name in parts):
        if other is not None:
            which = f"looks like '{visible(other)}', but is another part"
            yield f"{visible(column)} is '{visible(name)}': it {which}"
