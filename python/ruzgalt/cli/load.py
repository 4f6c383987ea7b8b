"""The words of tools/csv-to-load."""
import codecs
import os
import sys
from argparse import ArgumentParser, ArgumentTypeError, Namespace
from pathlib import Path
from typing import List, Optional, Sequence, Tuple

from ruzgalt.cli import streams
from ruzgalt.cli.options import Option, Words, add_all, decimals as digits_of, filled, lines
from ruzgalt.errors import Misfit
from ruzgalt.load import dates, making
from ruzgalt.load.columns import mark_of
from ruzgalt.load.making import Load
from ruzgalt.load.sheets import Records, Sheet, composed
from ruzgalt.load.table import entry, fit, refuse_day, rename, schema_of, take_names_of_file
from ruzgalt.load.workbooks import Workbook, is_workbook
from ruzgalt.progress import Progress
from ruzgalt.script import records
from ruzgalt.script.forms import NAME_HAS, NO_END, is_name, read_point
from ruzgalt.script.records import visible
from ruzgalt.script.schemas import Schema
from ruzgalt.which import LOAD, LOAD_SAYS

ABOUT = """Turns a CSV file with a header into a load, or into updates or deletes. FROM, TO and the COLUMNs are names of
the file's header, in the order of a row's fields; other columns of the file are left out. The file is UTF-8; its fields
are separated by commas, semicolons or tabs, whichever its header has most of. Or it is an Excel workbook (.xlsx), if
Python's openpyxl is installed. Values are taken as they are, unless an option says otherwise. Possible mistakes are
loaded, and reported on standard error. If something is wrong, the tool prints one record that the store refuses
instead of the load, so that a script with it has a refused command."""
# Printed instead of a load.
FAILED = b"csv-to-load failed\n"
# A division has no periods, and its parts and ids are taken as they are.
UNUSED_BY_CHECK = (
    "update", "empty", "delete", "record", "print_table", "german", "dates", "decimals", "decimal_mark", "bare",
    "last_day", "day_after", "day", "open", "no_end", "plain_spaces", "drop_equal",
)


def encoding(word: str) -> str:
    try:
        # Some codecs, such as hex, aren't of texts.
        " ".encode(word)
        return codecs.lookup(word).name
    except (LookupError, UnicodeError):
        raise ArgumentTypeError(f"{word}: not an encoding, such as cp1252, cp850 or utf-16") from None


# FROM, TO and the columns, and how they are read.
FORMS = list(dates.FORMS)
OPTIONS = [
    Option("table", "", "TABLE", "the table of the store"),
    Option("start", "", "FROM", "the file's column with the start of a row"),
    Option("end", "", "TO", "the file's column with the end of a row"),
    Option("column", "", "[NAME=]COLUMN", "the file's columns with values, in the order of the table's; grade=Neu "
           "takes the file's Neu as grade", more={"nargs": "*"}),
    Option("--file", "", "FILE", "the file; without it, it is the last word, or standard input", filled),
    Option("--encoding", "", "NAME", "the file's encoding, such as cp1252, if it isn't UTF-8", encoding),
    Option("--skip", "", "N", "leaves out N lines before the header", lines, {"default": 0}),
    Option("--sheet", "", "NAME", "the sheet of an Excel workbook (.xlsx) that has several"),
    Option("--check", "", "INSTANT", "prints a check of a division: FROM is the column of a row's part, TO of its "
           "id"),
    Option("--table", "", "RECORD", "the table's record, such as table,pay,person,text, or a script that has it: what "
           "doesn't fit it is refused, and its columns are the COLUMNs if none is given", more={"dest": "record"}),
    Option("--day", "", "[TABLE=]DAY", "also prints the entry of the diary (the table `diary` of the script of "
           "--table): from this day on the newest commit is that of the load"),
    Option("--print-table", "", "", "prints that record before the load; updates and deletes are of a table that is "
           "there"),
    Option("--update", "", "COLUMN..", "prints updates of the rows with this column's value instead of a load: FROM "
           "and TO are the portion, other columns are set"),
    Option("--empty", "", "COLUMN..", "an empty cell of this column sets the empty text in updates, which is refused "
           "otherwise"),
    Option("--delete", "", "", "prints deletes of the rows that have the COLUMNs' values instead of a load: FROM and "
           "TO are the portion; with --table, the COLUMNs are the table's key if none is given"),
    Option("--german", "", "", "reads dates as 31.12.2024, and decimals as 1.234,50"),
    Option("--dates", "", "FORM", f"the last day of 2024 in the form of the file's dates: {', '.join(FORMS)}; "
           f"{dates.EXCEL} is Excel's number of a day", more={"choices": FORMS}),
    Option("--decimals", "", "COLUMN=DIGITS..", "numbers with at most DIGITS decimals become whole: with euros=2, "
           "4800.5 becomes 480050 cents", digits_of),
    Option("--decimal-mark", "", "{.,,}", "the decimal mark of numbers such as 7,500, which could be read either way",
           more={"choices": (".", ",")}),
    Option("--bare", "", "{whole,decimals}", "what a number without a mark is if others of its column have a "
           "decimal mark: by whole 500 is 500.00, and by decimals 5.00",
           more={"choices": ("whole", "decimals"), "default": ""}),
    Option("--last-day", "", "", "TO is the last day of a row, not the day after it"),
    Option("--day-after", "", "", "FROM is the last day before a row, which starts on the next one; TO may be "
           f"{NO_END} without a column"),
    Option("--open", "", "", f"an empty TO is {NO_END}"),
    Option("--no-end", "", "VALUE..", f"a TO of this value, such as NULL, is {NO_END}"),
    Option("--plain-spaces", "", "", "no-break spaces become spaces"),
    Option("--drop-equal", "", "", "leaves out rows that are equal to an earlier one in all of the file's fields"),
]


def refuse_words(options: Namespace) -> None:
    """Refuses names that aren't COLUMNs, or that are given twice."""
    columns: List[str] = options.column
    refuse_names("decimals", [name for name, _ in options.decimals], columns)
    refuse_names("update", options.update, columns)
    if options.empty and not options.update:
        raise Misfit("--empty needs --update: a load takes empty texts as they are")
    refuse_names("empty", options.empty, [name for name in columns if name not in options.update], " that are set:")
    twice = [name for name in columns if columns.count(name) > 1]
    if twice:
        raise Misfit(f"{twice[0]} is given twice, but a column of the file fills one of the table's")
    if options.delete and options.update:
        raise Misfit("--delete can't be given with --update")
    if options.delete and not columns and not options.record:
        raise Misfit("--delete needs a COLUMN or --table: without one, each delete would be of all rows of its time")
    if options.update and len(options.update) == len(columns):
        raise Misfit("--update: no column is left to set")
    if options.bare and not options.decimals:
        raise Misfit("--bare needs --decimals: values of other columns are taken as they are")
    if options.day:
        refuse_day(options)
    if options.print_table and not options.record:
        raise Misfit("--print-table needs --table")
    if options.print_table and (options.update or options.delete):
        word = "update" if options.update else "delete"
        reason = "a table that is only made there has no rows to change"
        raise Misfit(f"--print-table can't be given with --{word}: {reason}")


def refuse_names(word: str, names: Sequence[str], columns: Sequence[str], which: str = "") -> None:
    """Refuses names that aren't one of the columns, or that are given twice."""
    for name in names:
        if name not in columns:
            raise Misfit(f"--{word} {name}: not one of the columns{which} {', '.join(columns)}")
        if names.count(name) > 1:
            raise Misfit(f"--{word} {name}: given twice")


def given(options: Namespace) -> bytes:
    """Returns the bytes of the file: the one of --file, the last word if it is a file's name, or standard input."""
    if options.file is None and options.column and os.path.isfile(options.column[-1]):
        options.file = options.column.pop()
    if options.file:
        return Path(options.file).read_bytes()
    if sys.stdin is not None and sys.stdin.isatty():
        streams.report(f"{LOAD_SAYS}: reads the CSV file from this terminal; a file's name may be the last word")
    data = streams.given()
    if not data and options.column:
        missing = f"there is no file {visible(options.column[-1])}"
        raise Misfit(f"standard input is empty, and {missing}: give a file by --file or as the last word")
    return data


def opened(options: Namespace) -> Records:
    """The file: a sheet of a workbook, or CSV."""
    data = given(options)
    if is_workbook(data):
        return Workbook(data, options.sheet, mark_of(options), options.skip)
    if options.sheet is not None:
        raise Misfit(f"--sheet {visible(options.sheet)}: the file isn't an Excel workbook, so it has no sheets")
    if options.decimal_mark and not options.decimals:
        # In a workbook the mark is needed for texts with numbers too.
        raise Misfit("--decimal-mark needs --decimals: values of other columns are taken as they are")
    return Sheet(data, options.encoding, options.skip)


def load_of(options: Namespace) -> Tuple[Load, Optional[Schema], List[str]]:
    """Returns the load, the table if it is given, and notes on how the file fits it."""
    sheet = opened(options)
    rename(options, sheet.header)
    schema = fitted = schema_of(options)
    left_out: List[str] = []
    if schema:
        fitted, left_out = fit(options, schema, sheet.header)
    else:
        take_names_of_file(options, {name: column for column, name in options.renamed.items()})
    refuse_words(options)
    notes = [f"the file has no column {', '.join(left_out)}, so updates leave it as it is"] if left_out else []
    return Load(sheet, options, fitted), schema, notes


def claimed(options: Namespace) -> Tuple[bytes, List[str]]:
    """Returns the check of the file's division, and notes on it."""
    if options.check != "-" and read_point(options.check) is None:
        raise Misfit(f"--check {options.check}: not a date or time, such as 2024-01-05, or - for a table without rows")
    unused = [word for word in UNUSED_BY_CHECK if getattr(options, word)]
    if unused:
        word = unused[0].replace("record", "table").replace("_", "-")
        raise Misfit(f"--check can't be given with --{word}")
    sheet = opened(options)
    if options.column:
        raise Misfit(f"--check can't be given with a COLUMN, here {options.column[0]}")
    check, notes = making.check_of(sheet, options.table, options.start, options.end, options.check)
    return records.encode(check), notes


def made(options: Namespace) -> Tuple[List[bytes], List[str], List[str], int]:
    """Returns the output by pieces, the faults, the notes, and the number of faults."""
    # The header may have another form of Unicode: an accented letter may be two characters elsewhere.
    options.start, options.end = composed(options.start), composed(options.end)
    for names in (options.column, options.update, options.empty):
        names[:] = map(composed, names)
    options.decimals = [(composed(name), digits) for name, digits in options.decimals]
    if not is_name(options.table):
        raise Misfit(f"{visible(options.table)}: not a table's name, which has {NAME_HAS}")
    if options.check is not None:
        check, notes = claimed(options)
        return [check], [], notes, 0
    load, schema, notes = load_of(options)
    opening = [schema.fields] if schema and options.print_table else []
    pieces = [records.encode(records.to_text([*opening, *([["load", options.table]] if load.is_load else [])]))]
    try:
        with Progress(LOAD_SAYS) as advance:
            for piece in load.made():
                pieces.append(piece)
                advance(load.rows)
    except Misfit as error:
        load.add_fault(str(error))
    if load.count_of_faults:
        return [], load.faults, [], load.count_of_faults
    pieces.append(b"end\n" if load.is_load else b"")
    notes.extend(load.noted())
    return [*pieces, *([entry(options, b"".join(pieces))] if options.day else [])], [], notes, 0


def words() -> ArgumentParser:
    example = f"{LOAD} pay Start End person=Name cents=Pay --decimals cents=2 --last-day pay.csv"
    first = "record", "german", "dates", "decimals", "last_day", "open"
    parser = Words(example, first, prog=LOAD, description=ABOUT)
    add_all(parser, OPTIONS)
    return parser


def main(arguments: Optional[Sequence[str]] = None) -> int:
    given_words = sys.argv[1:] if arguments is None else arguments
    return streams.run(LOAD_SAYS, lambda: run(given_words))


def run(arguments: Sequence[str]) -> int:
    pieces: List[bytes] = []
    notes: List[str] = []
    count = 1
    try:
        options = words().parse_intermixed_args(arguments)
        with Progress(LOAD_SAYS):
            pieces, faults, notes, count = made(options)
    except SystemExit as ended:
        streams.write([FAILED] if ended.code else [])
        raise
    except Misfit as error:
        faults = [str(error)]
    except OSError as error:
        faults = [streams.reason(error)]
    except MemoryError:
        faults = ["out of memory: make two files of it, and two scripts of these"]
    for note in [*faults, *([f"and {count - len(faults)} more"] if count > len(faults) else []), *notes]:
        streams.report(f"{LOAD_SAYS}: {note}")
    streams.show_records([FAILED] if count else pieces)
    return 1 if count else 0
