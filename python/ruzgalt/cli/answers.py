"""The command line of tools/answers: a subcommand for each thing to do with a script and its answers."""
import sqlite3
import sys
import textwrap
from argparse import SUPPRESS, Namespace
from functools import partial
from pathlib import Path
from typing import Callable, Dict, NamedTuple, Optional, Sequence

from ruzgalt import which
from ruzgalt.cli import given, over_time, streams
from ruzgalt.cli.given import Found, chosen, last, read, warn
from ruzgalt.cli.options import (
    Option, Words, add_all, decimals, filled, look_of, named, pair, pixels, some_commits, workbook,
)
from ruzgalt.errors import Misfit
from ruzgalt.lint import scripts
from ruzgalt.periods import EACH, ROUNDINGS
from ruzgalt.progress import Progress
from ruzgalt.report import contents, databases, divisions, document, export, figures, picks, svg, xlsx
from ruzgalt.report.shown import Amounts
from ruzgalt.script import changes, naming, overlaps, raises, records, refusals, schemas
from ruzgalt.script.answers import Answer
from ruzgalt.script.commands import Answered
from ruzgalt.script.forms import is_month_end, shifted
from ruzgalt.script.run import versions_of
from ruzgalt.script.schemas import Table

NAME = which.ANSWERS
ABOUT = f"""Reads a script of dipq with its answers, so it knows the command and the columns of each answer.

usage: {NAME} COMMAND SCRIPT ..

SCRIPT is a file, or - for standard input. It is answered by {which.PROGRAM}, or the program that DIPQ names in the
environment. --answers gives a file of answers, which must be the same. A repository's ./dipq is proved and built at
its first use.

{textwrap.fill(f"PICK is {picks.HELP}.", 110)}

"""
AFTER = f"""
{NAME} COMMAND --help lists the options of each. The status is 2 if the arguments are wrong, and 1 if
something can't be read, or a command was refused; with --go-on a refusal counts only for `refusals`, or if
it is a question of --ask, which `list` shows.
"""


# What each command does.

def do_list(options: Namespace) -> int:
    """Lists all answers. The status is 1 if a command was refused, as dipq's is."""
    found = read(options, shows_refusals=True)
    show(export.listing(found.answers))
    given.warn_of_mistakes(found)
    return status_of(found.answers, options)


def status_of(found: Sequence[Answer], options: Namespace) -> int:
    return 1 if any(answer.refusal for answer in found) and not options.go_on else 0


def show(text: str) -> None:
    streams.show_records([records.encode(text)])


def do_csv(options: Namespace) -> None:
    if options.replace and not options.folder:
        raise Misfit("--replace needs --folder, whose files it replaces")
    if options.folder and (options.rows or options.by or options.counts):
        raise Misfit("--rows, --by and --counts can't be given with --folder")
    if options.rows and options.counts:
        raise Misfit("--rows can't be given with --counts")
    found = read(options)
    if options.folder:
        picked = chosen(found, options.pick)
        tables = [pick.answer.table for pick in picked]
        look_of(options).refuse_strangers(*tables)
        export.to_folder(picked, Path(options.folder), options.replace, partial(given.pieces, options))
        given.warn_of_formulas(options, tables)
    else:
        [answer] = last(found, options.pick)
        given.show(options, asked_table(options, found, answer))
    given.warn_of_mistakes(found, given.MISTAKES)


def asked_table(options: Namespace, found: Found, answer: Answer) -> Table:
    """Returns the answer's table; for a division also with its rows, by groups, or its counts."""
    if options.by:
        by_groups = divisions.counted_by_groups if options.counts else divisions.by_groups
        return by_groups(found.past, answer, options.by)
    if options.counts:
        return divisions.counted(answer)
    return divisions.with_rows(found.past, answer) if options.rows else answer.table


def do_json(options: Namespace) -> None:
    streams.show_text(export.to_json(chosen(read(options), options.pick)))


def do_xlsx(options: Namespace) -> None:
    xlsx.write(chosen(read(options), options.pick), Path(options.file), look_of(options), options.replace)


def do_sqlite(options: Namespace) -> None:
    wishes, look = databases.Wishes(options.replace, options.open_null, options.day), look_of(options)
    databases.refuse_words(options.database, wishes, options.query)
    if not options.query and not (look.is_plain and not options.german):
        raise Misfit("--decimals, --german and --last-day need --query, whose answers they print")
    if options.german and not options.decimals:
        raise Misfit(given.GERMAN.format("--decimals COLUMN=DIGITS"))
    found = chosen(read(options), options.pick)
    with databases.opened(options.database) as database:
        for column in databases.make_tables(found, database, wishes):
            warn(f"{column} has sums past SQLite's integers, so it is a text there, and isn't sorted as numbers")
        replies = [databases.ask(database, query, found) for query in options.query]
        shown = databases.shown(replies, look)
    # A program that reads the output may end early, so the database is written before.
    show(shown if options.query else databases.listing(found))
    for name in dict.fromkeys(name for reply in replies for name in naming.twice(reply.names)):
        warn(f"--query: several columns are called {records.visible(name)}: rename them by `as`")
    for pick in found:
        if options.day is not None and not databases.has_period(pick):
            warn(f"--day: {pick.name} has no period, so no view was made of it")


def do_picture(options: Namespace) -> None:
    found = read(options)
    [answer] = last(found, [options.pick] if options.pick else [])
    if options.german and not (options.decimals or answer.command.form.answered is Answered.STEPS):
        raise Misfit(given.GERMAN.format("--decimals COLUMN=DIGITS"))
    amounts = Amounts(options.decimals, options.german)
    name = "" if options.script == "-" else Path(options.script).name
    wish = figures.Wish(options.by, options.label, options.where, options.start, options.end, amounts, name)
    streams.show_text(svg.draw(figures.of(answer, wish, found.past.versions), options.width, options.height))


def do_changed(options: Namespace) -> None:
    before, after = last(read(options), options.pick, 2)
    if before.commit > after.commit:
        both = f"the first answer is of commit {before.commit}, the second of the earlier commit {after.commit}"
        warn(f"{both}: `-` is what only the first has")
    given.show(options, changes.between(before, after))


def do_history(options: Namespace) -> None:
    if options.retroactive and not options.diary:
        raise Misfit("--retroactive needs --diary, which has the days of commits")
    found = read(options)
    schema = changes.schema_of(found.answers, options.table)
    past, commits = found.past, commits_of(options, found.past.newest)
    past.ask(*map(versions_of, filter(None, [options.table, options.diary])))
    days = changes.days_in(past.versions(options.diary)) if options.diary else None
    versions, wanted = past.versions(options.table), schemas.wanted_in(schema, options.where)
    made = changes.history(versions, wanted, commits, days, options.retroactive)
    for doubt in [*changes.strange_commits(days or [], past.newest), *made.doubts]:
        warn(f"--diary {options.diary}: {doubt}")
    if made.is_of_none:
        warn(f"no row of {options.table} ever had the values of --where")
    given.show(options, changes.of_table(found.answers, schema, made.entries, days is not None))


def commits_of(options: Namespace, newest: int) -> range:
    first, last = options.commit or (1, None)
    last = newest if last is None else last
    if options.commit and not 1 <= first <= last <= newest:
        none = f"{first}: no such commit" if first == last else f"{first}-{last}: no such commits"
        raise Misfit(f"--commit {none}; the newest is {newest}")
    return range(first, last + 1)


def do_page(options: Namespace) -> int:
    """Prints the page, and returns the same status as `list`."""
    found = given.sources(options)
    streams.write(document.pieces(contents.of(found, options.diary)))
    return status_of(found.answers, options)


def do_refusals(options: Namespace) -> int:
    """Explains each refusal, and one for a key by the rows. The status is 1 if there is one."""
    found = read(options, shows_refusals=True)
    refused = [answer for answer in found.answers if answer.refusal]
    rows = overlaps.explained(found.past, refused)
    for answer in refused:
        streams.show_lines([refusals.described(answer), *(f"  {line}" for line in rows.get(answer.number, []))])
    for mark in scripts.of(found.answers, found.past):
        warn(f"{mark.answer.shown}: {mark.note}")
    return 1 if refused else 0


def do_next(options: Namespace) -> None:
    if options.ids and options.column:
        raise Misfit("--ids can't be given with --column, which names the columns: name the ids' column there too")
    [answer] = last(read(options), [options.pick] if options.pick else [])
    wish = export.Wish(options.table, options.column, options.key, options.ids)
    # All records are checked before anything is printed.
    streams.show_records(list(export.pieces(answer, wish)))


def do_raise(options: Namespace) -> None:
    found = read(options)
    changes.schema_of(found.answers, options.table)
    wish = raises.Wish(
        options.table, options.column, options.percent, options.start, options.end, options.where, options.rounding,
    )
    [rows] = found.past.ask(f"rows,{options.table}")
    made = raises.Raise(rows, wish)
    if not options.again:
        made.refuse_again(found.answers)
    for note in made.notes():
        warn(note)
    if options.end and is_month_end(made.end):
        remedy = f"--to {shifted(made.end, 1)} raises the amounts of the last day too"
        warn(f"--to {options.end}: amounts of that day stay as they are; {remedy}")
    if options.dry_run:
        streams.show_records(export.to_csv(made.table()))
    else:
        show(records.to_text(made.updates()))


# The commands.

class Tool(NamedTuple):
    """A command: its function, a line about it, the words after it in an example, and more for its own help."""

    do: Callable[[Namespace], Optional[int]]
    about: str
    example: str
    more: str = ""


NEEDS_PANDAS = "It needs pandas."
TOOLS: Dict[str, Tool] = {
    "list": Tool(
        do_list, "lists each answer with its number, its line and its command", "pay.csv",
        "A refused command is listed with the refusal's name. The status is then 1, or 0 with --go-on.",
    ),
    "csv": Tool(
        do_csv, "prints an answer (the last) as CSV with a header, or writes files", "pay.csv --ask at,pay,2024-01-15",
    ),
    "xlsx": Tool(
        do_xlsx, "writes a workbook of Excel with a sheet for each answer",
        "pay.csv pay.xlsx --ask pay=rows,pay --decimals cents=2 --last-day",
    ),
    "sqlite": Tool(
        do_sqlite, "makes a table of each answer in an SQLite database",
        "pay.csv :memory: --ask pay=rows,pay --query 'select person, max(euros) from pay group by person'",
    ),
    "json": Tool(do_json, "prints answers as JSON", "pay.csv --ask pay=rows,pay"),
    "picture": Tool(
        do_picture, "draws a division, rows, an aggregate or versions as SVG", "posts.csv --ask dip,posts > posts.svg",
    ),
    "changed": Tool(
        do_changed, "lists what really changed between two answers (the last two)",
        "pay.csv --ask rows,pay,asof,2 --ask rows,pay",
        """The first of the two is the one before: `-` is what only it has, `+` what only the second has. Records
        are sorted by their values, columns from the left and numbers by size, and then by start; records of aggregates
        by group and then by start, `-` first.""",
    ),
    "overlaps": Tool(
        over_time.do_overlaps, "finds the rows that a key of the columns would forbid",
        "desks.csv desk --ask rows,bookings", NEEDS_PANDAS,
    ),
    "gaps": Tool(
        partial(over_time.show_periods, call="gaps"), "finds the times between rows of one value without any",
        "desks.csv desk --ask rows,bookings", NEEDS_PANDAS,
    ),
    "coalesce": Tool(
        partial(over_time.show_periods, call="coalesce"), "finds the periods when some record of a group holds",
        "pay.csv person --ask rows,pay",
        f"The periods are as long as possible. Without a COLUMN all records are one group. {NEEDS_PANDAS}",
    ),
    "months": Tool(
        over_time.do_months, "sums amounts by month, quarter, year or week",
        "pay.csv --ask rows,pay --sum cents --per month --by person --to 2024-12-31 --last-day --decimals cents=2",
        over_time.OF_MONTHS,
    ),
    "history": Tool(
        do_history, "lists what each commit changed of a table, or of one fact",
        "pay.csv pay --where 'person=Hill, Grace'", "With --diary each commit has the day on which it was entered.",
    ),
    "page": Tool(
        do_page, "prints one HTML page with all answers, for a browser", "pay.csv > audit.html",
        f"""It is one file that needs no network: `{NAME} page SCRIPT > audit.html`. It shows refused commands and
        changes of nothing, commits, questions with tables and pictures, answers of then and now, and each table over
        time; with --diary commits have their days. The program is run twice, and if it doesn't print the same bytes
        again, no page is made. The status is the same as `list`'s.""",
    ),
    "refusals": Tool(
        do_refusals, "explains each refusal by its field and its reason, or by the rows for a key", "pay.csv",
    ),
    "raise": Tool(
        do_raise, "prints the updates that raise amounts by some per cent",
        "pay.csv pay cents --percent 2.5 --from 2025-01-01 --round half-up --dry-run",
        """There is an update for each amount, from a point on. A row that began before is raised from there on. The
        updates are in such an order that none changes an amount that another one has raised. Append them to the
        script.""",
    ),
    "next": Tool(
        do_next, "prints an answer as a table and a load of the next script",
        "pay.csv --ask agg,pay,sum,cents,by,dept --table cost > cost.csv",
        """Each record becomes a row of the table with its own period. The ids are this script's, so they are left out
        without --ids.""",
    ),
}


# Their options. The words of all commands come first and last.

TABLES = "csv changed overlaps gaps coalesce months history"
MANY, SOME, ONE = {"nargs": "*", "default": []}, {"nargs": "+"}, {"nargs": "?"}
ONE_PICK = "the answer, if it isn't the last"
WHOLE = "numbers as csv-to-load made them whole: with cents=2, 123450 is {}"
OPTIONS = [
    Option("script", "", "SCRIPT", "a file, or - for standard input"),
    Option("--ask", "", "[NAME=]COMMAND..", "adds a command after the script, whose answer is taken too; NAME=COMMAND "
           f"names what {picks.NAMED_BY} make of it, and may have blanks, but no comma"),
    Option("--go-on", "", "", "continues if commands were refused"),
    Option("file", "xlsx", "FILE", "the workbook, such as pay.xlsx", workbook),
    Option("database", "sqlite", "DATABASE", "a file, or :memory: for one that isn't kept"),
    Option("table", "history raise", "TABLE", "a table of the script"),
    Option("column", "raise", "COLUMN", "its column of the amounts"),
    Option("column", "overlaps gaps", "COLUMN", "a column whose equal values make a group", more=SOME),
    Option("column", "coalesce", "COLUMN", "a column whose equal values make a group", more=MANY),
    Option("pick", "csv xlsx sqlite json changed", "PICK", picks.HELP, filled, MANY),
    Option("pick", "picture", "PICK", picks.HELP, filled, ONE),
    Option("pick", "next months", "PICK", ONE_PICK, filled, ONE),
    Option("pick", "page", "PICK=NAME", "names an answer's question", more=MANY),
    Option("--of", "overlaps gaps coalesce", "PICK..", ONE_PICK),
    Option("--table", "next", "NAME", "the name of the table that it becomes", more={"required": True}),
    Option("--column", "next", "COLUMN[=NAME]..", "only these of its columns, in this order, under their names or "
           "others", named),
    Option("--key", "next", "COLUMN..", "a column of the table's key"),
    Option("--ids", "next", "", "keeps the ids as columns"),
    Option("--folder", "csv", "FOLDER", "writes a file NAME.csv for each answer to this folder", filled),
    Option("--replace", "csv", "", "replaces files of these names in the folder"),
    Option("--rows", "csv", "", "for a division: each row's period and values too"),
    Option("--by", "csv", "COLUMN..", "for a division: one of its own for each value of this column, with rows; may be "
           "repeated"),
    Option("--counts", "csv", "", "for a division, or with --by each group's: how many rows and parts it has, and its "
           "instant"),
    Option("--replace", "xlsx", "", "replaces a workbook of this name"),
    Option("--query", "sqlite", "SQL..", "prints what the database answers, as CSV; without one the tables are listed"),
    Option("--replace", "sqlite", "", "replaces tables of these names in the database"),
    Option("--open-null", "sqlite", "", "an end in the year 9999 is NULL in the tables"),
    Option("--day", "sqlite", "POINT", "makes a view NAME_day of each table, with the records that hold at that point"),
    # Every picture is SVG, so the word says nothing more.
    Option("--svg", "picture", "", SUPPRESS),
    Option("--by", "picture", "COLUMN", "a lane for each of its values (of the first column)", filled),
    Option("--label", "picture", "COLUMN", "the column that labels the bars", filled),
    Option("--title", "page", "TEXT", "the page's title", more={"default": ""}),
    Option("--note", "page", "TEXT", "a note at its top", more={"default": ""}),
    Option("--percent", "raise", "NUMBER", "how much more, as 2.5, or less, as -3", more={"required": True}),
    Option("--from", "raise", "POINT", "from this point on", more={"dest": "start", "required": True}),
    Option("--to", "raise", "POINT", "up to this point, if not for good", more={"dest": "end"}),
    Option("--sum", "months", "COLUMN", "the column of the amounts", more={"required": True}),
    Option("--per", "months", "{" + ",".join(EACH) + "}", "a record has its amount in each of these pieces",
           more={"choices": EACH}),
    Option("--in-total", "months", "", "a record has its amount once, for its whole period"),
    Option("--by", "months", "COLUMN..", "sums for each of its values; may be repeated"),
    Option("--each", "months", "{" + ",".join(EACH) + "}", "the pieces; weeks begin on Mondays",
           more={"choices": EACH, "default": "month"}),
    Option("--where", "picture history raise months", "COLUMN=VALUE..", "only records with this value; may be repeated",
           pair),
    Option("--from", "picture", "POINT", "the first point that is shown", more={"dest": "start"}),
    Option("--to", "picture", "POINT", "the end of the time that is shown", more={"dest": "end"}),
    Option("--from", "months", "POINT", "counts from there on", more={"dest": "start"}),
    Option("--to", "months", "POINT", "counts up to there, or with --last-day including that day; needed if an end "
           "isn't known", more={"dest": "end"}),
    Option("--less", "months", "ANSWER", "subtracts the sums of this answer: a PICK, or a question such as "
           "rows,T,asof,3"),
    Option("--no-zeros", "months", "", "leaves out sums that are exactly 0, such as differences of equal amounts"),
    Option("--round", "raise", "HOW", f"how an amount becomes a whole number: {', '.join(ROUNDINGS)}, as Python's "
           "decimal has them", more={"dest": "rounding", "choices": ROUNDINGS}),
    Option("--again", "raise", "", "raises amounts that the script has raised already"),
    Option("--dry-run", "raise", "", "prints a table of what the updates would do instead"),
    Option("--commit", "history", "N", "only what this commit changed; N-M for those from N to M, N- for all from N on",
           some_commits),
    Option("--retroactive", "history", "", "only the time before the day that the diary has"),
    Option("--for-spreadsheet", TABLES, "", "puts an apostrophe before texts that a spreadsheet would run as formulas, "
           "and a byte order mark in front"),
    Option("--decimals", f"{TABLES} xlsx sqlite page", "COLUMN=DIGITS..", WHOLE.format("1234.50"), decimals),
    Option("--decimals", "picture", "COLUMN=DIGITS..", WHOLE.format("shown as 1,234.50, and with cents=0 as 123,450"),
           decimals),
    Option("--german", TABLES, "", "decimals such as 1234,50; with --for-spreadsheet also semicolons between fields"),
    Option("--german", "sqlite", "", "decimals are as 1234,50"),
    Option("--german", "page", "", "amounts such as 1.234,50"),
    Option("--german", "picture", "", "shows 1,234.50 as 1.234,50"),
    Option("--last-day", f"{TABLES} xlsx sqlite page", "", "valid_to becomes last_day, the last day on which a record "
           "holds"),
    Option("--width", "picture", "PIXELS", "how many pixels wide (up to 1,600 without it)", pixels),
    Option("--height", "picture", "PIXELS", "how many pixels tall at most (4,000)", pixels),
    Option("--answers", "", "FILE", "answers that were kept, or - for standard input: the program must print the same "
           "bytes again", filled),
    Option("--diary", "", "TABLE", "a table whose first column is the newest commit of a time; by it a question has "
           "the commit of a day: asof,2024-03-31 is as of the one that was the newest then"),
]


def parser_of(name: str, tool: Tool) -> Words:
    about = f"{tool.about[0].upper()}{tool.about[1:]}. {' '.join(tool.more.split())}".strip()
    parser = Words(f"{NAME} {name} {tool.example}", prog=f"{NAME} {name}", description=about)
    add_all(parser, OPTIONS, name)
    return parser


def usage() -> str:
    return ABOUT + "".join(f"  {name:10}{tool.about}\n" for name, tool in TOOLS.items()) + AFTER


def main(words: Optional[Sequence[str]] = None) -> int:
    given_words = sys.argv[1:] if words is None else words
    return streams.run(which.ANSWERS_SAY, lambda: run(given_words))


def run(words: Sequence[str]) -> int:
    if not words:
        sys.stderr.write(usage())
        return 2
    if words[0] in ("-h", "--help"):
        streams.show_text(usage())
        return 0
    command = Words(prog=NAME, usage=f"{NAME} COMMAND SCRIPT ..", add_help=False)
    command.add_argument("command", choices=TOOLS, metavar="COMMAND")
    tool = TOOLS[command.parse_args(words[:1]).command]
    try:
        with Progress(f"{which.ANSWERS_SAY} {words[0]}"):
            return tool.do(options_of(words[0], words[1:])) or 0
    except (Misfit, sqlite3.Error, sqlite3.Warning) as error:
        warn(str(error))
    except MemoryError:
        warn("out of memory")
    except UnicodeEncodeError as error:
        warn(f"SQLite takes only UTF-8, which this isn't: {records.visible(error.object)}")
    return 1


def options_of(name: str, words: Sequence[str]) -> Namespace:
    """Returns the options of a command, with the program. Raises Misfit for an option that has no use."""
    options: Namespace = parser_of(name, TOOLS[name]).parse_intermixed_args(words)
    # Some commands have other words.
    if "for_spreadsheet" in options and options.german and not (options.decimals or options.for_spreadsheet):
        raise Misfit(given.GERMAN.format("--decimals COLUMN=DIGITS or --for-spreadsheet"))
    picked = getattr(options, "pick", None) or []
    for word in [picked] if isinstance(picked, str) else picked:
        if "," in word and not picks.is_pick(word):
            raise Misfit(f"{word}: that is a question, not an answer of the script: --ask {word} asks it")
    # Only some commands make something that has a question's name.
    if name not in ("xlsx", "sqlite", "json", "page") and not getattr(options, "folder", None):
        given.refuse_names("--ask", options.ask)
    options.program = which.program()
    return options
