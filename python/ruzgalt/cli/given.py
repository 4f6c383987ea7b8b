"""The script and its answers that a tool takes, which of the answers are picked, and how tables are printed."""
import hashlib
from argparse import Namespace
from pathlib import Path
from typing import Dict, Iterator, List, NamedTuple, Optional, Sequence

from ruzgalt import which
from ruzgalt.cli import streams
from ruzgalt.cli.options import look_of
from ruzgalt.errors import Misfit
from ruzgalt.lint import scripts
from ruzgalt.report import export, picks
from ruzgalt.report.contents import Marked, Sources
from ruzgalt.script import answers, changes, refusals, run
from ruzgalt.script.answers import Answer
from ruzgalt.script.records import short, visible
from ruzgalt.script.run import Beginnings, Past, versions_of
from ruzgalt.script.schemas import Table
from ruzgalt.which import ANSWERS, ANSWERS_SAY

# How many lines with possible mistakes of one kind are named, and how many kinds after a table.
PLACES, MISTAKES = 3, 5
# The program's own file, relative to the command that runs it: in the repository, and installed.
PROGRAMS = ("crates/dipq/out/dipq", "../libexec/dipq/dipq")


class Found(NamedTuple):
    """All answers, those to the questions of --ask with their names by the answers' numbers, and what comes after."""

    answers: List[Answer]
    asked: List[Answer]
    names: Dict[int, str]
    # Runs the program again with more questions.
    past: Past
    output: bytes


def warn(note: str) -> None:
    streams.report(f"{ANSWERS_SAY}: {note}")


def bytes_of(name: str) -> bytes:
    return streams.given() if name == "-" else Path(name).read_bytes()


def read(options: Namespace, shows_refusals: bool = False, script: Optional[bytes] = None) -> Found:
    """Returns the program's answers to the script, which is read if it isn't given.

    Raises Misfit if a command was refused, unless refusals are shown or passed over; if a question of --ask was
    refused, since another answer would be shown instead; or if answers that were kept aren't the program's.
    """
    if options.script == options.answers == "-":
        raise Misfit("standard input can't be both the script and its answers")
    named = [run.named(word) for word in options.ask]
    script = bytes_of(options.script) if script is None else script
    options.ask = by_commits(options, [question for _, question in named], shows_refusals, script)
    source = run.with_questions(script, options.ask)
    # The program works while the script is read.
    running = run.Running(options.program, source.data)
    try:
        begun = run.commands_of(source, options.ask)
    except Misfit:
        running.stop()
        raise
    if all(command.record.is_asked for command in begun):
        warn(run.EMPTY)
    output = running.output()
    if options.answers is not None:
        run.refuse_other_bytes(options.answers, bytes_of(options.answers), output)
    found = answers.of_commands(begun, output)
    if not shows_refusals:
        refuse_refused(found, options.go_on)
    if options.diary is not None:
        # Only questions as of days need it.
        changes.refuse_no_commits(changes.schema_of(found, options.diary))
    asked = [answer for answer in found if answer.command.record.is_asked]
    names = names_of(asked, dict(zip(run.lines_of(options.ask, source), (name for name, _ in named))))
    return Found(found, asked, names, Past(options.program, source, output, begun, found), output)


def refuse_refused(found: Sequence[Answer], goes_on: bool) -> None:
    """Raises Misfit for a refused command; if these are passed over, for a question of --ask."""
    refused = [answer for answer in found if answer.refusal and not (goes_on and not answer.command.record.is_asked)]
    if refused:
        more = f" ({len(refused)} refused; `{ANSWERS} refusals` explains, --go-on goes on)"
        raise Misfit(f"{refusals.described(refused[0])}{more * (not refused[0].command.record.is_asked)}")


def by_commits(options: Namespace, asked: Sequence[str], shows_refusals: bool, script: bytes) -> List[str]:
    """Returns the questions with commits instead of days. The script is answered first without them, for its diary."""
    points = [(question, point) for question in asked for point in run.dated(question).values()]
    if not points:
        return list(asked)
    if options.diary is None:
        shown = short(points[0][0].strip())
        raise Misfit(f"{shown}: asof takes a commit's number; with --diary TABLE it also takes a day")
    own = read(Namespace(**{**vars(options), "ask": [], "answers": None}), shows_refusals, script)
    [rows] = own.past.ask(f"rows,{options.diary}")
    commits = changes.commits_at(rows, (point for _, point in points))
    for point, commit in commits.items():
        warn(f"asof {point} is commit {commit}, by {options.diary}")
    return [run.with_commits(question, commits) for question in asked]


def names_of(asked: Sequence[Answer], begun: Dict[int, str]) -> Dict[int, str]:
    """Returns the names of questions by their answers' numbers, from the names by the lines where words begin.

    A word may have several commands, and a name is of one.
    """
    found, name = {}, ""
    for answer in asked:
        if name and answer.line not in begun:
            text = short(answer.command.text)
            raise Misfit(f"--ask {name}=..: a name is for one question, but {text} follows it")
        name = begun.get(answer.line, "")
        if name:
            found[answer.number] = name
            if not (answer.refusal or picks.is_asked(answer)):
                raise Misfit(f"--ask {name}=..: {short(answer.command.text)}: only questions have names")
    return found


def refuse_names(option: str, words: Sequence[str]) -> None:
    """Refuses a question's name if nothing is made that would have it."""
    for word in words:
        name, question = run.named(word)
        if name:
            raise picks.nameless(f"{option} {short(word)}", short(question))


# Possible mistakes.

def warn_of_mistakes(found: Found, most: Optional[int] = None) -> None:
    """Warns of possible mistakes in the script: of each kind the first, and at most `most` kinds."""
    kinds = scripts.by_kind(scripts.of(found.answers, found.past))
    for first, *same in kinds[:most]:
        # A file of updates may have a mark for each row.
        more = f" and {len(same) - PLACES:,} more, which `{ANSWERS} refusals` lists" if len(same) > PLACES else ""
        lines = ", ".join(dict.fromkeys(mark.answer.where for mark in same[:PLACES]))
        warn(f"{first.answer.shown}: {first.note}" + (f" (likewise {lines}{more})" if same else ""))
    if most is not None and len(kinds) > most:
        warn(f"{len(kinds) - most} more possible mistakes: `{ANSWERS} list` has all")


# Picks.

def chosen(found: Found, words: Sequence[str]) -> List[picks.Pick]:
    """Returns the answers that were picked or asked, or otherwise all of the script."""
    some = picks.pick(found.answers, words, found.asked, found.names)
    picks.refuse_twins(some)
    look_at(found, [pick.answer for pick in some])
    if not some:
        warn("every answer is just an `ok`, so there are no tables: ask for one, for example by --ask rows,T")
    return some


def look_at(found: Found, taken: Sequence[Answer]) -> None:
    """Reports answers as of a commit before their table had rows."""
    beginnings = Beginnings(found.answers)
    for answer, note in ((answer, note) for answer in taken for note in beginnings.notes_of(answer)):
        warn(f"{answer.shown}: {note}")


def last(found: Found, words: Sequence[str], count: int = 1) -> List[Answer]:
    """Returns `count` answers: the picked and asked ones, or otherwise the last that are more than an `ok`."""
    picks.refuse_names(words)
    some = picks.pick(found.answers, words, found.asked, found.names)
    picks.refuse_same(some)
    if len(some) < count and not (words or found.asked):
        more = f"{len(some)} of the answers are more than an `ok`, but it takes {count}"
        raise Misfit(f"{more}: ask for more, for example by --ask rows,T")
    if len(some) != count and (words or found.asked):
        remedy = ": `csv --folder`, `sqlite` and `json` take several" if count == 1 else ""
        remedy = ": give one more PICK or --ask" if len(some) < count else remedy
        raise Misfit(f"{len(some)} answer{'s' * (len(some) != 1)} given, but it takes {count}{remedy}")
    taken = [pick.answer for pick in some[-count:]]
    look_at(found, taken)
    return taken


# Tables.

GERMAN = "--german says how decimals are printed, so give {} too; dates are given as 2024-12-31"


def show(options: Namespace, table: Table) -> None:
    """Prints a table, after all of it was checked."""
    look_of(options).refuse_strangers(table)
    streams.show_records(pieces(options, table))
    warn_of_formulas(options, [table])


def pieces(options: Namespace, table: Table) -> Iterator[bytes]:
    table = look_of(options).of(table)
    return export.to_spreadsheet(table, options.german) if options.for_spreadsheet else export.to_csv(table)


def warn_of_formulas(options: Namespace, tables: Sequence[Table]) -> None:
    """Warns of fields that a spreadsheet would run, unless they are guarded."""
    found = [] if options.for_spreadsheet else [field for table in tables for field in export.run_in(table)]
    if found:
        fields = f"{len(found)} fields, the first" if len(found) > 1 else "a field,"
        warn(f"a spreadsheet would run {fields} {visible(found[0])}: --for-spreadsheet prevents it")


# Sources of the page.

def sources(options: Namespace) -> Sources:
    """Returns the sources of a page of this script. Raises Misfit if the program doesn't print the same bytes twice."""
    script, asked = bytes_of(options.script), list(options.ask)
    found = read(options, shows_refusals=True, script=script)
    found.past.ask("log", *map(versions_of, found.past.tables))
    kept = None if options.answers is None else marked(options.answers, found.output)
    installed = which.version() if options.program == which.own() and which.WRITTEN.is_file() else ""
    return Sources(
        marked(options.script, script), streams.quoted(word_of(options.script)), command_of(options, asked),
        found.answers, files_of(options.program), installed, kept, found.past,
        named_by(found.answers, options.pick, found.names), options.title, options.note, look_of(options),
    )


def marked(name: str, data: bytes) -> Marked:
    shown = "standard input" if name == "-" else Path(name).name
    return Marked(shown, len(data), hashlib.sha256(data).hexdigest())


def files_of(program: str) -> List[Marked]:
    """Returns the command that was run, and the program's own file if that is another."""
    command = Path(program).resolve()
    files = (one for one in (command, *map(command.parent.joinpath, PROGRAMS)) if one.is_file())
    return [marked(one.name, one.read_bytes()) for one in files][:2]


def named_by(found: Sequence[Answer], words: Sequence[str], names: Dict[int, str]) -> Dict[int, str]:
    """Returns the names of questions, from --ask and from PICK=NAME."""
    made = dict(names)
    for word in words:
        if "=" not in word:
            raise Misfit(f"{word}: the page has all answers; {word}=NAME gives one a name")
        one = picks.picked(found, word, made)
        if not picks.is_asked(one.answer):
            raise Misfit(f"{word}: {one.answer.shown}: only questions have names")
        made[one.answer.number] = one.name
    return made


def command_of(options: Namespace, asked: Sequence[str]) -> str:
    """Returns the command that makes the page again, in the folder of the files."""
    given = [
        ("--answers", options.answers and word_of(options.answers)), ("--diary", options.diary),
        *(("--ask", question) for question in asked), ("--title", options.title), ("--note", options.note),
        *(("--decimals", f"{name}={digits}") for name, digits in options.decimals),
    ]
    words = [ANSWERS, "page", word_of(options.script), *options.pick]
    words.extend(word for one in given if one[1] for word in one)
    words.extend(["--german"] * options.german + ["--last-day"] * options.last_day)
    return " ".join(map(streams.quoted, words))


def word_of(file: str) -> str:
    """Returns the file in the folder of a shell, for which no option is taken."""
    name = Path(file).name if file != "-" else file
    return f"./{name}" if name.startswith("-") and file != "-" else name
