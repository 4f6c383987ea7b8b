"""The pages of dipq-answers and dipq-load, made of what their --help says."""
from argparse import Action, ArgumentParser
from typing import Iterable, Iterator, List, Sequence

from manual.roff import exact, inline, item, opening, paragraph, prose, section, verbatim
from ruzgalt.report import picks
from ruzgalt.cli import answers as answers_tool, load as load_tool

# The words that each command of dipq-answers takes are described once.
SHARED = ("script", "help", "answers", "ask", "go_on")
IN_A_REPOSITORY = "In a repository of Ruzgalt, and in its documents, the command is {}."
SEE_ALSO = (
    r"\fBdipq\fR(1), {}. In the repository of Ruzgalt, and in /usr/share/doc/dipq where its package is installed: "
    r"docs/RECIPES.md, docs/LOADING.md, docs/COMPUTING.md and docs/PICTURES.md, each command with its output."
)
DIPQ = "The program that answers scripts. By default it is the dipq that is installed with the tool."
ANSWERS_STATUS = [
    ("0", "Nothing was refused."),
    ("1", "Something isn't understood, or a command was refused; with `--go-on` refused commands count only for "
     "`refusals`, and refused questions of `--ask` always."),
    ("2", "The arguments are wrong."),
]
LOAD_STATUS = [
    ("0", "The load was printed."),
    ("1", "Something is wrong; standard error says what. Instead of a load the record `csv-to-load failed` is "
     "printed, which the store refuses."),
    ("2", "The arguments are wrong; the same record is printed."),
]
ANSWERS_EXAMPLES = [
    ("The script's answers, numbered:", "dipq-answers list pay.csv"),
    ("The answer to the command at line 7 as CSV, and to a question that isn't in the script:",
     "dipq-answers csv pay.csv @7\ndipq-answers csv pay.csv --ask at,pay,2024-01-15"),
    ("A query of SQLite over all rows:",
     "dipq-answers sqlite pay.csv :memory: --ask pay=rows,pay \\\n"
     "    --query 'select person, max(euros) from pay group by person'"),
    ("Sums by month and person, as money and with last days; and what a raise would do:",
     "dipq-answers months pay.csv --ask rows,pay --sum cents --per month --by person --to 2024-12-31 \\\n"
     "    --decimals cents=2 --last-day\n"
     "dipq-answers raise pay.csv pay cents --percent 2.5 --from 2025-01-01 --round half-up --dry-run"),
    ("The last division of a script as a picture for a browser:", "dipq-answers picture posts.csv > posts.svg"),
]
LOAD_EXAMPLES = [
    ("A German file, whose last column with a date is the last day of a row, or empty:",
     "(echo table,rent,flat,text,cents,int,key,flat\n"
     " dipq-load rent Von Bis Wohnung Miete --german --last-day --open --decimals Miete=2 < miete.csv\n"
     " echo at,rent,2024-06-30) | dipq"),
    ("A sheet of a workbook, whose columns have other names than the table's:",
     "dipq-load pay Von Bis person=Wer cents=Gehalt --decimals cents=2 --last-day --file loehne.xlsx --sheet 2024"),
]


def answers() -> Iterator[str]:
    yield from opening("dipq-answers")
    yield from section("name", [rf"dipq-answers \- {prose('reads a script of dipq and its answers')}"])
    yield from section("synopsis", [r"\fBdipq-answers\fR \fICOMMAND\fR \fISCRIPT\fR .."])
    about = answers_tool.ABOUT.split("\n\n")
    described = [about[0], about[2], IN_A_REPOSITORY.format("tools/answers")]
    yield from section("description", (one for text in described for one in paragraph(text)))
    yield ".SH COMMANDS"
    for name, tool in answers_tool.TOOLS.items():
        parser = answers_tool.parser_of(name, tool)
        own = [action for action in parser._actions if action.dest not in SHARED]
        yield from [f".SS {name}", *paragraph(parser.description or ""), *words(own)]
    parser = answers_tool.parser_of("list", answers_tool.TOOLS["list"])
    shared = [action for action in parser._actions if action.dest in SHARED]
    yield from section("options", [*words(shared), *item(r"\fIPICK\fR", [inline(sentence(picks.HELP))])])
    yield from ending(ANSWERS_STATUS, ANSWERS_EXAMPLES, r"\fBdipq-load\fR(1)")


def load() -> Iterator[str]:
    parser = load_tool.words()
    yield from opening("dipq-load")
    yield from section("name", [rf"dipq-load \- {prose('turns a CSV file with a header into a load of dipq')}"])
    yield from section("synopsis", synopsis(parser))
    described = [parser.description or "", IN_A_REPOSITORY.format("tools/csv-to-load")]
    yield from section("description", (one for text in described for one in paragraph(text)))
    yield from section("options", words(parser._actions))
    yield from ending(LOAD_STATUS, LOAD_EXAMPLES, r"\fBdipq-answers\fR(1)", has_program=False)


def synopsis(parser: ArgumentParser) -> List[str]:
    """Returns the command, and the words after it that have no hyphen."""
    given = [action for action in parser._actions if not action.option_strings]
    names = " ".join(rf"[\fI{one.metavar}\fR ..]" if one.nargs == "*" else rf"\fI{one.metavar}\fR" for one in given)
    return [rf"\fB{prose(parser.prog)}\fR {names} [\fIOPTION\fR ..] < \fIFILE\fR"]


def words(actions: Iterable[Action]) -> Iterator[str]:
    """An item for each word."""
    for action in actions:
        value = (action.metavar or action.dest.upper()) if action.nargs != 0 else ""
        text = "An answer; see PICK below." if action.dest == "pick" else sentence(action.help or "")
        names = ", ".join(rf"\fB{exact(name)}\fR" for name in action.option_strings)
        yield from item(" ".join(filter(None, [names, rf"\fI{exact(str(value))}\fR" if value else ""])), [
            inline(text),
        ])


def sentence(text: str) -> str:
    return f"{text[:1].upper()}{text[1:]}" + ("" if text.endswith(".") else ".")


def ending(
    statuses: Sequence[Sequence[str]], examples: Sequence[Sequence[str]], other: str, has_program: bool = True,
) -> Iterator[str]:
    yield from section("exit status", (one for status, text in statuses for one in item(status, [inline(text)])))
    yield ".SH EXAMPLES"
    for text, command in examples:
        yield from [*paragraph(text), *verbatim(command.split("\n"))]
    if has_program:
        yield from section("environment", item(r"\fBDIPQ\fR", [prose(DIPQ)]))
    yield from section("see also", [".PP", SEE_ALSO.format(other)])
