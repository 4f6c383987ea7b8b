"""The words of a tool, by tables: each option once, with the commands that take it."""
import re
import sys
from argparse import SUPPRESS, Action, ArgumentError, ArgumentParser, ArgumentTypeError, Namespace
from typing import Any, Callable, Dict, Iterable, NamedTuple, NoReturn, Optional, Sequence, Tuple, TypeVar

from ruzgalt.cli import streams
from ruzgalt.report.shown import Amounts, Look

# How many options --help lists.
OPTIONS = 6
T = TypeVar("T")


class Option(NamedTuple):
    """A word that a tool takes: an option if it begins with hyphens.

    of      the commands that take it; empty for all
    value   what the help calls its value: a flag has none, and two dots follow it if the option may be repeated
    """

    word: str
    of: str
    value: str
    help: str
    type: Callable[[str], Any] = str
    more: Dict[str, Any] = {}


def add_all(parser: ArgumentParser, options: Iterable[Option], command: str = "") -> None:
    """Adds the options that a command takes."""
    for one in options:
        if not one.of or command in one.of.split():
            words: Dict[str, Any] = {"type": one.type, "metavar": one.value.rstrip(".")}
            words.update({"action": "append", "default": []} if one.value.endswith("..") else {})
            words = words if one.value else {"action": "store_true"}
            parser.add_argument(one.word, help=one.help, **words, **one.more)


class Once(Action):
    """Keeps the value of an option. A second one would silently replace it, so it is refused."""

    is_given = False

    def __call__(
        self, parser: ArgumentParser, namespace: Namespace, values: Any, option_string: Optional[str] = None,
    ) -> None:
        if option_string and self.is_given:
            raise ArgumentError(self, "given twice")
        self.is_given = True
        setattr(namespace, self.dest, values)


class Words(ArgumentParser):
    """The words of a tool. An error in them is reported without characters that act on a terminal.

    The help begins with an example, and has the first options. All are in the help of --help-all.
    """

    def __init__(self, example: str = "", first: Sequence[str] = (), **words: Any) -> None:
        super().__init__(**words)
        self.example, self.first = example, first
        # The action of an option that doesn't name one.
        self.register("action", None, Once)

    def parse_intermixed_args(self, args: Any = None, namespace: Any = None) -> Any:
        """Prints a help that is wanted, before words are parsed: afterwards the usage would lack some."""
        if "--help-all" in args:
            streams.show_text(self.format_help())
            self.exit()
        if not {"-h", "--help"}.isdisjoint(args):
            self.print_help()
            self.exit()
        return super().parse_intermixed_args(args, namespace)

    def print_help(self, file: Any = None) -> None:
        """Prints the example, and the help with the first options."""
        options = [one for one in self._actions if one.option_strings and one.dest != "help" and one.help != SUPPRESS]
        first = [one for one in options if one.dest in self.first] or options[:OPTIONS]
        others = [(one, one.help) for one in options if one not in first]
        for one, _ in others:
            one.help = SUPPRESS
        shown = self.format_help()
        for one, text in others:
            one.help = text
        more = f"\n--help-all lists {len(others)} more options.\n" if others else ""
        streams.show_text((f"For example:\n\n    {self.example}\n\n" if self.example else "") + shown + more)

    def error(self, message: str) -> NoReturn:
        super().error(streams.visible(message) if sys.stderr.isatty() else message)


def filled(word: str) -> str:
    """Returns a word that isn't empty: a shell's variable that isn't set gives an empty one."""
    if not word:
        raise ArgumentTypeError("the word is empty")
    return word


def formed(form: str, what: str, make: Callable[["re.Match[str]"], T]) -> Callable[[str], T]:
    """Returns what reads words of a form, and refuses others as not `what`."""
    def read(word: str) -> T:
        found = re.fullmatch(form, word, re.DOTALL)
        if not found:
            raise ArgumentTypeError(f"{word}: not {what}")
        return make(found)

    return read


# Excel opens no other.
workbook = formed(r"(?i).*\.xlsx", "the name of a workbook, such as pay.xlsx", lambda found: found[0])
pair = formed("([^=]*)=(.*)", "COLUMN=VALUE", lambda found: (found[1], found[2]))
decimals = formed(r"(.+)=(\d\d?)", "COLUMN=DIGITS, such as Pay=2", lambda found: (found[1], int(found[2])))
lines = formed(r"\d{1,9}", "a number of lines, such as 2", lambda found: int(found[0]))
pixels = formed(r"[4-9]\d|[1-9]\d{2,4}|100000", "a number from 40 to 100000", lambda found: int(found[0]))
# The first commit, and the last one if there is one.
some_commits = formed(
    r"(\d+)(?:(-)(\d*))?", "N, FIRST-LAST or FIRST-, such as 7, 7-9 or 7-",
    lambda found: (int(found[1]), int(found[3]) if found[3] else None if found[2] else int(found[1])),
)


def named(word: str) -> Tuple[str, str]:
    """Returns a column, and the name that it gets."""
    return pair(word) if "=" in word else (word, word)


def look_of(options: Namespace) -> Look:
    return Look(Amounts(options.decimals, getattr(options, "german", False)), options.last_day)
