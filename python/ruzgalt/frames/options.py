"""The options of the calls in one table: how each is tested, its type, its default, and its text in docstrings."""
from __future__ import annotations

import datetime
import inspect
import re
from dataclasses import dataclass, field, fields, replace
from types import MappingProxyType
from typing import Any, Callable, List, Literal, Mapping, Optional, Sequence, Tuple, TypeVar, Union

import numpy as np
import pandas as pd

from ruzgalt.convert import checks, kinds, named
from ruzgalt.convert.checks import Pair, Suffixes
from ruzgalt.convert.errors import Refused
from ruzgalt.convert.kinds import Kind
from ruzgalt.convert.points import Form
from ruzgalt.frames import docstrings
from ruzgalt.frames.sides import Period
from ruzgalt.periods import EACH

# Types of arguments.
Names = Union[str, int, Sequence[Any], None]
Functions = Union[str, Mapping[Any, Union[str, Sequence[str]]]]
PeriodNames = Union[str, int, Tuple[Any, Any], List[Any]]
PairOfSuffixes = Union[Suffixes, List[Optional[str]]]
# A commit by its number, its label or a day; without one, a question is about the newest.
Commit = Union[int, str, datetime.date, np.datetime64, pd.Period]
AsOf = Optional[Commit]
# For both frames of a pair, or for one of them.
OneSided = Union[bool, Literal["left", "right"]]
GivenNames = Optional[Tuple[Any, ...]]
# Returns the value of an option of this name as the calls work with it, or raises Refused.
Check = Callable[[str, Any], Any]
Call = TypeVar("Call", bound=Callable[..., Any])
# Defaults.
PERIOD: Tuple[Any, Any] = ("from", "to")
SUFFIXES: Suffixes = ("_left", "_right")
NO_DECIMALS: Mapping[Any, int] = MappingProxyType({})
NO_STAND_INS: Mapping[Any, Any] = MappingProxyType({})
WORKERS, MOST_WORKERS = 4, 64
# A join has the pairs, or also the unmatched left rows, right rows, or both.
HOWS = ("inner", "left", "right", "outer")
INNER = HOWS[0]
# Pieces of the calendar, by their letters.
PIECES = {word[0].upper(): word for word in EACH}
MONTH = "M"
# An amount is for each piece of the calendar, or for all of a row's time.
IN_TOTAL = "in total"
AMOUNTS = {**{f"per {word}": word for word in EACH}, IN_TOTAL: ""}
SIDES = ("left", "right")
# The options of a table's frames.
OF_TABLE = ("period", "open_end", "last_day", "decimals", "missing")
NAMES, PERIODS = "name or list of names", "pair of names, or name"
OF_SIDES = "The left and the right period, if names differ."


@dataclass(frozen=True)
class Option:
    """An option of calls: its check, its default, and its type and text in docstrings."""

    check: Check
    default: Any
    kind: str = ""
    text: str = ""

    @property
    def described(self) -> Tuple[str, str]:
        """Its type with the default, and its text."""
        given = repr(self.default).replace("'", '"')
        after = ", optional" if self.default in (None, NO_DECIMALS) else f", default {given}" if given != '""' else ""
        return self.kind + after, self.text


def option(check: Check, default: object = None, kind: str = "", text: str = "") -> Any:
    """Returns a field of Options. If its default is None, None may be given."""
    # pickle takes no MappingProxyType.
    own = dict(default) if isinstance(default, Mapping) else default
    return field(default_factory=lambda: own, metadata={"option": Option(check, default, kind, text)})


def workers_of(name: str, given: Any) -> int:
    return checks.whole(name, given, 1, MOST_WORKERS)


def among(*values: str) -> Check:
    return lambda name, given: checks.one_of(name, given, values)


def one_sided(name: str, given: Any) -> OneSided:
    if isinstance(given, str) and given in SIDES:
        return "left" if given == "left" else "right"
    if not checks.is_flag(given):
        raise checks.wrong(name, given, "must be True or False, or 'left' or 'right' for one frame")
    return bool(given)


def amount_named(name: str, given: Any) -> str:
    if given is None:
        reason = "amount= is missing: give amount='in total' if an amount is for all of a row's time, such as a premium"
        raise Refused("BadCommand", f"{reason}, or 'per month' (or day, week, quarter, year), such as for a pay")
    return checks.one_of(name, given, tuple(AMOUNTS))


@dataclass(frozen=True)
class Options:
    """The options of a call, already tested."""

    call: str = ""
    left_on: GivenNames = option(
        checks.names, None, NAMES, "The left and the right compared columns, if names differ.")
    right_on: GivenNames = option(
        checks.names, None, NAMES, "The left and the right compared columns, if names differ.")
    how: str = option(
        among(*HOWS), INNER, "str",
        "inner, left, right or outer, like pandas.merge: left also has the left rows, each for the time when no right "
        "row matches.")
    by: GivenNames = option(
        checks.names, None, NAMES, "Rows with equal values in these columns are a group; without columns all rows are.")
    period: Period = option(
        checks.period, PERIOD, PERIODS,
        "The columns of a row's start and of its end, the first point after it; or a column of intervals.")
    left_period: Optional[Period] = option(checks.period, None, PERIODS, OF_SIDES)
    right_period: Optional[Period] = option(checks.period, None, PERIODS, OF_SIDES)
    keep_periods: bool = option(
        checks.flag, False, "bool", "Adds the periods of both rows after the shared one.")
    open_end: OneSided = option(
        checks.flag, False, "bool", "Reads a missing end as 9999-12-31, and returns it as missing.")
    last_day: OneSided = option(
        checks.flag, False, "bool",
        "An end is a row's last day, in answers and changes too. Then no point has a time.")
    decimals: Mapping[Any, int] = option(
        checks.digits, NO_DECIMALS, "dict",
        'Numbers of decimals of floats or Decimals that are compared, added or in a store, such as `{"hours": 2}`.')
    missing: Mapping[Any, Any] = option(checks.stand_ins, NO_STAND_INS)
    suffixes: Suffixes = option(
        checks.suffixes, SUFFIXES, "pair of str or None",
        "Texts after names that both frames have; None adds nothing.")
    amount: str = option(
        amount_named, "", "str",
        '"per day", "per week", "per month", "per quarter" or "per year", or "in total" for a row\'s period.')
    each: str = option(
        among(*PIECES), MONTH, "str",
        "Pieces of the calendar: D (days), W (weeks from Monday on), M (months), Q (quarters) or Y (years).")
    within: Optional[Pair] = option(
        checks.span, None, "pair of points",
        "Start and end of the time that counts, or with `last_day` its last day. None as the end means no end.")
    exact: bool = option(checks.flag, False, "bool", "Returns sums as Fractions, not rounded.")
    workers: int = option(
        workers_of, WORKERS, "int",
        f"Threads, 1 to {MOST_WORKERS}, which share out compared values or groups.")
    progress: Optional[bool] = option(
        checks.flag, None, "bool",
        "Shows the seconds on standard error, after two of them; by default on a terminal. With Dask use "
        "dask.diagnostics.")
    # Whether the rows are a partition of Dask's, which brings no warnings.
    is_part: bool = False

    @property
    def form(self) -> Form:
        """Of a call of one frame."""
        return Form(self.open_end is True, self.last_day is True)

    @property
    def keys(self) -> List[List[Any]]:
        """The compared columns of the left frame and of the right one."""
        return [list(self.left_on or ()), list(self.right_on or ())]

    @property
    def shared(self) -> List[Any]:
        """The compared columns that have one name in both frames."""
        return shared_in(*self.keys)

    @property
    def periods(self) -> Tuple[Period, Period]:
        """Of the left frame and of the right one."""
        return self.left_period or self.period, self.right_period or self.period

    @property
    def forms(self) -> List[Form]:
        """Of the left frame and of the right one."""
        return [Form(self.open_end in (True, side), self.last_day in (True, side)) for side in SIDES]

    def kind_of(self, period: Period, *given: Kind) -> Kind:
        """Returns the kind of the answer's points in this period, from frames of these kinds. Raises Refused."""
        return named.kind_of(period, kinds.joint_kind(*given), given[0])


OPTIONS: Mapping[str, Option] = {one.name: one.metadata["option"] for one in fields(Options) if one.metadata}
# The options of calls of two frames that differ.
ONE_SIDED = 'bool, or "left" or "right" for one frame'
OF_PAIR = {name: replace(OPTIONS[name], check=one_sided, kind=ONE_SIDED) for name in ("open_end", "last_day")}
POINT = "str, date, datetime, Timestamp or Period"
OF_DASK = "Rows of Dask's answers are in order within partitions."
OF_PANDAS = "DataFrame", "A frame of pandas. All of it, or with `by` each group, has at most 1,000,000 rows."
PAIR = "DataFrame", f"Frames of pandas or Dask, also one of each. {OF_DASK}"
# Parameters of calls that aren't options.
PARAMETERS: docstrings.Texts = {
    "left": PAIR, "right": PAIR, "frame": ("DataFrame", f"A frame of pandas or Dask. {OF_DASK}"),
    "dip.frame": OF_PANDAS, "check.frame": ("DataFrame", "A frame of pandas, of at most 1,000,000 rows."),
    "on": (f"{NAMES}, optional", "Columns of both sides whose values must be equal. `on=[]` compares none."),
    "function": (
        "str or dict",
        "sum, min, max or mean of `column`, or count. Or a dict of columns, each with one of these or a list of them, "
        "for several at once: in a period all stay the same."),
    "agg.column": ("name, optional", "The column of numbers."), "column": ("name", "The column of numbers."),
    "part": (NAMES, "The column of each row's part, or several, such as a ward and a bed."),
    "point": (POINT, "A day means its midnight."),
    "start": (POINT, "The first point of the time."),
    "end": (POINT, "The first point after the time, or with `last_day` its last day. None means no end."),
}
# What the examples of calls are about.
FRAMES = {
    "pay": """>>> pay = pd.DataFrame({"from": day(["2024-01-01", "2024-07-01", "2024-03-01"]),
...                     "to": day(["2024-07-01", None, "2024-10-01"]),
...                     "person": ["Ada", "Ada", "Grace"], "cents": [5000, 5400, 4800]})
""",
    "contract": """>>> contract = pd.DataFrame({"from": day(["2024-02-01"]), "to": day(["2024-09-01"]),
...                          "person": ["Ada"], "centre": ["press"]})
""",
    "stay": """>>> stay = pd.DataFrame({"from": day(["2024-01-01", "2024-01-03", "2024-01-05"]),
...                      "to": day(["2024-01-05", "2024-01-08", "2024-01-06"]),
...                      "bed": [7, 7, 8], "who": ["Ada", "Grace", "Hill"]})
""",
}
RAISES = """Raises
------
Refused
    If an argument is invalid, or a value can't be kept exactly.
Stopped
    If the library is missing, or memory runs out.

Warns
-----
Doubt
    Of possible mistakes: ends that look like last days, values that look alike, keys that match nothing.
"""


def documented(call: Call) -> Call:
    """Makes the docstring of a call of frames, with RAISES, and with FRAMES that its examples need."""
    # python -OO drops docstrings.
    if call.__doc__:
        table = {**OPTIONS, **(OF_PAIR if "left" in inspect.signature(call).parameters else {})}
        texts = {**{name: one.described for name, one in table.items()}, **PARAMETERS}
        begin, heading, examples = docstrings.made(call.__name__, call, texts).partition("Examples\n--------\n")
        frames = "".join(made for name, made in FRAMES.items() if re.search(rf"\b{name}[,.)]", examples))
        call.__doc__ = f"{begin}{RAISES}\n{heading}>>> day = pd.to_datetime\n{frames}{examples}"
    return call


def options_of(call: str = "", /, **given: Any) -> Options:
    """Raises Refused if a value isn't valid for its option."""
    return checked(call, given, OPTIONS)


def options_in(call: str, given: Mapping[str, Any]) -> Options:
    """Returns the options among the arguments of a call. Raises Refused."""
    table = {**OPTIONS, **(OF_PAIR if "left" in given else {})}
    made = checked(call, {name: value for name, value in given.items() if name in table}, table)
    if all(given.get(name) is None for name in ("on", "left_on", "right_on")):
        return made
    left, right = compared(given["on"], made)
    return replace(made, left_on=tuple(left), right_on=tuple(right))


def checked(call: str, given: Mapping[str, Any], table: Mapping[str, Option]) -> Options:
    there = {name: value for name, value in given.items() if value is not None or table[name].default is not None}
    made = Options(call, **{name: table[name].check(name, value) for name, value in there.items()})
    for period, form in zip(made.periods, made.forms):
        if form.has_last_days and named.are_in(period):
            reason = "last_day=True can't be given with intervals, which end before their right side"
            raise Refused("BadCommand", f"{reason}; {named.BY_SIDES}ends can be last days")
    if made.open_end and named.are_in(made.periods[0]):
        reason = "open_end=True can't be given with intervals, which have no missing end"
        raise Refused("BadCommand", f"{reason}; {named.BY_SIDES}ends can be missing")
    return made


def shared_in(left: Sequence[Any], right: Sequence[Any]) -> List[Any]:
    """Returns the compared columns that have one name on both sides, which are one column of an answer."""
    # NaT doesn't equal itself.
    return list(dict.fromkeys(one for one, other in zip(left, right) if one is other or one == other))


def compared(on: Names, options: Options) -> Tuple[List[Any], List[Any]]:
    """Returns the compared columns of the left frame and of the right one. Raises Refused."""
    names = checks.names("on", on)
    if names is not None and (options.left_on, options.right_on) != (None, None):
        raise Refused("BadCommand", "on= can't be given with left_on= or right_on=")
    left, right = (list(names if names is not None else other or ()) for other in (options.left_on, options.right_on))
    if len(left) != len(right):
        raise Refused("BadCommand", "left_on= and right_on= must have equal numbers of columns")
    return left, right
