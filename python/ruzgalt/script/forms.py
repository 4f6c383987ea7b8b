"""The forms of fields: points, numbers and names, as docs/LANGUAGE.md defines them."""
import re
from datetime import datetime, timedelta
from functools import lru_cache
from typing import NamedTuple, Optional, Sequence, Tuple

from ruzgalt.errors import Misfit
from ruzgalt.script.records import short

POINT = re.compile(r"\d{4}-\d\d-\d\d(?:T\d\d:\d\d:\d\d)?", re.ASCII)
INTEGER = re.compile(r"0|-?[1-9]\d*", re.ASCII)
# Examples of points, for a person.
POINTS = "2024-01-05 or 2024-01-05T08:30:00"
LONGEST_NAME = 32
NAME = re.compile(rf"[a-z][a-z0-9_]{{0,{LONGEST_NAME - 1}}}", re.ASCII)
# What a name has, for a person.
NAME_HAS = f"1 to {LONGEST_NAME} of a to z, 0 to 9 and _, the first a letter"
RESERVED = ("asof", "by", "key", "on", "set", "where")
TEXT_LIMIT = 4096
# No number of a column has more characters; a sum of 1,000,000 of them has six more.
LONGEST_INTEGER, LONGEST_SUM = 20, 26
BEGINNING = datetime(1, 1, 1)
# An end from then on stands for none that is known.
NO_END = "9999-12-31"
# Spreadsheets part thousands by these too: a space, a no-break space, and a narrow one; Swiss ones by apostrophes.
SPACES, APOSTROPHES = " \u00a0\u202f", "'\u2019"


def read_point(text: str) -> Optional[datetime]:
    try:
        # From 3.14 on, Python would read 24:00:00 as the next midnight.
        return datetime.fromisoformat(text) if POINT.fullmatch(text) and text[11:13] != "24" else None
    except ValueError:
        return None


def read_limits(start: Optional[str], end: Optional[str]) -> Tuple[Optional[datetime], Optional[datetime]]:
    """Returns the points of --from and --to; None for one that isn't given. Raises Misfit for other texts."""
    points = [None if text is None else read_point(text) for text in (start, end)]
    for word, text, point in zip(("from", "to"), (start, end), points):
        if text is not None and point is None:
            raise Misfit(f"--{word} {short(text)}: not a date or time, such as {POINTS}")
    return points[0], points[1]


def print_point(point: datetime) -> str:
    """Returns the shortest text of a point: a midnight's is its date. Texts are in the order of time."""
    text = point.isoformat()
    return text[:10] if text.endswith("T00:00:00") else text


@lru_cache(1 << 16)
def printed(text: str) -> str:
    """The text of a point as dipq prints it."""
    point = read_point(text)
    return print_point(point) if point else text


@lru_cache(1 << 16)
def is_printed(text: str) -> bool:
    return read_point(text) is not None and printed(text) == text


@lru_cache(1 << 16)
def seconds(point: str) -> int:
    """The seconds from the first point that there is."""
    read = read_point(point)
    return round((read - BEGINNING).total_seconds()) if read else 0


def at_second(number: int) -> datetime:
    return BEGINNING + timedelta(seconds=number)


def is_integer(text: str, least: int = -(1 << 63)) -> bool:
    return len(text) <= LONGEST_INTEGER and bool(INTEGER.fullmatch(text)) and least <= int(text) < 1 << 63


def is_sum(text: str) -> bool:
    return len(text) <= LONGEST_SUM and bool(INTEGER.fullmatch(text))


def is_count(text: str) -> bool:
    return is_integer(text, 0)


def is_name(text: str) -> bool:
    return bool(NAME.fullmatch(text)) and text not in RESERVED


def is_utf8(text: str) -> bool:
    try:
        text.encode("utf-8")
        return True
    except UnicodeEncodeError:
        return False


def in_lines(texts: Sequence[str]) -> str:
    """Returns the texts joined as lines, or an empty text if one has a line end itself."""
    lines = "\n".join([*texts, ""])
    return lines if lines.count("\n") == len(texts) else ""


def is_short(text: str) -> bool:
    return len(text.encode("utf-8", "surrogateescape")) <= TEXT_LIMIT


def shifted(text: str, days: int) -> str:
    """Returns the day `days` later; an empty text if the point isn't a midnight, or no such day exists."""
    try:
        return str((datetime.fromisoformat(text) + timedelta(days=days)).date()) if len(text) == 10 else ""
    except (OverflowError, ValueError):
        return ""


def is_month_end(text: str) -> bool:
    return shifted(text, 1).endswith("-01")


def is_far_off(text: str) -> bool:
    """Whether a point is one that is seldom meant. The first day and the last year stand for what isn't known.

    1900-01-01 is what databases make of no date.
    """
    return not ("1900-01-01" < text < "2099" or text[:4] == "9999" or text == "0001-01-01")


def form_of(mark: str) -> "re.Pattern[str]":
    """The sign, the whole digits and the decimals. Thousands don't begin with 0, unlike `0.500`."""
    parting = "[" + re.escape(",.".replace(mark, "")) + SPACES + APOSTROPHES + "]"
    thousands = rf"[1-9]\d{{0,2}}(?P<parting>{parting})\d{{3}}(?:(?P=parting)\d{{3}})*"
    return re.compile(rf"(?P<sign>-?)(?P<whole>{thousands}|\d+)(?:{re.escape(mark)}(?P<decimals>\d+))?", re.ASCII)


NUMBER_FORMS = {mark: form_of(mark) for mark in ".,"}
PARTING = re.compile(f"[.,{SPACES}{APOSTROPHES}]")


class Number(NamedTuple):
    """The digits of a number before its mark, and after it."""

    sign: str
    whole: str
    decimals: str

    def __str__(self) -> str:
        return f"{self.sign}{self.whole}" + (f".{self.decimals}" if self.decimals else "")


def number_in(text: str, mark: str) -> Optional[Number]:
    found = NUMBER_FORMS[mark].fullmatch(text.strip(SPACES))
    return Number(found["sign"], PARTING.sub("", found["whole"]), found["decimals"] or "") if found else None
