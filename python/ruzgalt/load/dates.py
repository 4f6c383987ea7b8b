"""Points in the forms of other programs. A form is named by the last day of 2024 as it is written there."""
import re
from datetime import date, datetime, timedelta
from fractions import Fraction
from typing import Dict, Iterator, Optional, Pattern, Sequence

from ruzgalt.errors import Misfit
from ruzgalt.script.forms import print_point, read_point

GERMAN, EXCEL, WITH_TIME = "31.12.2024", "45657", "2024-12-31 00:00:00"
# A time of day, by 24 hours or by twice 12.
TIME = (
    r"(?:[ T](?P<hour>\d{1,2}):(?P<minute>\d\d)(?::(?P<second>\d\d)(?:[.,]0+)?)?"
    r"(?:[ \u00a0\u202f]?(?P<half>[AaPp])\.?[Mm]\.?)?)?"
)
DAY, MONTH, YEAR = r"(?P<day>\d{1,2})", r"(?P<month>\d{1,2})", r"(?P<year>\d{4})"
FORMS: Dict[str, Pattern[str]] = {
    form: re.compile(pattern, re.ASCII) for form, pattern in {
        GERMAN: rf"{DAY}\.{MONTH}\.{YEAR}{TIME}",
        "31/12/2024": f"{DAY}/{MONTH}/{YEAR}{TIME}",
        "12/31/2024": f"{MONTH}/{DAY}/{YEAR}{TIME}",
        "12.31.2024": rf"{MONTH}\.{DAY}\.{YEAR}{TIME}",
        "31-12-2024": f"{DAY}-{MONTH}-{YEAR}{TIME}",
        "12-31-2024": f"{MONTH}-{DAY}-{YEAR}{TIME}",
        "2024/12/31": f"{YEAR}/{MONTH}/{DAY}{TIME}",
        "20241231": r"(?P<year>\d{4})(?P<month>\d\d)(?P<day>\d\d)",
        EXCEL: r"(?P<days>\d{5})(?:[.,](?P<part>\d+))?",
        WITH_TIME: rf"(?P<year>\d{{4}})-(?P<month>\d\d)-(?P<day>\d\d){TIME}",
    }.items()
}
# The same with day and month the other way round. Dates with points have the day first, so they aren't ambiguous.
SWAPPED = {
    "31/12/2024": "12/31/2024", "12/31/2024": "31/12/2024", "31-12-2024": "12-31-2024", "12-31-2024": "31-12-2024",
    "12.31.2024": GERMAN,
}
HALF = re.compile(r"[AaPp]\.?[Mm]\.?$")
# Forms that no point has, each with the remedy.
REMEDIES = {
    r"\d:\d\d:\d\d[.,]\d+": "a time is in whole seconds, so leave out the part of a second",
    r":.*\d(?:Z|[+-]\d\d:?\d\d)$": "times have no zone here: the whole table is in one zone",
    r"^\d{1,2}[./-]\d{1,2}[./-]\d\d$": "a year has four digits",
    r"^\d{4}-(?:\d-\d\d?|\d\d-\d)$": "a month and a day have two digits",
    "24:00": "a day ends at the next one's midnight",
}
# A row that starts in this number of years or later is reported.
YEARS_AHEAD = 10
# Excel counts days from here on, for all days since March 1900.
EXCEL_BEGINNING, EXCEL_FIRST = datetime(1899, 12, 30), 61
# Texts of other programs for a missing date.
MISSING = ("", "-", "none", "null", "nan", "nat", "n/a", "unbefristet", "offen", "infinity", "\u221e")


def read_as(form: str, text: str) -> Optional[datetime]:
    found = FORMS[form].fullmatch(text)
    if found is None:
        return None
    parts = found.groupdict()
    try:
        if form == EXCEL:
            if int(parts["days"]) < EXCEL_FIRST:
                return None
            # A part of a day is rounded to a whole second, as Excel shows it.
            seconds = int(Fraction(f"0.{parts['part'] or 0}") * 86_400 + Fraction(1, 2))
            return EXCEL_BEGINNING + timedelta(days=int(parts["days"]), seconds=seconds)
        names = ("year", "month", "day", "minute", "second")
        year, month, day, minute, second = (int(parts.get(name) or 0) for name in names)
        return datetime(year, month, day, hour_of(parts), minute, second)
    except (ValueError, OverflowError):
        return None


def hour_of(parts: Dict[str, str]) -> int:
    """Returns the hour of 24. With AM and PM, 12 begins each half of the day."""
    hour, half = int(parts.get("hour") or 0), (parts.get("half") or "").lower()
    if half and not 1 <= hour <= 12:
        raise ValueError(hour)
    return hour % 12 + 12 * (half == "p") if half else hour


def point(text: str, form: Optional[str], is_given: bool = False) -> str:
    """Returns the point as the store reads it. The store's own form is always read too."""
    read = read_point(text) or (read_as(form, text) if form else None)
    if read is None:
        raise Misfit(f"not a date such as {f'{form} or ' if form else ''}2024-12-31{remedy_for(text, form, is_given)}")
    return print_point(read)


def remedy_for(text: str, form: Optional[str], is_given: bool) -> str:
    """Returns the options, or the other text, that make the text a point. An option that is given isn't advised."""
    others = [other for other in FORMS if other != form and read_as(other, text)]
    # Points between them have the day first where either could be.
    others = [GERMAN] if GERMAN in others else others
    if others and is_given:
        return f"; it is like {' or '.join(others)}: write all dates of the file in one form"
    if others:
        return f"; use {' or '.join('--german' if other == GERMAN else word_for(other) for other in others)}"
    return next((f"; {why}" for form, why in REMEDIES.items() if re.search(form, text)), "")


def word_for(form: str) -> str:
    return f"--dates '{form}'" if " " in form else f"--dates {form}"


def without_half(texts: Sequence[str]) -> Optional[str]:
    """The first text of a time that has neither AM nor PM, where others have."""
    times = [text for text in texts if ":" in text]
    plain = [text for text in times if not HALF.search(text)]
    return plain[0] if plain and len(plain) < len(times) else None


def is_far_ahead(text: str) -> bool:
    """Whether a row that starts there does so later than is known of most facts."""
    return text[:4] > f"{date.today().year + YEARS_AHEAD:04}"


def as_good_swapped(texts: Sequence[str], form: str) -> Iterator[str]:
    """Notes that all dates can also be read with day and month the other way round, and look as likely so.

    A file with first days of months, or a few days of each, has twice the number of months by the right form.
    """
    if form not in SWAPPED:
        return
    other = SWAPPED[form]
    written = [(text, read_as(form, text), read_as(other, text)) for text in texts]
    known = [(text, one, swapped) for text, one, swapped in written if one and swapped]
    differing = [(text, one, swapped) for text, one, swapped in known if one != swapped]
    found, wanted = (len({point.month for point in points}) for points in list(zip(*known))[1:] or [(), ()])
    if not differing or found >= 2 * wanted or any(one and not swapped for _, one, swapped in written):
        return
    text, one, swapped = differing[0]
    months = f"in {found} months either way" if wanted == found else f"in {wanted} months, not in {found}"
    example = f"'{text}', of {len(known)}, is read as {print_point(one)}, and would be {print_point(swapped)}"
    yield f"--dates {other} reads all dates too, then {months}: which is meant? ({example})"
