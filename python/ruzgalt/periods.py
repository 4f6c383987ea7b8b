"""Pieces of the calendar: days, weeks from Monday on, months, quarters and years; and rules of rounding.

Points are seconds from the first one that there is, 0001-01-01, a Monday. Pieces of a kind are numbered from 0 on; each
ends where the next one starts, so that the last one of the year 9999 ends after all points.
"""
import decimal
from datetime import date
from functools import lru_cache
from typing import NamedTuple

DAY = 86_400
# How many months, or days, a piece has.
MONTHS = {"month": 1, "quarter": 3, "year": 12}
DAYS = {"day": 1, "week": 7}
EACH = (*DAYS, *MONTHS)
# What decimal calls them.
ROUNDINGS = {
    word: getattr(decimal, f"ROUND_{word.replace('-', '_').upper()}")
    for word in ("half-up", "half-down", "half-even", "up", "down", "ceiling", "floor")
}


class Calendar(NamedTuple):
    """Time cut into pieces of `length` days or months. The first piece of a year begins in January."""

    length: int
    has_months: bool

    def number_of(self, second: int) -> int:
        """Returns the number of the piece that has this second."""
        day = second // DAY
        return (month_of(day) if self.has_months else day) // self.length

    def start_of(self, number: int) -> int:
        """Returns the first second of a piece."""
        first = number * self.length
        return DAY * (first_day_of(first) if self.has_months else first)


@lru_cache(1 << 16)
def month_of(day: int) -> int:
    """Returns the month of a day, both counted from 0 on."""
    found = date.fromordinal(day + 1)
    return found.year * 12 + found.month - 13


@lru_cache(1 << 16)
def first_day_of(month: int) -> int:
    """Returns the first day of a month, both counted from 0 on."""
    years, months = divmod(month, 12)
    return date(years + 1, months + 1, 1).toordinal() - 1 if years < date.max.year else date.max.toordinal()


def calendar(each: str) -> Calendar:
    """Returns the calendar of a word of EACH."""
    return Calendar(MONTHS[each], True) if each in MONTHS else Calendar(DAYS[each], False)
