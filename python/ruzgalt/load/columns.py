"""The columns of a CSV file that is loaded: the field that each value becomes, faults, and possible mistakes."""
import re
from argparse import Namespace
from typing import Callable, Dict, Optional, Sequence, Set

from ruzgalt.errors import Misfit
from ruzgalt.lint.rows import Doubt
from ruzgalt.lint.texts import LookAlikes, are_plain, doubt_of
from ruzgalt.load import dates
from ruzgalt.load.numbers import EMPTY, NUMBERS, Scale
from ruzgalt.script.forms import (
    INTEGER, NO_END, SPACES, TEXT_LIMIT, in_lines, is_far_off, is_integer, is_short, shifted,
)
from ruzgalt.script.records import to_record, visible
from ruzgalt.script.schemas import Kind

# How messages name the end that stands for one that isn't known.
UNKNOWN = f"{NO_END}, which stands for no known end"
TO_SPACE = str.maketrans(SPACES, " " * len(SPACES))


# So few new values are made one by one.
FEW = 8
# A text of at most this many characters is short enough, since no character has more than four bytes.
SHORT = TEXT_LIMIT // 4
# A field with one of these is quoted in a record.
MARKED = re.compile('[,"\r\n]')
# Whole numbers, a line each, that surely are some of the store.
INTEGERS = re.compile(r"(?:(?:0|-?[1-9][0-9]{0,17})\n)+")


class Column(Dict[str, Optional[str]]):
    """The field that each value of a column becomes, computed once for equal values; None if it is at fault."""

    def __init__(self, name: str, convert: Callable[[str], str]) -> None:
        super().__init__()
        self.name, self.convert = name, convert
        self.faults: Dict[str, str] = {}
        self.doubts: Dict[str, Doubt] = {}
        self.is_varied = False

    def made(self, values: Sequence[str]) -> Sequence[Optional[str]]:
        """The field of each value. New ones are made at once, where all are of a simple form, or else one by one."""
        if self.is_varied:
            # A search for values that are nearly always new takes longer than to make them.
            made = self.made_at_once(values)
            if made:
                return made
        found = list(map(self.get, values))
        if None not in found:
            return found
        new = [value for value in dict.fromkeys(values) if value not in self]
        self.is_varied = len(new) > len(values) // 4
        if len(new) > FEW:
            self.update(zip(new, self.made_at_once(new)))
        return list(map(self.__getitem__, values))

    def made_at_once(self, values: Sequence[str]) -> Sequence[str]:
        """What values become, if all are of a simple form; nothing else."""
        return self.convert.at_once(values) if isinstance(self.convert, Scale) else []

    def __missing__(self, value: str) -> Optional[str]:
        made: Optional[str] = None
        try:
            made = self.convert(value)
            made = to_record([made]) if MARKED.search(made) else made
        except Misfit as error:
            self.faults[value] = str(error)
        self[value] = made
        return made


class Start(Column):
    def __init__(self, name: str, options: Namespace) -> None:
        super().__init__(name, self.point)
        self.form, self.is_given, self.is_last_day = form_of(options), bool(options.dates), options.day_after

    def point(self, value: str) -> str:
        made = dates.point(value.strip(SPACES), self.form, self.is_given)
        if self.is_last_day:
            made = shifted(made, 1)
            if not made:
                raise Misfit("a last day has no time, and a day after it")
        if is_far_off(made) or dates.is_far_ahead(made):
            self.doubts[value] = Doubt("far off", f"{made[:4]} is far off; is the year right?")
        return made


class End(Column):
    def __init__(self, name: str, options: Namespace) -> None:
        super().__init__(name, self.point)
        self.form, self.is_given = form_of(options), bool(options.dates)
        self.is_open, self.is_last_day = options.open, options.last_day
        self.no_ends = {*options.no_end, *([""] if options.open else [])}
        self.met: Set[str] = set()

    def point(self, value: str) -> str:
        text = value.strip(SPACES)
        if text in self.no_ends:
            self.met.add(text)
            return NO_END
        if text.lower() in dates.MISSING:
            remedy = f"not a date; --no-end '{text}' reads" if text else "no end is given; --open reads"
            raise Misfit(f"{remedy} it as {UNKNOWN}")
        made = dates.point(text, self.form, self.is_given)
        if is_far_off(made):
            why = f"a row ends there; if its end isn't known, --no-end '{text}' makes it {NO_END}"
            self.doubts[value] = Doubt("far off", why)
        if "T23:59" in made and not self.is_last_day:
            why = "the row doesn't hold at its end: a day ends at the next one's midnight"
            self.doubts[value] = Doubt("23:59", why)
        return self.the_next_day(made, text) if self.is_last_day else made

    def the_next_day(self, last: str, text: str) -> str:
        """The day after a last day, which the file has as this text.

        If ends may be unknown, 9999-12-30 would become the day that means an unknown one.
        """
        if last == NO_END:
            if not self.is_open:
                raise Misfit(f"it is the last day; --open reads it as {UNKNOWN}")
            self.met.add("")
            return NO_END
        if len(last) != 10:
            raise Misfit("a last day can't have a time")
        made = shifted(last, 1)
        if made == NO_END and self.no_ends:
            raise Misfit(f"the day after it is {UNKNOWN}; --no-end '{text}' reads it as that")
        return made


class Text(Column):
    """A text, or a number that is taken as it is."""

    def __init__(self, name: str, options: Namespace, kind: Optional[Kind], is_key: bool) -> None:
        super().__init__(name, self.value)
        self.has_plain_spaces, self.mark = options.plain_spaces, mark_of(options)
        self.kind, self.is_key = kind, is_key
        self.has_empty = is_key or not options.update or name in options.empty
        self.look_alikes = LookAlikes()

    def made_at_once(self, values: Sequence[str]) -> Sequence[str]:
        """Returns plain texts, quoted if needed, unless one looks like another; or whole numbers."""
        if self.kind is Kind.INT:
            return values if INTEGERS.fullmatch(in_lines(values)) else []
        if not are_plain(values) or max(map(len, values)) > SHORT or not self.look_alikes.are_apart(values):
            return []
        # A comma is the only character of theirs that needs quotes.
        return [f'"{value}"' if "," in value else value for value in values]

    def value(self, text: str) -> str:
        made = text.translate(TO_SPACE) if self.has_plain_spaces else text
        if not made and not self.has_empty:
            remedy = "if the old value stays, put these rows into a file without the column"
            raise Misfit(f"an update would set the empty text; if that is meant, use --empty {self.name}; {remedy}")
        if self.kind is Kind.INT:
            return self.number(made)
        if len(made) > SHORT and not is_short(made):
            raise Misfit("a text can have at most 4,096 bytes")
        why = doubt_of(made, self.mark)
        other = self.look_alikes.other(made)
        if why:
            self.doubts[text] = Doubt(why, why)
        elif other is not None:
            self.doubts[text] = Doubt("alike", f"it looks like '{visible(other)}', but is another text")
        elif self.is_key and not made:
            self.doubts[text] = Doubt("empty", "it is empty, so all such rows have the same key")
        return made

    def number(self, text: str) -> str:
        """A whole number of the store, taken as it is."""
        if is_integer(text):
            return text
        if INTEGER.fullmatch(text) or not text.strip(SPACES):
            raise Misfit(NUMBERS if text.strip(SPACES) else EMPTY)
        # A number with leading zeros is seldom one of cents.
        digits = 0 if text.isdecimal() else 2
        raise Misfit(f"not a whole number, such as 5000; --decimals {self.name}={digits} makes other numbers whole")


def form_of(options: Namespace) -> Optional[str]:
    form: Optional[str] = options.dates or (dates.GERMAN if options.german else None)
    return form


def mark_of(options: Namespace) -> str:
    return options.decimal_mark or ("," if options.german else ".")
