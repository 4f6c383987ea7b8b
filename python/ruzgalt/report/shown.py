"""An answer as a person reads it: numbers with decimals, and ends as last days."""
from dataclasses import dataclass
from typing import Iterable, Iterator, List, NamedTuple, Optional, Sequence, Tuple

from ruzgalt.errors import Misfit
from ruzgalt.script import naming
from ruzgalt.script.forms import INTEGER, NO_END, is_printed, shifted
from ruzgalt.script.records import Row, Rows, visible
from ruzgalt.script.schemas import PERIOD, Column, Kind, Table

# What a join and an aggregate put before the name of a column that they read.
BEFORE = ("left_", "right_", "sum_", "min_", "max_")


@dataclass(frozen=True)
class Amounts:
    """Which columns have decimals, and how many. In German 1,234.50 is 1.234,50."""

    digits: Sequence[Tuple[str, int]] = ()
    is_german: bool = False

    def of(self, name: str) -> Optional[int]:
        """Returns the decimals of a column, by its own name or by the table's column from which it was made."""
        names = [name, *(name[len(word):] for word in BEFORE if name.startswith(word))]
        return next((digits for one in names for column, digits in self.digits if column == one), None)

    def refuse_strangers(self, *tables: Table) -> None:
        """A name that no column of numbers has would be taken for used, and so would a second number for one."""
        names = [name for name, _ in self.digits]
        columns = (column for table in tables for column in table.columns)
        known = list(dict.fromkeys(column.name for column in columns if column.kind is Kind.INT))
        for name, _ in self.digits:
            if not any(Amounts([(name, 0)]).of(one) == 0 for one in known):
                there = f"those are {', '.join(known)}" if known else "there are none"
                raise Misfit(f"--decimals {name}: not a column of numbers; {there}")
            if names.count(name) > 1:
                raise Misfit(f"--decimals {name}: given twice")

    def known_to(self, table: Table) -> "Amounts":
        """Only the columns that the table has."""
        names = [column.name for column in table.columns if column.kind is Kind.INT]
        known = [one for one in self.digits if any(Amounts([one]).of(name) is not None for name in names)]
        return Amounts(known, self.is_german)

    def parted(self, number: int, digits: int) -> str:
        """A whole number of the smallest unit: with two digits, 123450 is 1,234.50."""
        whole, rest = divmod(abs(number), 10 ** digits)
        text = f"{'-' if number < 0 else ''}{whole:,}" + (f".{rest:0{digits}}" if digits else "")
        return text.translate(str.maketrans(",.", ".,")) if self.is_german else text

    def plain(self, number: int, digits: int) -> str:
        """The same without a mark between thousands, as other programs read it."""
        return self.parted(number, digits).replace("." if self.is_german else ",", "")

    def printed(self, name: str, text: str) -> str:
        """Returns a field with its thousands parted if its column's decimals are given, otherwise as it is."""
        digits = self.of(name)
        return text if digits is None or not text.lstrip("-").isdigit() else self.parted(int(text), digits)


END, LAST_DAY = PERIOD[1].name, "last_day"


class Look(NamedTuple):
    """How amounts are printed, and whether ends are last days."""

    amounts: Amounts = Amounts()
    has_last_days: bool = False

    @property
    def is_plain(self) -> bool:
        """Whether all stays as it is."""
        return not self.amounts.digits and not self.has_last_days

    def refuse_strangers(self, *tables: Table) -> None:
        """Refuses what none of the tables has a use for, and ends that have no last day."""
        self.amounts.refuse_strangers(*tables)
        having = [table for table in tables if END in table.names and self.has_last_days]
        if self.has_last_days and not having:
            raise Misfit(f"--last-day: the answer has no column {END}")
        # All ends are checked before anything is printed.
        for table in having:
            place = table.index_of(END)
            for end in dict.fromkeys(record[place] for record in table.records):
                last_day(end or NO_END)

    def of(self, table: Table) -> Table:
        """The table by this look."""
        if self.is_plain:
            return table
        columns = self.columns(table)
        return Table(columns, Rows(len(table.records), lambda: self.records(table.columns, table.records)))

    def columns(self, table: Table) -> List[Column]:
        """Returns the table's columns. The end becomes last_day, and another last_day becomes last_day_."""
        if not self.has_last_days or END not in table.names:
            return table.columns
        others = iter(naming.apart([LAST_DAY, *(name for name in table.names if name != END)])[1:])
        return [Column(LAST_DAY if one.name == END else next(others), one.kind) for one in table.columns]

    def records(self, columns: Sequence[Column], records: Iterable[Row]) -> Iterator[Row]:
        looks = [self.look_of(column) for column in columns]
        return ([look(text) for look, text in zip(looks, record)] for record in records)

    def look_of(self, column: Column) -> "OfColumn":
        """What becomes of a column's fields."""
        digits = self.amounts.of(column.name) if column.kind is Kind.INT else None
        return OfColumn(column.name, self.amounts, digits, self.has_last_days and column.name == END)


class OfColumn(NamedTuple):
    """What a column's fields are shown as."""

    name: str
    amounts: Amounts
    digits: Optional[int]
    is_end: bool

    def __call__(self, text: Optional[str]) -> Optional[str]:
        if not text:
            return text
        if self.digits is not None:
            if not INTEGER.fullmatch(text):
                raise Misfit(f"--decimals {self.name}: {visible(text)} isn't a whole number")
            return self.amounts.plain(int(text), self.digits)
        return last_day(text) if self.is_end else text

    def shown(self, text: str) -> str:
        """The field for a person, with marks between thousands if its decimals are given."""
        if self.digits is not None and text:
            return self.amounts.parted(int(text), self.digits)
        return self(text) or ""


def last_day(end: str) -> str:
    """The day before an end. An end in the year 9999 stands for none that is known, and stays."""
    if end >= "9999":
        return end
    if not is_printed(end) or len(end) != 10:
        raise Misfit(f"--last-day: {visible(end)} has a time of day, so it has no last day")
    return shifted(end, -1)
