"""Possible mistakes in rows that are loaded. A rule gets the rows in pieces, and its notes have a count and a line."""
from array import array
from collections import Counter
from functools import lru_cache
from itertools import chain, repeat
from operator import and_
from typing import (
    Counter as Counts, Dict, Iterable, Iterator, List, NamedTuple, Optional, Protocol, Sequence, Set, Tuple,
)

from ruzgalt.script.forms import is_far_off, is_month_end, shifted
from ruzgalt.script.records import visible


class Doubt(NamedTuple):
    """A possible mistake in a value, and its kind: one of a kind is reported for each column."""

    kind: str
    why: str


class Notes:
    """Possible mistakes in values, by column and kind: the first line and value, why, and how many there are."""

    def __init__(self) -> None:
        self.found: Dict[Tuple[str, str], Tuple[int, str, str]] = {}
        self.counts: Counts[Tuple[str, str]] = Counter()

    def add(self, name: str, doubt: Doubt, line: int, value: str) -> None:
        self.found.setdefault((name, doubt.kind), (line, value, doubt.why))
        self.counts[name, doubt.kind] += 1

    def count(self, name: str, doubts: Dict[str, Doubt], lines: Sequence[int], values: Sequence[str]) -> None:
        """Counts the rows of a piece that have a value with a doubt."""
        if doubts and not doubts.keys().isdisjoint(values):
            for line, value in zip(lines, values):
                if value in doubts:
                    self.add(name, doubts[value], line, value)

    def notes(self, keys: Optional[Iterable[Tuple[str, str]]] = None) -> Iterator[str]:
        """Yields the notes of these columns and kinds, or all."""
        for key in self.found if keys is None else keys:
            (name, _), (line, value, why), count = key, self.found[key], self.counts[key]
            more = f", and {count - 1} more rows" if count > 1 else ""
            yield f"{visible(name)} is '{visible(value)}', and is loaded as that: {why} (line {line}{more})"


class Rule(Protocol):
    """A rule about rows together. Each row has a line, a key, a start, an end and values, as they are loaded."""

    def add(self, lines: Sequence[int], keys: Sequence[object], *columns: Sequence[str]) -> None:
        """Adds a piece of the rows, by columns: starts, ends and values."""

    def notes(self) -> Iterator[str]:
        """Yields what the rule finds in all of them."""


@lru_cache(1 << 16)
def moved(day: str, distance: int) -> str:
    """Returns the day `distance` days after a day; an empty text for an unknown end."""
    return shifted(day, distance) if day < "9999" else ""


class Ends:
    """Whether ends look like last days where they are taken for the days after them, or the other way round.

    Of rows with one key some start on the end of another, and some on the day after it; ends are last days of months
    or first ones. A row is kept as hashes of its key with a point, since there may be a million.

    An end that is read as the day after is doubtful only in two ways. Another row of its key starts on the day
    after that, and none on the end itself: as it is read, no row of the key has that day. Or it is the last day of a
    month, as nearly all ends are, and few rows start on such a day.
    """

    # The remedies if ends are days after, and if they are last days.
    remedies = (
        "a row no longer holds on that day; --last-day reads it as the last one",
        "--last-day reads it as the last day of a row; without it, the day before is the last",
    )

    def __init__(self, name: str, key: str, is_last_day: bool) -> None:
        self.name, self.key, self.is_last_day = name, key, is_last_day
        self.lines: List[Sequence[int]] = []
        # For each row the key with its start, with its end as written, and with the day after.
        self.starts, self.same, self.next = array("q"), array("q"), array("q")
        # How often each end as written, and each start, is there.
        self.counts: Counts[str] = Counter()
        self.begins: Counts[str] = Counter()

    def add(self, lines: Sequence[int], keys: Sequence[object], *columns: Sequence[str]) -> None:
        starts, ends = columns[:2]
        others = list(map(moved, ends, repeat(-1 if self.is_last_day else 1)))
        written, after = (others, ends) if self.is_last_day else (ends, others)
        # A row of one day doesn't meet itself.
        met = ["" if start == end else end for start, end in zip(starts, written)] if self.is_last_day else written
        self.lines.append(lines)
        for numbers, points in ((self.starts, starts), (self.same, met), (self.next, after)):
            numbers.extend(map(hash, zip(keys, points)))
        self.counts.update(written)
        self.begins.update(starts)

    def notes(self) -> Iterator[str]:
        starts = set(self.starts)
        # How many rows another one of their key meets.
        on_end, on_next = (sum(map(starts.__contains__, ends)) for ends in (self.same, self.next))
        if not self.is_last_day:
            on_next -= sum(map(and_, *(map(starts.__contains__, ends) for ends in (self.same, self.next))))
        is_odd = on_end >= on_next if self.is_last_day else on_next >= on_end
        if (on_end or on_next) and is_odd or on_end and on_next:
            yield self.meetings(starts, on_end, on_next, is_odd)
        else:
            yield from self.month_ends(on_next if self.is_last_day else on_end)

    def days_after(self, starts: Set[int]) -> Iterable[Optional[int]]:
        """Yields for each row its key with the day after its end, or None if a row of the key starts on the end: of
        rows of one day each, every second one also starts after the end of another."""
        if self.is_last_day:
            return self.next
        return (None if end in starts else after for end, after in zip(self.same, self.next))

    def meetings(self, starts: Set[int], on_end: int, on_next: int, is_odd: bool) -> str:
        found = ((on_next, "the day after it", self.days_after(starts)), (on_end, "it", self.same))
        counts = " and ".join(
            f"{count} start on {where} ({self.example_of(ends)})" for count, where, ends in found if count
        )
        question = "is it the last day in some rows, and the day after it in others?"
        remedy = self.remedies[self.is_last_day] if is_odd else question
        other = f"one of the same {self.key}" if self.key else "another one"
        return f"{self.name}: of rows that follow {other}, {counts}: {remedy}"

    def example_of(self, ends: Iterable[Optional[int]]) -> str:
        starts = dict(zip(self.starts, chain(*self.lines)))
        line, other = next((line, starts[end]) for line, end in zip(chain(*self.lines), ends) if end in starts)
        return f"line {other} after line {line}"

    def month_ends(self, meeting: int) -> Iterator[str]:
        """Reports if nearly all ends are days of a month that look otherwise, and few rows meet as they are read."""
        known = [day for day in self.counts if day < "9999" and not is_far_off(day)]
        last_days, first_days = [day for day in known if is_month_end(day)], [day for day in known if day[8:] == "01"]
        ends, starts = (sum(map(self.counts.__getitem__, days)) for days in (last_days, first_days))
        odd, others, days = (starts, ends, first_days) if self.is_last_day else (ends, starts, last_days)
        # Entries of a diary that are made on last days start then.
        late = 0 if self.is_last_day else sum(map(self.begins.__getitem__, filter(is_month_end, self.begins)))
        if odd > 4 * (others + late) and odd > 10 * meeting:
            of_all = f"{ends} ends are last days of a month, {starts} are first days"
            yield f"{self.name} is {days[0]}: {self.remedies[self.is_last_day]} ({of_all})"


class Changes:
    """Reports changes of one key from one point on, and an update that takes back one before it: from an earlier point
    on, and past its start."""

    def __init__(self, key: str, are_deletes: bool) -> None:
        self.key, self.are_deletes = key, are_deletes
        # The latest start of each key until now, and its line; and the first line of each key and start.
        self.latest: Dict[object, Tuple[str, int]] = {}
        self.firsts: Dict[object, int] = {}
        self.same: List[Tuple[int, int]] = []
        self.earlier: List[Tuple[int, int]] = []

    def add(self, lines: Sequence[int], keys: Sequence[object], *columns: Sequence[str]) -> None:
        for line, key, start, end in zip(lines, keys, *columns[:2]):
            first = self.firsts.setdefault((key, start), line)
            latest, other = self.latest.setdefault(key, (start, line))
            self.same.extend([(line, first)] * (first != line))
            if start < latest < end and not self.are_deletes:
                self.earlier.append((line, other))
            elif latest < start:
                self.latest[key] = start, line

    def notes(self) -> Iterator[str]:
        word, which = ("deletes", "longer one is enough") if self.are_deletes else ("updates", "later one counts")
        for line, other in self.same[:1]:
            yield f"line {line} {word} the same {self.key} from the same point on as line {other}, and the {which}"
        for line, other in self.earlier[:1]:
            more = f"; {len(self.earlier) - 1} more do so" if len(self.earlier) > 1 else ""
            both = f"line {line} updates the same {self.key} from an earlier point on than line {other}"
            yield f"{both}, and past its start, so it replaces it: are the file's lines out of order?{more}"


class Repeats:
    """Reports rows that make the same record; without a key, also rows of equal values that hold at one time.

    Rows are compared by hashes of their values. If more than half of all rows overlap so, they are such as bookings.
    """

    def __init__(self, made: str, has_key: bool) -> None:
        self.made, self.has_key = made, has_key
        self.pieces: List[Tuple[Sequence[str], Sequence[str], Sequence[int]]] = []
        self.values = array("q")

    def add(self, lines: Sequence[int], keys: Sequence[object], *columns: Sequence[str]) -> None:
        self.pieces.append((columns[0], columns[1], lines))
        self.values.extend(map(hash, zip(*columns[2:])) if columns[2:] else [0] * len(lines))

    def notes(self) -> Iterator[str]:
        counts = Counter(self.values)
        if len(counts) == len(self.values):
            return
        rows = zip(self.values, *map(chain.from_iterable, zip(*self.pieces)))
        found = sorted(row for row in rows if counts[row[0]] > 1)
        firsts: Dict[Tuple[object, ...], int] = {}
        twins = [(row[3], firsts[row[:3]]) for row in found if firsts.setdefault(row[:3], row[3]) != row[3]]
        for line, other in sorted(twins)[:1]:
            yield of_twins(f"line {line}", f"line {other}", len(twins), self.made)
        pairs = [
            (row[3], other[3]) for row, other in zip(found, found[1:])
            if row[0] == other[0] and other[1] < row[2] and row[1:3] != other[1:3]
        ]
        if pairs and 2 * len(pairs) <= len(self.values) and not self.has_key:
            more = f"; {len(pairs) - 1} more rows do so" if len(pairs) > 1 else ""
            both = f"line {max(pairs[0])} has the values of line {min(pairs[0])}, and both hold at one time"
            yield f"{both}: is one of them too many?{more}"


class Totals:
    """Reports a last or first row whose amounts are the sums of all others, whatever the row is called."""

    def __init__(self, amounts: Dict[int, str]) -> None:
        """The columns that may have amounts: their names by their indices."""
        self.amounts, self.sums = amounts, dict.fromkeys(amounts, 0)
        # The amounts of the first and of the last row, and the lines of both.
        self.first: Dict[int, int] = {}
        self.last: Dict[int, int] = {}
        self.rows, self.lines = 0, [0, 0]

    def add(self, lines: Sequence[int], keys: Sequence[object], *columns: Sequence[str]) -> None:
        """Adds rows. A column that has anything but whole numbers has no amounts."""
        for index in list(self.sums) if lines else ():
            try:
                numbers = list(map(int, columns[index]))
                self.sums[index], self.last[index] = self.sums[index] + sum(numbers), numbers[-1]
                self.first.setdefault(index, numbers[0])
            except ValueError:
                del self.sums[index]
        if lines:
            self.rows, self.lines = self.rows + len(lines), [self.lines[0] or lines[0], lines[-1]]

    def notes(self) -> Iterator[str]:
        """Reports it if there are at least two others: two rows with the same amount are common. A total isn't 0."""
        ends = (self.first, self.last) if self.rows > 2 else ()
        for line, amounts, where in zip(self.lines, ends, ("below", "above")):
            are_sums = all(total == 2 * amounts[index] for index, total in self.sums.items())
            if are_sums and any(amounts[index] for index in self.sums):
                shown = " and ".join(f"{visible(self.amounts[index])} {amounts[index]}" for index in self.sums)
                what = "are the sums" if len(self.sums) > 1 else "is the sum"
                remedy = "if it is a total, leave the line out, since sums would count it too"
                yield f"line {line}: {shown} {what} of the {self.rows - 1:,} rows {where}; {remedy}"


def of_twins(one: str, other: str, count: int, made: str = "row") -> str:
    """Returns the note that a row, an update or a delete equals another one, and how many more do."""
    more = f"; {count - 1} more {made}s are so" if count > 1 else ""
    return f"{one} makes the same {made} as {other}, and both are {'loaded' if made == 'row' else 'printed'}{more}"
