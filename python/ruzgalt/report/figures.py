"""What a picture shows of an answer: bars in lanes, or steps, over an axis of time."""
import re
import unicodedata
from bisect import bisect_left
from collections import defaultdict
from dataclasses import dataclass, field, replace
from datetime import datetime
from itertools import accumulate
from typing import Callable, Dict, Iterable, List, Optional, Sequence, Tuple, Union

from ruzgalt.errors import Misfit
from ruzgalt.report.shown import Amounts, Look
from ruzgalt.script import schemas
from ruzgalt.script.answers import Answer
from ruzgalt.script.commands import Answered
from ruzgalt.script.forms import at_second, print_point, printed, read_limits, read_point, seconds
from ruzgalt.script.records import code_of, short, visible
from ruzgalt.script.run import Versions
from ruzgalt.script.schemas import PERIOD, Column, Kind, Table, group_of, ints, unique

DAY = 86_400
# A row that ends in the last year, or starts on the first day that there is, has no end, or no start, that is known.
LAST_YEAR = seconds("9999-01-01")
STEPS = [
    1, 2, 5, 10, 15, 30, 60, 120, 300, 600, 900, 1_800, 3_600, 7_200, 10_800, 21_600, 43_200,
    DAY, 2 * DAY, 7 * DAY, 14 * DAY,
]
MONTHS = [1, 2, 3, 6, 12, 24, 60, 120, 240, 600, 1_200, 6_000, 12_000, 60_000, 120_000]


@dataclass(frozen=True)
class Span:
    """The seconds that are shown, from the first on and before the second."""

    start: int
    end: int

    def place(self, second: int, width: int) -> int:
        """Returns the position of a second within `width`; the edge for one that isn't shown."""
        inside = min(max(second, self.start), self.end)
        return (inside - self.start) * width // (self.end - self.start)

    def shows(self, start: int, end: int) -> bool:
        return start < self.end and self.start < end


def is_open(second: int) -> bool:
    return second >= LAST_YEAR or second == 0


def span_of(periods: Iterable[Tuple[int, int]], start: Optional[int] = None, end: Optional[int] = None) -> Span:
    """The time from the first to the last known point, and somewhat more on a side that is open, or as it is given."""
    points = [point for period in periods for point in period]
    known = [point for point in points if not is_open(point)] or points or [0]
    first = min(known) if start is None else start
    last = max(known) if end is None else end
    more = max(last - first, 0) // 6 or DAY
    if start is None and (0 in points or last <= first):
        first = max(min(first, last) - more, 0)
    if end is None and (last <= first or any(point >= LAST_YEAR for point in points)):
        last = min(max(first, last) + more, seconds("9999-12-31T23:59:59"))
    return Span(first, max(last, first + 1))


def ticks(span: Span, most: int) -> List[Tuple[int, str]]:
    """Returns at most `most` points at equal steps with their texts. The first text has a date."""
    length = span.end - span.start
    for step in STEPS:
        if length // step <= most:
            first = -(-span.start // step) * step
            return [(second, text_of(second, step, second == first)) for second in range(first, span.end + 1, step)]
    months = next((step for step in MONTHS if length // (30 * DAY * step) <= most), MONTHS[-1])
    return list(month_ticks(span, months))


def month_ticks(span: Span, step: int) -> Iterable[Tuple[int, str]]:
    first = at_second(span.start)
    month = (first.year * 12 + first.month - 1) // step * step
    while month < 12 * 10_000:
        if month >= 12:
            second = seconds(datetime(month // 12, month % 12 + 1, 1).isoformat())
            if second > span.end:
                return
            if second >= span.start:
                yield second, f"{month // 12:04}" + ("" if step % 12 == 0 else f"-{month % 12 + 1:02}")
        month += step


def text_of(second: int, step: int, is_first: bool) -> str:
    """The time of day, and at a midnight the date; at the first point both."""
    text = at_second(second).isoformat()
    if second % DAY == 0:
        return text[:10]
    return text[0 if is_first else 11:19 if step < 60 else 16]


NUMBER = re.compile(r"-?\d[\d.,]*", re.ASCII)


def cell_width(character: str) -> int:
    """Returns the width of a character, in letters of ASCII."""
    if unicodedata.combining(character) or not character.isprintable():
        return 0
    return 2 if unicodedata.east_asian_width(character) in "WF" else 1


def in_line(text: str) -> str:
    """Returns the text with codes for characters without ink, such as a line end, so that no two texts look alike."""
    return "".join(one if one.isprintable() else code_of(one) for one in text)


def width_of(text: str) -> int:
    return sum(map(cell_width, text))


def beginning(text: str, width: int) -> str:
    """Returns the longest beginning of the text that has at most this width."""
    widths = accumulate(map(cell_width, text))
    return text[:sum(one <= width for one in widths)]


GAP = "\u2026"


def shortened(text: str, width: int) -> str:
    """Returns the text, or its beginning, a gap and its end, since many names differ only at their ends."""
    if width_of(text) <= width:
        return text
    front = (width - 1) // 2
    return f"{beginning(text, front)}{GAP}{beginning(text[::-1], width - 1 - front)[::-1]}"


def front_of(text: str, width: int) -> str:
    """Returns the text, or its beginning and a gap; nothing of a number, since its beginning is another one."""
    if width_of(text) <= width:
        return text
    return beginning(text, width - 1) + GAP if width > 3 and not NUMBER.fullmatch(text) else ""


@dataclass(frozen=True)
class Bar:
    """A period in a lane, or in several below each other. Bars of one shade are alike."""

    lane: int
    start: int
    end: int
    label: str
    record: str
    shade: int = 0
    lanes: int = 1


@dataclass(frozen=True)
class Bars:
    """Lanes of bars that don't overlap. A lane without a name belongs to the one above."""

    title: str
    span: Span
    lanes: List[str]
    bars: List[Bar]
    instant: Optional[str] = None

    @property
    def shown(self) -> List[Bar]:
        return [bar for bar in self.bars if self.span.shows(bar.start, bar.end)]

    def name_of(self, lane: int) -> str:
        """The name that a lane has, or the one above it to which it belongs."""
        return next((name for name in reversed(self.lanes[:lane + 1]) if name), "")


# A period and the value in it.
Step = Tuple[int, int, int]


@dataclass(frozen=True)
class Steps:
    """A value over time: periods, by their start, with the value in each; for several groups on one scale."""

    title: str
    span: Span
    name: str
    # The names of groups with their steps. An aggregate without groups has an empty name.
    groups: List[Tuple[str, List[Step]]]
    amounts: Amounts
    look: Look

    @property
    def has_groups(self) -> bool:
        return any(name for name, _ in self.groups)

    def printed(self, value: int) -> str:
        return self.amounts.parted(value, self.amounts.of(self.name) or 0)

    def scaled(self, levels: Sequence[int]) -> List[str]:
        """The texts of levels, without decimals if each is whole."""
        digits = self.amounts.of(self.name) or 0
        unit = 1 if any(level % 10 ** digits for level in levels) else 10 ** digits
        return [self.amounts.parted(level // unit, digits if unit == 1 else 0) for level in levels]

    def record(self, step: Step) -> str:
        """A step as the answer has it, or as it is shown."""
        start, end, value = step
        points = [print_point(at_second(second)) for second in (start, end)]
        return fields_of([*PERIOD, *ints(self.name)], [*points, str(value)], self.look)


Picture = Union[Bars, Steps]
# Shown instead of an empty picture.
NOTHING = "nothing to draw: no chosen record holds in the time that is shown"


def counted(count: int, what: str) -> str:
    return f"{count:,} {what}" + ("" if count == 1 else "s")


Record = Dict[str, str]


@dataclass(frozen=True)
class Wish:
    """The columns of lanes and labels, the rows and the time that are shown, numbers' forms, the script's name."""

    by: Optional[str] = None
    label: Optional[str] = None
    where: schemas.Where = ()
    start: Optional[str] = None
    end: Optional[str] = None
    amounts: Amounts = field(default_factory=Amounts)
    script: str = ""
    # How the record of a bar is shown: as the answer has it, unless a table next to the picture shows it otherwise.
    look: Look = Look()

    def limits(self) -> Tuple[Optional[int], Optional[int]]:
        """The seconds of the first point that is shown, and of the end."""
        read_limits(self.start, self.end)
        start, end = (None if point is None else seconds(point) for point in (self.start, self.end))
        if start is not None and end is not None and end <= start:
            raise Misfit(f"--from {self.start} isn't before --to {self.end}")
        return start, end

    def span(self, periods: Iterable[Tuple[int, int]]) -> Span:
        return span_of(periods, *self.limits())

    def bars(
        self, answer: Answer, shown: str, lanes: List[str], bars: List[Bar], instant: Optional[str] = None,
    ) -> Bars:
        """Returns the picture of these bars. `shown` is a part of its title."""
        span = self.span((bar.start, bar.end) for bar in bars)
        return Bars(self.title(answer, shown), span, lanes, bars, instant)

    def title(self, answer: Answer, shown: str) -> str:
        """Returns the title: script, command, content, selected records, and decimals of numbers."""
        script = f"{self.script}: " if self.script else ""
        where = " and ".join(f"{name} is {visible(value) or 'empty'}" for name, value in self.where)
        title = f"{script}{' '.join(answer.command.text.split())}: {shown}" + (f", where {where}" if where else "")
        return title + "".join(f"; {name} with {digits} decimals" for name, digits in self.amounts.digits if digits)

    def wants(self, record: Record) -> bool:
        start, end = printed(self.start or ""), printed(self.end or "")
        is_shown = start < record["valid_to"] and (not end or record["valid_from"] < end)
        return is_shown and all(record[name] == value for name, value in self.where)

    def wanted(self, table: Table) -> List[Record]:
        """Returns the selected records, as fields by their names."""
        schemas.wanted_in(table, self.where)
        records = (dict(zip(table.names, record)) for record in table.texts())
        return [record for record in records if self.wants(record)]

    def labelled(self, table: Table, record: Record, names: Sequence[str]) -> str:
        """Returns the record's values in these columns, numbers with their decimals."""
        columns = [table.columns[table.index_of(name)] for name in names]
        texts = ((one, record[one.name]) for one in columns)
        return " ".join(in_line(self.amounts.printed(one.name, text) if one.kind is Kind.INT else text)
                        for one, text in texts)

    def bar(self, columns: Sequence[Column], record: Record, lane: int, label: str) -> Bar:
        start, end = seconds(record["valid_from"]), seconds(record["valid_to"])
        return Bar(lane, start, end, label, fields_of(columns, list(record.values()), self.look))


def fields_of(columns: Sequence[Column], record: Sequence[str], look: Look) -> str:
    """The record of an answer with these columns by this look."""
    names = [column.name for column in look.columns(Table(list(columns)))]
    texts = (look.look_of(column).shown(text) for column, text in zip(columns, record))
    return ", ".join(f"{name}: {in_line(text)}" for name, text in zip(names, texts) if text)


def square(answer: Answer, wish: Wish) -> Bars:
    """Returns bars of versions, each over its period, from the commit that made it to the one that closed it."""
    word, _, low, high = answer.command.front
    records = wish.wanted(answer.table)
    # Past the newest commit what that one shows counts as shown.
    first = max(int(low), 1)
    last = max(min(int(high) - (word == "fromto"), answer.commits), first)
    events = {int(record[name]) for record in records for name in ("sys_from", "sys_to") if record[name]}
    commits = sorted({first, *(commit for commit in events if first < commit <= last)})
    labels = labels_of(answer, records, wish)
    bars = []
    for record, label in zip(records, labels):
        made, until = int(record["sys_from"]), int(record["sys_to"] or last + 1)
        lane, end = bisect_left(commits, made), bisect_left(commits, until)
        if lane < end:
            bars.append(replace(wish.bar(answer.table.columns, record, lane, label), lanes=end - lane))
    refuse_overlaps(answer, bars)
    lanes = [f"commit {one}" if end <= one + 1 else f"commits {one}-{end - 1}"
             for one, end in zip(commits, [*commits[1:], last + 1])]
    if first > answer.commits:
        lanes = [f"past commit {answer.commits}"]
    return wish.bars(answer, f"{counted(len(bars), 'version')}, time across and commits down", lanes, shaded(bars))


def labels_of(answer: Answer, records: List[Record], wish: Wish) -> List[str]:
    """Returns labels with the values that changed from version to version, or the changed ends, or all values."""
    if wish.label:
        return [wish.labelled(answer.table, record, [wish.label]) for record in records]
    columns = answer.table.names[5:]
    values = differing(records, columns)
    ends = [] if values else differing(records, ["valid_from", "valid_to"])
    if ends:
        return [" ".join(f"{name[len('valid_'):]} {record[name]}" for name in ends) for record in records]
    return [wish.labelled(answer.table, record, values or columns or ["valid_from"]) for record in records]


def differing(records: List[Record], names: Sequence[str]) -> List[str]:
    return [name for name in names if len({record[name] for record in records}) > 1]


def shaded(bars: List[Bar]) -> List[Bar]:
    """Returns the bars, all of one label in one shade."""
    shades = {label: shade for shade, label in enumerate(dict.fromkeys(bar.label for bar in bars))}
    return [replace(bar, shade=shades[bar.label]) for bar in bars]


def refuse_overlaps(answer: Answer, bars: List[Bar]) -> None:
    """Refuses versions that hold at one time and one commit: they are several facts."""
    events = sorted((lane, is_begun, number) for number, bar in enumerate(bars)
                    for is_begun, lane in ((True, bar.lane), (False, bar.lane + bar.lanes)))
    # The bars of a lane, by start. None overlaps another one.
    inside: List[Tuple[int, int]] = []
    for _, is_begun, number in events:
        bar = bars[number]
        index = bisect_left(inside, (bar.start, number))
        if not is_begun:
            del inside[index]
            continue
        for _, other in inside[max(index - 1, 0):index + 1]:
            if bars[other].start < bar.end and bar.start < bars[other].end:
                both = " and ".join(short(bars[one].record) for one in sorted((number, other)))
                raise Misfit(f"{answer.where}: {both} hold at the same time: choose one fact by --where")
        inside.insert(index, (bar.start, number))


# Returns the versions of a table of this name.
VersionsOf = Callable[[str], Versions]
DRAWN = (Answered.DIVISION, Answered.ROWS, Answered.PAIRS, Answered.STEPS, Answered.VERSIONS)


def of(answer: Answer, wish: Wish, versions: VersionsOf) -> Picture:
    """Returns the picture of an answer, or raises Misfit. Versions are read for a division."""
    wish.limits()
    refuse_unused(answer, wish)
    answered = answer.command.form.answered
    if answered is Answered.DIVISION:
        return division(answer, wish, versions)
    if not is_drawn(answer):
        drawn = "a division, rows, a join, an aggregate or versions"
        raise Misfit(f"{answer.shown}: no picture can be drawn of it, only of {drawn}")
    wish.amounts.refuse_strangers(answer.table)
    if answered is Answered.VERSIONS:
        return square(answer, wish)
    return steps(answer, wish) if is_of_steps(answer) or is_of_groups(answer, wish) else by_value(answer, wish)


def is_drawn(answer: Answer) -> bool:
    """Whether there are pictures of such answers."""
    return answer.command.form.answered in DRAWN


def is_of_steps(answer: Answer) -> bool:
    return answer.command.form.answered is Answered.STEPS and group_of(answer.command.front) is None


def is_of_groups(answer: Answer, wish: Wish) -> bool:
    """Whether it is a sum for each value of a column. Bars are drawn of it where their lanes or labels are given."""
    is_sum = answer.command.form.answered is Answered.STEPS and answer.command.front[2] == "sum"
    return is_sum and not (wish.by or wish.label)


def refuse_unused(answer: Answer, wish: Wish) -> None:
    """What a picture doesn't use would be taken for used."""
    unused = ["by"] if answer.command.form.answered in (Answered.DIVISION, Answered.VERSIONS) else []
    if is_of_steps(answer):
        unused = ["by", "label", "where"]
    for word in unused:
        if getattr(wish, word):
            raise Misfit(f"{answer.shown}: its picture can't be drawn with --{word}")


def division(answer: Answer, wish: Wish, versions: VersionsOf) -> Bars:
    """A lane for each part, with the periods of its rows; and the instant."""
    rows = {str(row.row_id): row for row in versions(answer.command.front[1]).at(answer.commit)}
    table = Table(unique([*ints("row_id"), *PERIOD, *answer.schema.columns]))
    schemas.wanted_in(table, wish.where)
    wish.amounts.refuse_strangers(table)
    bars, names, part, instant = [], [wish.label or "row_id"], "-1", "-"
    for part, row_id, instant in answer.table.texts():
        row = rows[row_id]
        record = dict(zip(table.names, [row_id, row.start, row.end, *row.values]))
        if wish.wants(record):
            bars.append(wish.bar(table.columns, record, int(part), wish.labelled(table, record, names)))
    lanes = [f"part {number}" for number in range(int(part) + 1)]
    total = len(answer.table.records)
    count = counted(total, "row") if len(bars) == total else f"{len(bars):,} of {total:,} rows"
    shown = f"{count} in {counted(len(lanes), 'part')}, {instant}"
    return wish.bars(answer, shown, lanes, bars, instant if read_point(instant) else None)


def by_value(answer: Answer, wish: Wish) -> Bars:
    """A lane for each value of a column; where rows of one value overlap, lanes below each other."""
    table = answer.table
    columns = [column.name for column in table.columns if column.kind is not Kind.POINT]
    ids = {Answered.PAIRS: 2, Answered.STEPS: 0}.get(answer.command.form.answered, 1)
    values = columns[ids:]
    by = wish.by or next(iter(values), None)
    labels = [wish.label] if wish.label else [name for name in values if name != by] or columns[:ids]
    bars: List[Bar] = []
    lanes: List[str] = []
    for name, records in grouped(table, by, wish):
        below = stacked(
            wish.bar(table.columns, record, 0, label_of(answer, record, labels, wish)) for record in records
        )
        bars.extend(replace(bar, lane=len(lanes) + bar.lane) for bar in below)
        lanes.extend([name, *[""] * max(bar.lane for bar in below)])
    return wish.bars(answer, counted(len(bars), "record") + (f" by {by}" if by else ""), lanes, shaded(bars))


def grouped(table: Table, by: Optional[str], wish: Wish) -> Iterable[Tuple[str, List[Record]]]:
    """Yields the shown value of each group with its records, numbers by size; without a column all as one group."""
    is_int = by is not None and table.columns[table.index_of(by)].kind is Kind.INT
    groups: Dict[str, List[Record]] = defaultdict(list)
    for record in wish.wanted(table):
        groups[record[by] if by else ""].append(record)
    for value in sorted(groups, key=int) if is_int else sorted(groups):
        yield wish.amounts.printed(by or "", value) if is_int else in_line(value) or "-", groups[value]


def label_of(answer: Answer, record: Record, names: Sequence[str], wish: Wish) -> str:
    """Returns the values of these columns. An aggregate's value has its thousands parted."""
    value = answer.table.names[-1]
    if answer.command.form.answered is Answered.STEPS and list(names) == [value]:
        return wish.amounts.parted(int(record[value]), wish.amounts.of(value) or 0)
    return wish.labelled(answer.table, record, names)


def stacked(bars: Iterable[Bar]) -> List[Bar]:
    """Returns the bars, each in the first lane where it overlaps no earlier one."""
    ends: List[int] = []
    placed = []
    for bar in sorted(bars, key=lambda bar: bar.start):
        lane = next((lane for lane, end in enumerate(ends) if end <= bar.start), len(ends))
        ends[lane:lane + 1] = [bar.end]
        placed.append(replace(bar, lane=lane))
    return placed


def steps(answer: Answer, wish: Wish) -> Steps:
    """Returns the steps of an aggregate, for each group if it has groups."""
    *group, start, end, value = answer.table.names
    by = group[0] if group else None
    groups = [
        (name if by else "", [(seconds(one[start]), seconds(one[end]), int(one[value])) for one in records])
        for name, records in grouped(answer.table, by, wish)
    ]
    count = counted(sum(len(found) for _, found in groups), "period") + (f" by {by}" if by else "")
    span = wish.span(step[:2] for _, found in groups for step in found)
    return Steps(wish.title(answer, count), span, value, groups, wish.amounts, wish.look)
