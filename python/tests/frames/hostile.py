"""What hypothesis draws: frames whose columns have the names of answers, or hardly any."""
import datetime
from dataclasses import dataclass, field
from typing import Any

import numpy as np
import pandas as pd
from hypothesis import strategies as st

import by_rows

TEXTS = [
    "from", "to", "row_id", "id", "left_id", "right_id", "part", "count", "cents", "sum_cents", "sys_from", "sys_to",
    "valid_from", "valid_to", "left_label", "right_label", "to_right", "id_left", "id_right", "Id", "ID ", " id", "",
    "größe", "gro\u0308ße", "x" * 33,
]
ODD = [7, -1, 1.5, None, ("id", "a"), ("id",), datetime.date(2024, 1, 1), pd.NaT]
NAMES = st.sampled_from(TEXTS) | st.sampled_from([*TEXTS, *ODD])
# Numbers that are far apart. Floats hold them, which a missing cell makes of them.
KEYS = [st.sampled_from([1, 2]), st.booleans(), st.sampled_from([-2**63, 0, 4_000_000, 3 * 2**50, 2**62])]
KEYS += [st.sampled_from(["", "a", "A", " a", "é", "e\u0301", 'a"b', "a,b", "001", "1", "a\0"])]
OTHERS = st.sampled_from([None, (1, 2), "x", "", 7, 1.5, datetime.date(2024, 1, 1)])
FIRST = datetime.date(2024, 1, 1)
# A zone and a day before its clocks are put on.
ZONE, SPRING = pd.DatetimeTZDtype("ns", "Europe/Berlin"), datetime.timedelta(days=84)
DAYS = {
    "ns": pd.Timestamp, "date": lambda one: one, "D": lambda one: pd.Period(one, "D"),
    "zone": lambda one: pd.Timestamp(one + SPRING, tz=ZONE.tz),
}
# Calls of two frames; the others are of the first one.
OF_TWO = ("join", "anti")
GREAT = st.sampled_from([2**63 - 1, -2**63, 2**62, 2**53, 2**53 + 1, -2**53 - 1, 3 * 2**50])
AMOUNTS = [st.integers(-3, 3), GREAT, st.booleans(), st.sampled_from([0.25, -1.5, 2.75])]
# What an amount is.
WHAT = st.sampled_from(["in total", *(f"per {piece}" for piece in ("day", "week", "month", "quarter", "year"))])
HOWS = st.sampled_from(["inner", "left", "right", "outer"])
# Of the left frame and of the right one.
BOTH = st.lists(st.booleans(), min_size=2, max_size=2)
SUFFIXES = st.sampled_from([("_left", "_right"), ("", "_2"), (None, "_r"), ("_l", None), (None, None), ("", "")])


@dataclass
class Case:
    """Frames, as lists for by_rows and as frames of pandas, and the options of a call.

    is_right: other calls must be refused.
    """

    kind: str
    has_last_days: Any
    periods: Any
    on: Any
    is_shared: bool
    suffixes: Any
    how: Any
    keeps_periods: bool
    columns: Any
    frames: Any = ()
    asked: Any = ("count", None)
    measures: Any = (("count", None),)
    options: Any = field(default_factory=dict)
    is_right: bool = True

    @property
    def is_plain(self):
        """Whether the call may be refused only if names of its answer are equal."""
        names = [[name for name, _ in frame] for frame in self.columns]
        return self.is_right and all(
            len(set(own)) == len(own) and all(isinstance(name, str) for name in own) for own in names
        )

    def point(self, day):
        """A day's point in the kind of the frames, from its number."""
        if day == by_rows.OPEN:
            return None if self.kind == "date" else pd.NaT
        return DAYS[self.kind](FIRST + datetime.timedelta(days=day))

    def end(self, day, side=0):
        return self.point(day - (self.has_last_days[side] and day != by_rows.OPEN))

    def piece_of(self, day, each):
        """The first day of the piece of the calendar that has a day, and the day after it, by their numbers."""
        if each == "D":
            return day, day + 1
        found = self.point(day)
        found = datetime.date(found.year, found.month, found.day)
        first = found - datetime.timedelta(days=found.weekday() if each == "W" else found.day - 1)
        length = {"M": 1, "Q": 3, "Y": 12}.get(each)
        if length is None:
            behind = first + datetime.timedelta(days=7)
        else:
            month = (found.month - 1) // length * length
            first = first.replace(month=month + 1)
            behind = first.replace(year=found.year + (month + length) // 12, month=(month + length) % 12 + 1)
        return day + (first - found).days, day + (behind - found).days

    def sum_of(self, exact, whole):
        """As a sum comes; of floats in hundredths."""
        unit = 100 if "decimals" in self.options else 1
        return exact / unit if self.options["exact"] else whole / unit if unit > 1 else whole

    def kept(self, cell):
        """What stands for a cell of by_rows."""
        if not isinstance(cell, by_rows.Kept):
            return cell
        return self.end(cell.day, cell.side) if cell.is_end else self.point(cell.day)

    def frame(self, side):
        """A frame of pandas, with the columns of its period in the case's kind."""
        columns, period = self.columns[side], self.periods[side]
        places = [by_rows.place(columns, name) for name in period]
        series = {place: pd.Series(cells, dtype=dtype_of(cells)) for place, (_, cells) in enumerate(columns)}
        for place, point in zip(places, (self.point, lambda day: self.end(day, side))):
            series[place] = self.points([point(day) for day in columns[place][1]])
        made, names = pd.DataFrame(series), [name for name, _ in columns]
        has_levels = all(isinstance(name, tuple) and len(name) == 2 for name in names)
        made.columns = pd.Index(names, dtype=None if has_levels else object, tupleize_cols=has_levels)
        return made

    def points(self, given):
        if self.kind == "D":
            return pd.Series(pd.PeriodIndex(given, freq="D"))
        return pd.Series(given, dtype={"ns": "M8[ns]", "zone": ZONE}.get(self.kind, object))


def dtype_of(cells):
    kinds = set(map(type, cells))
    return {"int": "int64", "float": "float64", "bool": "bool"}.get("".join(kind.__name__ for kind in kinds), object)


def rarely(draw):
    return draw(st.integers(0, 11)) == 11


@st.composite
def times(draw, is_open):
    """Starts and ends of rows; rarely an end isn't after its start."""
    least, made = int(not rarely(draw)), []
    for _ in range(draw(st.integers(1, 5))):
        start = draw(st.integers(0, 12))
        is_last = is_open and draw(st.booleans())
        made.append((start, by_rows.OPEN if is_last else start + draw(st.integers(least, 6))))
    return made


def some_names(count, apart=()):
    """So many different names, that aren't those."""
    others = NAMES.filter(lambda name: not by_rows.times(apart, name))
    return st.lists(others, min_size=count, max_size=count, unique_by=repr)


@st.composite
def columns_of(draw, period, keys, is_open):
    """keys: pairs of a name and the strategy of its cells. Rarely a name is there twice."""
    rows, others = draw(times(is_open)), draw(st.lists(NAMES, max_size=3))
    found = [(name, [row[place] for row in rows]) for place, name in enumerate(period)]
    found += [(name, [draw(cells) for _ in rows]) for name, cells in keys]
    there, may_repeat = [name for name, _ in found], rarely(draw)
    for name in others:
        if not by_rows.times(period if may_repeat else there, name):
            there.append(name)
            found.append((name, [draw(OTHERS) for _ in rows]))
    return draw(st.permutations(found))


@st.composite
def cases(draw, call):
    is_shared, kind = draw(st.booleans()), draw(st.sampled_from(sorted(DAYS)))
    are_open, has_last_days = ([draw(st.booleans())] * 2 for _ in range(2))
    if call in OF_TWO:
        are_open, has_last_days = draw(BOTH), draw(BOTH)
    cells = draw(st.lists(st.sampled_from(KEYS), max_size=2))
    periods = [draw(st.just(["from", "to"]) | some_names(2))] * 2
    on = [draw(some_names(len(cells), periods[0]))] * 2
    if not is_shared:
        periods = [periods[0], draw(some_names(2))]
        on = [on[0], draw(some_names(len(cells), periods[1]))]
    keys = [list(zip(own, cells)) for own in on]
    amount = draw(some_names(1, [*periods[0], *on[0]]))[0]
    keys[0] += [(amount, draw(st.sampled_from(AMOUNTS)))] if call in ("agg", "spread") else []
    columns = [draw(columns_of(*answered)) for answered in zip(periods, keys, are_open)]
    if rarely(draw):
        periods, on, amount = leveled(periods), leveled(on), level(amount)
        columns = [[(level(name), answered) for name, answered in frame] for frame in columns]
    of_answer = draw(SUFFIXES), draw(HOWS), draw(st.booleans())
    case = Case(kind, has_last_days, periods, on, is_shared, *of_answer, columns)
    case.frames = [case.frame(0), case.frame(1)]
    given = [by_rows.periods(*answered) for answered in zip(columns, periods)][:2 if call in OF_TWO else 1]
    case.is_right = all(start < end for frame in given for start, end in frame)
    case.options = draw(options(call, case, are_open))
    if call == "agg":
        draw_asked(draw, case, amount)
    if call == "spread":
        draw_pieces(draw, case, amount)
    return case


def level(name):
    return str(name), "x"


def leveled(names):
    return [[level(name) for name in own] for own in names]


@st.composite
def options(draw, call, case, are_open):
    """Options of right types, in each form that they may have."""
    flag, several = draw(st.sampled_from([bool, np.bool_])), draw(st.sampled_from([list, tuple]))
    found = {"open_end": one_sided(flag, are_open), "last_day": one_sided(flag, case.has_last_days)}
    own, other = ("period", "right_period") if draw(st.booleans()) else ("left_period", "period")
    found[own if call in OF_TWO else "period"] = several(case.periods[0])
    if call in OF_TWO:
        found[other] = several(case.periods[1])
        found.update(compared(draw, case, several))
    if call in ("join", "overlaps"):
        found.update(suffixes=several(case.suffixes), keep_periods=flag(case.keeps_periods))
    if call == "join":
        found["how"] = case.how
    if call not in (*OF_TWO, "at"):
        found["by"] = one_or_all(draw, case.on[0], several)
    if draw(st.booleans()):
        found["workers"] = draw(st.sampled_from([1, np.int64(2)]))
    return found


def one_sided(flag, given):
    return flag(given[0]) if given[0] == given[1] else "left" if given[0] else "right"


def one_or_all(draw, names, several):
    """All names, or a single name by itself if the option allows that."""
    is_alone = len(names) == 1 and isinstance(names[0], (str, int, float))
    return names[0] if is_alone and draw(st.booleans()) else several(names)


def compared(draw, case, several):
    left, right = (one_or_all(draw, names, several) for names in case.on)
    return {"on": left} if case.is_shared else {"left_on": left, "right_on": right}


def draw_asked(draw, case, amount):
    """A function and its column, or a dict of several. Among measures a column is in a tuple."""
    functions = draw(st.lists(st.sampled_from(sorted(by_rows.FUNCTIONS)), min_size=1, max_size=4, unique=True))
    keys = [(name, "count") for name in case.on[0] if name is not None and draw(st.booleans())]
    if draw(st.booleans()):
        case.asked = ({**dict(keys), amount: functions if len(functions) > 1 or draw(st.booleans()) else functions[0]},)
        case.measures = [(one, (name,)) for name, one in keys] + [(one, (amount,)) for one in functions]
    else:
        case.asked = (functions[0], None if functions[0] == "count" else amount)
        case.measures = [(functions[0], None if functions[0] == "count" else (amount,))]
    case.is_right &= amount is not None or case.asked == ("count", None)
    cells = by_rows.cells(case.columns[0], amount)
    if dtype_of(cells) == "float64" and any(one != "count" for one, _ in case.measures):
        case.options["decimals"] = {amount: draw(st.sampled_from([2, 3, np.int8(2)]))}


def draw_pieces(draw, case, amount):
    case.asked, case.is_right = (amount,), case.is_right and amount is not None
    case.options.update(amount=draw(WHAT), each=draw(st.sampled_from("DWMQY")), exact=draw(st.booleans()))
    if dtype_of(by_rows.cells(case.columns[0], amount)) == "float64":
        case.options["decimals"] = {amount: 2}
