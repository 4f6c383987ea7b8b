"""What hypothesis draws for stores: tables of columns with the names of answers, frames of them, and wrong calls."""
import datetime
from decimal import Decimal

import numpy as np
import pandas as pd
from hypothesis import strategies as st

import plain_store
from ruzgalt.convert.kinds import OFFSETS

NAMES = ["row_id", "id", "left_id", "right_id", "part", "count", "cents", "sum_cents", "sys_from", "sys_to", "sys_to_",
         "valid_from", "id_left", "a", "b", "person", "Person", "PERSON", "Löhne €", "", " id", 'a"b', "a\nb", "by",
         "set", "where", "asof", "x" * 4096, "x" * 33, 2024, 1.5, None, ("a", 1)]
BAD_NAMES = ["Id", " id", "", "größe", "x" * 33, "by", "set", 7, None, ("a", "b"), 1.5]
TEXTS = ["", "a", "A", " a", "a,b", 'a"b', "row", "end", "é", "e\u0301", "a\0b", "a\nb", "x" * 4096]
PERIODS = [("from", "to"), ("valid_from", "to"), ("row_id", "sys_from"), ("von", 1)]
# Day 0 of a store. datetime64[ns] ends at day 10 of the second one, and doesn't have the last two.
FIRSTS = [datetime.datetime(year, month, 1) for year, month in ((2024, 1), (2262, 4), (1, 1), (9990, 1))]
FIRST, STEP = FIRSTS[0], datetime.timedelta(days=1)
OPEN, MOST = 40, 10
# Kinds of points that have times, and others.
TIMES, DAYS = ("ns", "S", "datetime"), ("D", "date")
# The dtypes of the columns of each kind, and their decimals.
DTYPES = {"int": ["int64", "int16", "Int64"], "text": [object, "string"], "price": ["float64"], "exact": [object]}
DIGITS = {"price": 2, "exact": 3}
HOWS = ["inner", "inner", "left", "right", "outer"]
SUFFIXES = [("_left", "_right"), ("", "_2"), (None, "_r"), ("_l", None), (None, None)]
A_FRAME = pd.DataFrame({"from": [pd.Timestamp("2024-01-01")], "to": [pd.Timestamp("2024-01-02")], "a": [1]})
NO_FRAMES = [None, [1], {"a": [1]}, A_FRAME["a"], "pay.csv", b"x", 5, A_FRAME.to_numpy()]
NO_COMMITS = ["2024-01-01", -1, 2.0, True, 10**6, [1], pd.NaT, {}]
NO_POINTS = [None, pd.NaT, np.datetime64("NaT"), pd.NA, float("nan"), "", "2024-13-01", "2024-01-01 08:00", 5, [1], {},
             pd.Timestamp("2024-01-01", tz="UTC")]
NO_NAMES = [True, {"a"}, {"a": 1}, pd.Index(["a"]), [["a"]], [("a", "b")], "no_such", ["a", "no_such"], 5]
NO_DICTS = [{}, [], "a == 1", 5, {"no_such": 1}, {7: 1}, [("a", 1)]]
NO_KINDS = ["W", "", 1, ["S"], True]
NO_SUFFIXES = ["", "_l", (), ("_l",), ("_l", "_r", "_s"), (1, 2), {"_l": "_r"}]


def begin(first, hours):
    """Sets the hours of a day in the other functions."""
    global FIRST, STEP
    FIRST, STEP = first, datetime.timedelta(hours=hours)


def moment(day):
    return FIRST + day * STEP


def point(kind, day):
    """A day as a cell of that kind; None as a missing one."""
    if day is None:
        return pd.NaT if kind in ("ns", *OFFSETS) else None
    if kind == "ns":
        return pd.Timestamp(moment(day))
    one = moment(day)
    if kind in OFFSETS:
        return pd.Period(year=one.year, month=one.month, day=one.day, hour=one.hour, minute=0, second=0,
                         freq=OFFSETS[kind])
    return one.date() if kind == "date" else one


def column(kind, days):
    dtype = "datetime64[ns]" if kind == "ns" else pd.PeriodDtype(OFFSETS[kind]) if kind in OFFSETS else object
    return pd.Series([point(kind, day) for day in days], dtype=dtype)


class Form:
    """A table as it is plainly, and how its frames are."""

    def __init__(self, columns, key, period, points, is_open, is_last_day):
        """columns: for each name a kind and a dtype."""
        self.kinds = {name: kind for name, (kind, _) in columns.items()}
        self.dtypes = {name: dtype for name, (_, dtype) in columns.items()}
        self.points, self.is_open, self.is_last_day = points, is_open, is_last_day
        self.plain = plain_store.PlainTable(list(columns), period, key)

    @property
    def names(self):
        return self.plain.names

    @property
    def options(self):
        return {"period": self.plain.period, "open_end": self.is_open, "last_day": self.is_last_day,
                "decimals": {name: DIGITS[kind] for name, kind in self.kinds.items() if kind in DIGITS}}

    def frame(self, rows, names=None):
        """The rows (start, end, values) as a frame. The day OPEN is a missing end."""
        ends = [None if end == OPEN else end - int(self.is_last_day) for _, end, _ in rows]
        cells = [column(self.points, [start for start, _, _ in rows]), column(self.points, ends)]
        found = [*self.plain.period, *(self.names if names is None else names)]
        for name in found[2:]:
            cells.append(pd.Series([values[name] for _, _, values in rows], dtype=self.dtypes[name]))
        made = pd.concat(cells, axis=1)
        made.columns = pd.Index(found, dtype=object, tupleize_cols=False)
        return made

    def end(self, given):
        """An end of an answer as a day."""
        if given is None or given is pd.NaT:
            return OPEN
        return day(given) + int(self.is_last_day)


def day(given):
    hour = getattr(given, "hour", 0)
    whole, rest = divmod(datetime.datetime(given.year, given.month, given.day, hour) - FIRST, STEP)
    assert not rest, given
    return whole


VALUES = {"int": st.integers(-2, 2), "text": st.sampled_from(TEXTS), "price": st.sampled_from([0.1, 12.34, -7.0, 0.29]),
          "exact": st.sampled_from([Decimal(text) for text in ("0.1", "-2.500", "7", "1.125")])}


@st.composite
def forms(draw):
    period = draw(st.sampled_from(PERIODS))
    there = st.sampled_from([name for name in NAMES if name not in period])
    names = draw(st.lists(there, min_size=1, max_size=4, unique=True))
    kinds = [draw(st.sampled_from(["int", "text", "int", "text", *DIGITS])) for _ in names]
    columns = {name: (kind, draw(st.sampled_from(DTYPES[kind]))) for name, kind in zip(names, kinds)}
    key = draw(st.sampled_from([[], names[:1], names[:2]]))
    is_day = STEP.days > 0
    there = [kind for kind in (*TIMES, *DAYS * is_day) if kind != "ns" or FIRST in FIRSTS[:2]]
    points, is_open = draw(st.sampled_from(there)), draw(st.booleans())
    return Form(columns, key, period, points, is_open, is_day and points in ("ns", *DAYS) and draw(st.booleans()))


@st.composite
def rows_of(draw, form, least=0, names=None):
    return [row(draw, form, names) for _ in range(draw(st.integers(least, 4)))]


def row(draw, form, names=None, most=MOST):
    start = draw(st.integers(0, most - 2))
    ends = st.integers(start + 1, most) | st.just(OPEN) if form.is_open else st.integers(start + 1, most)
    return start, draw(ends), values_of(draw, form, form.names if names is None else names)


def values_of(draw, form, names):
    return {name: draw(VALUES[form.kinds[name]]) for name in names}


def some(draw, names, least=0):
    """Some of the names, in any order."""
    return draw(st.lists(st.sampled_from(names), min_size=least, max_size=len(names), unique=True))


@st.composite
def texts_of_points(draw, form, given):
    """A point in one of its forms: a text, a cell of the table's points, or another date."""
    if given == OPEN:
        return None
    kind, one = form.points if given <= MOST else "S", moment(given)
    found = [one.isoformat(), point(kind, given), one, np.datetime64(one, "s")]
    return draw(st.sampled_from([*found, *[one.date().isoformat(), np.datetime64(one, "D")] * (STEP.days > 0)]))


@st.composite
def spoiled(draw, form, frame, hows=("more", "fewer", "twice", "missing", "complex", "levels", "other")):
    """A frame that the table must refuse."""
    how = draw(st.sampled_from(hows))
    place = draw(st.integers(2, len(frame.columns) - 1))
    places = list(range(len(frame.columns)))
    if how == "more":
        return frame.assign(other=1)
    if how == "fewer":
        return frame.iloc[:, [*places[:place], *places[place + 1:]]]
    if how == "twice":
        return frame.iloc[:, [*places, place]]
    if how == "levels":
        return frame.set_axis(pd.MultiIndex.from_product([["a"], map(str, range(len(frame.columns)))]), axis=1)
    if how == "other" or not len(frame):
        return draw(st.sampled_from(NO_FRAMES))
    cells = pd.Series([None] * len(frame), dtype=object) if how == "missing" else pd.Series([1j] * len(frame))
    made = frame.copy()
    made.isetitem(place, cells)
    return made
