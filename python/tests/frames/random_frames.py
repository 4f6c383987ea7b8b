"""Random frames: points of each kind, numbers and texts of each dtype, columns that the program never sees."""
import datetime

import numpy as np
import pandas as pd

TEXTS = [
    "", "a", "b", "a,b", 'a"b', '"', "a\nb", "a\r\nb", "\r", "a\0b", "a\0", "a\0c", "é", "e\u0301", "😀", "NA", "null",
    " x ", "007", "1", "row", "end", "\ufeffz", "x" * 100, "nan", "é" * 2048,
]
POINTS = ("ns", "D", "S", "date", "datetime")
# Of which the letters changed: a second is S up to pandas 2.1, and s since.
LENGTHS = {"D": pd.offsets.Day(), "S": pd.offsets.Second()}
FIRST_YEARS = {"ns": [1700, 1969, 2024, 2261]}
PERIOD = ("from", "to")


def points(random, kind, count, is_open=False, is_last_day=False):
    """A column of starts and a column of ends, each of `count` rows."""
    base = datetime.datetime(random.choice(FIRST_YEARS.get(kind, [1, 999, 1969, 2024, 9990])), 1, 1)
    span = random.choice([5, 20, 60])
    is_day = is_last_day or kind in ("D", "date") or random.random() < 0.6
    step = datetime.timedelta(days=1) if is_day else datetime.timedelta(seconds=random.choice([1, 3600, 86399]))
    starts = [random.randrange(span) for _ in range(count)]
    ends = [start + random.randint(1, random.choice([2, 10, span])) - int(is_last_day) for start in starts]
    found = [None if is_open and random.random() < 0.3 else base + step * end for end in ends]
    return column(kind, [base + step * start for start in starts]), column(kind, found)


def column(kind, moments):
    """Datetimes and None as a column of that kind."""
    if kind == "ns":
        return pd.Series(pd.to_datetime(pd.Series(moments, dtype=object)) if moments else [], dtype="M8[ns]")
    if kind in LENGTHS:
        return pd.Series(pd.PeriodIndex([period(kind, one) for one in moments], freq=LENGTHS[kind]))
    return pd.Series([one if one is None or kind == "datetime" else one.date() for one in moments], dtype=object)


def period(kind, one):
    if one is None:
        return pd.NaT
    day = {"year": one.year, "month": one.month, "day": one.day}
    return pd.Period(**day, hour=one.hour, minute=one.minute, second=one.second, freq=LENGTHS[kind])


def few_texts(random):
    return random.sample(TEXTS, random.randint(1, 6))


def compared_column(random, count, kind, among=None):
    """Numbers, or texts, of some dtype, among few values."""
    if kind == "int":
        dtype = random.choice(["int64", "int32", "uint8", "Int64", "great"])
        if dtype == "great":
            few = [-2**63, 2**63 - 1, -1, 0, 10**18, -10**17]
            return pd.Series([random.choice(few) for _ in range(count)], dtype="int64")
        return pd.Series([random.randint(0 if dtype == "uint8" else -2, 3) for _ in range(count)], dtype=dtype)
    few = among or few_texts(random)
    dtype = random.choice(["object", "string", "category"])
    found = [random.choice(few) for _ in range(count)]
    # pandas.Categorical itself takes a\0b for a.
    return pd.Series([one.replace("\0", "~") for one in found] if dtype == "category" else found, dtype=dtype)


def frame(random, count, kind, **words):
    """words: names and kinds of the compared columns; the options period, is_open and is_last_day."""
    period_names = words.get("period", PERIOD)
    start, end = points(random, kind, count, words.get("is_open", False), words.get("is_last_day", False))
    cells = {period_names[0]: start, period_names[1]: end}
    for name, own in zip(words.get("names", ()), words.get("kinds", ())):
        cells[name] = compared_column(random, count, own)
    cells["float"] = pd.Series([random.choice([1.5, float("nan"), 0.1]) for _ in range(count)], dtype="float64")
    cells["object"] = objects(random, count)
    euros = [random.choice([random.randint(-5, 5), random.randint(-5, 5), 2**62]) for _ in range(count)]
    cells["euros"] = pd.Series(euros, dtype="int64")
    order = list(cells)
    random.shuffle(order)
    made = pd.DataFrame({name: cells[name] for name in order})
    made.index = pd.RangeIndex(5, 5 + count)
    if random.random() < 0.5:
        made.index = pd.Index([random.choice("abc") for _ in range(count)], dtype=object)
    return made


def objects(random, count):
    found = random.choice([[None, (1, 2), "x"], [datetime.datetime(2024, 1, 1)]])
    cells = np.empty(count, object)
    cells[:] = [random.choice(found) for _ in range(count)]
    return pd.Series(cells, dtype=object)
