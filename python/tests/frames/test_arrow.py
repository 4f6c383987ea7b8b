"""Columns in types of pyarrow are answered as pandas' own, and come back in their dtype."""
import datetime
import importlib.util
import unittest

import numpy as np
import pandas as pd

import by_rows
import labels
import ruzgalt
from refusing import refused

pa = importlib.import_module("pyarrow") if importlib.util.find_spec("pyarrow") else None
FIRST = datetime.datetime(2024, 1, 1)
DAY, NOON = datetime.timedelta(days=1), datetime.timedelta(hours=12)
# Start, end, and a number; None means no end.
LEFT, RIGHT = [(0, 9, 1), (2, None, 2), (4, 6, 1)], [(1, 5, 1), (3, 8, 2), (5, 7, 3)]


def keys():
    """Types of compared columns, and what makes a value of them of a number."""
    return [
        (pa.int64(), int), (pa.int8(), int), (pa.uint64(), int), (pa.bool_(), lambda one: one == 1),
        (pa.string(), str), (pa.large_string(), lambda one: "é" * one),
    ]


def points():
    stamps = [pa.timestamp(unit, zone) for unit in ("s", "ms", "us", "ns") for zone in (None, "Europe/Berlin", "UTC")]
    return [*stamps, pa.date32(), pa.date64()]


def frame(rows, kind, of_key=None, key=int, first=FIRST):
    """A frame of these types of pyarrow."""
    found = [[None if row[place] is None else first + row[place] * DAY for row in rows] for place in (0, 1)]
    if pa.types.is_date(kind):
        found = [[one and one.date() for one in column] for column in found]
    times = {name: arrow(pa.array(column, kind)) for name, column in zip(("from", "to"), found)}
    return pd.DataFrame({**times, "k": arrow(pa.array([key(row[2]) for row in rows], of_key))})


def arrow(array):
    return pd.Series(array, dtype=pd.ArrowDtype(array.type))


def pairs():
    """Start, end, and the indices of each pair of rows that match, sorted; by_rows.OPEN means no end."""
    return by_rows.joined(*([(start, end or by_rows.OPEN, key) for start, end, key in rows] for rows in (LEFT, RIGHT)))


def number(point):
    """A cell of points as days from the first one on, by UTC; None for no point."""
    if point is pd.NaT or point is pd.NA:
        return None
    if isinstance(point, pd.Timestamp):
        point = (point if point.tzinfo is None else point.tz_convert("UTC").tz_localize(None)).to_pydatetime()
    found = point if isinstance(point, datetime.datetime) else datetime.datetime(point.year, point.month, point.day)
    return (found - FIRST) / DAY


@unittest.skipUnless(pa, "pyarrow isn't here: apt-get install python3-pyarrow, of Debian testing")
class Arrow(unittest.TestCase):
    def test_keys_meet_and_come_back(self):
        for kind, key in keys():
            with self.subTest(kind):
                left, right = (frame(rows, pa.date32(), kind, key) for rows in (LEFT, RIGHT[:2]))
                got = labels.join(left, right, on="k", open_end=True)
                wanted = [row for row in pairs() if row[3] < 2]
                self.assertEqual(list(zip(got["left_label"], got["right_label"])), [row[2:] for row in wanted])
                cells = [key(LEFT[row[2]][2]) for row in wanted]
                self.assertEqual((got["k"].dtype, got["k"].tolist()), (left["k"].dtype, cells))
                groups = ruzgalt.agg(left, "count", by="k", open_end=True)
                self.assertEqual(groups["k"].dtype, left["k"].dtype)

    def test_points_come_back_in_their_type(self):
        for kind in points():
            with self.subTest(kind):
                left, right = frame(LEFT, kind), frame(RIGHT, kind)
                got = labels.join(left, right, on="k", open_end=True)
                self.assertEqual([got[name].dtype for name in ("from", "to")], [left["from"].dtype] * 2)
                found = [list(map(number, got[name])) for name in ("from", "to")]
                rows = [(*row[:2], *row[2:]) for row in zip(*found, got["left_label"], got["right_label"])]
                self.assertEqual(rows, pairs())
                counts = ruzgalt.agg(left, "count", open_end=True)
                found = [list(map(number, counts[name])) for name in ("from", "to")]
                self.assertEqual(found, [[0, 2, 4, 6, 9], [2, 4, 6, 9, None]])
                self.assertEqual(counts["count"].tolist(), [1, 2, 3, 2, 1])
                if kind not in (pa.date32(), pa.date64()):
                    late = frame([(0, 1, 1)], kind, first=FIRST + NOON)
                    self.assertEqual(number(ruzgalt.agg(late, "count")["to"][0]), 1.5)

    def test_two_types_come_as_pandas_own(self):
        cases = [
            (pa.timestamp("us"), pa.timestamp("s"), "datetime64[s]"), (pa.date32(), pa.date64(), "object"),
            (pa.timestamp("us", "UTC"), pa.timestamp("ms", "UTC"), "datetime64[ms, UTC]"),
            (pa.date32(), pa.timestamp("us"), str(pd.PeriodDtype("s" if pd.__version__ >= "2.2" else "S"))),
        ]
        for one, other, wanted in cases:
            with self.subTest((one, other)):
                got = ruzgalt.join(frame(LEFT[::2], one), frame(RIGHT, other), on="k")
                self.assertEqual((str(got["from"].dtype), len(got)), (wanted, 2))
        numpy = frame(LEFT[::2], pa.timestamp("us")).astype({"from": "M8[us]", "to": "M8[us]"})
        self.assertEqual(ruzgalt.join(numpy, frame(RIGHT, pa.timestamp("us")), on="k")["to"].dtype, "M8[us]")

    def test_last_days_and_the_ends_of_time(self):
        got = ruzgalt.agg(frame([(0, 4, 1), (5, 8, 1)], pa.date32()), "count", last_day=True)
        self.assertEqual(got["to"].tolist(), [FIRST.date() + 8 * DAY])
        days = [datetime.date(1, 1, 1), datetime.date(9999, 12, 31)]
        last = pd.DataFrame({name: arrow(pa.array([day])) for name, day in zip(("from", "to"), days)})
        self.assertEqual(ruzgalt.agg(last, "count")["to"].tolist(), [datetime.date(9999, 12, 31)])
        self.assertEqual(ruzgalt.agg(last, "count", open_end=True)["to"].isna().tolist(), [True])
        whole = last.astype({"from": pd.ArrowDtype(pa.timestamp("s")), "to": pd.ArrowDtype(pa.timestamp("s"))})
        self.assertEqual(str(ruzgalt.agg(whole, "count")["to"][0]), "9999-12-31 00:00:00")

    def test_refusals(self):
        cases = [
            ("NA compared", frame(LEFT, pa.date32()).assign(k=arrow(pa.array([1, None, 2]))), "k", 1),
            ("a fraction", frame([(0, 1, 1)], pa.timestamp("us"), first=FIRST + DAY / 7), "from", 0),
            ("binary", frame(LEFT, pa.date32()).assign(k=arrow(pa.array([b"a"] * 3))), "k", None),
            ("a time", frame(LEFT, pa.date32()).assign(to=arrow(pa.array([FIRST.time()] * 3))), "to", None),
            ("a missing start", frame([(None, 1, 1)], pa.date32()), "from", 0),
        ]
        for what, one, column, label in cases:
            with self.subTest(what), refused(column=column, label=label):
                ruzgalt.agg(one, "count", by="k", open_end=True)

    def test_a_frame_that_convert_dtypes_made(self):
        one = pd.DataFrame({
            "from": np.array(["2024-01-01", "2024-01-03"], "M8[ns]"), "to": np.array(["2024-01-05", "NaT"], "M8[ns]"),
            "k": ["a", "b"], "cents": [100, 250], "euros": [1.25, 2.5], "note": [None, "x"],
        })
        found = one.convert_dtypes(dtype_backend="pyarrow")
        got = ruzgalt.join(found, found, on="k", open_end=True)
        wanted = ruzgalt.join(one, one, on="k", open_end=True)
        self.assertEqual(got.dtypes.tolist()[:4], [found[name].dtype for name in ("from", "to", "k", "cents")])
        for name in ("from", "to", "k", "cents_left"):
            self.assertEqual(got[name].astype(wanted[name].dtype).tolist(), wanted[name].tolist())
        self.assertEqual(got["note_right"].isna().tolist(), [True, False])
        total = ruzgalt.agg(found, "sum", "euros", open_end=True, decimals={"euros": 2})
        self.assertEqual(total["sum_euros"].tolist(), [1.25, 3.75, 2.5])
        self.assertEqual(total["sum_euros"].dtype, found["euros"].dtype)

    def test_a_store_keeps_the_types(self):
        made, one = ruzgalt.Store(), frame(LEFT, pa.timestamp("us"), pa.string(), str)
        made.table("t", one, open_end=True)
        made.update("t", FIRST, FIRST + DAY, {"k": "new"})
        got = made.rows("t")
        self.assertEqual((got["from"].dtype, got["k"].dtype), (one["from"].dtype, one["k"].dtype))
        self.assertEqual(sorted(got["k"].tolist()), ["1", "1", "2", "new"])


if __name__ == "__main__":
    unittest.main()
