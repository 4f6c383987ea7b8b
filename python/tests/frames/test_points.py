"""Points and values come back as they came in, at the edges of what their dtypes hold."""
import datetime
import decimal
import unittest

import numpy as np
import pandas as pd

import ruzgalt
from refusing import refused
from random_frames import period
from ruzgalt.convert import points, values
from ruzgalt.convert.kinds import Kind, joint_kind
from ruzgalt.store import lists as answers

FIRST, LAST = datetime.datetime(1, 1, 1), datetime.datetime(9999, 12, 31, 23, 59, 59)


def objects(*cells):
    return pd.Series(cells, dtype=object)


# A column for each kind, with the first and last points that it can hold.
EDGES = {
    "ns": pd.Series(pd.to_datetime(["1677-09-21T00:12:44", "1969-12-31T23:59:59", "2262-04-11T23:47:16"])),
    "D": pd.Series(pd.PeriodIndex([period("D", FIRST), period("D", LAST)])),
    "S": pd.Series(pd.PeriodIndex([period("S", FIRST), period("S", LAST)])),
    "date": objects(FIRST.date(), datetime.date(2024, 2, 29), LAST.date()),
    "datetime": objects(FIRST, datetime.datetime(2024, 2, 29, 12), LAST),
}
OPEN, LAST_DAYS = {"open_end": True}, {"last_day": True}
BOTH = {**OPEN, **LAST_DAYS}
SECONDS = np.array([points.FIRST, -86_401, -86_400, -1, 0, 86_399, 951_782_400, points.NO_END, points.LAST], np.int64)


class Points(unittest.TestCase):
    def test_each_kind_comes_back(self):
        for kind, column in EDGES.items():
            with self.subTest(kind):
                seconds, found = points.seconds_of(column)
                self.assertEqual(found, Kind(kind))
                pd.testing.assert_series_equal(points.series_of(seconds, found), column)

    def test_texts_are_read_as_they_are_written(self):
        texts = points.texts_of(SECONDS)
        self.assertEqual(texts[0], "0001-01-01")
        self.assertEqual(texts[-2:], ["9999-12-31", "9999-12-31T23:59:59"])
        answered = "".join(f"row,{text}\n" for text in texts) + f"end,{len(texts)}\n"
        got = answers.columns_of(answered.encode(), "p")
        self.assertEqual([column.tolist() for column in got], [SECONDS.tolist()])

    def test_kinds_of_two_frames(self):
        cases = [
            ("ns", "ns", "ns"), ("ns", "D", "S"), ("ns", "s", "s"), ("us", "ms", "ms"), ("date", "", "date"),
            ("date", "datetime", "datetime"), ("D", "S", "S"), ("date", "D", "S"), ("", "", ""),
        ]
        for one, other, wanted in cases:
            found = [joint_kind(Kind(first), Kind(second)) for first, second in ((one, other), (other, one))]
            self.assertEqual(found, [Kind(wanted)] * 2)

    def test_last_days_come_back(self):
        days = pd.to_datetime
        frame = pd.DataFrame({"from": days(["2024-01-01", "2024-01-31"]), "to": days(["2024-01-31", "2024-02-29"])})
        got = ruzgalt.agg(frame, "count", last_day=True)
        self.assertEqual(got["to"].tolist(), days(["2024-01-30", "2024-01-31", "2024-02-29"]).tolist())
        self.assertEqual(got["count"].tolist(), [1, 2, 1])

    def test_the_last_days_of_time(self):
        """cases: options, an end, and the end of the answer; None means that the call is refused."""
        last, before = LAST.date(), LAST.date() - datetime.timedelta(days=1)
        cases = [
            ({}, last, last), ({}, before, before), (LAST_DAYS, last, None), (LAST_DAYS, before, before),
            (OPEN, last, "missing"), (OPEN, before, before), (OPEN, None, "missing"),
            (BOTH, last, "missing"), (BOTH, before, None), (BOTH, None, "missing"),
        ]
        for words, end, wanted in cases:
            frame = pd.DataFrame({"from": objects(datetime.date(2024, 1, 1)), "to": objects(end)})
            with self.subTest((words, end)):
                if wanted is None:
                    self.assertRaises(ruzgalt.Refused, lambda: ruzgalt.agg(frame, "count", **words))
                    continue
                [answered] = ruzgalt.agg(frame, "count", **words)["to"]
                self.assertEqual("missing" if answered is None else answered, wanted)

    def test_an_end_that_is_no_midnight_has_no_last_day(self):
        form = points.Form(has_last_days=True)
        ends = np.array([86_400, 2 * 86_400 + 43_200], np.int64)
        with refused("1970-01-03T12:00:00", name="BadPoint"):
            form.restored_ends(ends, Kind("S"))
        self.assertEqual(list(map(str, form.restored_ends(ends[:1], Kind("D")))), ["1970-01-01"])


class Values(unittest.TestCase):
    def test_numbers_of_each_dtype_come_back(self):
        for dtype in ("int8", "int64", "uint8", "uint64", "Int8", "Int64", "UInt16", "category"):
            column = pd.Series([0, 1, 100], dtype=dtype)
            with self.subTest(dtype):
                found = values.values_of(column)
                self.assertEqual((found.kind, found.codes.tolist()), ("int", [0, 1, 100]))
                pd.testing.assert_series_equal(pd.Series(found.restored(found.codes)), column)

    def test_decimals_are_exact(self):
        cells = objects(decimal.Decimal("92233720368547758.07"), decimal.Decimal("-0.10"), decimal.Decimal("1E2"))
        found = values.values_of(cells, 2)
        self.assertEqual(found.codes.tolist(), [2**63 - 1, -10, 10_000])
        with decimal.localcontext() as context:
            context.prec = 3
            self.assertEqual(list(found.restored(found.codes)), cells.tolist())

    def test_floats_are_exactly_such_or_refused(self):
        for dtype in ("float64", "float32", "Float64"):
            column = pd.Series([0.1, -12.34, 0.29, 1e6], dtype=dtype)
            with self.subTest(dtype):
                if dtype == "float32":
                    column = column.iloc[:3]
                found = values.values_of(column, 2)
                self.assertEqual(found.codes.tolist()[:3], [10, -1234, 29])
                pd.testing.assert_series_equal(pd.Series(found.restored(found.codes)), column)

    def test_a_float_of_two_numbers_is_refused(self):
        """From 2^17 on cents are nearer to one another than floats of 32 bits are."""
        cells = np.array([131071.99, 140000.0, 140000.01, 140000.02], "f4")
        self.assertEqual(values.values_of(pd.Series(cells[:2]), 2).codes.tolist(), [13_107_199, 14_000_000])
        for dtype in ("float32", "Float32"):
            column = pd.Series(cells, dtype=dtype)
            with self.subTest(dtype), self.assertRaisesRegex(ruzgalt.Refused, "another number of 2 decimals too"):
                values.values_of(column, 2)
            found = values.values_of(column.iloc[:2], 2)
            with self.assertRaisesRegex(ruzgalt.Refused, "24 bits of a float: use Decimals"):
                found.restored(found.codes + 2)

    def test_hashes_are_the_same_on_each_machine(self):
        numbers = values.Values("k", "int", np.array([-1, 0, 2**40], np.int64))
        texts = values.Values("k", "text", np.array([0, 1, 2], np.int64), values.Texts(["", "a\0b", "é"]))
        self.assertEqual(values.hashes([numbers]).tolist(), HASHES[0])
        self.assertEqual(values.hashes([numbers, texts]).tolist(), HASHES[1])


# Hashes of the numbers, and of the numbers with the texts.
HASHES = (
    [1334179124670777289, 3430018290024, 16439502010042732672],
    [2652819786939546221, 4178123441092857458, 2584735395268284661],
)


if __name__ == "__main__":
    unittest.main()
