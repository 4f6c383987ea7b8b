"""at and during, compared with the rows of each day; and points in a time zone."""
import datetime
import importlib.util
import os
import unittest

import numpy as np
import pandas as pd

import by_rows
import ruzgalt
from refusing import refused

if not importlib.util.find_spec("hypothesis"):
    raise unittest.SkipTest("hypothesis isn't here: apt-get install python3-hypothesis")
from hypothesis import HealthCheck, given, settings, strategies as st  # noqa: E402

from hostile import cases  # noqa: E402

MANY = settings(
    max_examples=int(os.environ.get("FRAMES_HOSTILE", "50")), deadline=None, database=None,
    derandomize=not os.environ.get("FRAMES_LONG"), suppress_health_check=list(HealthCheck),
)
BERLIN = "Europe/Berlin"


class Hostile(unittest.TestCase):
    def is_as_by_days(self, case, asked, is_held):
        case.options.pop("workers", None)
        try:
            got = asked(case.frames[0])
        except (ruzgalt.Refused, TypeError) as error:
            self.assertFalse(case.is_plain, error)
            return
        self.assertTrue(case.is_right, f"{case.options} is taken")
        found = by_rows.periods(case.columns[0], case.periods[0])
        rows = [row for row, (start, end) in enumerate(found) if any(map(is_held, range(start, end)))]
        pd.testing.assert_frame_equal(got, case.frames[0].iloc[rows])

    @MANY
    @given(cases("at"), st.integers(-1, 20))
    def test_rows_at_a_day(self, case, day):
        asked = lambda frame: ruzgalt.at(frame, case.point(day), **case.options)  # noqa: E731
        self.is_as_by_days(case, asked, lambda one: one == day)

    @MANY
    @given(cases("at"), st.integers(-1, 12), st.integers(1, 20))
    def test_rows_during_days(self, case, day, count):
        span = case.point(day), case.end(day + count)
        asked = lambda frame: ruzgalt.during(frame, *span, **case.options)  # noqa: E731
        self.is_as_by_days(case, asked, lambda one: day <= one < day + count)


class Points(unittest.TestCase):
    def refuses(self, name, asked, *words):
        with self.subTest(words), refused(name=name):
            asked(*words)

    def test_points_of_each_kind(self):
        frame = pd.DataFrame({"from": pd.to_datetime(["2024-01-01", "2024-01-02"]), "to": pd.Timestamp("2024-01-03")})
        day = datetime.date(2024, 1, 1)
        for point in ("2024-01-01", "2024-01-01T23:59:59", day, pd.Timestamp(day), pd.Period("2024-01-01", "D")):
            self.assertEqual(ruzgalt.at(frame, point).index.tolist(), [0], point)
        self.assertEqual(len(ruzgalt.during(frame, "2024-01-02", None)), 2)
        asked = lambda *words: ruzgalt.at(frame, *words)  # noqa: E731
        for point in ("yesterday", None, pd.NaT, "2024-01-01T00:00:00.5"):
            self.refuses("BadPoint", asked, point)
        for point in (1, ["2024-01-01"], pd.Period("2024-01", "M"), pd.Timestamp(day, tz=BERLIN)):
            self.refuses("WrongKind", asked, point)
        self.refuses("BadPeriod", lambda *words: ruzgalt.during(frame, *words), "2024-01-02", "2024-01-02")

    def test_a_year_a_month_and_a_week_are_no_points(self):
        frame = pd.DataFrame({"from": pd.to_datetime(["2024-06-01"]), "to": pd.Timestamp("2024-06-02"), "n": 1})
        made = ruzgalt.Store()
        made.table("t", frame)
        calls = [
            lambda point: ruzgalt.at(frame, point), lambda point: ruzgalt.during(frame, point, None),
            lambda point: ruzgalt.during(frame, "2024-01-01", point, last_day=True),
            lambda point: ruzgalt.gaps(frame, within=("2024-01-01", point)),
            lambda point: ruzgalt.spread(frame, "n", amount="per month", within=(point, "2025-01-01")),
            lambda point: made.at("t", point), lambda point: made.rows("t", as_of=point),
            lambda point: made.delete("t", point, None), lambda point: made.update("t", "2024-01-01", point, {"n": 1}),
            lambda point: made.load("t", frame, day=point),
        ]
        for unit in "YMW":
            for asked in calls:
                with self.subTest(unit, call=calls.index(asked)):
                    with refused("isn't a date or time: .astype('M8[D]') is its first day", name="WrongKind"):
                        asked(np.datetime64("2024-06-01", unit))
        for point in ("2024-06-01", "2024-06-01T08", "2024-06-01T23:59"):
            point = np.datetime64(point)
            self.assertEqual([len(ruzgalt.at(frame, point)), len(made.at("t", point))], [1, 1])
        self.assertEqual(len(made.log()), 2)

    def test_a_last_day_is_a_last_day(self):
        frame = pd.DataFrame({"from": pd.to_datetime(["2024-01-01", "2024-01-02"]), "to": pd.Timestamp("2024-01-03")})
        frame["to"] = pd.Timestamp("2024-01-02")
        lasts = lambda *words: ruzgalt.during(frame, *words, last_day=True)  # noqa: E731
        self.assertEqual([len(lasts(one, one)) for one in ("2024-01-01", "2024-01-02", "2024-01-03")], [1, 2, 0])
        self.refuses("BadPoint", lasts, "2024-01-01T08:00:00", "2024-01-02")

    def test_points_in_a_zone(self):
        """Clocks go on at 2 o'clock of March 31st 2024, and back at 3 o'clock of October 27th."""
        hours = pd.date_range("2024-03-30 23:00", periods=3, freq=pd.offsets.Hour(), tz="UTC").tz_convert(BERLIN)
        frame = pd.DataFrame({"from": hours, "to": hours + pd.Timedelta(hours=1)})
        asked = lambda *words: ruzgalt.at(frame, *words)  # noqa: E731
        for place, day in enumerate(("2024-03-31", "2024-03-31T01:30:00", "2024-03-31T03:00:00")):
            self.assertEqual(asked(day).index.tolist(), [place])
            self.assertEqual(asked(pd.Timestamp(day, tz=BERLIN)).index.tolist(), [place])
            self.assertEqual(asked(pd.Timestamp(day, tz=BERLIN).tz_convert("Asia/Tokyo")).index.tolist(), [place])
        self.refuses("BadPoint", asked, "2024-03-31T02:30:00")
        self.refuses("BadPoint", asked, "2024-10-27T02:30:00")
        days = frame.assign(**dict.fromkeys(("from", "to"), pd.Timestamp("2024-03-31", tz=BERLIN)))
        found = [len(ruzgalt.at(days, f"2024-0{day}", last_day=True)) for day in ("3-30", "3-31", "4-01T00:00:00")]
        self.assertEqual(found, [0, 3, 0])
        self.assertEqual(len(ruzgalt.during(days, "2024-03-30", "2024-03-31", last_day=True)), 3)
        self.assertEqual(len(ruzgalt.during(days, "2024-03-29", "2024-03-30", last_day=True)), 0)


if __name__ == "__main__":
    unittest.main()
