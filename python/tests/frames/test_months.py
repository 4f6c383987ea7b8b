"""Periods of weeks, months, quarters and years: a start is its first day, an end is all of it.

The wanted answers are computed month by month in plain Python.
"""
import datetime
import unittest
from random import Random

import pandas as pd

import by_rows
import labels
import ruzgalt
from refusing import refused

# The first year, and the number of months in a month, a quarter and a year.
YEAR, MONTHS = 2023, {"M": 1, "Q": 3, "Y": 12}


def frame(rows, freq, names=("from", "to")):
    """Rows of numbers of periods from the beginning of 2023 on; None means no end."""
    first = pd.Period(year=YEAR, month=1, day=1, freq=freq)
    columns = {name: [pd.NaT if row[place] is None else first + row[place] for row in rows]
               for place, name in enumerate(names)}
    dtype = pd.PeriodDtype(first.freq)
    return pd.DataFrame({**{name: pd.Series(cells, dtype=dtype) for name, cells in columns.items()},
                         "k": [row[2] for row in rows]})


def number(point):
    """The number of periods from the first one to a cell; None means no end."""
    if point is pd.NaT:
        return None
    return point.ordinal - pd.Period(year=YEAR, month=1, day=1, freq=point.freq).ordinal


def joined(left, right):
    """First and last index, and the indices of each pair of rows that match, sorted."""
    found = by_rows.joined(*([(first, last + 1, key) for first, last, key in rows] for rows in (left, right)))
    return [[start, end - 1, *rows] for start, end, *rows in found]


def runs(held):
    """First and last index, and value, of each longest run of one value; 0 isn't a value."""
    return [[start, end - 1, value] for start, end, value in by_rows.runs([value or None for value in held])]


def rows_of(random):
    starts = [random.randrange(8) for _ in range(random.randint(1, 6))]
    return [(start, start + random.randrange(5), random.choice("ab")) for start in starts]


def rows_in(got, *names):
    columns = [[*map(number, got[name])] for name in ("from", "to")]
    return [list(row) for row in zip(*columns, *(got[name] for name in names))]


class Months(unittest.TestCase):
    def test_answers_are_those_of_whole_periods(self):
        for seed in range(20):
            random = Random(seed)
            freq = random.choice([*MONTHS, "W", "Q-JAN", "W-WED"])
            left, right = rows_of(random), rows_of(random)
            words = {"last_day": random.random() < 0.5}
            one, other = frame(left, freq), frame(right, freq)
            with self.subTest((seed, freq)):
                got = labels.join(one, other, on="k", **words)
                self.assertEqual(rows_in(got, "left_label", "right_label"), joined(left, right))
                self.assertEqual((got["from"].dtype, got["to"].dtype), (one["from"].dtype,) * 2)
                wanted = runs([sum(row[0] <= place <= row[1] for row in left) for place in range(20)])
                self.assertEqual(rows_in(ruzgalt.agg(one, "count", **words), "count"), wanted)
                got = ruzgalt.anti(one, other, on="k", **words)
                free = [[not any(row[2] == two[2] and two[0] <= place <= two[1] for two in right)
                         and row[0] <= place <= row[1] for place in range(20)] for row in left]
                wanted = [[*run[:2], label] for label, held in enumerate(free) for run in runs(held)]
                self.assertEqual([[*row, label] for row, label in zip(rows_in(got), got.index)], wanted)

    def test_an_end_of_march_is_april_1st(self):
        one = frame([(0, 2, "a")], "M")
        days = pd.DataFrame({"from": [datetime.date(2023, 3, 31), datetime.date(2023, 4, 1)],
                             "to": [datetime.date(2023, 4, 1), datetime.date(2023, 4, 2)], "k": "a"})
        got = ruzgalt.join(one, days, on="k")
        self.assertEqual([str(got[name][0]) for name in ("from", "to")], ["2023-03-31 00:00:00", "2023-04-01 00:00:00"])
        self.assertEqual(len(got), 1)
        self.assertEqual(ruzgalt.dip(one).instant, one["from"][0])

    def test_a_month_and_a_quarter_make_points(self):
        got = ruzgalt.join(frame([(1, 6, "a")], "M"), frame([(0, 1, "a")], "Q"), on="k")
        self.assertEqual([str(got[name][0]) for name in ("from", "to")], ["2023-02-01 00:00:00", "2023-07-01 00:00:00"])

    def test_a_missing_end_is_no_end(self):
        one = frame([(0, None, "a"), (2, 3, "a")], "M")
        got = ruzgalt.agg(one, "count", open_end=True)
        self.assertEqual(rows_in(got, "count"), [[0, 1, 1], [2, 3, 2], [4, None, 1]])
        for what, asked in (("end", lambda: ruzgalt.agg(one, "count")),
                            ("start", lambda: ruzgalt.agg(one, "count", period=("to", "from"), open_end=True))):
            with self.subTest(what), refused(name="BadPoint", label=0):
                asked()

    def test_the_edges_of_time(self):
        for year, month in ((1, 1), (9999, 11), (9999, 12), (10000, 1), (0, 12)):
            cells = pd.Series([pd.Period(year=year, month=month, freq="M")])
            one = pd.DataFrame({"from": cells, "to": cells})
            with self.subTest((year, month)):
                if (year, month) in ((1, 1), (9999, 11)):
                    got = ruzgalt.agg(one, "count")
                    self.assertEqual((got["from"][0], got["to"][0]), (cells[0], cells[0]))
                    continue
                with refused(name="BadPoint", label=0):
                    ruzgalt.agg(one, "count")

    def test_an_end_before_its_start_is_refused(self):
        with refused(name="BadPeriod", label=1):
            ruzgalt.agg(frame([(2, 2, "a"), (2, 1, "a")], "M"), "count")

    def test_a_store_takes_no_months_and_other_periods_are_refused(self):
        made, month = ruzgalt.Store(), pd.Period("2023-03", "M")
        one = frame([(0, 2, "a")], "M")
        days = one.assign(**{"from": one["from"].dt.asfreq("D", "start"), "to": one["to"].dt.asfreq("D", "end")})
        asks = [lambda: made.table("t", one), lambda: ruzgalt.agg(frame([(0, 2, "a")], "2M"), "count"),
                lambda: ruzgalt.agg(frame([(0, 2, "a")], pd.offsets.Hour()), "count")]
        made.table("u", days, last_day=True)
        asks += [lambda: made.at("u", month), lambda: made.delete("u", "2023-01-01", month)]
        for asked in asks:
            with refused(name="WrongKind"):
                asked()
        self.assertEqual(str(made.rows("u")["to"][0]), "2023-03-31")


if __name__ == "__main__":
    unittest.main()
