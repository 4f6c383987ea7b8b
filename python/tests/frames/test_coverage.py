"""coalesce, gaps and overlaps of other shapes than the random ones: no rows, months, zones, rows past the limits."""
import datetime
import unittest
from fractions import Fraction
from unittest import mock

import pandas as pd

import ruzgalt
from refusing import refused
from ruzgalt.frames import split

DAY = pd.to_datetime


def frame(*rows):
    starts, ends, *others = zip(*rows)
    return pd.DataFrame({"from": DAY(list(starts)), "to": DAY(list(ends)), **dict(zip("kx", map(list, others)))})


class United(unittest.TestCase):
    def test_no_rows(self):
        none = frame(("2024-01-01", "2024-01-02", "a")).iloc[:0]
        for by in (None, "k"):
            for call in (ruzgalt.coalesce, ruzgalt.gaps, ruzgalt.overlaps):
                self.assertEqual(len(call(none, by)), 0, call)
            self.assertEqual(len(ruzgalt.agg(none, "count", by=by)), 0)
        for on in ("k", []):
            got = ruzgalt.join(none, none, on=on)
            self.assertEqual((list(got)[:2], str(got["from"].dtype)), (["from", "to"], "datetime64[ns]"))
        # As if all rows were outside; but nothing says which groups there are.
        words = {"within": ("2024-01-01", "2024-02-01")}
        got = ruzgalt.gaps(none, **words)
        pd.testing.assert_frame_equal(got, ruzgalt.gaps(frame(("2025-01-01", "2025-01-02", "a")), **words))
        self.assertEqual(got.astype(str).values.tolist(), [list(words["within"])])
        self.assertEqual(ruzgalt.gaps(none, "k", **words).shape, (0, 3))

    def test_months_stay_months(self):
        months = pd.PeriodIndex(["2024-01", "2024-02", "2024-05"], freq="M")
        rows = pd.DataFrame({"from": months, "to": months})
        self.assertEqual(ruzgalt.coalesce(rows).astype(str).values.tolist(), [["2024-01", "2024-02"], ["2024-05"] * 2])
        self.assertEqual(ruzgalt.gaps(rows).astype(str).values.tolist(), [["2024-03", "2024-04"]])
        within = {"within": ("2024-03-05", "2024-03-07")}
        got = ruzgalt.gaps(rows, **within)
        self.assertEqual(got.astype(str).values.tolist(), [["2024-03-05", "2024-03-07"]])

    def test_months_and_dates_make_points_without_gaps(self):
        months = pd.PeriodIndex(["2024-01"], freq="M")
        rows = pd.DataFrame({"from": months, "to": [datetime.date(2024, 3, 1)]})
        got = ruzgalt.gaps(rows, within=("2023-12-15", "2024-03-02T06:00:00"))
        seconds = pd.PeriodDtype(pd.offsets.Second())
        self.assertEqual(got.dtypes.tolist(), [seconds, seconds])
        wanted = [["2023-12-15 00:00:00", "2024-01-01 00:00:00"]]
        wanted.append(["2024-03-01 00:00:00", "2024-03-02 06:00:00"])
        self.assertEqual(got.astype(str).values.tolist(), wanted)

    def test_a_time_of_a_question_has_no_end(self):
        rows = frame(("2024-01-01", "2024-02-01"), ("2024-03-01", None))
        words = {"open_end": True, "within": ("2023-01-01", None)}
        got = ruzgalt.gaps(rows, **words)
        self.assertEqual(got["to"].tolist(), list(DAY(["2024-01-01", "2024-03-01"])))
        self.assertTrue(ruzgalt.gaps(rows.iloc[:1], **words)["to"].isna().tolist()[1])

    def test_periods_with_last_days(self):
        rows = frame(("2024-01-01", "2024-01-31"), ("2024-02-01", "2024-02-10"), ("2024-02-12", "2024-02-12"))
        self.assertEqual(ruzgalt.coalesce(rows, last_day=True)["to"].tolist(), list(DAY(["2024-02-10", "2024-02-12"])))
        got = ruzgalt.gaps(rows, last_day=True, within=("2024-01-01", "2024-02-29"))
        self.assertEqual(got["from"].tolist(), list(DAY(["2024-02-11", "2024-02-13"])))
        self.assertEqual(got["to"].tolist(), list(DAY(["2024-02-11", "2024-02-29"])))

    def test_a_last_day_has_a_day_after_it(self):
        days = pd.PeriodIndex(["2024-01-15"], freq="D")
        rows, first, one = pd.DataFrame({"from": days, "to": days, "n": 1}), "2023-01-01", "per month"
        calls = [
            lambda day, **words: ruzgalt.gaps(rows, within=(first, day), last_day=True, **words),
            lambda day, **words: ruzgalt.spread(rows, "n", amount=one, within=(first, day), last_day=True, **words),
            lambda day, **words: ruzgalt.during(rows, first, day, last_day=True, **words),
        ]
        for asked in calls:
            for day in ("9999-12-31", datetime.date.max, pd.Period("9999-12-31", "D")):
                with self.subTest(day, call=calls.index(asked)):
                    with refused("there is no day after it; open_end=True", name="BadPoint"):
                        asked(day)
            self.assertRaises(ruzgalt.Refused, lambda: asked("9999-12-30", open_end=True))
            self.assertEqual(len(asked("9999-12-31", open_end=True)), len(asked("9999-12-29")))
        self.assertEqual(calls[0]("9999-12-31", open_end=True)["to"].isna().tolist(), [False, True])
        self.assertEqual(calls[0]("9999-12-30")["to"].astype(str).tolist(), ["2024-01-14", "9999-12-30"])

    def test_rows_past_the_limits(self):
        days = pd.date_range("2024-01-01", periods=12)
        found = pd.DataFrame({"from": days, "to": days + pd.Timedelta(days=2), "k": [1, 2] * 6})
        asks = [
            lambda: ruzgalt.coalesce(found), lambda: ruzgalt.coalesce(found, "k"), lambda: ruzgalt.overlaps(found),
            lambda: ruzgalt.gaps(found, "k", within=("2023-12-01", "2024-02-01")),
        ]
        for asked in asks:
            whole = asked()
            with mock.patch.object(split, "ROWS", 4):
                pd.testing.assert_frame_equal(asked(), whole)

    def test_a_level_may_be_the_group(self):
        rows = frame(("2024-01-01", "2024-01-03", "a", 1), ("2024-01-02", "2024-01-05", "a", 2)).set_index("k")
        self.assertEqual(ruzgalt.coalesce(rows, "k").shape, (1, 3))
        self.assertEqual(list(ruzgalt.overlaps(rows, "k")), ["from", "to", "k", "x_left", "x_right"])


class Divisions(unittest.TestCase):
    def test_each_group_has_its_own_division(self):
        """More groups than one run takes, compared with a division of each group."""
        days = pd.date_range("2024-01-01", periods=400).to_series().reset_index(drop=True)
        groups = [one % 130 for one in range(400)]
        given = pd.DataFrame({"from": days, "to": days + pd.Timedelta(days=200), "k": groups})
        for rows in (1_000_000, 5):
            with mock.patch.object(split, "ROWS", rows):
                got = ruzgalt.dip(given, "k")
            wanted = {k: ruzgalt.dip(own) for k, own in given.groupby("k") if k % 40 == 0}
            for k, one in wanted.items():
                self.assertEqual((got.count[k], got.instant[k]), (one.count, one.instant))
                self.assertEqual(got.parts[given["k"] == k].tolist(), one.parts.tolist())
        self.assertEqual((len(got.count), str(got.instant.dtype)), (130, "datetime64[ns]"))

    def test_groups_are_shown_with_their_parts(self):
        rows = frame(("2024-01-01", "2024-01-03", "a\n", 1), ("2024-01-02", "2024-01-05", "a\n", 2))
        self.assertEqual(repr(ruzgalt.dip(rows, ["k", "x"])).splitlines()[:2], [
            "2 rows in 2 groups of 1 part", "'a\\n', 1: 1 part, as many as hold at 2024-01-01 00:00:00",
        ])
        self.assertEqual(repr(ruzgalt.dip(rows.iloc[:0], "k")), "0 rows in 0 groups of no parts")
        days = pd.date_range("2024-01-02", periods=1_200)
        groups = [min(one, 11) for one in range(1_200)]
        rows = pd.DataFrame({"from": days, "to": days + pd.Timedelta(days=9), "k": groups})
        printed = repr(ruzgalt.dip(rows, "k")).splitlines()
        self.assertEqual(printed[0], "1,200 rows in 12 groups of 1 to 9 parts")
        self.assertEqual((len(printed), printed[-1]), (12, ".. and 2 more: .count and .instant have all"))

    def test_groups_of_several_columns(self):
        rows = frame(("2024-01-01", "2024-01-03", "a", 1), ("2024-01-02", "2024-01-05", "a", 2))
        self.assertEqual(ruzgalt.dip(rows, ["k", "x"]).count.to_dict(), {("a", 1): 1, ("a", 2): 1})
        texts = ["a", "a\0", "a\0b", "b"]
        several = pd.concat([frame(("2024-01-01", "2024-01-03", text, 1)) for text in reversed(texts)])
        for dtype in (object, "string"):
            count = ruzgalt.dip(several.astype({"k": dtype}), ["k", "x"]).count
            self.assertEqual((count.index.tolist(), count.index.dtypes["k"]), ([(text, 1) for text in texts], dtype))
        self.assertEqual(ruzgalt.dip(rows.set_index("k"), "k").count.to_dict(), {"a": 2})
        self.assertEqual(len(ruzgalt.dip(rows.iloc[:0], "k").count), 0)
        with mock.patch.object(split, "ROWS", 1), refused(name="Full"):
            ruzgalt.dip(rows, "k")


class Pieces(unittest.TestCase):
    def refuses(self, name, given, **words):
        with refused(name=name, label=0):
            ruzgalt.spread(given, "x", **{"amount": "per month", **words})

    def test_a_row_without_an_end_counts_up_to_the_time_s(self):
        rows = frame(("2024-01-01", None, "a", 10))
        self.refuses("BadPoint", rows, open_end=True)
        got = ruzgalt.spread(rows, "x", amount="per month", open_end=True, within=("2023-01-01", "2024-02-16"))
        self.assertEqual(got["x"].tolist(), [10, 5])

    def test_times_count_by_seconds_and_in_a_zone_not_at_all(self):
        rows = frame(("2024-01-31T12:00", "2024-02-01", "a", 62))
        self.assertEqual(ruzgalt.spread(rows, "x", amount="per month")["x"].tolist(), [1])
        zoned = rows.assign(**{name: rows[name].dt.tz_localize("Europe/Berlin") for name in ("from", "to")})
        self.refuses("BadPoint", zoned)
        got = ruzgalt.spread(zoned.assign(**{"from": zoned["from"].dt.floor("D")}), "x", amount="per month")
        self.assertEqual((got["x"].tolist(), str(got["from"][0])), ([2], "2024-01-01 00:00:00+01:00"))

    def test_weeks_of_months_are_days(self):
        months = pd.PeriodIndex(["2024-02"], freq="M")
        got = ruzgalt.spread(pd.DataFrame({"from": months, "to": months, "x": 7}), "x", amount="per week", each="W")
        self.assertEqual((str(got["from"].dtype), got["x"].tolist()), ("period[D]", [4, 7, 7, 7, 4]))

    def test_sums_may_be_long(self):
        rows = frame(*[("2024-01-01", "2024-02-01", "a", 2**62)] * 3)
        self.assertEqual(ruzgalt.spread(rows, "x", amount="per month")["x"].tolist(), [3 * 2**62])
        self.assertEqual(ruzgalt.spread(rows, "x", amount="in total", each="Y")["x"].tolist(), [3 * 2**62])

    def test_what_an_amount_is_must_be_said(self):
        rows = frame(("2024-01-01", "2025-01-01", "a", 1_200))
        with refused("amount='in total'", "'per month'"):
            ruzgalt.spread(rows, "x")
        for amount, each, wanted in (
            ("in total", "M", [102, 95, 101, 99, 101, 99, 101, 102, 98, 102, 98, 102]), ("in total", "Y", [1_200]),
            ("in total", "Q", [298, 299, 301, 302]), ("per month", "M", [1_200] * 12), ("per month", "Y", [14_400]),
            ("per quarter", "Y", [4_800]), ("per year", "Y", [1_200]), ("per year", "Q", [298, 298, 302, 302]),
        ):
            with self.subTest(amount, each=each):
                self.assertEqual(ruzgalt.spread(rows, "x", amount=amount, each=each)["x"].tolist(), wanted)
        days = ruzgalt.spread(rows, "x", amount="per month", each="D", within=("2024-02-28", "2024-03-02"), exact=True)
        self.assertEqual(days["x"].tolist(), [Fraction(1_200, 29)] * 2 + [Fraction(1_200, 31)])

    def test_an_amount_in_total_is_as_much_in_all_parts(self):
        """Also of a time that is cut, of months and quarters, and of less than nothing."""
        for amount in (1_000, -1_001, 1):
            rows = frame(("2024-01-10", "2025-03-05T00", "a", amount), ("2024-02-29", "2024-12-31T06", "a", amount))
            cuts = ["2024-01-01", "2024-05-17", "2024-05-18T01:02:03", "2025-06-01"]
            found = [
                [ruzgalt.spread(rows, "x", amount="in total", each=each, within=within)["x"].sum() for within in whole]
                for each in "DWMQY" for whole in (list(zip(cuts, cuts[1:])), [None])
            ]
            self.assertEqual({tuple(one) for one in found[::2]}, {tuple(found[0])})
            self.assertEqual({sum(one) for one in found}, {2 * amount})

    def test_an_amount_in_total_needs_an_end(self):
        rows = frame(("2024-01-01", None, "a", 10), ("2024-01-01", "2024-01-03", "a", 10))
        words = {"amount": "in total", "open_end": True, "within": ("2024-01-02", "2024-02-16")}
        self.refuses("BadPoint", rows, **words)
        self.assertEqual(ruzgalt.spread(rows.iloc[1:], "x", **words)["x"].tolist(), [5])


if __name__ == "__main__":
    unittest.main()
