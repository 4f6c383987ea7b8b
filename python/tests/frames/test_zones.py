"""Points in a time zone: compared in UTC, and returned in their zone. Days may have 23 or 25 hours, or be skipped.

The wanted answers are computed row by row with Python's datetimes and zoneinfo, or written by hand.
"""
import datetime
import importlib.util
import unittest
import warnings
from random import Random
from zoneinfo import ZoneInfo

import numpy as np
import pandas as pd
from dateutil import tz

import by_rows
import labels
import ruzgalt
from refusing import refused
from ruzgalt.convert.kinds import begins_of, days_before, has_time, next_days, walls_of

BERLIN, UTC = ZoneInfo("Europe/Berlin"), datetime.timezone.utc
HOUR, DAY = datetime.timedelta(hours=1), datetime.timedelta(days=1)
HAS_UNITS = pd.Series(np.zeros(1, "M8[s]")).dtype == "M8[s]"
# Nights in which clocks change.
NIGHTS = [datetime.datetime(2024, 3, 30, 20, tzinfo=UTC), datetime.datetime(2024, 10, 26, 19, tzinfo=UTC)]


def zoned(moments, zone="Europe/Berlin", unit="ns"):
    """A column of aware datetimes and None."""
    texts = [None if one is None else one.astimezone(UTC).replace(tzinfo=None) for one in moments]
    return pd.Series(np.array(texts, f"M8[{unit}]")).dt.tz_localize("UTC").dt.tz_convert(zone)


def frame(rows, names=("from", "to", "k"), **words):
    starts, ends, keys = zip(*rows)
    return pd.DataFrame(dict(zip(names, (zoned(starts, **words), zoned(ends, **words), keys))))


def rows_in(got):
    """The rows of an answer, its points in UTC."""
    columns = [[None if cell is pd.NaT else cell for cell in got[name]] for name in got]
    return [[one.tz_convert("UTC").to_pydatetime() if isinstance(one, pd.Timestamp) else one for one in row]
            for row in zip(*columns)]


def walls_in(got):
    """The points of an answer, as clocks show them."""
    return [[str(cell)[:19] for cell in got[name]] for name in got]


def outcome(call, rows, form):
    """The call's answer, or the name of its refusal."""
    try:
        return call(rows, **form)
    except ruzgalt.Refused as refused:
        return refused.name


def night(random, count):
    """Rows of an hour to twelve of one night, in UTC."""
    begin, rows = random.choice(NIGHTS), []
    for _ in range(count):
        start = begin + random.randrange(10) * HOUR
        rows.append((start, start + random.randint(1, 12) * HOUR, random.choice("ab")))
    return rows


def pairs(left, right):
    return [[start, end, left[row][2], row, other] for start, end, row, other in by_rows.joined(left, right)]


def counts(rows):
    """Start, end and number of the rows that hold, hour by hour."""
    first = min(start for start, _, _ in rows)
    held = [(((start - first) // HOUR, (end - first) // HOUR), (), 1) for start, end, _ in rows]
    return [[first + start * HOUR, first + end * HOUR, count] for start, end, count in by_rows.by_group(held, len)]


class Zones(unittest.TestCase):
    def refuses(self, what, asked, wanted, column):
        with self.subTest(what), refused(wanted, name="WrongKind", column=column):
            asked()

    def test_nights_in_which_clocks_change_are_as_python_has_them(self):
        with warnings.catch_warnings():
            warnings.simplefilter("ignore", ruzgalt.Doubt)
            for seed in range(30):
                random = Random(seed)
                left, right = night(random, random.randint(1, 8)), night(random, random.randint(1, 8))
                with self.subTest(seed):
                    got = labels.join(frame(left), frame(right), on="k")
                    self.assertEqual(rows_in(got[["from", "to", "k", "left_label", "right_label"]]), pairs(left, right))
                    self.assertEqual(got["from"].dtype, frame(left)["from"].dtype)
                    self.assertEqual(rows_in(ruzgalt.agg(frame(left), "count")), counts(left))

    def test_an_anti_join_and_a_division_are_in_the_zone(self):
        begin = NIGHTS[1]
        one, other = [(begin, begin + 10 * HOUR, "a")], [(begin + 4 * HOUR, begin + 6 * HOUR, "a")]
        got = ruzgalt.anti(frame(one), frame(other), on="k")
        self.assertEqual(rows_in(got), [[begin, begin + 4 * HOUR, "a"], [begin + 6 * HOUR, begin + 10 * HOUR, "a"]])
        self.assertEqual(list(map(str, got["from"])), ["2024-10-26 21:00:00+02:00", "2024-10-27 02:00:00+01:00"])
        self.assertEqual(str(ruzgalt.dip(frame(other)).instant), "2024-10-27 01:00:00+02:00")

    def test_a_missing_end_is_missing_in_the_zone(self):
        begin = NIGHTS[0]
        rows = [(begin, None, "a"), (begin + HOUR, begin + 2 * HOUR, "a")]
        got = ruzgalt.agg(frame(rows), "count", open_end=True)
        self.assertEqual(rows_in(got)[-1], [begin + 2 * HOUR, None, 1])
        self.assertEqual(got["to"].dtype, frame(rows)["to"].dtype)
        self.assertRaises(ruzgalt.Refused, lambda: ruzgalt.agg(frame(rows), "count"))

    @unittest.skipUnless(importlib.util.find_spec("dask"), "Dask isn't here: apt-get install python3-dask")
    def test_frames_of_dask_are_answered_in_the_zone(self):
        import dask.dataframe as dask
        random = Random(1)
        left, right = frame(night(random, 9)), frame(night(random, 9))
        spread = [dask.from_pandas(one, npartitions=3) for one in (left, right)]
        wanted = ruzgalt.join(left, right, on="k")
        got = ruzgalt.join(*spread, on="k").compute()
        self.assertEqual((sorted(rows_in(got)), got["to"].dtype), (sorted(rows_in(wanted)), wanted["to"].dtype))
        self.assertEqual(rows_in(ruzgalt.agg(spread[0], "count").compute()), rows_in(ruzgalt.agg(left, "count")))

    def test_one_zone_has_several_names_of_classes(self):
        begin = NIGHTS[0]
        rows = [(begin, begin + HOUR, "a")]
        # Of dateutil no zone has a hash.
        for zone in (BERLIN, UTC, datetime.timezone(HOUR), tz.gettz("Europe/Berlin")):
            with self.subTest(zone):
                got = ruzgalt.join(frame(rows, zone=zone), frame(rows, zone=zone), on="k")
                self.assertEqual((rows_in(got), str(got["to"].dt.tz)), ([[*rows[0]]], str(zone)))
        self.assertEqual(len(ruzgalt.join(frame(rows, zone=BERLIN), frame(rows), on="k")), 1)

    def test_two_zones_in_one_call_are_refused(self):
        begin = NIGHTS[0]
        one = frame([(begin, begin + HOUR, "a")])
        utc, plain = (one.assign(**{name: change(one[name].dt) for name in ("from", "to")})
                      for change in (lambda cells: cells.tz_convert("UTC"), lambda cells: cells.tz_localize(None)))
        mixed = one.assign(to=plain["to"])
        cases = [
            ("two", lambda: ruzgalt.join(one, utc, on="k"), "points in UTC and points in Europe/Berlin", "from"),
            ("none", lambda: ruzgalt.anti(one, plain, on="k"), "points in no zone and points in Europe", "from"),
            ("none first", lambda: ruzgalt.anti(plain, one, on="k"), "Europe/Berlin and points in no zone", "from"),
            ("in a frame", lambda: ruzgalt.agg(mixed, "count"), "points in no zone and points in Europe", "to"),
        ]
        for case in cases:
            self.refuses(*case)

    def test_a_store_has_no_zone(self):
        one, made = frame([(NIGHTS[0], NIGHTS[0] + HOUR, "a")]), ruzgalt.Store()
        plain = one.assign(**{name: one[name].dt.tz_localize(None) for name in ("from", "to")})
        remedy = "a store's points have no time zone, but these have Europe/Berlin; .dt.tz_convert(ZONE).dt.tz_localize"
        self.refuses("a table", lambda: made.table("t", one), remedy, "from")
        made.table("t", plain)
        before = made.script()
        self.refuses("a load", lambda: made.load("t", one), remedy, "from")
        self.refuses("updates", lambda: made.update_rows("t", one, where="k"), remedy, "from")
        self.assertEqual(made.script(), before)

    def test_years_near_the_ends_of_time_are_refused(self):
        for text in ("2262-01-01", "1677-12-01"):
            cells = pd.Series(pd.to_datetime([text])).dt.tz_localize("Europe/Berlin")
            given = pd.DataFrame({"from": cells, "to": cells + pd.Timedelta(days=1)})
            with self.subTest(text), refused(name="BadPoint", label=0):
                ruzgalt.agg(given, "count")


@unittest.skipUnless(HAS_UNITS, "pandas before 2 has no other unit than ns")
class Units(unittest.TestCase):
    def test_each_unit_comes_back_in_the_zone(self):
        begin = datetime.datetime(1066, 10, 14, tzinfo=UTC)
        rows = [(begin, begin + 9 * DAY, "a"), (begin + DAY, None, "a")]
        for unit in ("s", "ms", "us"):
            with self.subTest(unit):
                one = frame(rows, zone=UTC, unit=unit)
                got = ruzgalt.agg(one, "count", open_end=True)
                wanted = [[begin, begin + DAY, 1], [begin + DAY, begin + 9 * DAY, 2], [begin + 9 * DAY, None, 1]]
                self.assertEqual((rows_in(got), got["to"].dtype), (wanted, one["to"].dtype))
                whole = frame([(begin, begin + DAY, "a")], zone=UTC, unit="s")
                coarser = ruzgalt.anti(one, whole, on="k", open_end=True)
                self.assertEqual(str(coarser["from"].dtype), "datetime64[s, UTC]")


def midnights(zone, *days):
    return pd.Series(pd.to_datetime(list(days))).dt.tz_localize(zone)


class LastDays(unittest.TestCase):
    def test_last_days_are_days_of_the_zone(self):
        days = pd.DataFrame({
            "from": midnights("Europe/Berlin", "2024-03-30", "2024-10-26"), "k": [1, 2],
            "to": midnights("Europe/Berlin", "2024-03-31", "2024-10-27"),
        })
        single = pd.DataFrame({name: midnights("Europe/Berlin", "2024-03-31", "2024-10-27") for name in ("from", "to")})
        got = ruzgalt.join(days, single.assign(k=[1, 2]), on="k", last_day=True)
        self.assertEqual(list(map(str, got["to"])), ["2024-03-31 00:00:00+01:00", "2024-10-27 00:00:00+02:00"])
        got = ruzgalt.anti(days, single.assign(k=[1, 2]), on="k", last_day=True)
        self.assertEqual(list(map(str, got["to"])), ["2024-03-30 00:00:00+01:00", "2024-10-26 00:00:00+02:00"])
        self.assertEqual(got["to"].dtype, days["to"].dtype)

    def test_a_day_s_hours_are_those_of_python(self):
        for zone in ("Europe/Berlin", "America/New_York", "America/Havana", "Asia/Kolkata", "Australia/Lord_Howe"):
            python, day = ZoneInfo(zone), datetime.datetime(2024, 1, 1)
            days = [(day + place * DAY).replace(tzinfo=python) for place in range(367)]
            wanted = np.array([round(one.timestamp()) for one in days], np.int64)
            walls = np.array([round(one.replace(tzinfo=UTC).timestamp()) for one in days], np.int64)
            with self.subTest(zone):
                self.assertEqual(begins_of(walls + 40_000, zone).tolist(), wanted.tolist())
                self.assertEqual(next_days(wanted[:-1], zone).tolist(), wanted[1:].tolist())
                self.assertEqual(days_before(wanted[1:], zone).tolist(), wanted[:-1].tolist())
                self.assertFalse(has_time(wanted, zone).any())

    def test_days_without_a_midnight_or_with_two_and_days_that_were_left_out(self):
        """The first points of days by the zones' rules, in UTC."""
        cases = [
            ("America/Sao_Paulo", ["2018-11-03T03", "2018-11-04T03", "2018-11-05T02"]),
            ("America/Havana", ["2024-11-02T04", "2024-11-03T04", "2024-11-04T05"]),
            ("Pacific/Apia", ["2011-12-29T10", "2011-12-30T10", "2011-12-31T10"]),
            ("America/Toronto", ["1919-03-30T05", "1919-03-31T04:30", "1919-04-01T04"]),
        ]
        for zone, texts in cases:
            wanted = np.array(texts, "M8[s]").view("i8")
            with self.subTest(zone):
                self.assertEqual(begins_of(walls_of(wanted + 3_600, zone), zone).tolist(), wanted.tolist())
                self.assertEqual(next_days(wanted[:-1], zone).tolist(), wanted[1:].tolist())
                self.assertEqual(days_before(wanted[1:], zone).tolist(), wanted[:-1].tolist())

    def test_a_last_day_that_was_left_out_has_no_other_day(self):
        """In Samoa December 31st 2011 came after the 29th. Days are counted one by one; a row has the 28th and 29th."""
        days = (midnights("Pacific/Apia", f"2011-12-{day}") for day in (28, 29))
        rows = pd.DataFrame(dict(zip(("from", "to"), days)))
        late = pd.DataFrame(dict.fromkeys(("from", "to"), midnights("Pacific/Apia", "2011-12-31")))
        first = datetime.date(2011, 12, 27)
        there = [day for day in (first + place * DAY for place in range(8)) if day != datetime.date(2011, 12, 30)]
        for last in (first + place * DAY for place in range(8)):
            wanted = [day for day in there if day <= last and day not in (first + DAY, first + 2 * DAY)]
            for point in (last, str(last), pd.Period(str(last), "D")):
                with self.subTest(point):
                    got = ruzgalt.gaps(rows, within=(first, point), last_day=True)
                    found = [day for day in there for start, end in zip(got["from"].dt.date, got["to"].dt.date)
                             if start <= day <= end]
                    self.assertEqual(found, wanted)
                    is_there = last >= datetime.date(2011, 12, 31)
                    self.assertEqual(len(ruzgalt.during(late, first, point, last_day=True)), is_there)
        there_too = pd.Timestamp("2011-12-29", tz="Pacific/Apia")
        self.assertEqual(len(ruzgalt.during(late, first, there_too, last_day=True)), 0)
        with refused(name="BadPeriod"):
            ruzgalt.during(late, "2011-12-30", "2011-12-30", last_day=True)

    def test_amounts_are_spread_by_days_where_one_begins_at_one(self):
        """In São Paulo the fourth day began at one o'clock: of 30 days a row has the first three, another the rest."""
        days = pd.DatetimeIndex(["2018-11-01T00:00", "2018-11-04T01:00", "2018-12-01T00:00"])
        points = days.tz_localize("America/Sao_Paulo")
        rows = pd.DataFrame({"from": points[:2], "to": points[1:], "cents": [30, 60]})
        self.assertEqual(ruzgalt.spread(rows, "cents", amount="per month", exact=True)["cents"].tolist(), [3 + 54])

    def test_a_time_is_refused_and_a_missing_end_is_none(self):
        days = pd.DataFrame({name: midnights("Europe/Berlin", "2024-03-31") for name in ("from", "to")})
        late = days.assign(to=days["to"] + pd.Timedelta(hours=1))
        with refused("this has a time"):
            ruzgalt.agg(late, "count", last_day=True)
        open_end = days.assign(to=pd.Series([pd.NaT], dtype=days["to"].dtype))
        got = ruzgalt.agg(open_end, "count", last_day=True, open_end=True)
        self.assertEqual((got["to"].tolist(), got["to"].dtype), ([pd.NaT], days["to"].dtype))

    def test_far_points_are_taken_as_without_a_zone(self):
        """Also points that datetime64[ns] can't have; 9999-12-31 means no end in each zone."""
        starts, ends = map(pd.to_datetime, (["2024-01-05", "2024-03-05"], ["2024-02-07", None]))
        plain = pd.DataFrame({"from": starts, "to": ends})
        both = plain, plain.apply(lambda column: column.dt.tz_localize("Europe/Berlin"))
        spans = [("1600-01-01", "9999-12-31"), ("0001-01-01", "2024-02-15"), ("2024-02-15", "9999-12-30"),
                 ("2500-01-01", None), ("2024-02-15", "2600-01-01"), ("9999-12-31", "9999-12-31")]
        calls = [lambda one, span=span, **given: ruzgalt.during(one, *span, **given).index.tolist() for span in spans]
        calls += [lambda one, at=at, **given: ruzgalt.at(one, at, **given).index.tolist() for at, _ in spans]
        calls += [lambda one, end=end, **given: walls_in(ruzgalt.gaps(one, within=("2024-01-01", end), **given))
                  for end in ("9999-12-31", None)]
        for form in ({"open_end": True}, {"last_day": True}, {"open_end": True, "last_day": True}):
            for place, call in enumerate(calls):
                with self.subTest(place, **form):
                    found = [outcome(call, one if "open_end" in form else one[:1], form) for one in both]
                    self.assertEqual(found[0], found[1])

    def test_far_points_of_a_zone_are_taken(self):
        start, behind = (midnights("Europe/Berlin", day) for day in ("2024-01-05", "2024-02-07"))
        rows = pd.DataFrame({"from": start, "to": behind})
        end = datetime.datetime(9999, 12, 31, tzinfo=UTC)
        self.assertEqual(len(ruzgalt.during(rows, datetime.datetime(1, 1, 2, tzinfo=UTC), end)), 1)
        before = datetime.datetime(1, 1, 1, tzinfo=datetime.timezone(5 * HOUR))
        for point, name in ((before, "BadPoint"), (datetime.time(1, tzinfo=UTC), "WrongKind")):
            with refused(name=name):
                ruzgalt.at(rows, point)

    def test_what_looks_like_last_days_is_doubted_by_the_zone_s_days(self):
        days = pd.DataFrame({
            "from": midnights("Europe/Berlin", "2024-01-01", "2024-02-01", "2024-03-01", "2024-04-01"),
            "to": midnights("Europe/Berlin", "2024-01-31", "2024-02-29", "2024-03-31", "2024-04-30"),
        })
        with self.assertWarns(ruzgalt.Doubt):
            ruzgalt.agg(days, "count")


if __name__ == "__main__":
    unittest.main()
