"""Periods in a column of intervals or in a level of the index: each call answers as with two columns."""
import importlib.util
import unittest

import numpy as np
import pandas as pd

import ruzgalt

CLOSED = {"closed": "left"}


def frame(seed, count=12, zone=None):
    """Rows with two columns, of days or times."""
    random = np.random.default_rng(seed)
    start = pd.Timestamp("2024-01-01", tz=zone) + pd.to_timedelta(random.integers(0, 400, count), unit="h")
    return pd.DataFrame({
        "from": start, "to": start + pd.to_timedelta(random.integers(1, 300, count), unit="h"),
        "k": random.integers(0, 3, count), "x": random.integers(0, 9, count),
    }, index=list("abcdefghijkl")[:count])


def spanned(pairs):
    """Replaces the two columns of a period by one column of intervals."""
    made = pairs.copy()
    place = list(made).index("from")
    made.insert(place, "span", pd.arrays.IntervalArray.from_arrays(made.pop("from"), made.pop("to"), **CLOSED))
    return made


class Intervals(unittest.TestCase):
    def setUp(self):
        self.both = [(frame(seed, zone=zone), frame(seed + 100, zone=zone))
                     for seed in range(4) for zone in (None, "Europe/Berlin")]

    def same(self, got, wanted):
        pd.testing.assert_frame_equal(got, spanned(wanted))
        self.assertEqual(got["span"].dtype.closed, "left")

    def test_a_column_of_intervals_is_a_period(self):
        for left, right in self.both:
            one, other = spanned(left), spanned(right)
            for how in ("inner", "outer"):
                self.same(ruzgalt.join(one, other, on="k", period="span", how=how),
                          ruzgalt.join(left, right, on="k", how=how))
            self.same(ruzgalt.anti(one, other, on="k", period="span"), ruzgalt.anti(left, right, on="k"))
            for by in (None, "k"):
                self.same(ruzgalt.agg(one, "sum", "x", by=by, period="span"), ruzgalt.agg(left, "sum", "x", by=by))
            pd.testing.assert_series_equal(ruzgalt.dip(one, period="span").parts, ruzgalt.dip(left).parts)
            self.assertEqual(ruzgalt.dip(one, period="span").instant, ruzgalt.dip(left).instant)
            self.same(ruzgalt.at(one, "2024-01-09", period="span"), ruzgalt.at(left, "2024-01-09"))
            self.same(ruzgalt.coalesce(one, "k", period="span"), ruzgalt.coalesce(left, "k"))
            self.same(ruzgalt.gaps(one, "k", period="span"), ruzgalt.gaps(left, "k"))
            self.same(ruzgalt.overlaps(one, "k", period="span"), ruzgalt.overlaps(left, "k"))

    def test_one_side_may_have_two_columns(self):
        for left, right in self.both:
            wanted = ruzgalt.join(left, right, on="k")
            self.same(ruzgalt.join(spanned(left), right, on="k", period="span", right_period=("from", "to")), wanted)
            got = ruzgalt.join(left, spanned(right), on="k", period=("from", "to"), right_period="span")
            pd.testing.assert_frame_equal(got, wanted)

    def test_a_level_of_the_index_is_a_period_too(self):
        left, right = (one.rename(columns={"x": name}) for one, name in zip(self.both[0], "xy"))
        one, other = (spanned(side).set_index("span") for side in (left, right))
        self.assertIsInstance(one.index, pd.IntervalIndex)
        self.same(ruzgalt.join(one, other, on="k", period="span"), ruzgalt.join(left, right, on="k"))
        self.same(ruzgalt.agg(one, "count", by="k", period="span"), ruzgalt.agg(left, "count", by="k"))
        wanted = spanned(ruzgalt.anti(left, right, on="k"))
        got = ruzgalt.anti(one, other, on="k", period="span")
        pd.testing.assert_frame_equal(got, wanted.set_index("span"))
        got = ruzgalt.anti(one.set_index("k", append=True), other, on="k", period="span")
        pd.testing.assert_frame_equal(got, wanted.set_index(["span", "k"]))
        self.assertEqual(ruzgalt.dip(one, period="span").count, ruzgalt.dip(left).count)

    def test_a_store_has_intervals(self):
        left, right = self.both[0]
        pairs, spans = ruzgalt.Store(), ruzgalt.Store()
        for store, words in ((pairs, {}), (spans, {"period": "span"})):
            for name, one in (("l", left), ("r", right)):
                store.table(name, spanned(one) if words else one, **words)
            store.update("l", "2024-01-08T08:00:00", "2024-01-12", {"x": 77}, {"k": 1})
            store.update_rows("l", (spanned if words else lambda one: one)(left.iloc[:1, [0, 1, 2, 3]]), where="k")
        self.assertEqual(spans.script(), pairs.script())
        for asked in (
            lambda one: one.rows("l"), lambda one: one.between("l", 1, 5), lambda one: one.join("l", "r", "k"),
            lambda one: one.anti("l", "r", "k"), lambda one: one.agg("l", "max", "x", by="k"),
        ):
            self.same(asked(spans), asked(pairs))
        again = ruzgalt.Store.from_script(spans.script(), options={"l": {"period": "span"}})
        pd.testing.assert_frame_equal(again.rows("l"), spans.rows("l"))

    def refuses(self, name, word, call):
        with self.assertRaises(ruzgalt.Refused) as caught:
            call()
        self.assertEqual(caught.exception.name, name)
        self.assertIn(word, str(caught.exception))
        return caught.exception

    def test_others_are_refused_with_the_remedy(self):
        left = self.both[0][0]
        one = spanned(left)
        for closed, words in (("right", ("on the right", "set_closed('left')")), ("neither", ("on no side",)),
                              ("both", ("on both sides", "last_day=True", ".array.left"))):
            other = one.assign(span=one["span"].array.set_closed(closed))
            for word in words:
                said = self.refuses("WrongKind", word, lambda: ruzgalt.agg(other, "count", period="span"))
                self.assertEqual(said.column, "span")
        got = ruzgalt.agg(one.assign(span=other["span"].array.set_closed("left")), "count", period="span")
        self.assertEqual(len(got), len(ruzgalt.agg(left, "count")))
        numbers = one.assign(span=pd.arrays.IntervalArray.from_breaks(range(len(one) + 1), **CLOSED))
        missing = one.assign(span=one["span"].where(one.index != "c"))
        for name, word, other in (
            ("WrongKind", "int64", numbers), ("WrongKind", "object: a period of one column", one.astype(object)),
            ("WrongKind", "'from', 'to'", one.assign(span=left["from"])),
            ("BadPoint", ".dropna(subset=['span'])", missing),
            ("NoColumn", "'span'", left), ("NoColumn", "several columns", pd.concat([one, one[["span"]]], axis=1)),
        ):
            for call in (lambda: ruzgalt.agg(other, "count", period="span"), lambda: ruzgalt.dip(other, period="span"),
                         lambda: ruzgalt.Store().table("t", other, period="span")):
                self.refuses(name, word, call)
        self.assertEqual(self.refuses("BadPoint", "'c'", lambda: ruzgalt.dip(missing, period="span")).label, "c")
        for option in ("open_end", "last_day"):
            said = {option: True}
            self.refuses("BadCommand", option, lambda: ruzgalt.join(one, one, on="k", period="span", **said))
        empty = one.assign(span=pd.arrays.IntervalArray.from_arrays(left["from"], left["from"], **CLOSED))
        self.refuses("BadPeriod", "it starts at 2024", lambda: ruzgalt.dip(empty, period="span"))


@unittest.skipUnless(importlib.util.find_spec("dask"), "Dask isn't here: apt-get install python3-dask")
class OfDask(unittest.TestCase):
    def test_intervals_are_refused(self):
        import dask
        import dask.dataframe as dd
        one, two = spanned(frame(1)), frame(1)
        with dask.config.set({"dataframe.convert-string": False}):
            spread, other = (dd.from_pandas(frame, npartitions=3, sort=False) for frame in (one, two))
        for asked in (lambda: ruzgalt.agg(spread, "count", by="k", period="span"),
                      lambda: ruzgalt.at(spread, "2024-01-01", period="span"),
                      lambda: ruzgalt.join(other, one, on="k", right_period="span")):
            with self.assertRaisesRegex(ruzgalt.Refused, "array.left"):
                asked()


if __name__ == "__main__":
    unittest.main()
