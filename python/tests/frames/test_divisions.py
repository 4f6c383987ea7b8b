"""Divisions and verdicts as objects: their attributes, in the frame's own kinds, and their texts."""
import copy
import datetime
import pickle
import unittest
import warnings

import numpy as np
import pandas as pd

import ruzgalt

FIRST = pd.to_datetime(["2024-01-01", "2024-02-01"])
LAST = pd.to_datetime(["2024-03-01", "2024-04-01"])


def frame(start, end):
    return pd.DataFrame({"from": start, "to": end}, index=["x", "y"])


def objects(points):
    return pd.Series(list(points), index=["x", "y"], dtype=object)


class Divisions(unittest.TestCase):
    def test_the_instant_is_as_the_starts_are(self):
        months = FIRST.to_period("M")
        for start, end in (
            (FIRST, LAST), (FIRST.tz_localize("Europe/Berlin"), LAST.tz_localize("Europe/Berlin")),
            (FIRST.to_period("D"), LAST.to_period("D")), (FIRST.to_period("s"), LAST.to_period("s")),
            (months, months + 1), (objects(FIRST.date), objects(LAST.date)),
            (objects(FIRST.to_pydatetime()), objects(LAST.to_pydatetime())),
        ):
            with self.subTest(dtype=start.dtype):
                found = frame(start, end)
                division = ruzgalt.dip(found)
                wanted = found["from"].iloc[1]
                self.assertEqual((division.count, division.instant, type(division.instant)), (2, wanted, type(wanted)))

    def test_a_store_has_it_in_its_table_s_kind(self):
        days = objects([datetime.date(2024, 1, 1), datetime.date(2024, 1, 1)])
        store = ruzgalt.Store()
        store.table("t", frame(days, objects([datetime.date(2024, 3, 1), datetime.date(2024, 3, 2)])).assign(k=[1, 2]))
        self.assertIs(type(store.dip("t").instant), datetime.date)
        store.update("t", "2024-01-10T08:00:00", "2024-01-11", {"k": 2}, {"k": 1})
        self.assertEqual(repr(store.dip("t").instant), "datetime.datetime(2024, 1, 1, 0, 0)")

    def test_of_no_rows_there_is_none(self):
        for division in (ruzgalt.dip(frame(FIRST, LAST).iloc[:0]),):
            self.assertEqual((division.count, division.instant, len(division.parts)), (0, None, 0))
            self.assertEqual(repr(division), "0 parts of 0 rows")

    def test_its_parts_have_the_index_of_the_frame(self):
        found = frame(FIRST, LAST)
        division = ruzgalt.dip(found)
        self.assertEqual(repr(division), "2 parts of 2 rows, as many as hold at 2024-02-01 00:00:00")
        self.assertIsInstance(division.parts, pd.Series)
        whole = found.iloc[::-1].assign(part=division.parts)
        self.assertEqual((whole["part"].dtype, whole["part"].to_dict()), (np.int64, {"x": 0, "y": 1}))
        for other in (copy.copy(division), copy.deepcopy(division), pickle.loads(pickle.dumps(division))):
            self.assertEqual((other.parts.tolist(), other.count, other.instant), ([0, 1], 2, FIRST[1]))

    def test_it_is_no_series(self):
        """Some calls of pandas and numpy take any object for a single value, and would answer without an error."""
        found = frame(FIRST, LAST).assign(x=[1, 2], text=["a", "b"], small=pd.array([1, 2], "Int8"))
        division = ruzgalt.dip(found)
        uses = [
            lambda: found.assign(part=division), lambda: found.__setitem__("part", division),
            lambda: found.loc.__setitem__((slice(None), "part"), division), lambda: found.insert(0, "part", division),
            lambda: pd.Series(division), lambda: pd.DataFrame({"part": division}), lambda: pd.Index(division),
            lambda: np.asarray(division), lambda: np.array([division, division]), lambda: np.unique(division),
            lambda: np.where(division, "x", "y"), lambda: np.add(division, 1), lambda: np.equal(division, 0),
            lambda: division == 0, lambda: 0 != division, lambda: division < 1, lambda: division + 1,
            lambda: 1 - division, lambda: ~division, lambda: division & True, lambda: not division,
            *(lambda name=name: found[name] == division for name in found),
            *(lambda name=name: found[name].isin(division) for name in found),
            lambda: found["x"].to_numpy() == division, lambda: found["x"].to_numpy() + division,
            lambda: found["x"] + division, lambda: found[division], lambda: found.loc[division],
            lambda: found["x"].where(division), lambda: found.join(division), lambda: list(division),
            lambda: len(division), lambda: 0 in division, lambda: division[0], lambda: dict(enumerate(division)),
            lambda: sum(division), lambda: max(division), lambda: np.array_equal(division, found["x"]),
            lambda: np.allclose(found["x"], division), lambda: np.isin(found["x"], division),
        ]
        for place, use in enumerate(uses):
            with self.subTest(place), self.assertRaisesRegex(ruzgalt.Refused, "division.parts"):
                use()
        for name in ("tolist", "iloc", "index", "part", "values", "merge", "sum"):
            with self.subTest(name), self.assertRaisesRegex(AttributeError, "division.parts"):
                getattr(division, name)
        # pandas itself refuses a division as a key.
        self.assertRaises(KeyError, lambda: found.set_index(division))
        # pandas 2.2 reads it like a list of names.
        self.assertRaises((TypeError, ruzgalt.Refused), lambda: found.groupby(division).sum())
        self.assertFalse(pd.api.types.is_dict_like(division))

    def test_that_of_a_store_is_a_frame_and_is_checked_as_it_is(self):
        store = ruzgalt.Store()
        store.table("t", frame(FIRST, LAST))
        division = store.dip("t")
        self.assertEqual(list(division.parts), ["part", "row_id"])
        self.assertEqual(division.parts["row_id"].tolist(), [1, 2])
        self.assertRaisesRegex(ruzgalt.Refused, "division.parts", lambda: division["row_id"])


class Checks(unittest.TestCase):
    def setUp(self):
        self.frame = pd.concat([frame(FIRST, LAST), frame(FIRST, LAST).set_axis(["u", "v"])]).assign(bed=[1, 2, 3, 1])

    def test_an_overlap_has_its_rows_their_part_and_the_time_that_they_share(self):
        checked = ruzgalt.check(self.frame, part="bed")
        self.assertEqual((bool(checked), checked.rows, checked.part), (False, ("x", "v"), 1))
        whole = ruzgalt.check(self.frame.assign(ward=True), part=["bed", "ward"])
        self.assertEqual(list(map(type, (checked.part, checked.count, *whole.part))), [int, int, int, bool])
        self.assertEqual((checked.start, checked.end), (FIRST[1], LAST[0]))
        self.assertEqual((checked.count, checked.least), (3, 4))
        said = "No: rows 'x' and 'v' of part 1 both hold from 2024-02-01 to 2024-03-01."
        self.assertEqual(repr(checked), said)

    def test_parts_may_be_several_columns_and_more_than_are_needed(self):
        wards = self.frame.assign(ward=["A", "A", "A", "B"], bed=["1", "2", "3", "1"])
        checked = ruzgalt.check(wards, part=["ward", "bed"])
        self.assertTrue(checked)
        self.assertEqual((checked.count, checked.least, checked.rows), (4, 4, ()))
        apart = frame(FIRST, FIRST + pd.Timedelta(days=3)).assign(bed=["1", "2"])
        self.assertIn("The rows have 2 parts, and 1 is enough", repr(ruzgalt.check(apart, part="bed")))
        self.assertTrue(ruzgalt.check(wards.iloc[:0], part="bed"))

    def test_it_agrees_with_pairs_that_overlap(self):
        random = np.random.default_rng(5)
        for _ in range(30):
            start = pd.Timestamp("2024-01-10") + pd.to_timedelta(random.integers(0, 9, 5), unit="D")
            rows = pd.DataFrame({"from": start, "to": start + pd.to_timedelta(random.integers(1, 4, 5), unit="D")})
            rows["bed"] = random.integers(0, 3, 5)
            with warnings.catch_warnings():
                warnings.simplefilter("ignore", ruzgalt.Doubt)
                self.assertEqual(bool(ruzgalt.check(rows, "bed")), not len(ruzgalt.overlaps(rows, "bed")))

    def test_wrong_parts_are_refused(self):
        missing = self.frame.assign(bed=pd.array([1, pd.NA, 2, 3], "Int64"))
        for given, part in ((self.frame, None), (self.frame, "room"), (missing, "bed"), (self.frame["bed"], "bed")):
            with self.assertRaises(ruzgalt.Refused):
                ruzgalt.check(given, part=part)


if __name__ == "__main__":
    unittest.main()
