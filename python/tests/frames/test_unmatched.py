"""Joins with unmatched rows: dtypes and cells as pandas.merge has them, where all rows hold for one time."""
import datetime
import unittest

import pandas as pd

import ruzgalt
from refusing import refused

HOWS = ("inner", "left", "right", "outer")
DAYS = pd.to_datetime(["2024-01-01", "2024-02-01"])
CELLS = {
    "i8": pd.Series([1, 2, 3], dtype="int8"), "i64": pd.Series([1, 2**62, -2**53], dtype="int64"),
    "u64": pd.Series([1, 2, 2**63], dtype="uint64"), "Int64": pd.Series([1, None, 2**63 - 1], dtype="Int64"),
    "bool": pd.Series([True, False, True]), "boolean": pd.Series([True, None, False], dtype="boolean"),
    "float32": pd.Series([1.5, float("nan"), 0.5], dtype="float32"), "str": pd.Series(["a", "", None], dtype=object),
    "string": pd.Series(["a", "b", None], dtype="string"), "category": pd.Series(["a", "b", None], dtype="category"),
    "whole": pd.Series([3, 1, 3], dtype="category"),
    "ns": pd.Series(pd.to_datetime(["2024-01-05", None, "2025-01-01"])),
    "zone": pd.Series(pd.to_datetime(["2024-01-05", None, "2025-01-01"])).dt.tz_localize("Europe/Berlin"),
    "day": pd.Series(pd.PeriodIndex(["2024-01-05", None, "2024-02-01"], freq="D")),
    "date": pd.Series([datetime.date(2024, 1, 5), None, (1, 2)], dtype=object),
    "span": pd.Series(pd.interval_range(0, 3)), "long": pd.Series([pd.Timedelta(days=1)] * 3),
}
KEYS = [
    (pd.Series([1, 2, 3], dtype=one), pd.Series([3, 4, 1], dtype=other))
    for one, other in (("int64", "int64"), ("int64", "int32"), ("Int64", "int8"), ("uint8", "int16"))
] + [
    (pd.Series(list("abc"), dtype=one), pd.Series(list("cda"), dtype=other))
    for one, other in ((object, object), ("string", "string"), (object, "category"), ("category", "category"))
] + [tuple(pd.Series(list(cells), dtype=pd.CategoricalDtype(list("abcd"))) for cells in ("abc", "cda"))]


def frame(cells):
    return pd.DataFrame(cells).assign(**{"from": DAYS[0], "to": DAYS[1]})


def merged(left, right, how, **words):
    """The join by pandas.merge, sorted by the rows' indices; missing indices are last."""
    own = [one.drop(columns=["from", "to"]).assign(**{f"_{side}": range(3)}) for side, one in zip("lr", (left, right))]
    made = own[0].merge(own[1], how=how, suffixes=("_left", "_right"), **words)
    return made.sort_values(["_l", "_r"]).drop(columns=["_l", "_r"]).reset_index(drop=True)


class Unmatched(unittest.TestCase):
    def is_as_merged(self, left, right, **words):
        for how in HOWS:
            with self.subTest(how=how, **words):
                got = ruzgalt.join(left, right, how=how, **words)
                self.assertEqual(set(zip(got["from"], got["to"])), {tuple(DAYS)})
                pd.testing.assert_frame_equal(got.drop(columns=["from", "to"]), merged(left, right, how, **words))

    def test_cells_and_dtypes_are_as_of_merge(self):
        left, right = frame({"k": [1, 2, 3], **CELLS}), frame({"k": [3, 1, 5], **CELLS})
        self.is_as_merged(left, right, on="k")
        self.is_as_merged(left, right.rename(columns={"k": "w"}), left_on="k", right_on="w")
        self.is_as_merged(left, right.assign(k=[3, 2, 1]), on="k")
        self.is_as_merged(left, right, left_on="k", right_on="k")
        self.is_as_merged(left.assign(u=1), right.assign(w=1), left_on=["u", "k"], right_on=["w", "k"])

    def test_shared_columns_are_as_of_merge(self):
        """Where each row of the answer has a left one, in the left frame's dtype."""
        for one, other in KEYS:
            left, right = frame({"q": 1, "x": [7, 8, 9], "k": one}), frame({"k": other, "q": 1})
            for how in ("left", "right", "outer"):
                with self.subTest(dtypes=(one.dtype, other.dtype), how=how):
                    got = ruzgalt.join(left, right, on=["q", "k"], how=how)
                    wanted = merged(left, right, how, on=["q", "k"])
                    wanted = wanted.astype({"k": one.dtype}) if how == "left" else wanted
                    pd.testing.assert_frame_equal(got.drop(columns=["from", "to"]), wanted)

    def test_true_among_numbers_stays_true(self):
        bools, numbers = frame({"k": [True, False]}), frame({"k": [1, 2]})
        for left, right, wanted in ((bools, numbers, [True, False, 2]), (numbers, bools, [1, 2, False])):
            with self.subTest(wanted):
                got = ruzgalt.join(left, right, on="k", how="outer")["k"]
                self.assertEqual((got.dtype, list(map(repr, got))), (object, list(map(repr, wanted))))

    def test_bools_of_both_dtypes_are_boolean(self):
        for one, other in (("bool", "boolean"), ("boolean", "bool")):
            left = frame({"k": pd.Series([True], dtype=one)})
            right = frame({"k": pd.Series([False], dtype=other)})
            with self.subTest(dtypes=(one, other)):
                got = ruzgalt.join(left, right, on="k", how="outer")["k"]
                wanted = pd.Series([True, False], dtype="boolean", name="k")
                pd.testing.assert_series_equal(got, wanted)

    def test_floats_of_two_dtypes_have_no_common_column(self):
        narrow, wide = frame({"k": pd.Series([0.1, 0.2, 0.4], dtype="float32")}), frame({"k": [0.1, 0.3, 0.4]})
        words = {"on": "k", "decimals": {"k": 1}}
        self.assertEqual(ruzgalt.join(narrow, wide, **words)["k"].dtype, "float32")
        for how in ("right", "outer"):
            with self.subTest(how), self.assertRaisesRegex(ruzgalt.Refused, r"float32.*float64.*\.round\(1\)"):
                ruzgalt.join(narrow, wide, how=how, **words)
        narrow["k"] = narrow["k"].astype("float64").round(1)
        self.assertEqual(ruzgalt.join(narrow, wide, how="outer", **words)["k"].tolist(), [0.1, 0.2, 0.4, 0.3])

    def test_objects_without_rows_meet_nothing_of_any_kind(self):
        """They are what pandas.DataFrame(columns=..) has."""
        none = pd.DataFrame(columns=["from", "to", "k"])
        for cells in ([1, 2], ["a", "b"], pd.Series([True, False], dtype="boolean")):
            rows = frame({"k": cells})
            rows = rows[["from", "to", "k"]]
            with self.subTest(dtype=rows["k"].dtype):
                counts = [len(ruzgalt.join(rows, none, on="k", how=how)) for how in HOWS]
                self.assertEqual(counts, [0, 2, 0, 2])
                for how in ("right", "outer"):
                    got = ruzgalt.join(none, rows, on="k", how=how)
                    pd.testing.assert_frame_equal(got, rows)
                pd.testing.assert_frame_equal(ruzgalt.anti(rows, none, on="k"), rows)
                self.assertEqual(len(ruzgalt.anti(none, rows, on="k")), 0)
        known = none.astype({"k": "string"})
        with self.assertRaises(ruzgalt.Refused):
            ruzgalt.join(frame({"k": [1]}), known, on="k")

    def test_a_number_that_a_float_does_not_hold_is_refused(self):
        left = frame({"k": [1, 2, 3], "x": [2**53, 2**53 + 1, 2**62]})
        for how, keys, wanted in (("left", [2, 9], [2**53, 2**53 + 1, 2**62]), ("right", [2], [2**53 + 1])):
            self.assertEqual(ruzgalt.join(left, frame({"k": keys}), on="k", how=how)["x"].tolist(), wanted)
        for how, keys in (("right", [2, 9]), ("outer", [1, 9])):
            with self.subTest(how=how), refused(name="BadNumber", column="x", label=1):
                ruzgalt.join(left, frame({"k": keys}), on="k", how=how)
        got = ruzgalt.join(left.astype({"x": "Int64"}), frame({"k": [2, 9]}), on="k", how="right")
        self.assertEqual(got["x"].tolist(), [2**53 + 1, pd.NA])

    def test_intervals_whose_sides_a_float_does_not_hold_are_refused(self):
        for sides in (([5, 2**53 + 1], [6, 2**53 + 2]), ([5, 7], [6, 2**53 + 1])):
            spans = pd.arrays.IntervalArray.from_arrays(*sides)
            left, right = frame({"k": [1, 2], "x": spans}), frame({"k": [2, 9]})
            self.assertEqual(ruzgalt.join(left, right, on="k")["x"].tolist(), [spans[1]])
            with self.subTest(sides), refused(name="BadNumber", column="x", label=1):
                ruzgalt.join(left, right, on="k", how="outer")

    def test_a_compared_level_is_a_column(self):
        left, right = frame({"k": [1, 2]}).set_index("k"), frame({"k": [2, 3]}).set_index("k")
        self.assertEqual(ruzgalt.join(left, right, on="k", how="outer")["k"].tolist(), [1, 2, 3])


if __name__ == "__main__":
    unittest.main()
