"""Kinds of columns that people have: each is compared by its values, and comes back in its dtype."""
import datetime
import unittest

import numpy as np
import pandas as pd

import by_rows
import labels
import ruzgalt
from refusing import refused

DAY = datetime.timedelta(days=1)
BEGIN = datetime.datetime(2024, 1, 1)
# Start, end, and whether.
ROWS = [(0, 5, True), (2, 9, False), (4, 6, True), (7, 8, False)]


def frame(rows, cells, dtype=None, name="k"):
    """Rows whose first two are days, with a column of these cells."""
    start, end = (pd.to_datetime([BEGIN + DAY * row[place] for row in rows]) for place in (0, 1))
    return pd.DataFrame({"from": start, "to": end, name: pd.Series(cells, dtype=dtype)})


def found(got):
    days = [(got[name] - BEGIN).dt.days.tolist() for name in ("from", "to")]
    return list(zip(*days, got["left_label"], got["right_label"]))


class Bools(unittest.TestCase):
    DTYPES = ("bool", "boolean", "category")

    def of(self, dtype, rows=ROWS):
        return frame(rows, [row[2] for row in rows], dtype)

    def test_they_meet_their_equals_whatever_their_dtypes(self):
        for one in self.DTYPES:
            for other in self.DTYPES:
                with self.subTest((one, other)):
                    left, right = self.of(one), self.of(other, ROWS[::-1])
                    got = labels.join(left, right, on="k")
                    wanted = by_rows.joined(ROWS, ROWS[::-1])
                    self.assertEqual(found(got), wanted)
                    self.assertEqual(got["k"].dtype, left["k"].dtype)
                    self.assertEqual(got["k"].tolist(), [ROWS[row[2]][2] for row in wanted])

    def test_they_are_groups_and_are_counted(self):
        for dtype in self.DTYPES:
            with self.subTest(dtype):
                one = self.of(dtype)
                got = ruzgalt.agg(one, "count", by="k")
                self.assertEqual((got["k"].tolist(), got["count"].tolist()), ([False] * 3 + [True] * 3, [1, 2, 1] * 2))
                self.assertEqual(got["k"].dtype, one["k"].dtype)
                self.assertEqual(ruzgalt.agg(one, "sum", "k")["sum_k"].tolist(), [1, 2, 1, 0])
                least = ruzgalt.agg(one, "min", "k")["min_k"]
                self.assertEqual((least.tolist(), least.dtype), ([True, False], one["k"].dtype))

    def test_an_anti_join_is_of_equal_ones(self):
        got = ruzgalt.anti(self.of("bool"), self.of("boolean", [(0, 9, True)]), on="k")
        self.assertEqual((got.index.tolist(), got["k"].tolist(), got["k"].dtype), ([1, 3], [False, False], "bool"))

    def test_true_meets_1_as_in_python(self):
        got = ruzgalt.join(self.of("bool"), frame([(0, 9), (0, 9)], [1, 2]), on="k")
        self.assertEqual(got["k"].tolist(), [True, True])

    def test_a_store_keeps_them(self):
        for dtype in self.DTYPES:
            with self.subTest(dtype):
                made, one = ruzgalt.Store(), self.of(dtype)
                made.table("t", one)
                made.update("t", "2024-01-01", "2024-01-03", {"k": False}, {"k": True})
                got = made.rows("t")
                self.assertEqual(sorted(got["k"].tolist()), [False] * 3 + [True] * 2)
                self.assertEqual(got["k"].dtype, one["k"].dtype)
                for value in (1, "True", None, np.int64(0)):
                    with refused(name="WrongKind", column="k"):
                        made.update("t", "2024-01-01", None, {"k": value})
                made.load("t", frame([(0, 1)], [2]))
                self.assertEqual(sorted(map(int, made.rows("t")["k"].tolist())), [0, 0, 0, 1, 1, 2])

    def test_groups_of_a_category_are_in_its_order(self):
        """As groupby has them, of texts and of numbers, ordered or not; values of a store's changes come last."""
        for values, is_ordered in ((["S", "M", "L"], True), ([30, 4, 5], False)):
            dtype = pd.CategoricalDtype([*values, values[0] * 2], is_ordered)
            days = frame([(0, 5), (1, 3), (2, 9), (4, 6)], [*values[::-1], values[2]], dtype).assign(n=[1, 2, 3, 4])
            wanted = [k for k, sum in days.groupby("k", observed=False)["n"].sum().items() if sum]
            store = ruzgalt.Store()
            store.table("t", days)
            answers = [
                ruzgalt.agg(days, "count", by="k"), ruzgalt.coalesce(days, "k"),
                ruzgalt.gaps(days, "k", within=(BEGIN, BEGIN + 100 * DAY)),
                ruzgalt.spread(days, "n", amount="per day", by="k"),
                ruzgalt.dip(days, "k").count.index.to_frame(name="k"), store.agg("t", "count", by="k"),
                store.agg("t", "sum", "n", by=["k"]), store.agg("t", {"n": ["sum", "max"]}, by="k"),
            ]
            for place, answer in enumerate(answers):
                with self.subTest(values, place=place):
                    self.assertEqual(answer["k"].drop_duplicates().tolist(), wanted)
                    self.assertEqual(answer["k"].dtype, dtype)
            store.update("t", BEGIN, None, {"k": values[0] * 7}, {"k": values[0]})
            self.assertEqual(store.agg("t", "count", by="k")["k"].unique().tolist(), [*values[1:], values[0] * 7])

    def test_missing_cells_are_refused_only_in_compared_columns(self):
        cells = [True, None, True, False]
        for dtype in ("boolean", "category", object):
            with self.subTest(dtype), refused(column="k", label=0 if dtype is object else 1):
                ruzgalt.join(frame(ROWS, cells, dtype), self.of("bool"), on="k")

    def test_objects_of_them_have_a_remedy(self):
        with refused("True isn't a text; .astype('boolean')"):
            ruzgalt.agg(self.of(object), "count", by="k")


class NotCompared(unittest.TestCase):
    def test_columns_with_na_come_along_by_place(self):
        columns = [
            ([1, pd.NA, 2**62, 3], "Int64"), (["a", pd.NA, "", "b"], "string"), ([True, pd.NA, False, True], "boolean"),
            ([1.5, pd.NA, 0.1, 2], "Float64"), (["a", None, "b", "a"], "category"),
            (pd.to_datetime([BEGIN, None, BEGIN, BEGIN]), None), (pd.to_timedelta([1, None, 2, 3]), None),
        ]
        rows = [(*row[:2], 1) for row in ROWS]
        wanted = by_rows.joined(rows, rows)
        for cells, dtype in columns:
            one = frame(ROWS, cells, dtype, "other").assign(k=1)
            with self.subTest(dtype):
                got = labels.join(one, frame(rows, [1] * 4), on="k")
                self.assertEqual(found(got), wanted)
                given = one["other"].take([row[2] for row in wanted]).reset_index(drop=True)
                pd.testing.assert_series_equal(got["other"], given)
                left = ruzgalt.anti(one, frame([(4, 6)], [1]), on="k")
                pd.testing.assert_series_equal(left["other"], one["other"].take([0, 1, 1, 3]))


class Odd(unittest.TestCase):
    def test_sparse_columns_and_such_that_are_named_nan_are_refused(self):
        one = frame(ROWS, [3, 0, 3, 1], "Sparse[uint8]")
        for other, name, remedy in ((one, "WrongKind", "to_dense"),
                                    (one.rename(columns={"k": float("nan")}), "WrongKind", "to_dense"),
                                    (frame(ROWS, [1] * 4).rename(columns={"k": float("nan")}), "BadName", "rename")):
            for asked in (lambda: ruzgalt.agg(other, "count"), lambda: ruzgalt.Store().table("t", other),
                          lambda: ruzgalt.join(other, other, on=[])):
                with refused(remedy, name=name):
                    asked()


class Intervals(unittest.TestCase):
    def test_they_are_taken_by_their_sides(self):
        wanted = frame(ROWS, [row[2] for row in ROWS])
        spans = pd.IntervalIndex.from_arrays(wanted["from"], wanted["to"], closed="left")
        for given in (spans, pd.IntervalIndex(pd.DataFrame({"span": spans})["span"])):
            one = wanted[["k"]].assign(**{"from": given.left, "to": given.right})
            pd.testing.assert_frame_equal(ruzgalt.agg(one, "count", by="k"), ruzgalt.agg(wanted, "count", by="k"))


@unittest.skipUnless(pd.Series(np.zeros(1, "M8[s]")).dtype == "M8[s]", "pandas before 2 has no other unit than ns")
class Units(unittest.TestCase):
    UNITS = ("ns", "us", "ms", "s")

    def of(self, rows, unit):
        made = frame(rows, [row[2] for row in rows])
        return made.astype({"from": f"M8[{unit}]", "to": f"M8[{unit}]"})

    def test_points_come_back_in_their_unit_or_in_the_coarser_one(self):
        for place, one in enumerate(self.UNITS):
            for other in self.UNITS[place:]:
                with self.subTest((one, other)):
                    left, right = self.of(ROWS, one), self.of(ROWS[::-1], other)
                    for pair in ((left, right), (right, left)):
                        got = labels.join(*pair, on="k")
                        step = 1 if pair[0] is left else -1
                        wanted = by_rows.joined(ROWS[::step], ROWS[::-step])
                        self.assertEqual(found(got), wanted)
                        self.assertEqual({str(got[name].dtype) for name in ("from", "to")}, {f"datetime64[{other}]"})

    def test_each_holds_all_years_but_ns(self):
        for unit in self.UNITS[1:]:
            cells = np.array(["0001-01-01", "9999-12-31T23:59:59"], f"M8[{unit}]")
            one = pd.DataFrame({"from": cells[:1], "to": cells[1:]})
            with self.subTest(unit):
                pd.testing.assert_frame_equal(ruzgalt.agg(one, "count")[["from", "to"]], one)
                first = one.assign(to=one["from"] + np.timedelta64(1, "s"))
                got = ruzgalt.anti(one, first, on=[])
                self.assertEqual((got["from"].dtype, str(got["from"][0])), (one["from"].dtype, "0001-01-01 00:00:01"))

    def test_a_fraction_of_a_second_is_refused_and_a_missing_end_comes_back(self):
        for unit in self.UNITS[:3]:
            one = pd.DataFrame({"from": np.array(["2024-01-01"] * 2, f"M8[{unit}]"),
                                "to": np.array(["2024-01-02", "2024-01-02T00:00:00.001"], f"M8[{unit}]")})
            with self.subTest(unit), refused(column="to", label=1):
                ruzgalt.dip(one)
            endless = one.assign(to=np.array(["2024-01-02", "NaT"], f"M8[{unit}]"))
            got = ruzgalt.agg(endless, "count", open_end=True)
            self.assertEqual((str(got["to"].dtype), got["to"].isna().tolist()), (f"datetime64[{unit}]", [False, True]))


if __name__ == "__main__":
    unittest.main()
