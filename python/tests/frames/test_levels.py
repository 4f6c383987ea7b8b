"""Levels of an index in on= and by=, as pandas.merge and groupby take them."""
import importlib.util
import unittest
import warnings

import pandas as pd

import labels
import ruzgalt
from refusing import refused

DAYS = pd.to_datetime
LEFT = pd.DataFrame({
    "from": DAYS(["2024-01-01", "2024-01-03", "2024-01-05"]), "to": DAYS(["2024-01-10", "2024-01-04", "2024-01-20"]),
    "k": ["a", "b", "a"], "n": [1, 2, 1], "x": [7, 8, 9],
})
RIGHT = pd.DataFrame({
    "from": DAYS(["2024-01-02", "2024-01-06"]), "to": DAYS(["2024-01-08", "2024-01-30"]), "k": ["a", "a"], "n": [1, 1],
    "y": [5, 6],
})


def in_index(frame, *names):
    return frame.set_index(list(names))


class Levels(unittest.TestCase):
    def is_same(self, got, wanted):
        """Tests that both are equal, except for the order of columns."""
        self.assertEqual(sorted(got), sorted(wanted))
        pd.testing.assert_frame_equal(got[list(wanted)], wanted)

    def test_a_level_is_compared_as_its_column_would_be(self):
        for names in (["k"], ["k", "n"], ["n"]):
            wanted = ruzgalt.join(LEFT, RIGHT, on=["k", "n"])
            for left, right in ((in_index(LEFT, *names), RIGHT), (LEFT, in_index(RIGHT, *names)),
                                (in_index(LEFT, *names), in_index(RIGHT, *names))):
                with self.subTest(names):
                    before = left.copy(), right.copy()
                    self.is_same(ruzgalt.join(left, right, on=["k", "n"]), wanted)
                    for one, copy in zip((left, right), before):
                        pd.testing.assert_frame_equal(one, copy)

    def test_each_side_may_have_its_own(self):
        right = in_index(RIGHT.rename(columns={"k": "who"}), "who")
        got = labels.join(in_index(LEFT, "k"), right, left_on="k", right_on="who")
        wanted = ruzgalt.join(LEFT, right.reset_index(), left_on="k", right_on="who")
        self.assertEqual(got[["k", "who"]].values.tolist(), wanted[["k", "who"]].values.tolist())
        self.assertEqual(got["left_label"].tolist(), got["k"].tolist())

    def test_an_anti_join_keeps_the_index(self):
        left = in_index(LEFT, "k", "n")
        got = ruzgalt.anti(left, in_index(RIGHT, "k"), on="k")
        self.assertEqual((got.index.names, got.index.tolist()), (["k", "n"], [("a", 1), ("b", 2)]))
        self.assertEqual(list(got.columns), ["from", "to", "x"])
        wanted = ruzgalt.anti(LEFT, RIGHT, on="k")
        pd.testing.assert_frame_equal(got.reset_index(drop=True), wanted[["from", "to", "x"]].reset_index(drop=True))

    def test_groups(self):
        for by in ("k", ["k", "n"], ["n", "k"]):
            wanted = ruzgalt.agg(LEFT, "sum", "x", by=by)
            for names in (["k"], ["n", "k"]):
                pd.testing.assert_frame_equal(ruzgalt.agg(in_index(LEFT, *names), "sum", "x", by=by), wanted)

    def test_a_name_of_a_column_and_a_level_is_refused_as_by_pandas(self):
        both = LEFT.set_index("k", drop=False)
        self.assertRaises(ValueError, lambda: both.merge(RIGHT, on="k"))
        twice = LEFT.set_index([LEFT["k"], LEFT["n"].rename("k")]).drop(columns="k")
        asks = [
            lambda: ruzgalt.join(both, RIGHT, on="k"), lambda: ruzgalt.anti(RIGHT, both, on="k"),
            lambda: ruzgalt.agg(both, "count", by="k"), lambda: ruzgalt.agg(twice, "count", by="k"),
        ]
        for asked in asks:
            with refused(name="NoColumn", column="k"):
                asked()
        # Where it isn't compared, it is a column.
        self.assertEqual(len(ruzgalt.join(both, RIGHT, on="n")), 4)

    def test_labels_of_several_levels(self):
        left = in_index(LEFT, "k", "n")
        self.assertEqual(ruzgalt.anti(left, LEFT[:1], on=[]).index.tolist(), [("a", 1)])
        with refused(label=("a", 1)):
            ruzgalt.dip(left.assign(to=pd.NaT))

    def test_an_index_without_a_name_is_none(self):
        for name in (None, "z"):
            with refused(name="NoColumn"):
                ruzgalt.join(LEFT, RIGHT, on=[name])

    @unittest.skipUnless(importlib.util.find_spec("dask"), "Dask isn't here: apt-get install python3-dask")
    def test_frames_of_dask(self):
        import dask
        import dask.dataframe as dd
        with dask.config.set({"dataframe.convert-string": False}):
            left, right = (dd.from_pandas(in_index(one, "k").sort_index(), npartitions=2) for one in (LEFT, RIGHT))
        words = {"on": ["k", "n"]}
        got, wanted = ruzgalt.join(left, right, **words).compute(), ruzgalt.join(LEFT, RIGHT, **words)
        self.is_same(got.sort_values(["from", "to", "x"]).reset_index(drop=True), wanted[list(got)])
        got = ruzgalt.anti(left, right, **words).compute()
        self.assertEqual((got.index.name, sorted(got.index)), ("k", ["a", "b"]))
        got = ruzgalt.agg(left, "sum", "x", by="k").compute().sort_values(["k", "from"]).reset_index(drop=True)
        pd.testing.assert_frame_equal(got, ruzgalt.agg(LEFT, "sum", "x", by="k"))
        left = dd.from_pandas(in_index(LEFT.assign(n=[1.5, 2.5, 1.5]), "n").sort_index(), npartitions=2)
        with warnings.catch_warnings():
            warnings.simplefilter("error", ruzgalt.Doubt)
            self.assertEqual(len(ruzgalt.join(left, left, on="n", decimals={"n": 1}).compute()), 5)
            self.assertEqual(len(ruzgalt.agg(left, "count", by="n", decimals={"n": 1}).compute()), 4)
            self.assertEqual(len(ruzgalt.coalesce(left, by="n", decimals={"n": 1}).compute()), 2)


if __name__ == "__main__":
    unittest.main()
