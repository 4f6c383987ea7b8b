"""Joins of a store's tables with unmatched rows, compared with joins of frames."""
import decimal
import unittest

import pandas as pd

import labels
import ruzgalt

DAY = pd.to_datetime
HOWS = ("inner", "left", "right", "outer")


def frame(starts, ends, **cells):
    return pd.DataFrame({"from": DAY(starts), "to": DAY(ends), **cells})


LEFT = frame(["2024-01-01", "2024-02-01", "2024-01-01"], ["2024-03-01", "2024-06-01", "2024-02-01"], k=["a", "b", "c"],
             n=[1, 2, 2**53 + 2], note=["x", None, "z"], price=[1.25, 2.5, 3.0], q=pd.array([1, None, 3], "Int64"))
RIGHT = frame(["2024-02-01", "2024-05-01", "2024-01-01"], ["2024-04-01", None, "2024-01-02"], k=["a", "b", "d"],
              n=[7, 2, 9], euros=pd.Series(["1.5", "2.5", "3.0"], dtype=object).map(decimal.Decimal))
OPTIONS = {"decimals": {"price": 2}, "missing": {"note": "none", "q": -1}}


def store():
    made = ruzgalt.Store()
    made.table("l", LEFT, **OPTIONS)
    made.table("r", RIGHT, open_end=True, decimals={"euros": 1})
    return made


class Joins(unittest.TestCase):
    def is_as_of_frames(self, made, frames, words, **options):
        """Tests that a store's join equals the join of the frames; the ids of their rows begin at 1."""
        for how in HOWS:
            with self.subTest(how=how, **words):
                got = made.join("l", "r", how=how, **words)
                wanted = labels.join(*frames, how=how, **words, **options)
                ids = {"left_label": "left_id", "right_label": "right_id"}
                wanted[list(ids)] = (wanted[list(ids)] + 1).astype("int64" if how == "inner" else "Int64")
                pd.testing.assert_frame_equal(got, wanted.rename(columns=ids), check_column_type=False)

    def test_they_are_as_of_frames(self):
        made, frames = store(), [LEFT, RIGHT]
        for words in ({"on": "k"}, {"left_on": "k", "right_on": "k"}, {"on": []}, {"left_on": "n", "right_on": "n",
                                                                                   "suffixes": ("", "_2")}):
            self.is_as_of_frames(made, frames, words, open_end="right")

    def test_of_last_days_and_intervals(self):
        days = [one.assign(to=one["to"] - pd.Timedelta(days=1)) for one in (LEFT, RIGHT)]
        made = ruzgalt.Store()
        made.table("l", days[0], last_day=True, **OPTIONS)
        made.table("r", RIGHT[:1], decimals={"euros": 1})
        self.is_as_of_frames(made, [days[0], RIGHT[:1]], {"on": "k"}, last_day="left")
        spans = pd.arrays.IntervalArray.from_arrays(LEFT["from"], LEFT["to"], closed="left")
        left = LEFT.drop(columns=["from", "to"]).assign(span=spans)
        made = ruzgalt.Store()
        made.table("l", left, period="span", **OPTIONS)
        made.table("r", RIGHT[:1], decimals={"euros": 1})
        self.is_as_of_frames(made, [left, RIGHT[:1]], {"on": "k"}, left_period="span", right_period=("from", "to"))
        made.table("open", RIGHT, open_end=True, decimals={"euros": 1})
        with self.assertRaises(ruzgalt.Refused):
            made.join("l", "open", on="k", how="right")

    def test_of_a_commit_and_of_tables_without_rows_or_columns(self):
        made = store()
        before = made.join("l", "r", on="k", how="outer")
        made.delete("r", "2024-01-01", None, {"k": "a"}, label="a is gone")
        made.table("time", LEFT[["from", "to"]])
        pd.testing.assert_frame_equal(made.join("l", "r", on="k", how="outer", as_of=4), before)
        self.assertEqual(len(made.join("l", "r", on="k", how="left", as_of="a is gone")), 4)
        got = made.join("time", "l", on=[], how="outer")
        self.assertEqual((list(got)[:5], got["left_id"].isna().sum()), (["from", "to", "left_id", "right_id", "k"], 0))
        self.assertEqual(made.join("l", "time", on=[], how="left", as_of=4)["right_id"].isna().tolist(), [True] * 3)

    def test_what_a_float_does_not_hold_is_refused_by_its_row(self):
        made = ruzgalt.Store()
        made.table("l", LEFT[["from", "to", "k", "n"]].assign(n=[1, 2**53 + 1, 3]))
        made.table("r", RIGHT[["from", "to", "k"]], open_end=True)
        self.assertEqual(made.join("l", "r", on="k", how="left")["n"].max(), 2**53 + 1)
        with self.assertRaises(ruzgalt.Refused) as caught:
            made.join("l", "r", on="k", how="outer")
        refused = caught.exception
        self.assertEqual((refused.name, refused.column, refused.label), ("BadNumber", "n", 2))


if __name__ == "__main__":
    unittest.main()
