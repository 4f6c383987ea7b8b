"""Changes of commits, and differences between two commits, compared with tools/answers."""
import csv
import io
import subprocess
import sys
import tempfile
import unittest
from pathlib import Path

import pandas as pd

import ruzgalt
from store_case import Case, quietly

TOP = Path(__file__).resolve().parents[3]
DAY = pd.to_datetime


def store():
    """Some commits have days and labels."""
    made = ruzgalt.Store()
    first = pd.DataFrame({"from": DAY(["2024-01-01", "2024-03-01"]), "to": DAY(["2025-01-01", "2024-10-01"]),
                          "Löhne €": ["a,b", 'x"y'], "change": [5, -7]})
    made.table("t", first, day="2024-02-01", label="first")
    made.update("t", "2024-01-15", "2024-06-01", {"change": 6}, {"Löhne €": "a,b"}, day="2024-03-01", label="late")
    made.load("t", first[:1].assign(change=9))
    made.update_rows("t", first.assign(change=[7, 8]), ["Löhne €"], day="2024-04-01")
    made.table("u", first[["from", "to"]], day="2024-04-02")
    made.delete("t", "2024-09-01", None, {"change": 8})
    return made


def texts(frame):
    return [[str(cell).removesuffix(" 00:00:00") for cell in row] for row in frame.values.tolist()]


class Past(Case):
    def printed(self, made, *words):
        """What tools/answers prints of the store, whose diary is kept in it."""
        made.table("diary", made.diary())
        with tempfile.TemporaryDirectory() as folder:
            made.save(Path(folder, "t.csv"))
            command = [sys.executable, "tools/answers", words[0], str(Path(folder, "t.csv")), *words[1:]]
            ran = subprocess.run(command, cwd=TOP, capture_output=True, text=True, check=True)
        return list(csv.reader(io.StringIO(ran.stdout)))[1:]

    def test_history_is_as_of_the_tools(self):
        made = store()
        got, doubts = quietly(lambda: made.history("t"))
        self.assertEqual((list(got), doubts), (
            ["commit", "entered", "change", "from", "to", "Löhne €", "change_"], []))
        self.assertEqual([str(one) for one in got.dtypes[:4]], ["int64", "datetime64[ns]", "object", "datetime64[ns]"])
        self.assertTrue(got["entered"].isna().equals(got["commit"] == 9))
        wanted = [[commit, entered or "NaT", *more] for commit, _, entered, *more in self.printed(
            made, "history", "t", "--diary", "diary")]
        self.assertEqual(texts(got), wanted)

    def test_the_retroactive_part_is_as_of_the_tools(self):
        made = store()
        got, doubts = quietly(lambda: made.history("t", {"Löhne €": "a,b"}, retroactive=True))
        wanted = [[commit, *more] for commit, _, *more in self.printed(
            made, "history", "t", "--diary", "diary", "--retroactive", "--where", "lohne=a,b")]
        self.assertEqual((texts(got), doubts), (wanted, []))
        _, doubts = quietly(lambda: made.history("t", retroactive=True))
        self.assertEqual(doubts, ["history of t: commits without a day, which retroactive=True leaves out: 9"])

    def test_changed_is_as_of_the_tools(self):
        made = store()
        got = made.changed("t", "first", "2024-03-31")
        wanted = self.printed(made, "changed", "--ask", "rows,t,asof,2", "--ask", "rows,t,asof,3")
        self.assertEqual(texts(got), wanted)
        self.assertEqual(list(got), ["change", "from", "to", "Löhne €", "change_"])
        pd.testing.assert_frame_equal(made.changed("t", 8), made.changed("t", 8, 9))
        back, doubts = quietly(lambda: made.changed("t", 3, 2))
        self.assertEqual(back["change"].tolist(), ["-+"["+-".index(sign)] for sign in got["change"]])
        self.assertIn("later", doubts[0])
        self.assertEqual(len(made.changed("t", 8, 8)), 0)

    def test_some_commits_are_wanted(self):
        made = store()
        for words, commits in (({"first": 3, "last": "late"}, {3}), ({"first": "2024-04-01"}, {6, 9}),
                               ({"last": "first"}, {2}), ({"first": 7, "last": 8}, set()), ({}, {2, 3, 4, 5, 6, 9})):
            self.assertEqual(set(made.history("t", **words)["commit"]), commits, words)
        self.assertEqual(len(made.history("u", first="2024-04-02", last=8)), 4)

    def test_a_zero_byte_at_the_end_of_a_text_counts(self):
        made, texts_of_t = ruzgalt.Store(), ["a", "a\0"]
        made.table("t", pd.DataFrame({"from": DAY("2024-01-01"), "to": DAY("2024-02-01"), "k": texts_of_t}))
        for text in texts_of_t:
            self.assertEqual(made.history("t", {"k": text})["k"].tolist(), [text])

    def test_refusals(self):
        made, bare = store(), ruzgalt.Store()
        bare.table("t", made.rows("t")[["from", "to"]])
        self.assertEqual(list(bare.history("t")), ["commit", "change", "from", "to"])
        for call, name in (
            (lambda: bare.history("t", retroactive=True), "NoDay"), (lambda: made.history("t", last=10), "Future"),
            (lambda: made.history("t", first=5, last=4), "BadPeriod"), (lambda: made.history("v"), "NoTable"),
            (lambda: made.history("t", {"k": 1}), "NoColumn"), (lambda: made.changed("v", 1), "NoTable"),
            (lambda: made.history("t", retroactive=1), "BadCommand"), (lambda: made.changed("t", None), "BadNumber"),
            (lambda: made.changed("t", 1, "third"), "NoLabel"),
        ):
            self.refuses(call, name)
        got, doubts = quietly(lambda: made.history("t", {"change": 99}))
        self.assertEqual((len(got), doubts), (0, ["history of t: no row ever had the values of where="]))


if __name__ == "__main__":
    unittest.main()
