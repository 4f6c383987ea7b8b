"""Labels and days of a store's commits: their meaning, refusals, and the table that keeps them."""
import copy
import datetime
import pickle
import unittest

import numpy as np
import pandas as pd

import ruzgalt
import store_case

DAY = pd.to_datetime
HOSTILE = ["a,b", 'a "b"', "a\nb", "a\r\nb", "a\0b", "\u00e9", "e\u0301", " July ", "July", "row", "end", "2024-07",
           "1.5", "=1+1", "x" * 4096, "nan", "None", "as_of", "\U0001f600", "\ufeff"]
NO_LABELS = [
    *((blank, "BadName") for blank in ("", " \n")),
    *((number, "BadName") for number in ("3", "-1", " 7 ", "\uff11")),
    *((day, "BadName") for day in ("2024-07-01", " 2024-07-01", "2024-13-01", "2024-07-01T08:00:00")),
    *((other, "BadCommand") for other in (7, b"x", ["x"], float("nan"), datetime.date(2024, 7, 1))),
    ("x" * 4097, "TooLong"), ("\u20ac" * 1366, "TooLong"), ("\ud800", "BadUtf8"),
]


def frame(*keys, start="2024-01-01"):
    keys = list(keys) or ["a", "b"]
    return pd.DataFrame({"from": DAY(start), "to": DAY("2024-12-01"), "k": keys, "n": range(len(keys))})


def store(**words):
    return store_case.store(frame(), **words)


def update(made, number, **words):
    return made.update("t", "2024-02-01", None, {"n": number}, {"k": "a"}, **words)


class Case(store_case.Case):
    def same(self, made, as_of, number):
        pd.testing.assert_frame_equal(made.rows("t", as_of), made.rows("t", number))

    def same_by_all(self, made, as_of, number):
        """That a commit is meant by its label or day, by all questions."""
        pd.testing.assert_frame_equal(made.at("t", "2024-06-01", as_of), made.at("t", "2024-06-01", number))
        pd.testing.assert_frame_equal(made.between("t", as_of, as_of), made.between("t", number, number))
        for ask in (
            lambda commit: made.join("t", "t", "k", as_of=commit),
            lambda commit: made.anti("t", "t", "k", as_of=commit),
            lambda commit: made.agg("t", "sum", "n", as_of=commit),
            lambda commit: made.agg("t", "count", by=["k", "n"], as_of=commit),
            lambda commit: made.dip("t", as_of=commit).parts,
        ):
            pd.testing.assert_frame_equal(ask(as_of), ask(number))


class Labels(Case):
    def test_every_change_takes_one_and_every_question(self):
        made = store(label="made", key="k")
        made.load("t", frame("c", "d"), label="loaded")
        update(made, 7, label="updated")
        made.update_rows("t", frame("a", "b", start="2024-03-01"), label="rows")
        made.delete("t", "2024-09-01", None, {"k": "b"}, label="deleted")
        made.raise_by("t", "n", 100, "2024-10-01", where={"k": "d"}, label="raised")
        commits = {"made": 2, "loaded": 3, "updated": 4, "rows": 6, "deleted": 7, "raised": 8}
        for label, number in commits.items():
            with self.subTest(label):
                self.same(made, label, number)
        self.same_by_all(made, "updated", 4)
        self.assertEqual(dict(made.diary()[["label", "commit"]].values.tolist()), commits)

    def test_hostile_ones_are_kept_as_they_are(self):
        made = store()
        for place, label in enumerate(HOSTILE):
            update(made, place, label=label)
        made.table("diary", made.diary())
        for one in (made, copy.copy(made), pickle.loads(pickle.dumps(made)),
                    ruzgalt.Store.from_script(bytes(made.script()), diary="diary")):
            for place, label in enumerate(HOSTILE):
                self.assertEqual(one.at("t", "2024-03-01", label)["n"].max(), max(place, 1), label)
            self.assertEqual(one.diary()["label"].tolist(), HOSTILE)

    def test_wrong_labels_and_days_are_refused_and_nothing_is_changed(self):
        made = store(label="first", day="2024-01-10", key="k")
        before = made.script()
        for label, name in NO_LABELS:
            with self.subTest(repr(label)[:20]):
                self.refuses(lambda: made.load("t", frame("c"), label=label), name, "label=")
                self.refuses(lambda: made.batch(label=label), name)
        for day, name in (("soon", "BadPoint"), (5, "WrongKind"), ("9999-12-31", "BadPoint"),
                          (pd.Timestamp("2024-02-01", tz="UTC"), "WrongKind")):
            self.refuses(lambda: made.load("t", frame("c"), day=day), name)
        for call, name, *words in (
            (lambda: made.load("t", frame("c"), label="first"), "TwiceNamed", "commit 2", "another one"),
            (lambda: made.raise_by("t", "n", 5, "2024-07-01", dry_run=True, label="first"), "TwiceNamed"),
            (lambda: made.load("t", frame("c"), day="2024-01-09"), "BadPoint", "commit 2", "can't go back"),
            (lambda: made.load("t", frame(), label="more"), "KeyOverlap"),
            (lambda: made.update_rows("t", frame().iloc[:0], label="none"), "BadCommand", "makes none"),
            (lambda: made.raise_by("t", "n", 5, "2030-01-01", label="none"), "BadCommand", "makes none"),
        ):
            self.refuses(call, name, *words)
        for words in ({"label": "first"}, {"day": "2024-01-09"}, {"label": "none"}):
            with self.assertRaises(ruzgalt.Refused), made.batch(**words):
                pass
        self.assertEqual((made.script(), len(made.diary())), (before, 1))
        self.assertEqual(made.load("t", frame("c"), label="more").commit, 3)

    def test_an_unknown_one_is_refused_with_those_that_are_there(self):
        made = store()
        self.refuses(lambda: made.rows("t", "july"), "NoLabel", "label= of changes")
        for week in range(12):
            update(made, week, label=f"Payslips, week {week}")
        self.refuses(lambda: made.rows("t", "payslips, week 11"), "NoLabel", "'Payslips, week 11' looks alike",
                     "and 2 more")
        self.refuses(lambda: made.at("t", "2024-02-01", "Payslip, week 5"), "NoLabel", "looks alike")
        self.refuses(lambda: made.between("t", "7", 9), "NoLabel", "a commit's number as a number: 7")
        self.refuses(lambda: made.between("t", 1, "2024-02-30"), "NoLabel", "isn't a day")


class Days(Case):
    def test_the_newest_commit_at_midnight_is_meant(self):
        made = store(day="2024-01-10")
        update(made, 5)
        update(made, 6, day=datetime.date(2024, 2, 10))
        update(made, 7, day=pd.Timestamp("2024-02-10"))
        update(made, 8, day="2024-02-11T12:00:00")
        for day, number in (
            ("2024-01-10", 2), (datetime.date(2024, 2, 9), 2), (DAY("2024-02-10"), 5), (np.datetime64("2024-02-11"), 5),
            (pd.Period("2024-02-12", "D"), 6), ("2024-02-11T11:59:59", 5), (datetime.datetime(2024, 2, 11, 12), 6),
            ("9999-12-31", 6),
        ):
            with self.subTest(day):
                self.same(made, day, number)
        self.same_by_all(made, "2024-02-10", 5)
        self.refuses(lambda: made.rows("t", "2024-01-09"), "NoDay", "2024-01-10")
        self.refuses(lambda: store().rows("t", "2024-01-09"), "NoDay", "day=")
        self.refuses(lambda: made.rows("t", pd.Period("2024-01", "M")), "WrongKind")

    def test_of_a_batch_each_change_may_have_its_own(self):
        made = store(day="2024-01-10", label="first")
        with made.batch(label="batch", day="2024-02-10"):
            made.load("t", frame("c"), label="c")
            self.assertEqual(len(made.rows("t", "2024-02-10")), 3)
            made.load("t", frame("d"), day="2024-02-12", label="d")
            made.load("t", frame("e"), day="2024-02-12")
            self.refuses(lambda: made.load("t", frame("f")), "BadPoint", "can't go back")
            self.refuses(lambda: made.load("t", frame("f"), label="c"), "TwiceNamed")
        rows = made.diary()[["from", "commit", "label"]].astype(str).values.tolist()
        self.assertEqual(rows, [["2024-01-10", "2", "first"], ["2024-02-10", "3", "c"], ["2024-02-12", "4", "d"],
                                ["2024-02-12", "5", "batch"]])
        before = made.script()
        with self.assertRaisesRegex(ruzgalt.Refused, "'g' already names commit 6"), made.batch(label="g"):
            made.load("t", frame("g"), label="g")
        self.assertEqual((made.script(), len(made.diary())), (before, 4))


# The diary of the pages: of each day the newest commit from then on.
OF_TOOLS = """table,notes,newest,int,who,text
load,notes
row,2024-01-02,2024-01-20,2,Ada
row,2024-01-20,9999-12-31,4,Grace
end
"""


class Kept(Case):
    def made(self):
        made = store(day="2024-01-10", key="k")
        made.load("t", frame("c"), label="c, without a day")
        update(made, 5, day="2024-02-10", label='"July"')
        update(made, 6, day="2024-02-10")
        update(made, 7, label="last")
        return made

    def test_the_table_has_a_row_for_each_label_and_each_day(self):
        rows = self.made().diary()
        self.assertEqual([str(one) for one in rows.dtypes], ["period[D]", "period[D]", "int64", "int64", "object"])
        days = [[f"{one.year:04}-{one.month:02}-{one.day:02}" for one in rows[name]] for name in ("from", "to")]
        self.assertEqual(list(zip(*days, *(rows[name] for name in ("newest", "commit", "label")))), [
            ("0001-01-01", "9999-12-31", 0, 3, "c, without a day"), ("0001-01-01", "9999-12-31", 0, 6, "last"),
            ("2024-01-10", "2024-02-10", 2, 2, ""), ("2024-02-10", "9999-12-31", 4, 4, '"July"'),
            ("2024-02-10", "9999-12-31", 5, 5, ""),
        ])
        self.assertEqual(self.made().diary(after="2024-01-31")["commit"].tolist(), [3, 6, 4, 5])
        self.assertEqual(store().diary().columns.tolist(), rows.columns.tolist())

    def test_of_several_commits_of_a_day_the_last_has_its_row(self):
        made = store(day="2024-01-10")
        for number in range(2, 6):
            update(made, number, day="2024-02-10")
        self.assertEqual(made.diary()["newest"].tolist(), [2, 6])
        made.table("diary", made.diary())
        again = ruzgalt.Store.from_script(made.script(), diary="diary")
        self.same(again, "2024-02-10", 6)
        entered, wanted = (one.history("t")["entered"].astype(str).tolist() for one in (again, made))
        self.assertEqual(entered, wanted)

    def test_a_script_has_them_again(self):
        made = self.made()
        made.table("diary", made.diary())
        again = ruzgalt.Store.from_script(made.script(), diary="diary")
        pd.testing.assert_frame_equal(again.diary(), made.diary())
        for as_of in ('"July"', "last", "c, without a day", "2024-02-10", "2024-01-11"):
            wanted = made.rows("t", as_of).astype({"from": "period[D]", "to": "period[D]"}).values.tolist()
            self.assertEqual(again.rows("t", as_of).values.tolist(), wanted)
        more = frame("z").astype({"from": "period[D]", "to": "period[D]"})
        self.refuses(lambda: again.load("t", more, day="2024-02-09"), "BadPoint")
        self.refuses(lambda: again.load("t", more, label="last"), "TwiceNamed")
        again.load("t", more, label="z", day="2024-03-01")
        again.load("diary", again.diary(after="last"))
        third = ruzgalt.Store.from_script(again.script(), diary="diary")
        pd.testing.assert_frame_equal(third.diary(), again.diary())

    def test_a_diary_that_somebody_made_is_read(self):
        made = self.made()
        again = ruzgalt.Store.from_script(bytes(made.script()) + OF_TOOLS.encode(), diary="notes")
        for day, number in (("2024-01-19", 2), ("2024-01-20", 4), ("2030-01-01", 4)):
            self.same(again, day, number)
        self.refuses(lambda: again.rows("t", "2024-01-01"), "NoDay", "2024-01-02")
        self.assertEqual(again.diary()["commit"].tolist(), [2, 4])
        labels = OF_TOOLS.replace("who", "label")
        again = ruzgalt.Store.from_script(bytes(made.script()) + labels.encode(), diary="notes")
        self.same(again, "Grace", 4)

    def test_a_time_that_a_diary_leaves_out_is_doubted(self):
        script = bytes(self.made().script())
        for old, new, part, day, number in (
            ("2024-01-20,2,", "2024-01-18,2,", "from 2024-01-18 to 2024-01-20;", "2024-01-19", 2),
            ("9999-12-31,4,", "2024-03-01,4,", "from 2024-03-01 on;", "2024-03-05", 4),
        ):
            made = script + OF_TOOLS.replace(old, new).encode()
            with self.subTest(new), self.assertWarnsRegex(ruzgalt.Doubt, f"notes: no row holds {part}"):
                self.same(ruzgalt.Store.from_script(made, diary="notes"), day, number)

    def test_frames_that_are_no_diary_are_refused(self):
        script = bytes(self.made().script())
        for old, new, name, word in (
            ("notes", "notes2", "NoTable", "notes"), ("newest,int", "newest,text", "WrongKind", "first column"),
            (",4,", ",40,", "Future", "commit 40"), (",2,", ",5,", "BadNumber", "commit 4"),
            ("who", "label", None, ""), ("Grace", "Ada", None, ""), ("Grace", "2024-01-01", None, ""),
        ):
            made = script + OF_TOOLS.replace(old, new).encode()
            with self.subTest(new):
                if name is None:
                    ruzgalt.Store.from_script(made, diary="notes")
                else:
                    self.refuses(lambda: ruzgalt.Store.from_script(made, diary="notes"), name, word)
        labels = OF_TOOLS.replace("who", "label")
        for new, name in (("Ada", "TwiceNamed"), ("2024-01-01", "BadName"), ("7", "BadName")):
            made = script + labels.replace("Grace", new).encode()
            self.refuses(lambda: ruzgalt.Store.from_script(made, diary="notes"), name)
        for none in (5, ["notes"], "", "t2"):
            self.refuses(lambda: ruzgalt.Store.from_script(script, diary=none), "NoTable")


if __name__ == "__main__":
    unittest.main()
