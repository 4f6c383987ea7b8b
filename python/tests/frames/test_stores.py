"""Stores: names of columns, points, what changes warn of, batches, threads, scripts, and refused calls."""
import csv
import decimal
import pickle
import tempfile
import threading
import unittest
import warnings
from pathlib import Path

import numpy as np
import pandas as pd

import ruzgalt
from store_case import DAYS, Case, frame, quietly, store

# Printed as period[S], and since pandas 2.2 as period[s].
SECONDS = pd.PeriodDtype(pd.offsets.Second())
DAY = "2024-01-10"
# Values that a change can't set in a column, and how they are refused. n has whole numbers, price two decimals.
WRONG_VALUES = [
    *(("n", value, "WrongKind", "whole numbers") for value in (1.5, "1", None, float("nan"), True, pd.NA, [1], 2.0)),
    *(("price", value, "WrongKind", "2 decimals") for value in ("1.5", None, True, [1], pd.NA)),
    *(("price", value, "BadNumber", "'price'") for value in (
        1.555, float("nan"), float("inf"), 10**30, 10**400, decimal.Decimal("1." + "5" * 25), decimal.Decimal("NaN"))),
    ("n", 2**63, "BadNumber", str(2**63 - 1)), ("price", 10**400, "BadNumber", str(2**63 - 1)),
    ("k", 1, "WrongKind", "texts"),
]
# Wrong calls of a store that has frame(n=[1, 2], price=[1.5, 2.5]) as t, with the refusal and words of its message.
WRONG_CALLS = [
    (lambda one: ruzgalt.Store(b"table,t,k,text\n"), "BadCommand", "Store.from_script"),
    *((lambda one, workers=workers: ruzgalt.Store(workers=workers), "BadCommand", "workers")
      for workers in (0, 65, True, 2.0, "4")),
    # Tables and frames.
    (lambda one: one.table("t", frame()), "TableExists", "table t", "load()"),
    (lambda one: one.table("on", frame()), "BadName", "'on'", "a word of the language"),
    (lambda one: one.table(5, frame()), "BadName", "5"),
    (lambda one: one.table("u", frame(), last_day="no"), "BadCommand", "last_day"),
    (lambda one: one.table("u", frame(), open_end=(True, False)), "BadCommand", "open_end"),
    (lambda one: one.table("u", frame(), decimals=2), "BadCommand", "decimals"),
    (lambda one: one.table("u", frame(), period=("f",)), "BadCommand", "period"),
    (lambda one: one.table("u", frame(), key={"k": 1}), "BadCommand", "key"),
    (lambda one: one.table("u", frame().set_axis(["from", "to", float("nan")], axis=1)), "BadName", "NaN"),
    (lambda one: one.load(frame(), "t"), "NoTable", "<DataFrame>"), (lambda one: one.rows(["t"]), "NoTable", "['t']"),
    (lambda one: one.load("t", frame(n=1, price=1.5, note="x")), "NoColumn", "'note'"),
    (lambda one: one.load("t", frame(n=1)), "NoColumn", "'price'"),
    (lambda one: one.update_rows("t", frame(n=1, note="x"), "k"), "NoColumn", "'note'"),
    (lambda one: one.update_rows("t", frame(n=1).drop(columns="k"), "k"), "NoColumn", "'k'"),
    (lambda one: one.update_rows("t", frame(n=1)), "BadCommand", "no key", "where="),
    # Settings, conditions and points.
    (lambda one: one.update("t", DAY, None, {}, {"k": "a"}), "BadCommand", "set={}"),
    (lambda one: one.update("t", DAY, None, {"k": "c"}, {}), "BadCommand", "where={}"),
    (lambda one: one.delete("t", DAY, None, {}), "BadCommand", "where={}"),
    (lambda one: one.delete("t", DAY, None, "k=='a'"), "BadCommand", "where=", "dict"),
    (lambda one: one.delete("t", DAY, None, frame()["k"] == "a"), "BadCommand", "<Series>"),
    (lambda one: one.update("t", DAY, None, [("k", "a")]), "BadCommand", "set=", "dict"),
    (lambda one: one.at("t", frame()["from"]), "WrongKind", "<Series>: must be a date"),
    *((lambda one, point=point: one.at("t", np.datetime64(point)), "BadPoint")
      for point in ("2024-01-15T00:00:00.5", "30000-01-01", "-1-01-01")),
    *((lambda one, point=point: one.at("t", point), "BadPoint")
      for point in ("2024-01-15 00:00", "2024-13-15 00:00:00", "2024-01-15  00:00:00")),
    # Commits.
    *((lambda one, pair=pair: one.between("t", *pair), "BadNumber", "commits", "log()")
      for pair in ((0, True), (0.0, 2), (-1, 2), (None, 2))),
    *((lambda one, pair=pair: one.between("t", *pair), "NoDay", "day=")
      for pair in (("2024-01-01", "2024-02-01"), (DAYS("2024-01-01"), 2))),
    (lambda one: one.between("t", 2, 1), "BadPeriod"), (lambda one: one.rows("t", as_of=3), "Future", "0 to 2"),
    *((lambda one, as_of=as_of: one.dip("t", as_of=as_of), "BadNumber", "0 to 2")
      for as_of in (-1, 2.0, True, pd.NaT, np.datetime64("NaT"), [2])),
    # Compared columns, groups and questions.
    (lambda one: one.join("t", "t", on=[("a", "b")]), "BadCommand", "left_on"),
    (lambda one: one.join("t", "t", on="person"), "NoColumn", "'person'"),
    (lambda one: one.join("t", "t", on=pd.Index(["n"])), "BadCommand", "on="),
    (lambda one: one.join("t", "t", suffixes=("_l",)), "BadCommand", "suffixes"),
    (lambda one: one.join("t", "t", left_on="k", right_on="k", suffixes=(None, None)), "TwiceNamed", "'n'"),
    (lambda one: one.join("t", "t", left_on="price", right_on="n"), "WrongKind", "'price'",
     "has 2 decimals, but 'n' of the right frame has no"),
    (lambda one: one.agg("t", "count", by=["k", "k"]), "TwiceNamed", "'k'"),
    (lambda one: one.picture("rows,none"), "NoTable", "none", "the tables are t"),
    (lambda one: one.picture("agg,t,sum,euros"), "NoColumn", "euros", "k, n, price"),
]


class Refusals(Case):
    def test_wrong_calls_are_refused_in_words_and_nothing_is_changed(self):
        made = store(frame(n=[1, 2], price=[1.5, 2.5]), decimals={"price": 2})
        for number, (call, name, *words) in enumerate(WRONG_CALLS):
            with self.subTest(number, words=words):
                self.assertNotIn("\n", str(self.refuses(lambda: call(made), name, *words)))
        for column, value, name, word in WRONG_VALUES:
            with self.subTest(column, value=value):
                self.refuses(lambda: made.update("t", DAY, None, {column: value}), name, word, repr(column))
        self.assertEqual((len(made.log()), list(made.tables)), (2, ["t"]))
        for value in (3.25, decimal.Decimal("3.25"), np.float64(3.25)):
            made.update("t", DAY, "2024-01-11", {"price": value}, {"k": "a"})
            self.assertEqual(made.at("t", DAY)["price"].tolist()[-1], 3.25)

    def test_where_ends_are_last_days(self):
        made, _ = quietly(lambda: store(frame(), last_day=True))
        self.refuses(lambda: made.delete("t", DAY, "2024-01-09"), "BadPeriod", "last day")
        for start, end in (("2024-01-10T08:00:00", "2024-01-10T12:00:00"), ("2024-01-10T08:00:00", "2024-01-11"),
                           (DAY, pd.Timestamp("2024-01-10T12:00"))):
            self.refuses(lambda: made.update("t", start, end, {"k": "c"}), "BadPoint", "time")
            self.refuses(lambda: made.delete("t", start, end), "BadPoint", "time")
        hours = DAYS(["2024-01-10T08:00:00", "2024-01-10T12:00:00"])
        made.table("u", frame(**{"from": hours, "to": hours + pd.Timedelta(hours=1)}))
        self.refuses(lambda: made.join("t", "u", on="k"), "BadPoint", "last day")
        self.refuses(lambda: made.anti("t", "u", on="k"), "BadPoint")
        self.assertEqual(len(made.join("u", "t", on="k")), 2)

    def test_numbers_of_other_units_are_not_compared(self):
        made = store(frame(price=[0.1, 0.2]), "l", decimals={"price": 2})
        made.table("r", frame(price=[0.010, 0.020]), decimals={"price": 3})
        self.refuses(lambda: made.join("l", "r", on="price"), "WrongKind", "'price'")
        self.refuses(lambda: made.anti("l", "r", on="price"), "WrongKind", "'price'")

    def test_aggregates_name_no_column_twice_and_are_refused_as_of_frames(self):
        found = frame(count=[1, 2], sum_cents=[1, 2], cents=[3, 4])
        made = store(found)
        self.refuses(lambda: made.agg("t", "count", by="count"), "TwiceNamed", "'count'")
        self.refuses(lambda: made.agg("t", "sum", "cents", by="sum_cents"), "TwiceNamed", "'sum_cents'")
        got = made.agg("t", "sum", "cents", by=["count", "k"])
        self.assertEqual(list(got), ["count", "k", "from", "to", "sum_cents"])
        for asked, name in ((("summ", "cents"), "BadCommand"), (("sum", None), "BadCommand"),
                            (("count", "cents"), "BadCommand"), ((["sum"], "cents"), "BadCommand"),
                            (("sum", "k"), "WrongKind")):
            refused = self.refuses(lambda: made.agg("t", *asked), name)
            self.assertEqual(str(self.refuses(lambda: ruzgalt.agg(found, *asked), name)), str(refused))

    def test_an_overlap_names_both_rows(self):
        made = store(frame(n=[1, 2]), key=["k"])
        words = ("k 'a'", "id 1 from 2024-01-01 to 2024-02-01", "the updated row from 2024-01-10 to 2024-02-02",
                 "hold at 2024-01-10")
        self.refuses(lambda: made.update("t", DAY, None, {"k": "a"}, {"n": 2}), "KeyOverlap", *words)
        rows = frame(k=["c", "c"], n=[1, 2])
        said = self.refuses(lambda: made.update_rows("t", rows, ["n"]), "KeyOverlap", "k 'c'", "id 3 from 2024-01-01",
                            "the updated row from 2024-01-02 to 2024-02-02")
        self.assertEqual((said.label, len(made.log())), ("y", 2))
        made = store(frame(price=[1.5, 2.5]), key=["price"], decimals={"price": 2})
        said = self.refuses(lambda: made.load("t", frame(price=[3.5, 2.5])), "KeyOverlap", "price 2.5", "row 'y' from "
                            "2024-01-02 to 2024-02-02", "id 2 from 2024-01-02 to 2024-02-02")
        self.assertEqual(said.label, "y")


class Names(Case):
    def test_aggregates_by_columns_are_those_of_frames(self):
        found = frame(k=["a", "a\0b"], desk=pd.Categorical(["x", "x"]), price=[1.25, 2.5])
        made = store(found, decimals={"price": 2})
        for by in ("k", ["k"], ["desk", "k"]):
            words = {"by": by, "decimals": {"price": 2}}
            for function in ("sum", "min"):
                wanted = ruzgalt.agg(found, function, "price", **words)
                pd.testing.assert_frame_equal(made.agg("t", function, "price", by=by), wanted)
            several = {"price": ["mean", "max"], "k": "count"}
            wanted = ruzgalt.agg(found, several, **words)
            pd.testing.assert_frame_equal(made.agg("t", several, by=by), wanted)

    def test_columns_have_any_names_and_the_store_names_like_them(self):
        names = ["Person", "person", "Löhne €", "", "a,\"b\"\n", "where", 2024, ("a", 1), None, "x" * 4096]
        found = frame(**{f"c{place}": [place, 7] for place in range(1, len(names))})
        found.columns = pd.Index(["from", "to", *names], dtype=object, tupleize_cols=False)
        made = store(found, key=["Person", None])
        made.update("t", "2024-01-10", None, {"Löhne €": 3, None: 5}, {"Person": "a", ("a", 1): 7})
        made.update_rows("t", found.iloc[:1, [0, 1, 2, 4]], "Person")
        script = made.script()
        self.assertEqual(list(script.names["t"]), [
            "person_", "person", "lohne", "c", "a_b", "where_", "c2024", "a_1", "none", "x" * 32,
        ])
        self.assertEqual(list(map(repr, script.names["t"].values())), list(map(repr, names)))
        self.assertIn(b",key,person_,none\n", script)
        again = ruzgalt.Store.from_script(script)
        for one in (made, again, pickle.loads(pickle.dumps(made))):
            self.assertEqual(list(map(repr, one.rows("t").columns[3:])), list(map(repr, names)))
            for by in ([("a", 1)], [None], [None, ""]):
                groups = one.agg("t", "sum", 2024, by=by).columns[:len(by)]
                self.assertEqual(list(map(repr, groups)), list(map(repr, by)))
            pairs = one.join("t", "t", on=[None, ("a", 1), "x" * 4096])
            self.assertEqual(pairs["left_id"].tolist(), one.rows("t").sort_values("from")["row_id"].tolist())
        self.refuses(lambda: made.load("t", found), "KeyOverlap", "Person 'a'", "None ")
        self.refuses(lambda: made.update("t", "2024-01-10", None, {"lohne": 3}), "NoColumn", "'lohne'", "'Löhne €'")

    def test_a_script_from_a_file_has_its_names_in_frames_by_an_option(self):
        script = store(frame(**{"Löhne €": [1.25, 2.5]}), decimals={"Löhne €": 2}).script()
        names = script.names["t"]
        again = ruzgalt.Store.from_script(bytes(script))
        self.assertEqual(list(again.tables["t"].columns), ["k", "lohne"])
        again = ruzgalt.Store.from_script(bytes(script), options={"t": {"names": names, "decimals": {"Löhne €": 2}}})
        self.assertEqual(list(map(str, again.rows("t")["Löhne €"])), ["1.25", "2.50"])
        for wrong, name, word in (
            ({"names": {"no": "No"}}, "NoColumn", "k, lohne"), ({"names": {"lohne": "k"}}, "TwiceNamed", "'k'"),
            ({"names": ["k"]}, "BadCommand", "names="), ({"names": {"k": ["k"]}}, "BadCommand", "names="),
            ({"names": names, "decimals": {"lohne": 2}}, "NoColumn", "decimals="),
        ):
            self.refuses(lambda: ruzgalt.Store.from_script(bytes(script), options={"t": wrong}), name, word)


class Points(Case):
    def test_points_past_2262_come_in_a_wider_kind(self):
        made = store(frame(to=pd.Series([pd.NaT, pd.Timestamp("2024-03-01")], ["x", "y"])), open_end=True)
        quietly(lambda: made.update("t", "0001-01-01", None, {"k": "z"}, {"k": "none"}))
        quietly(lambda: made.update("t", "2300-01-01", None, {"k": "z"}, {"k": "none"}))
        self.assertEqual(str(made.rows("t")["from"].dtype), "datetime64[ns]")
        made.update("t", "2300-01-01", None, {"k": "c"}, {"k": "a"})
        for got in (made.rows("t"), made.at("t", "2350-01-01"), made.agg("t", "count"), made.join("t", "t", on="k"),
                    made.between("t", 0, 3), made.anti("t", "t", on=[])):
            self.assertEqual(got["from"].dtype, SECONDS)

    def test_a_change_of_all_time_and_a_load_of_no_rows_widen_no_kind(self):
        made = store(frame())
        quietly(lambda: made.update("t", "0001-01-01", None, {"k": "c"}))
        quietly(lambda: made.delete("t", "2024-02-01", "9999-12-31T23:59:59"))
        quietly(lambda: made.load("t", frame(**{"from": frame()["from"].dt.to_period("D")}).iloc[:0]))
        self.assertEqual(str(made.rows("t")["to"].dtype), "datetime64[ns]")

    def test_anti_joins_come_in_the_kind_of_both(self):
        days = frame(**{name: frame()[name].dt.to_period("D") for name in ("from", "to")})
        hours = DAYS(["2024-01-10T08:00:00", "2024-01-10T12:00:00"])
        times = frame(**{"from": hours, "to": hours + pd.Timedelta(hours=1)})
        far = frame(**{"from": pd.PeriodIndex(["2024-01-10"] * 2, freq="D"),
                       "to": pd.PeriodIndex(["2300-01-10"] * 2, freq="D")})
        for left, right in ((days, times), (frame(), far)):
            made = store(left, "l")
            quietly(lambda: made.table("r", right))
            wanted = quietly(lambda: ruzgalt.anti(left, right, on="k"))[0].reset_index(drop=True)
            pd.testing.assert_frame_equal(made.anti("l", "r", on="k").drop(columns="row_id"), wanted)

    def test_the_text_of_a_timestamp_is_a_point(self):
        made, day = store(frame()), str(DAYS("2024-01-15"))
        made.update("t", day, str(DAYS("2024-01-16")), {"k": "c"}, {"k": "a"}, day=day)
        self.assertEqual(made.at("t", day)["k"].tolist(), made.at("t", "2024-01-15")["k"].tolist())
        self.assertEqual((len(made.rows("t", as_of=day)), made.picture("rows,t", start=day).svg[:4]), (4, "<svg"))

    def test_days_come_back_as_times_once_a_change_has_one(self):
        made = store(frame(**{name: frame()[name].dt.to_period("D") for name in ("from", "to")}))
        self.assertEqual(str(made.rows("t")["from"].dtype), "period[D]")
        made.delete("t", "2024-01-10T08:00:00", "2024-01-10T12:00:00", {"k": "a"})
        self.assertIn("2024-01-10 08:00:00", list(map(str, made.rows("t")["to"])))

    def test_values_that_a_dtype_lacks_come_back_in_a_wider_one(self):
        made = store(frame(grade=np.array([1, 2], "i1"), desk=pd.Categorical(["a", "b"], ordered=True)))
        made.update("t", "2024-01-20", None, {"grade": 300, "desk": "c"}, {"desk": "b"})
        rows = made.rows("t")
        self.assertEqual((rows["grade"].dtype, rows["grade"].tolist()), (np.dtype("int64"), [1, 2, 300]))
        self.assertEqual((list(rows["desk"]), list(rows["desk"].cat.categories)), (["a", "b", "c"], ["a", "b", "c"]))
        self.assertFalse(rows["desk"].cat.ordered)
        made.update("t", "2024-01-20", None, {"desk": "b\0c"}, {"desk": "c"})
        self.assertEqual(made.rows("t")["desk"].tolist(), ["a", "b", "b\0c"])


class Changes(Case):
    def test_a_change_of_nothing_or_of_all_is_doubted(self):
        twice = {"from": DAYS(["2024-01-10"] * 2), "k": "a", "n": [3, 4]}
        cases = [
            ("touched nothing", lambda made: made.update("t", "2024-01-10", None, {"k": "z"}, {"k": "A"}), "`where`"),
            ("deleted nothing", lambda made: made.delete("t", "2024-01-10", None, {"k": "A"}), "`where`"),
            ("no row then", lambda made: made.delete("t", "2025-01-10", None), "no row holds"),
            ("all rows", lambda made: made.update("t", "2024-01-10", None, {"k": "z"}), "all rows of that time: 2"),
            ("all deleted", lambda made: made.delete("t", "2024-01-10", None), "all rows of that time: 2"),
            ("a row of none", lambda made: made.update_rows("t", frame(k=["a", "B"], n=[3, 4]), "k"), "row 'y'"),
            ("a month's last day", lambda made: made.update("t", "2024-01-10", "2024-01-31", {"k": "z"}, {"k": "a"}),
             "2024-01-31 isn't in it"),
            ("last days of a load", lambda made: made.load("t", frame(to=DAYS(["2024-01-31", "2024-02-29"]), n=1)),
             "last_day=True"),
            ("decimals of no column", lambda made: made.table("u", frame(), decimals={"n": 2}), "'n'"),
            ("loaded again", lambda made: made.load("t", frame(n=1)), "loaded before"),
            ("a load of no rows", lambda made: made.load("t", frame(n=1).iloc[:0]), "no rows"),
            ("updates of no rows", lambda made: made.update_rows("t", frame(n=1).iloc[:0], "k"), "no rows"),
            ("two updates from one point", lambda made: made.update_rows("t", frame(**twice), "k"),
             "row 'y' updates the same rows from the same point on as row 'x'"),
            ("two of one label", lambda made: made.update_rows("t", frame(**twice).set_axis([7, 7]), "k"),
             "row 1 by position updates"),
            ("twice within, of one label", lambda made: made.load("t", pd.concat([frame(k="q", n=7).iloc[:1]] * 2)),
             "row 1 by position makes the same row as row 0 by position"),
            ("twice within", lambda made: made.load("t", pd.concat([frame(k="q", n=7).iloc[:1]] * 3)), "1 more rows"),
        ]
        for what, change, note in cases:
            with self.subTest(what):
                made = store(frame(n=[1, 1]))
                changed, doubts = quietly(lambda: change(made))
                self.assertEqual(len(doubts), 1, doubts)
                self.assertIn(note, doubts[0])
                self.assertIsInstance(changed, ruzgalt.Changed)

    def test_a_change_of_some_is_not_doubted(self):
        made = store(frame(n=[1, 2]), key=["k"])
        for change in (lambda: made.update("t", "2024-01-10", None, {"n": 3}, {"k": "a"}),
                       lambda: made.update_rows("t", frame(n=[3, 4])), lambda: made.load("t", frame(k=["c", "d"], n=1)),
                       lambda: made.delete("t", "2024-01-10", "2024-01-11", {"k": "a"})):
            self.assertEqual(quietly(change)[1], [])

    def test_a_doubt_is_of_the_line_that_calls(self):
        made = store(frame())
        with warnings.catch_warnings(record=True) as caught:
            warnings.simplefilter("always")
            made.delete("t", "2025-01-01", None)
            with made.batch():
                made.delete("t", "2025-01-01", None)
        self.assertEqual([Path(one.filename).name for one in caught], [Path(__file__).name] * 2)

    def test_objects_without_rows_are_taken_in_any_column(self):
        """pandas.DataFrame(columns=..) has such columns, and so has a CSV file with only a header."""
        cells = {"n": [1, 2], "yes": [True, False], "hours": [1.25, 0.5], "note": pd.array([1, None], "Int64")}
        rows = frame(**cells)
        made = store(rows, key="k", decimals={"hours": 2}, missing={"note": -1})
        none = pd.DataFrame(columns=list(rows))
        for change in (lambda: made.load("t", none), lambda: made.update_rows("t", none)):
            changed, doubts = quietly(change)
            self.assertEqual((changed.added, changed.closed, len(doubts)), (0, 0, 1))
        made.load("t", rows.assign(k=["c", "d"]))
        got = made.rows("t").drop(columns="row_id")
        wanted = pd.concat([rows, rows.assign(k=["c", "d"])], ignore_index=True)
        pd.testing.assert_frame_equal(got, wanted)
        known = none.astype({"n": "string"})
        self.refuses(lambda: made.load("t", known), "WrongKind", "it is text")


class Questions(Case):
    """What frames are warned of."""

    def test_texts_that_look_alike_are_doubted_while_they_are_there(self):
        made = store(frame(k=["Hill", "a"]), "l")
        made.table("r", frame(k=["HILL ", "a"]))
        for ask in (lambda: made.join("l", "r", on="k"), lambda: made.anti("l", "r", left_on=["k"], right_on=["k"])):
            self.assertIn("'HILL '", quietly(ask)[1][0])
        made.update("r", "0001-01-01", None, {"k": "Hill"}, {"k": "HILL "})
        self.assertEqual(quietly(lambda: made.join("l", "r", on="k"))[1], [])
        self.assertIn("'HILL '", quietly(lambda: made.join("l", "r", on="k", as_of=4))[1][0])
        made.update("l", "0001-01-01", None, {"k": "hill"}, {"k": "Hill"})
        self.assertIn("'hill'", quietly(lambda: made.join("l", "r", on="k"))[1][0])

    def test_groups_that_look_alike_and_a_column_that_is_not_compared_are_doubted(self):
        made = store(frame(k=["Hill", "hill"], n=[1, 2]))
        for by in ("k", ["n", "k"]):
            self.assertIn("two groups", quietly(lambda: made.agg("t", "count", by=by))[1][0])
        self.assertIn("'k'", quietly(lambda: made.join("t", "t"))[1][0])
        self.assertEqual(quietly(lambda: made.join("t", "t", on=[]))[1], [])


class Batches(Case):
    def test_a_refused_change_that_is_caught_within_is_left_out(self):
        made = store(frame(n=[1, 2]), key=["k"])
        with made.batch() as changed:
            made.load("t", frame(k=["c", "d"], n=3))
            self.refuses(lambda: made.load("t", frame(n=3)), "KeyOverlap")
            self.refuses(lambda: made.update_rows("t", frame(k="e", n=[1, 2]), ["n"]), "KeyOverlap", "row 'y'")
            made.load("t", frame(k=["f", "g"], n=3))
        self.assertEqual(changed, [ruzgalt.Changed(3, 2, 0), ruzgalt.Changed(4, 2, 0)])
        self.assertEqual(made.rows("t")["k"].tolist(), ["a", "b", "c", "d", "f", "g"])

    def test_a_batch_within_a_batch_is_refused(self):
        made = store(frame())
        with self.assertRaises(ruzgalt.Refused), made.batch(), made.batch():
            pass
        self.assertEqual(len(made.rows("t")), 2)
        made.load("t", frame(k=["c", "d"]))


class Threads(Case):
    def test_of_threads_that_load_one_key_one_is_accepted(self):
        made = store(frame().iloc[:0], key=["k"])
        accepted, errors, start = [], [], threading.Barrier(8)

        def load():
            start.wait()
            try:
                accepted.append(made.load("t", frame()))
            except ruzgalt.Refused as refused:
                errors.append(refused.name)

        threads = [threading.Thread(target=load) for _ in range(8)]
        for one in threads:
            one.start()
        for one in threads:
            one.join()
        self.assertEqual((accepted, errors), ([ruzgalt.Changed(2, 2, 0)], ["KeyOverlap"] * 7))
        self.assertEqual(len(made.rows("t")), 2)

    def test_a_batch_is_one_change_to_other_threads(self):
        made, seen = store(frame()), []
        other = threading.Thread(target=lambda: seen.append(len(made.rows("t"))))
        with made.batch():
            made.load("t", frame(k=["c", "d"]))
            other.start()
            other.join(0.3)
            self.assertEqual(seen, [])
            made.load("t", frame(k=["e", "f"]))
        other.join()
        self.assertEqual(seen, [6])


SCRIPT = b"""\xef\xbb\xbftable,pay,person,text,cents,int,key,person\r
load,pay\r
row,2024-01-01,2025-01-01,"Byron, Ada",500000\r
row,2024-03-01,9999-12-31,"Hill
Grace",480000\r
end\r
rows,pay
load,pay
row,2024-01-01,2025-01-01,"Byron, Ada",1
end
update,pay,2024-07-01,2025-01-01,set,cents,540000,where,person,"Byron, Ada"
tabel,pay
together
load,pay
row,2026-01-01,2027-01-01,"Byron, Ada",7
end
agg,pay,count
delete,pay,2024-01-01,2024-02-01
end
table,shift,desk,int
load,shift
row,2024-01-01T08:00:00,2024-01-01T16:00:00,1
end"""


class Scripts(Case):
    def test_a_store_of_a_script_goes_on_with_it(self):
        made, doubts = quietly(lambda: ruzgalt.Store.from_script(SCRIPT, workers=2))
        self.assertEqual(made.log()["kind"].tolist(), ["table", "load", "update", "load", "table", "load"])
        self.assertEqual(len(doubts), 1)
        for word in ("line 8", "KeyOverlap", "line 12", "tabel", "delete", "NotInBlock"):
            self.assertIn(word, doubts[0])
        rows = made.rows("pay")
        self.assertEqual([str(one) for one in rows.dtypes], ["int64", "period[D]", "period[D]", "object", "int64"])
        self.assertEqual(rows["cents"].tolist(), [480000, 500000, 540000, 7])
        self.assertEqual(made.rows("shift")["to"].dtype, SECONDS)
        more = pd.DataFrame({"from": pd.PeriodIndex(["2025-01-01"], freq="D"),
                             "to": pd.PeriodIndex(["2025-06-01"], freq="D"), "person": ["Byron, Ada"], "cents": [8]})
        made.load("pay", more)
        self.refuses(lambda: made.load("pay", more), "KeyOverlap", "id 6")
        self.refuses(lambda: made.load("pay", more.assign(cents="8")), "WrongKind", "'cents'")

    def test_a_script_and_its_store_are_one(self):
        first = store(frame(n=[1, 2], text=['a,"b"\n', "é"]), key=["k"])
        first.update("t", "2024-01-10T08:00:00", None, {"n": 3}, {"k": "a"})
        first.table("none", frame().iloc[:0])
        again = ruzgalt.Store.from_script(first.script())
        self.assertEqual(again.script(), first.script())
        for name in ("t", "none"):
            kept = {"from": SECONDS, "to": SECONDS}
            pd.testing.assert_frame_equal(again.rows(name).astype(kept), first.rows(name).astype(kept))
        self.assertIn("loaded before", quietly(lambda: ruzgalt.Store.from_script(store(frame()).script()).load("t", (
            frame(**{name: frame()[name].dt.to_period("D") for name in ("from", "to")}))))[1][0])

    def test_frames_of_a_script_have_options_by_table(self):
        options = {"pay": {"open_end": True, "decimals": {"cents": 2}, "period": ("start", "end")}}
        made, _ = quietly(lambda: ruzgalt.Store.from_script(SCRIPT, options=options))
        rows = made.rows("pay")
        self.assertEqual(list(rows), ["row_id", "start", "end", "person", "cents"])
        self.assertEqual((str(rows["cents"][0]), rows["end"].isna().tolist()), ("4800.00", [True, False, False, False]))
        of_texts = {"pay": {"decimals": {"person": 2}}}
        for wrong, word in (({"shift": {"last_day": True}}, "last_day"), (of_texts, "person"), ({"payy": {}}, "payy"),
                            ({"pay": 5}, "options"), ([], "options")):
            with self.assertRaises(ruzgalt.Refused) as caught:
                quietly(lambda: ruzgalt.Store.from_script(SCRIPT, options=wrong))
            self.assertIn(word, str(caught.exception))

    def test_a_script_comes_from_a_file(self):
        with tempfile.TemporaryDirectory() as folder:
            file = Path(folder) / "pay.csv"
            file.write_bytes(SCRIPT)
            for path in (file, str(file)):
                self.assertEqual(len(quietly(lambda: ruzgalt.Store.from_script(path))[0].rows("pay")), 4)
        for given in (file, "table,pay\n", "a\0b", 5, None, frame()):
            self.refuses(lambda: ruzgalt.Store.from_script(given), "BadCommand", "script=")

    def test_a_script_with_a_long_field_is_read_and_the_host_keeps_its_limit(self):
        given = SCRIPT + b"\nend\nload,shift\nrow,2024-01-02,2024-01-03," + 200_000 * b"1" + b"\nend\n"
        before = csv.field_size_limit()
        made, doubts = quietly(lambda: ruzgalt.Store.from_script(given))
        self.assertEqual((len(made.rows("shift")), csv.field_size_limit()), (1, before))
        self.assertIn("BadNumber", doubts[0])

    def test_a_script_that_was_cut_off_is_refused(self):
        rows = b"load,t\nrow,2024-01-01,2024-02-01\n"
        for end in (rows, b'rows,"t\n', b"together\nrows,t\n", b"together\n" + rows + b"end\n"):
            self.refuses(lambda: ruzgalt.Store.from_script(b"table,t\n" + end), "Unended", "line 2", "end")

    def test_scripts_of_any_form_have_the_same_commands(self):
        """Plain scripts are cut without reading their rows; a script with a byte order mark isn't plain."""
        begin = b"table,t,k,text,n,int\nload,t\n"
        for rows, count in (
            (b"row,2024-01-01,2024-02-01,a,1\nend\n", 1), (b'row,2024-01-01,2024-02-01,"a\nend\n",1\nend\n', 1),
            (b'row,2024-01-01,2024-02-01,"""",1\nend\nrows,t\n\n\n', 1), (b'row,2024-01-01,2024-02-01,"",1\nend', 1),
            (b'row,2024-01-01,2024-02-01,a"b,1\nrow,2024-01-01,2024-02-01,c"\nd,1\nend\n', None),
            (b'row,2024-01-01,2024-02-01,5",1\nrow,2024-01-01,2024-02-01,6",2\nend\n', 2),
            (b'row,2024-01-01,2024-02-01,a,1\n"end"\nload,t\nrow,2024-01-02,2024-02-01,a,1\nend\n', 2),
            (b"end\ncheck,t,0,-\nend\ntogether\nload,t\nrow,2024-01-02,2024-02-01,a,1\nend\nend\n", 1),
            (b'row,2024-01-01,2024-02-01,a,1\nend\ndelete,t,2024-01-05,2024-01-06,where,k,"a,""b"\nlog\n', 1),
        ):
            with self.subTest(rows):
                stores = [quietly(lambda: ruzgalt.Store.from_script(mark + begin + rows))[0]
                          for mark in (b"", b"\xef\xbb\xbf")]
                self.assertEqual(*(bytes(one.script()) for one in stores))
                if count is not None:
                    self.assertEqual([len(one.rows("t")) for one in stores], [count] * 2)

    def test_a_text_that_is_no_script_is_doubted(self):
        for given in (b"person,from,to\nAda,2024-01-01,2024-02-01\n", "table,t,k,text\n".encode("utf-16"), b"PK\3\4\0"):
            made, doubts = quietly(lambda: ruzgalt.Store.from_script(given))
            self.assertEqual((len(made.log()), len(doubts)), (0, 1))
            self.assertIn("field 1", doubts[0])

    def test_an_empty_script_is_an_empty_store(self):
        for given in (b"", b"\n", b"rows,pay\n"):
            made, doubts = quietly(lambda: ruzgalt.Store.from_script(given))
            self.assertEqual((made.script(), doubts, len(made.log())), (b"", [], 0))


if __name__ == "__main__":
    unittest.main()
