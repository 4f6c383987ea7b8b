"""Each refusal of a frame, a change or a question: its name, column and label, and that it changes nothing."""
import datetime
import decimal
import pickle
import unittest
from unittest import mock

import numpy as np
import pandas as pd

import ruzgalt
from ruzgalt.frames import split

UTC = datetime.timezone.utc
Decimal = decimal.Decimal


def DAYS(texts):
    """Points in several formats; pandas 2 accepts only one at a time."""
    return pd.DatetimeIndex(np.array(texts, "M8[ns]"))


def frame(**cells):
    """Two rows with the labels x and y; `cells` replaces or adds columns."""
    usual = {"from": DAYS(["2024-01-01", "2024-01-02"]), "to": DAYS(["2024-02-01", "2024-02-02"]), "k": ["a", "b"]}
    return pd.DataFrame({**usual, **cells}, index=["x", "y"])


def objects(*cells):
    return pd.Series(cells, ["x", "y"], dtype=object)


def days(year):
    return pd.Period(year=year, month=1, day=1, freq="D")


def store(table, **words):
    made = ruzgalt.Store()
    made.table("t", table, **words)
    return made


NOON, LAST = datetime.datetime(2024, 2, 1, 12), datetime.date(9999, 12, 31)
LAST_DAYS, OPEN_LAST_DAYS = {"last_day": True}, {"last_day": True, "open_end": True}
POINTS = [
    ("a missing end", {"to": DAYS(["2024-02-01", None])}, {}, "BadPoint", "to", "y"),
    ("a missing start", {"from": DAYS([None, "2024-02-01"])}, {"open_end": True}, "BadPoint", "from", "x"),
    ("half a second", {"to": DAYS(["2024-02-01", "2024-02-01T00:00:00.5"])}, {}, "BadPoint", "to", "y"),
    ("before 1970", {"from": DAYS(["1969-12-31T23:59:59.999999999", "1969-01-01"])}, {}, "BadPoint", "from", "x"),
    ("a time zone", {"to": DAYS(["2024-02-01", "2024-02-02"]).tz_localize("UTC")}, {}, "WrongKind", "to", None),
    ("zones in objects", {"to": objects(NOON, NOON.replace(tzinfo=UTC))}, {}, "BadPoint", "to", "y"),
    ("a microsecond", {"to": objects(NOON.replace(microsecond=1), NOON)}, {}, "BadPoint", "to", "x"),
    ("dates and datetimes", {"to": objects(NOON, NOON.date())}, {}, "WrongKind", "to", None),
    ("texts", {"to": ["2024-02-01", "2024-02-02"]}, {}, "WrongKind", "to", None),
    ("numbers", {"to": [1, 2]}, {}, "WrongKind", "to", None),
    ("two months", {"to": pd.PeriodIndex(["2024-02", "2024-03"], freq="2M")}, {}, "WrongKind", "to", None),
    ("the year 0", {"from": pd.PeriodIndex([days(-1), days(2024)])}, {}, "BadPoint", "from", "x"),
    ("the year 10000", {"to": pd.PeriodIndex([days(2025), days(10000)])}, {}, "BadPoint", "to", "y"),
    ("start at end", {"to": DAYS(["2024-02-01", "2024-01-02"])}, {}, "BadPeriod", "to", "y"),
    ("a last day with a time", {"to": DAYS(["2024-02-01", "2024-02-01T08:00:00"])}, LAST_DAYS, "BadPoint", "to", "y"),
    ("a start with a time", {"from": DAYS(["2024-01-01", "2024-01-02T08:00:00"])}, LAST_DAYS, "BadPoint", "from", "y"),
    ("a last day before the start", {"to": DAYS(["2024-02-01", "2024-01-01"])}, LAST_DAYS, "BadPeriod", "to", "y"),
    ("9999-12-31 as a last day", {"to": objects(NOON.date(), LAST)}, LAST_DAYS, "BadPoint", "to", "y"),
    ("9999-12-30 as a last day", {"to": objects(LAST.replace(day=30), None)}, OPEN_LAST_DAYS, "BadPoint", "to", "x"),
]
TWO = {"decimals": {"k": 2}}
VALUES = [
    ("floats", [1.0, 2.0], {}, "WrongKind", None),
    ("points", DAYS(["2024-01-01", "2024-01-01"]), {}, "WrongKind", None),
    ("complex numbers", [1j, 2j], {}, "WrongKind", None),
    ("NaN among texts", ["a", np.nan], {}, "WrongKind", "y"),
    ("None among texts", [None, "a"], {}, "WrongKind", "x"),
    ("a number among texts", ["a", 1], {}, "WrongKind", "y"),
    ("bytes", [b"a", b"b"], {}, "WrongKind", "x"),
    ("objects of numbers", objects(1, 2), {}, "WrongKind", "x"),
    ("NA among strings", pd.array(["a", pd.NA], dtype="string"), {}, "WrongKind", "y"),
    ("NA among numbers", pd.array([1, pd.NA], dtype="Int64"), {}, "BadNumber", "y"),
    ("no category", pd.Categorical(["a", None]), {}, "BadNumber", "y"),
    ("2^63", np.array([1, 2**63], "u8"), {}, "BadNumber", "y"),
    ("4,097 bytes", ["a", "é" * 2048 + "a"], {}, "TooLong", "y"),
    ("4,097 letters", ["a" * 4097, "a"], {}, "TooLong", "x"),
    ("half a surrogate pair", ["a", "\ud800"], {}, "BadUtf8", "y"),
    ("half a pair and its code", ["'\\ud800'", "\ud800"], {}, "BadUtf8", "y"),
    ("three decimals for two", [0.1, 0.125], TWO, "BadNumber", "y"),
    ("NaN for decimals", [0.1, np.nan], TWO, "BadNumber", "y"),
    ("an infinite number", [np.inf, 1], TWO, "BadNumber", "x"),
    ("0.1 + 0.2", [0.1, 0.1 + 0.2], TWO, "BadNumber", "y"),
    ("2^53", [1.0, 2.0**53], TWO, "BadNumber", "y"),
    ("2^24 of 32 bits", np.array([1, 2**24], "f4"), TWO, "BadNumber", "y"),
    ("whole numbers with decimals", [1, 2], TWO, "WrongKind", None),
    ("a Decimal of three", objects(Decimal("1.001"), Decimal(1)), TWO, "BadNumber", "x"),
    ("a Decimal past the context", objects(Decimal(1), Decimal("1." + "0" * 30 + "1")), TWO, "BadNumber", "y"),
    ("a great Decimal", objects(Decimal(1), Decimal("92233720368547758.08")), TWO, "BadNumber", "y"),
    ("a Decimal of no number", objects(Decimal(1), Decimal("NaN")), TWO, "BadNumber", "y"),
]
RANKS = pd.Categorical([1, 2], [2, 1], ordered=True)
OK, EARLY = frame(), frame(to=DAYS(["2023-02-01", "2024-01-03"]))
TIMES, ENDLESS = frame(to=DAYS(["2024-02-01T08:00:00"] * 2)), frame(to=objects(LAST, LAST))
MANY = pd.DataFrame({"from": DAYS(["2024-01-01"] * 1_000_001), "to": DAYS(["2024-01-02"] * 1_000_001)})
CALLS = [
    ("no such column", lambda: ruzgalt.join(OK, OK, on="z"), "NoColumn", "z", None),
    ("no such period", lambda: ruzgalt.dip(OK, period=("a", "b")), "NoColumn", "a", None),
    ("a column twice", lambda: ruzgalt.dip(pd.concat([OK, OK], axis=1)), "NoColumn", "from", None),
    ("another column twice", lambda: ruzgalt.join(pd.concat([OK, OK[["k"]]], axis=1), OK), "TwiceNamed", "k", None),
    ("floats compared", lambda: ruzgalt.join(frame(k=[1.0, 2.0]), frame(k=[1.0, 2.0]), on="k"), "WrongKind", "k", None),
    ("two kinds", lambda: ruzgalt.join(OK, frame(k=[1, 2]), on="k"), "WrongKind", "k", None),
    ("the right frame's end", lambda: ruzgalt.join(OK, EARLY, on="k"), "BadPeriod", "to", "x"),
    ("left_on without right_on", lambda: ruzgalt.join(OK, OK, left_on="k"), "BadCommand", None, None),
    ("on and left_on", lambda: ruzgalt.anti(OK, OK, on="k", left_on="k"), "BadCommand", None, None),
    ("the sum of texts", lambda: ruzgalt.agg(OK, "sum", "k"), "WrongKind", "k", None),
    ("the greatest of an order", lambda: ruzgalt.agg(frame(k=RANKS), "max", "k"), "WrongKind", "k", None),
    ("a count by count", lambda: ruzgalt.agg(frame(count=[1, 2]), "count", by="count"), "TwiceNamed", "count", None),
    ("two kinds, the other way round", lambda: ruzgalt.anti(frame(k=[1, 2]), OK, on="k"), "WrongKind", "k", None),
    ("a time and last days", lambda: ruzgalt.join(OK, TIMES, on="k", last_day=True), "BadPoint", "to", "x"),
    ("a division of 1,000,001 rows", lambda: ruzgalt.dip(MANY), "Full", None, None),
]


class Refusals(unittest.TestCase):
    def refuses(self, what, asked, *wanted):
        """wanted: name, column and label."""
        with self.subTest(what), self.assertRaises(ruzgalt.Refused) as caught:
            asked()
        if not hasattr(caught, "exception"):
            return
        said = caught.exception
        self.assertEqual((said.name, said.column, said.label), wanted, f"{what}: {said}")
        self.assertGreater(len(said.reason), 10, what)
        self.assertNotIn("\n", str(said).replace("\\n", ""))
        again = pickle.loads(pickle.dumps(said))
        self.assertEqual((again.args, str(again)), (said.args, str(said)))

    def test_points(self):
        for what, cells, words, *wanted in POINTS:
            self.refuses(what, lambda: ruzgalt.dip(frame(**cells), **words), *wanted)

    def test_values(self):
        for what, cells, words, name, label in VALUES:
            self.refuses(what, lambda: store(frame(k=cells), **words), name, "k", label)

    def test_calls(self):
        for case in CALLS:
            self.refuses(*case)

    def test_a_refusal_says_what_was_found_and_what_to_do(self):
        floats = frame(k=[1.0, 2.0])
        cases = [
            (lambda: ruzgalt.join(OK, OK, on="z"), "the columns are ['from', 'to', 'k']"),
            (lambda: ruzgalt.agg(OK, "sum", "k"), "sum needs numbers, but these are texts"),
            (lambda: ruzgalt.join(frame(k=[1, 2]), OK, on="k"), "makes numbers of texts such as '001'"),
            (lambda: ruzgalt.join(floats, frame(k=[1, 2]), on="k"), "float64, but 'k' of the right frame is int64"),
            (lambda: ruzgalt.anti(frame(k=[1, 2]), floats, on="k", decimals={"k": 2}), "it is int64, but 'k' of the"),
            (lambda: ruzgalt.agg(OK, "max", "k"), ".astype('int64') makes numbers"),
            (lambda: ruzgalt.dip(frame(**{"from": DAYS([None, "2024-01-02"])})), ".dropna(subset=['from'])"),
            (lambda: ruzgalt.dip(frame(to=[20240201, 20240202])), "format='%Y%m%d'"),
            (lambda: ruzgalt.dip(frame(to=frame()["from"])), "last_day=True"),
            (lambda: ruzgalt.gaps(OK, within=("2024-01-01", None)), "open_end=True returns it as missing"),
            (lambda: ruzgalt.check(OK, []), "part=[]: must be"),
            (lambda: store(OK).at("t", pd.Timestamp("2024-01-01", tz="UTC")), ".replace(tzinfo=None) removes"),
            (lambda: store(OK).rows("t", NOON.replace(tzinfo=UTC)), ".replace(tzinfo=None) removes"),
            (lambda: store(OK).update("t", NOON, None, {"k": None}), "str(..) makes a text of a number"),
            (lambda: store(frame(k=[1, 2])).update("t", NOON, None, {"k": "1"}), "int(..) makes one of a text"),
            (lambda: ruzgalt.Store.from_script(store(OK).script(), options={"t": {"key": "k"}}), "of t has 'key', but"),
        ]
        for asked, wanted in cases:
            with self.subTest(wanted), self.assertRaises(ruzgalt.Refused) as caught:
                asked()
            self.assertIn(wanted, caught.exception.reason)
        with self.assertRaises(ruzgalt.Refused) as caught:
            ruzgalt.dip(OK, period=("to", "from"))
        self.assertNotIn("last_day", caught.exception.reason)

    def test_a_level_of_the_index_is_no_period(self):
        with self.assertRaises(ruzgalt.Refused) as caught:
            ruzgalt.agg(OK.set_index("from"), "count", by="k")
        self.assertIn(".reset_index() makes it a column", caught.exception.reason)

    def test_the_remedies_for_a_float_and_an_integer_work(self):
        one, other = frame(k=[1.0, 2.0]), frame(k=[1, 2])
        whole, floats = {"k": "Int64"}, {"k": "float64"}
        self.assertEqual(len(ruzgalt.join(one.astype(whole), other.astype(whole), on="k")), 2)
        got = ruzgalt.join(one.astype(floats), other.astype(floats), on="k", decimals={"k": 2})
        self.assertEqual(got["k"].tolist(), [1.0, 2.0])

    def test_missing_values_must_be_dropped_since_an_empty_text_would_match(self):
        for cells in (["a", None], ["a", np.nan], pd.array(["a", pd.NA], "string"), pd.array([1, pd.NA], "Int64"),
                      pd.Categorical(["a", None])):
            with self.subTest(cells), self.assertRaises(ruzgalt.Refused) as caught:
                ruzgalt.join(frame(k=cells), OK, on="k")
            self.assertIn("no value is given; .dropna(subset=['k'])", caught.exception.reason)
            self.assertNotIn("fillna", caught.exception.reason)

    def test_refusals_of_decimals(self):
        """A missing cell, a float, a category of floats, and a sum that the column's floats can't have."""
        agg = ruzgalt.agg
        cases = [
            (objects(Decimal(1), None), "no value"), (objects(Decimal(1), Decimal("NaN")), "no value"),
            (objects(Decimal(1), 1.5), "decimal.Decimal(str(..))"),
            (objects(Decimal(1), Decimal("0.125")), "quantize()"),
            (pd.Categorical([1.5, 2.5]), ".astype('float64') makes floats"),
            ([50000000000000.25] * 2, "the answer has a number too large for the 53 bits of a float"),
        ]
        for cells, words in cases:
            with self.assertRaises(ruzgalt.Refused) as caught:
                agg(frame(k=cells), "sum", "k", **TWO)
            self.assertIn(words, str(caught.exception))
            self.assertEqual(caught.exception.column, "k")

    def test_keys(self):
        good = store(OK, key=["k"])
        self.refuses("in one frame", lambda: store(frame(k=["a", "a"]), key=["k"]), "KeyOverlap", None, "y")
        self.refuses("with a stored row", lambda: good.load("t", frame(k=["c", "b"])), "KeyOverlap", None, "y")
        self.refuses("by an update", lambda: good.update("t", "2024-01-01", None, {"k": "a"}), "KeyOverlap", None, None)
        self.refuses("of no column", lambda: store(OK, key=["z"]), "NoColumn", "z", None)

    def test_names(self):
        self.refuses("a table with a capital", lambda: ruzgalt.Store().table("T", OK), "BadName", None, None)
        self.refuses("a word of the language", lambda: ruzgalt.Store().table("by", OK), "BadName", None, None)
        many = frame(**{f"c{place}": [1, 2] for place in range(16)})
        self.refuses("17 columns", lambda: store(many), "TooMany", None, None)

    def test_changes(self):
        good, numbers = store(OK, key=["k"]), store(frame(k=[1, 2]))
        update, change = good.update, numbers.update
        day = "2024-01-01"
        cases = [
            ("a table that exists", lambda: good.table("t", OK), "TableExists", None, None),
            ("no such table", lambda: good.rows("u"), "NoTable", None, None),
            ("no such column", lambda: update("t", "2024-01-01", None, {"z": 1}), "NoColumn", "z", None),
            ("a number for a text", lambda: update("t", "2024-01-01", None, {"k": 1}), "WrongKind", "k", None),
            ("a text for a number", lambda: change("t", day, None, {"k": "a"}), "WrongKind", "k", None),
            ("1.5 for a number", lambda: change("t", day, None, {"k": 1.5}), "WrongKind", "k", None),
            ("True for a number", lambda: change("t", day, None, {"k": True}), "WrongKind", "k", None),
            ("2^63 for a number", lambda: change("t", day, None, {"k": 2**63}), "BadNumber", "k", None),
            ("an empty portion", lambda: update("t", day, day, {"k": "c"}), "BadPeriod", None, None),
            ("no such month", lambda: update("t", "2024-13-01", None, {"k": "c"}), "BadPoint", None, None),
            ("a load of another kind", lambda: good.load("t", frame(k=[1, 2])), "WrongKind", "k", None),
            ("a load that lacks a column", lambda: good.load("t", OK[["from", "to"]]), "NoColumn", "k", None),
            ("updates without a key", lambda: numbers.update_rows("t", OK), "BadCommand", None, None),
            ("updates of another kind", lambda: good.update_rows("t", OK.assign(z=1)), "NoColumn", "z", None),
            ("updates of nothing", lambda: good.update_rows("t", OK), "BadCommand", None, None),
        ]
        before = good.script()
        for case in cases:
            self.refuses(*case)
        self.assertEqual(good.script(), before)

    def test_questions(self):
        good = store(OK)
        self.refuses("a commit to come", lambda: good.rows("t", as_of=99), "Future", None, None)
        self.refuses("commits the other way round", lambda: good.between("t", 2, 1), "BadPeriod", None, None)
        self.refuses("no point", lambda: good.at("t", "x"), "BadPoint", None, None)
        self.refuses("no such table to join", lambda: good.join("t", "u"), "NoTable", None, None)

    def test_a_batch_is_kept_whole_or_not_at_all(self):
        good = store(OK, key=["k"])
        before = good.script()
        with self.assertRaises(ruzgalt.Refused) as caught:
            with good.batch():
                good.load("t", frame(k=["m", "n"]))
                good.load("t", frame(k=["m", "o"]))
        self.assertEqual((caught.exception.name, caught.exception.label), ("KeyOverlap", "x"))
        self.assertEqual((good.script(), len(good.rows("t"))), (before, 2))
        with good.batch():
            good.load("t", frame(k=["m", "n"]))
            good.update("t", "2024-01-05", None, {"k": "q"}, {"k": "n"})
        self.assertEqual((len(good.rows("t")), good.log()["commit"].max()), (5, 4))

    def test_a_row_far_back_is_named_by_its_label_where_rows_go_in_parts(self):
        count = 40
        cells = {"from": DAYS(["2024-01-01"] * count), "to": DAYS(["2024-01-02"] * count), "k": range(count)}
        many = pd.DataFrame(cells, index=[f"r{place}" for place in range(count)])
        many.loc["r33", "to"] = pd.Timestamp("2023-01-01")
        same = many.assign(k=0)
        with mock.patch.object(split, "ROWS", 3):
            self.refuses("join", lambda: ruzgalt.join(many, many, on="k"), "BadPeriod", "to", "r33")
            self.refuses("anti", lambda: ruzgalt.anti(same, same, on="k"), "BadPeriod", "to", "r33")
            self.refuses("agg", lambda: ruzgalt.agg(many, "count", by="k"), "BadPeriod", "to", "r33")

    def test_a_script_past_64_mib_is_refused(self):
        count = 20_000
        texts = ["x" * 3_500 + str(place) for place in range(count)]
        wide = pd.DataFrame({"from": DAYS(["2024-01-01"] * count), "to": DAYS(["2024-01-02"] * count), "k": texts})
        self.refuses("64 MiB", lambda: store(wide), "Full", None, None)


if __name__ == "__main__":
    unittest.main()
