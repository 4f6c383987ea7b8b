"""Options of calls: each is accepted in its types, and refused by name in others; names of an answer's columns."""
import functools
import inspect
import unittest
from pathlib import Path

import numpy as np
import pandas as pd

import ruzgalt
from ruzgalt.frames import options

DAYS = pd.to_datetime
FRAME = pd.DataFrame({"from": DAYS(["2024-01-01"]), "to": DAYS(["2024-02-01"]), "k": ["a"], "x": [1]})
NO_FLAGS = ("no", "", 1, 0, None, (True, False), [], np.int64(1), np.array([True]))
NO_NAMES = (
    pd.Index(["k"]), {"k": 1}, {"k"}, FRAME["k"], FRAME[["k"]], FRAME, (one for one in "k"), True, [True], [["k"]],
)
NO_PAIRS = (
    True, ("from",), ("from", "to", "k"), ["from", "from"], ("from", ["to"]), pd.Index(["from", "to"]),
    {"from": "to"},
)
WRONG = {
    **dict.fromkeys(("on", "left_on", "right_on", "by"), NO_NAMES), "period": (*NO_PAIRS, None),
    **dict.fromkeys(("left_period", "right_period"), NO_PAIRS),
    **dict.fromkeys(("keep_periods", "open_end", "last_day", "exact"), NO_FLAGS),
    "suffixes": (("_l",), "", (), "_l", ("_l", "_r", "_s"), (1, 2), None, {"_l": "_r"}, (b"_l", "_r")),
    "workers": (0, -1, 65, 1.0, "4", True, None, [4]),
    "decimals": (2, "k", None, [("k", 2)], {"k": 2.0}, {"k": -1}, {"k": 19}, {"k": True}, {"k": None}),
    "how": ("", "Left", "cross", True, None, ["left"], 1),
    "within": ("2024", 5, ("2024-01-01",), {"2024-01-01": "2025-01-01"}),
    "amount": ("", None, "total", "month", "per Month", "per decade", 1, ["in total"]),
    "each": ("", "month", "m", "MQ", None, ["M"]), "progress": [one for one in NO_FLAGS if one is not None],
}
SPREAD = functools.partial(ruzgalt.spread, amount="per month")
CALLS = [
    (ruzgalt.join, FRAME, FRAME), (ruzgalt.anti, FRAME, FRAME), (ruzgalt.agg, FRAME, "count"), (ruzgalt.dip, FRAME),
    (ruzgalt.coalesce, FRAME), (ruzgalt.gaps, FRAME), (ruzgalt.overlaps, FRAME), (SPREAD, FRAME, "x"),
    (ruzgalt.at, FRAME, "2024-01-01"), (ruzgalt.during, FRAME, "2024-01-01", None), (ruzgalt.check, FRAME, "k"),
]
# Functions and columns of an aggregate, and how the reason begins.
FUNCTIONS = [
    ("summ", "x", "function='summ': must be one of count, sum,"), (None, None, "function=None: must be one of count"),
    ("Count", None, "function='Count'"), (["sum"], "x", "function=['sum']"), ("sum", None, "sum needs a column"),
    ("count", "x", "column='x': a count is of rows"), ("sum", ["x"], "column=['x']"), ({}, None, "function={}"),
    ({"x": "sum"}, "x", "column='x'"), ({"x": ["sum", "sum"]}, None, "function="), ({"x": []}, None, "function={'x'"),
    ({"x": {"sum"}}, None, "function={'sum'}"), ({None: "count"}, None, "column=None"),
]
NO_FRAMES = (FRAME["k"], [1], {"from": [1]}, "pay.csv", Path("pay.csv"), None, 5, FRAME.to_numpy(), FRAME.index)


class Types(unittest.TestCase):
    def refuses(self, start, call, *given, **words):
        with self.subTest(call=call, given=given, **words), self.assertRaises(ruzgalt.Refused) as caught:
            call(*given, **words)
        self.assertEqual(caught.exception.name, "BadCommand")
        self.assertTrue(caught.exception.reason.startswith(start), caught.exception.reason)
        self.assertNotIn("\n", caught.exception.reason)

    def test_wrong_types_are_refused_by_the_option_s_name(self):
        for call, *given in CALLS:
            for name in WRONG.keys() & inspect.signature(call).parameters.keys():
                for value in WRONG[name]:
                    self.refuses(name, call, *given, **{name: value})

    def test_other_things_than_frames_are_refused(self):
        for call, _, *given in CALLS:
            name = "left" if call in (ruzgalt.join, ruzgalt.anti) else "frame"
            for one in NO_FRAMES:
                self.refuses(f"{name}=", call, one, *given)
        self.refuses("right=", ruzgalt.anti, FRAME, FRAME["k"], on="k")

    def test_functions_and_columns_of_an_aggregate(self):
        for function, column, start in FUNCTIONS:
            self.refuses(start, ruzgalt.agg, FRAME, function, column)

    def test_each_right_type_is_taken(self):
        words = {"on": ("k",), "period": ["from", "to"], "open_end": np.bool_(True)}
        got = ruzgalt.join(FRAME, FRAME, suffixes=["_l", None], workers=np.int8(2), decimals={}, **words)
        self.assertEqual(list(got.columns), ["from", "to", "k", "x_l", "x"])
        self.assertEqual(ruzgalt.agg(FRAME, "count", by=[])["count"].tolist(), [1])

    def test_a_name_is_no_list_of_letters(self):
        one = FRAME.assign(ab=["u"], a=["v"], b=["w"])
        other = one.assign(a=["other"], b=["other"])
        self.assertEqual(len(ruzgalt.join(one, other, on="ab")), 1)
        self.assertEqual(len(ruzgalt.join(one, other, on=["a", "b"])), 0)
        self.assertEqual(len(ruzgalt.anti(one, other, left_on="ab", right_on="ab")), 0)


class Signatures(unittest.TestCase):
    def test_each_option_is_a_keyword_that_is_checked(self):
        for call, *_ in CALLS:
            with self.subTest(call):
                kinds = {name: one.kind for name, one in inspect.signature(call).parameters.items()}
                self.assertNotIn(inspect.Parameter.VAR_KEYWORD, kinds.values())
                named = {name for name, kind in kinds.items() if kind is inspect.Parameter.KEYWORD_ONLY}
                self.assertLessEqual({"period", "open_end", "last_day"}, named)
                self.assertLessEqual(named, set(options.OPTIONS))
        of_table = inspect.signature(ruzgalt.Store.table).parameters
        self.assertLessEqual(set(options.OF_TABLE), set(of_table))

    def test_another_word_is_a_type_error_as_of_any_function(self):
        for asked in (lambda: ruzgalt.join(FRAME, FRAME, onn="k"), lambda: ruzgalt.Store().table("t", FRAME, onn="k")):
            with self.assertRaisesRegex(TypeError, "unexpected keyword argument 'onn'"):
                asked()

    def test_the_package_lists_its_calls(self):
        self.assertLessEqual({"join", "anti", "agg", "dip", "Store", "Refused", "__version__"}, set(dir(ruzgalt)))
        self.assertEqual(dir(ruzgalt), sorted(ruzgalt.__all__))
        self.assertIn("open_end", str(inspect.signature(ruzgalt.join)))


class Suffixes(unittest.TestCase):
    def names(self, **words):
        return list(ruzgalt.join(FRAME, FRAME, on="k", **words).columns)

    def test_they_are_as_of_pandas(self):
        for pair in (("_left", "_right"), ("", "_r"), (None, "_r"), ("_l", None), ("_l", "")):
            wanted = list(FRAME[["k", "x"]].merge(FRAME[["k", "x"]], on="k", suffixes=pair).columns)
            self.assertEqual(self.names(suffixes=pair), ["from", "to", *wanted], pair)

    def test_what_they_do_not_part_is_refused(self):
        twice = FRAME.rename(columns={"k": "x_left"})
        cases = [
            (FRAME, FRAME, {"on": "k", "suffixes": (None, None)}, "x"),
            (FRAME, FRAME, {"on": "k", "suffixes": ("", "")}, "x"),
            (FRAME, FRAME, {"on": "k", "suffixes": ("_s", "_s")}, "x_s"), (twice, FRAME, {"on": []}, "x_left"),
        ]
        for left, right, words, column in cases:
            with self.subTest(words), self.assertRaises(ruzgalt.Refused) as caught:
                ruzgalt.join(left, right, **words)
            self.assertEqual((caught.exception.name, caught.exception.column), ("TwiceNamed", column))

    def test_names_that_are_no_texts_stay_what_they_are(self):
        names = ["from", "to", None, 1]
        one = FRAME.set_axis(pd.Index(names, dtype=object), axis=1)
        got = ruzgalt.join(one, FRAME, left_on=[None], right_on="k", right_period=("from", "to"))
        self.assertEqual(list(map(repr, got.columns)), list(map(repr, [*names, "k", "x"])))
        tuples = FRAME.set_axis(pd.Index(["from", "to", 2, ("a", 1)], dtype=object, tupleize_cols=False), axis=1)
        self.assertEqual(list(ruzgalt.agg(tuples, "count", by=np.int64(2)).columns), [2, "from", "to", "count"])
        got = ruzgalt.join(tuples, tuples, on=np.int64(2))
        self.assertEqual(list(got.columns)[2:], [2, "('a', 1)_left", "('a', 1)_right"])
        # Without dtype=object, pandas makes floats of 0, 1 and None.
        numbers = FRAME.drop(columns="x").set_axis(pd.Index([0, 1, None], dtype=object), axis=1)
        self.assertEqual(list(ruzgalt.join(numbers, numbers, on=[None], period=(0, 1)).columns), [0, 1, None])
        levels = FRAME.set_axis(pd.MultiIndex.from_product([["a", "b"], ["x", "y"]]), axis=1)
        words = {"on": [("b", "x")], "period": [("a", "x"), ("a", "y")]}
        got = ruzgalt.join(levels, levels, **words)
        self.assertEqual(list(got.columns)[2:], [("b", "x"), "('b', 'y')_left", "('b', 'y')_right"])
        self.assertEqual(list(ruzgalt.agg(levels, "count", by=words["on"], period=words["period"]).columns)[3], "count")
        self.assertEqual(len(ruzgalt.anti(levels, levels, **words)), 0)


if __name__ == "__main__":
    unittest.main()
