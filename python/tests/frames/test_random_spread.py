"""Random frames of Dask with one to seven partitions, compared with one run of the whole frame."""
import os
import unittest
from random import Random
from unittest import mock

import numpy as np
import pandas as pd

import plainly
import random_frames
import ruzgalt
from refusing import refused

try:
    import dask
    import dask.dataframe as dd
except ImportError:
    raise unittest.SkipTest("Dask isn't here: apt-get install python3-dask python3-distributed") from None

RUNS = int(os.environ.get("FRAMES_SPREADS", "8"))
SEED = int(os.environ.get("FRAMES_SEED", "1"))
SMALL = ("int8", "int64", "Int32", "int32")


def frame(random, count, kind, is_open, compared):
    start, end = random_frames.points(random, kind, count, is_open)
    made = pd.DataFrame({"from": start, "to": end})
    for name, own in compared.items():
        made[name] = random_frames.compared_column(random, count, own)
    made["float"] = np.random.default_rng(random.randrange(10**6)).random(count)
    made["euros"] = np.array([random.randint(-3, 3) for _ in range(count)], "i8")
    made.index = pd.Index([f"r{place}" for place in range(count)], dtype=object)
    return made


def other_dtypes(random, frame, compared, like):
    """A frame whose compared columns have values of the other frame, in other dtypes of the same kind."""
    made = frame.copy()
    for name, kind in compared.items():
        if kind == "text" and len(like) and len(made):
            found = [random.choice(like[name].tolist()) for _ in range(len(made))]
            # pandas.Categorical itself takes a\0b for a.
            dtypes = ["object", "string", *([] if any("\0" in one for one in found) else ["category"])]
            made[name] = pd.Series(found, made.index, dtype=object).astype(random.choice(dtypes))
        elif kind == "int" and len(made) and -100 <= made[name].min() and made[name].max() <= 100:
            made[name] = made[name].astype(random.choice(SMALL))
    return made


def spread(random, frame):
    """A frame of Dask, whose partitions are of random sizes, empty ones too."""
    cuts = sorted(random.randint(0, len(frame)) for _ in range(random.randint(1, 7) - 1))
    pieces = [frame.iloc[first:last] for first, last in zip([0, *cuts], [*cuts, len(frame)])]
    # With pyarrow, Dask would make texts of objects such as dates.
    with dask.config.set({"dataframe.convert-string": False}):
        return dd.from_delayed([dask.delayed(piece) for piece in pieces], meta=frame.iloc[:0], verify_meta=False)


def rows_of(frame, has_labels):
    """The rows in some order that is the same for the same rows."""
    times = random_frames.PERIOD
    rows = list(zip(*(map(plainly.moment, frame[name]) if name in times else frame[name] for name in frame)))
    return sorted(map(repr, [(label, *row) for label, row in zip(frame.index, rows)] if has_labels else rows))


class Case:
    def __init__(self, seed):
        self.random = random = Random(seed)
        kind = random.choice(["ns", "D", "S"])
        self.is_open = random.random() < 0.4
        compared = {f"k{place}": random.choice(["int", "text"]) for place in range(random.choice([1, 1, 2]))}
        sizes = [random.choice([0, 1, 10, 60, 200]) for _ in range(2)]
        self.left = frame(random, sizes[0], kind, self.is_open, compared)
        self.right = other_dtypes(random, frame(random, sizes[1], kind, self.is_open, compared), compared, self.left)
        self.names = list(compared)
        self.starts = self.left["from"].tolist()
        self.words = {"open_end": self.is_open}

    def questions(self):
        """Names, each with the answer for the whole frames, and Dask's answer, not computed yet."""
        function = self.random.choice(["count", "sum", "min", "max"])
        amount = [] if function == "count" else ["euros"]
        several = {"euros": ["mean", "max"], self.names[0]: "count"}
        how, what = self.random.choice(["left", "right", "outer"]), self.random.choice(["per month", "in total"])
        words, on, by = self.words, {"on": self.names, **self.words}, {"by": self.names, **self.words}
        asks = [
            ("join", lambda one, two: ruzgalt.join(one, two, **on)),
            ("unmatched", lambda one, two: ruzgalt.join(one, two, how=how, **on)),
            ("anti", lambda one, two: ruzgalt.anti(one, two, **on)),
            ("agg by", lambda one, _: ruzgalt.agg(one, "sum", "euros", **by)),
            ("agg by", lambda one, _: ruzgalt.agg(one, several, **by)),
            ("agg", lambda one, _: ruzgalt.agg(one, several, **words)),
            ("agg", lambda one, _: ruzgalt.agg(one, function, *amount, **words)),
            ("agg by", lambda one, _: ruzgalt.coalesce(one, **by)),
            ("agg", lambda one, _: ruzgalt.coalesce(one, **words)),
            ("agg by", lambda one, _: ruzgalt.gaps(one, **by)),
        ]
        if not self.is_open:
            asks.append(("agg by", lambda one, _: ruzgalt.spread(one, "euros", amount=what, each="W", **by)))
        if len(self.left):
            point = self.random.choice(self.starts)
            asks += [("at", lambda one, _: ruzgalt.at(one, point, **words)),
                     ("during", lambda one, _: ruzgalt.during(one, point, None, **words))]
        left, right = spread(self.random, self.left), spread(self.random, self.right)
        return [(name, asked(self.left, self.right), asked(left, right)) for name, asked in asks]


class RandomSpread(unittest.TestCase):
    def is_as_whole(self, name, whole, lazy, found):
        self.assertEqual(list(whole.columns), list(lazy.columns))
        if name == "unmatched":
            # Partitions may miss a cell that isn't missed in the whole; numbers are widened for it.
            whole = whole.astype({one: dtype for one, dtype in found.dtypes.items() if str(dtype) != "category"})
        self.assertEqual(rows_of(found, name == "anti"), rows_of(whole, name == "anti"), name)
        if name == "agg":
            self.assertEqual(repr(found.values.tolist()), repr(whole.values.tolist()))
        if len(whole) and not any(isinstance(dtype, pd.CategoricalDtype) for dtype in whole.dtypes):
            self.assertEqual(list(map(str, found.dtypes)), list(map(str, whole.dtypes)))
            self.assertEqual(list(map(str, lazy.dtypes)), list(map(str, whole.dtypes)))
        if name == "anti" and len(whole):
            self.assertEqual((found.index.dtype, found.index.name), (whole.index.dtype, whole.index.name))

    def answers_as_the_whole(self, case):
        listed = case.questions()
        found = dask.compute(*(lazy for _, _, lazy in listed), scheduler="sync")
        for (name, whole, lazy), one in zip(listed, found):
            self.is_as_whole(name, whole, lazy, one)

    def test_partitions_answer_as_the_whole_does(self):
        for seed in range(SEED, SEED + RUNS):
            with self.subTest(seed=seed):
                self.answers_as_the_whole(Case(seed))


def column(cells, dtype):
    return pd.Series(cells, dtype=dtype)


NUMBERS, TEXTS = list(range(-50, 50)), [f"t{place},é" for place in range(100)]
ALIKE = [
    ("int64 and int32", column(NUMBERS, "int64"), column(NUMBERS, "int32")),
    ("int64 and Int32", column(NUMBERS, "int64"), column(NUMBERS, "Int32")),
    ("int8 and int64", column(NUMBERS, "int8"), column(NUMBERS, "int64")),
    ("object and string", column(TEXTS, object), column(TEXTS, "string")),
    ("object and category", column(TEXTS, object), column(TEXTS, "category")),
    ("string and category", column(TEXTS, "string"), column(TEXTS, "category")),
    ("categories in another order", column(TEXTS, "category"), column(TEXTS, pd.CategoricalDtype(TEXTS[::-1]))),
    ("category of int64 and int64", column(NUMBERS, "category"), column(NUMBERS, "int64")),
    ("category of int32", column(NUMBERS, pd.CategoricalDtype(np.array(NUMBERS, "i4"))), column(NUMBERS, "int64")),
]


def day_of(cells):
    days = pd.to_datetime(["2024-01-01", "2024-01-02"])
    return pd.DataFrame({"from": days[0], "to": days[1], "k": cells})


def objects_of(column, made):
    return pd.Series(list(map(made, column)), dtype=object)


class Spread(unittest.TestCase):
    def test_equal_values_of_other_dtypes_land_together(self):
        for what, one, other in ALIKE:
            with self.subTest(what):
                left, right = (dd.from_pandas(day_of(cells), npartitions=5) for cells in (one, other))
                self.assertEqual(len(ruzgalt.join(left, right, on="k").compute(scheduler="sync")), 100)

    def test_one_frame_may_be_of_pandas(self):
        one, other = day_of(column(NUMBERS, "int64")), dd.from_pandas(day_of(column(NUMBERS, "int64")), npartitions=3)
        for left, right in ((one, other), (other, one)):
            self.assertEqual(len(ruzgalt.join(left, right, on="k").compute(scheduler="sync")), 100)
            self.assertEqual(len(ruzgalt.anti(left, right, on="k").compute(scheduler="sync")), 0)

    def test_decimals_are_compared_as_whole_numbers(self):
        one = day_of(column([0.1, 0.29], "float64"))
        spread_one = dd.from_pandas(one, npartitions=2)
        got = ruzgalt.join(spread_one, spread_one, on="k", decimals={"k": 2}).compute(scheduler="sync")
        self.assertEqual(sorted(got["k"]), [0.1, 0.29])
        self.assertEqual(len(ruzgalt.join(one, one, on="k", decimals={"k": 2})), 2)

    def test_labels_of_several_levels_are_tuples(self):
        labels = pd.MultiIndex.from_product([["a", "b"], range(50)])
        one = day_of(column(NUMBERS, "int64"))
        other = one.set_index(labels)
        nothing = dd.from_pandas(one.iloc[:1].assign(k=99), npartitions=1)
        self.assertEqual(sorted(ruzgalt.anti(other, nothing, on="k").compute(scheduler="sync").index), labels.tolist())

    def test_frames_that_allow_no_label_twice(self):
        one = day_of(column(NUMBERS, "int64")).set_flags(allows_duplicate_labels=False)
        for left in (one, dd.from_pandas(one, npartitions=3)):
            right = dd.from_pandas(pd.concat([one.set_flags(allows_duplicate_labels=True)] * 2), npartitions=2)
            self.assertEqual(len(ruzgalt.join(left, right, on="k").compute(scheduler="sync")), 200)

    def test_names_that_dask_does_not_take_are_refused(self):
        for name in ("_partitions", "_ruzgalt_part", "_ruzgalt_label"):
            frame = day_of(column(NUMBERS, "int64")).assign(x=1).rename(columns={"x": name})
            spread = dd.from_pandas(frame, npartitions=2)
            for asked in (lambda: ruzgalt.anti(spread, spread, on="k"), lambda: ruzgalt.agg(spread, "count", by="k")):
                with refused(name="BadName"):
                    asked()

    def test_what_cannot_be_split_is_refused(self):
        frame = dd.from_pandas(day_of(column(NUMBERS, "int64")), npartitions=3)
        asks = [lambda: ruzgalt.dip(frame), lambda: ruzgalt.join(frame, frame), lambda: ruzgalt.anti(frame, frame)]
        asks += [lambda: ruzgalt.gaps(frame), lambda: ruzgalt.overlaps(frame)]
        for asked in asks:
            with refused(name="BadCommand"):
                asked()

    def test_a_refusal_in_a_partition_has_its_label(self):
        cells = day_of(column(NUMBERS, "int64"))
        cells.loc[70, "to"] = pd.Timestamp("2023-01-01")
        frame = dd.from_pandas(cells, npartitions=4)
        asks = [
            lambda: ruzgalt.join(frame, frame, on="k"), lambda: ruzgalt.agg(frame, "count"),
            lambda: ruzgalt.agg(frame, "count", by="k"),
        ]
        for asked in asks:
            with refused(name="BadPeriod", label=70):
                asked().compute(scheduler="sync")

    def test_overlaps_are_those_of_the_whole(self):
        """Which of two rows is first depends on their positions in a partition."""
        cells = pd.concat([day_of(column(NUMBERS, "int64")).assign(x=number) for number in range(3)], ignore_index=True)
        got = ruzgalt.overlaps(dd.from_pandas(cells, npartitions=4), "k").compute(scheduler="sync")
        self.assertEqual(list(got.columns), ["from", "to", "k", "x_left", "x_right"])
        pairs = {(k, *sorted(pair)) for k, *pair in got[["k", "x_left", "x_right"]].itertuples(index=False)}
        self.assertEqual((len(got), pairs), (300, {(k, *two) for k in NUMBERS for two in ((0, 1), (0, 2), (1, 2))}))

    def test_labels_are_those_that_dask_gives_the_frame(self):
        moments = pd.date_range("2024-01-01", periods=100, tz="Asia/Tokyo", name="when")
        pairs = pd.Index([(one, "x") for one in NUMBERS], tupleize_cols=False)
        for labels in (
            pd.RangeIndex(100, name="n"), pd.Index(NUMBERS, dtype=object), moments, moments.astype(object), pairs,
            pd.CategoricalIndex(TEXTS), pd.Index(["twice"] * 100),
        ):
            with self.subTest(labels=labels[:2]):
                cells = day_of(column(NUMBERS, "int64")).set_axis(labels)
                frame = dd.from_pandas(cells, npartitions=3, sort=False)
                got = ruzgalt.anti(frame, cells.iloc[:0], on="k").compute(scheduler="sync").sort_values("k")
                pd.testing.assert_frame_equal(got, frame.compute(scheduler="sync"), check_freq=False)

    def test_no_answer_says_where_labels_lie(self):
        frame = dd.from_pandas(day_of(column(NUMBERS, "int64")), npartitions=3)
        self.assertTrue(frame.known_divisions)
        for asked in (ruzgalt.join, ruzgalt.anti):
            self.assertFalse(asked(frame, frame, on="k").known_divisions)
        self.assertFalse(ruzgalt.agg(frame, "count", by="k").known_divisions)
        self.assertFalse(ruzgalt.agg(frame, "count").known_divisions)

    def test_no_setting_of_dask_is_changed_while_rows_are_read(self):
        """If no column has objects, no setting is changed at all."""
        days = day_of(column(NUMBERS, "int64"))
        for cells, kinds in ((days, {}), (days.assign(k=TEXTS), {"k": object})):
            seen, word = [], "dataframe.convert-string"

            def read(cells=cells, seen=seen):
                seen.append(dask.config.get(word, None))
                return cells

            with dask.config.set({word: False}):
                frame = dd.from_delayed([dask.delayed(read)()], meta=cells.iloc[:0].astype(kinds), verify_meta=False)
            with mock.patch.object(dask.config, "set", wraps=dask.config.set) as changed:
                ruzgalt.agg(frame, "count").compute(scheduler="sync")
                ruzgalt.join(frame, cells, on="k").compute(scheduler="sync")
            self.assertEqual(set(seen), {dask.config.get(word, None)})
            if not kinds:
                found = [name for call in changed.call_args_list for given in call.args for name in given]
                self.assertNotIn(word, found)

    def test_objects_of_points_are_refused(self):
        days = day_of(column(NUMBERS, "int64"))
        dates = days.assign(to=objects_of(days["to"], pd.Timestamp.date))
        with dask.config.set({"dataframe.convert-string": False}):
            spread = dd.from_pandas(dates, npartitions=2)
        for asked in (lambda: ruzgalt.agg(spread, "count"), lambda: ruzgalt.join(dates, spread, on="k"),
                      lambda: ruzgalt.during(spread, "2024-01-01", None)):
            with self.assertRaisesRegex(ruzgalt.Refused, "'to'.*one kind of all"):
                asked()

    def test_options_are_tested_before_rows_are_sent(self):
        spread = dd.from_pandas(day_of(column(NUMBERS, "int64")), npartitions=2)
        year = "2024-01-01", "2024-12-31"
        for asked, said in ((lambda: ruzgalt.gaps(spread, "k", within=year), "a month's last day"),
                            (lambda: ruzgalt.during(spread, *year), "a month's last day"),
                            (lambda: ruzgalt.coalesce(spread, "k", decimals={"z": 2}), "which isn't a column")):
            with self.subTest(said), self.assertWarnsRegex(ruzgalt.Doubt, said):
                asked()

    def test_an_answer_is_a_frame_of_dask_as_others_are(self):
        one = day_of(column(NUMBERS, "int64"))
        spread = dd.from_pandas(one, npartitions=3)
        for asked in (
            lambda frame: ruzgalt.join(frame, one, on="k"), lambda frame: ruzgalt.agg(frame, "count", by="k"),
            lambda frame: ruzgalt.agg(frame, "count"), lambda frame: ruzgalt.anti(frame, one.iloc[50:], on="k"),
        ):
            whole, lazy = asked(one), asked(spread)
            by = [name for name in ("k", "from") if name in whole]
            with dask.config.set(scheduler="sync"):
                self.assertEqual(len(lazy), len(whole))
                self.assertEqual(len(lazy.head(2, npartitions=-1)), min(2, len(whole)))
                kept = lazy.persist().compute().sort_values(by)
                pd.testing.assert_frame_equal(kept.reset_index(drop=True), whole.sort_values(by).reset_index(drop=True))

    def test_rows_over_many_slices_are_closed_up(self):
        starts = pd.date_range("2024-01-01", periods=40)
        first, last = pd.Timestamp("2023-01-01"), pd.Timestamp("2025-01-01")
        cells = pd.DataFrame({"from": [first, *starts], "to": [last, *(starts + pd.Timedelta(days=1))]})
        frame = dd.from_pandas(cells, npartitions=6)
        got = ruzgalt.agg(frame, "count").compute(scheduler="sync").reset_index(drop=True)
        pd.testing.assert_frame_equal(got, ruzgalt.agg(cells, "count"))
        self.assertEqual(got["count"].tolist(), [1, 2, 1])


if __name__ == "__main__":
    unittest.main()
