"""Rows past the limits: what goes in parts is answered as the whole is, and by how many calls of the library."""
import unittest
from unittest import mock

import numpy as np
import pandas as pd

import labels
import ruzgalt
from refusing import refused
from ruzgalt.frames import split
from ruzgalt.kernel import library

DAY = np.timedelta64(1, "D")


def frame(count, seed, values=1, longest=10, days=None):
    """Random rows of at most `longest` days that start within `days`, by default within `count` days."""
    random = np.random.default_rng(seed)
    start = np.datetime64("2000-01-01") + random.integers(0, days or count, count) * DAY
    end = start + random.integers(1, longest + 1, count) * DAY
    cells = {"from": start.astype("M8[ns]"), "to": end.astype("M8[ns]"), "k": random.integers(0, values, count)}
    return pd.DataFrame({**cells, "cents": random.integers(-9, 10, count)})


def days_of(first, last, count):
    return pd.DataFrame({"from": pd.Timestamp(first), "to": pd.Timestamp(last), "k": 0, "cents": np.arange(count)})


def counted():
    """Records the library's calls, in a `with` block."""
    return mock.patch.object(library, "call", side_effect=library.call)


QUESTIONS = {
    "join": lambda left, right: labels.join(left, right, on="k"),
    "join of all": lambda left, right: labels.join(left, right),
    "anti": lambda left, right: ruzgalt.anti(left, right, on="k"),
    "anti of all": lambda left, right: ruzgalt.anti(left, right),
    "count by": lambda left, right: ruzgalt.agg(left, "count", by="k"),
    "sum": lambda left, right: ruzgalt.agg(left, "sum", "cents"),
    "min": lambda left, right: ruzgalt.agg(left, "min", "cents", by="k"),
    "max": lambda left, right: ruzgalt.agg(left, "max", "cents"),
}


class Split(unittest.TestCase):
    def answers_as_whole(self, left, right, rows, most):
        """Each question has the same answer by calls that take that many rows, and by at most `most` calls."""
        for name, asked in QUESTIONS.items():
            with self.subTest(name):
                whole = asked(left, right)
                with mock.patch.object(split, "ROWS", rows), counted() as calls:
                    pd.testing.assert_frame_equal(asked(left, right), whole)
                self.assertGreater(calls.call_count, 1)
                self.assertLessEqual(calls.call_count, most)

    def test_values_go_into_parts(self):
        self.answers_as_whole(frame(400, 1, values=40), frame(300, 2, values=40), rows=100, most=12)

    def test_one_value_is_cut_by_time(self):
        self.answers_as_whole(frame(400, 3), frame(400, 4), rows=100, most=20)

    def test_a_value_that_most_rows_have_is_cut_by_time(self):
        left, right = frame(300, 5), frame(300, 6)
        others = frame(100, 7, values=20).assign(k=lambda given: given["k"] + 1)
        self.answers_as_whole(pd.concat([left, others]), pd.concat([others, right]), rows=100, most=24)

    def test_rows_that_hold_at_one_time_go_into_blocks(self):
        left = pd.concat([days_of("2000-01-01", "2001-01-01", 150), frame(50, 8, longest=400)])
        right = pd.concat([days_of("2000-03-01", "2000-05-01", 120), days_of("2000-07-01", "2000-07-02", 120)])
        self.answers_as_whole(left, right, rows=60, most=60)

    def test_rows_of_one_period(self):
        same = days_of("2024-01-01", "2024-01-02", 200)
        self.answers_as_whole(same, same, rows=70, most=18)

    def test_rows_that_start_apart_and_never_end(self):
        left = frame(200, 9).assign(to=pd.Timestamp("2100-01-01"))
        self.answers_as_whole(left, frame(200, 10), rows=80, most=30)

    def test_sums_past_64_bits_over_cuts(self):
        great = frame(300, 11).assign(cents=2**62)
        with mock.patch.object(split, "ROWS", 100):
            cut = ruzgalt.agg(great, "sum", "cents")
        self.assertEqual(cut["sum_cents"].tolist(), ruzgalt.agg(great, "sum", "cents")["sum_cents"].tolist())

    def test_sums_past_64_bits_of_blocks_are_refused(self):
        great = days_of("2024-01-01", "2024-01-02", 200).assign(cents=2**62)
        with mock.patch.object(split, "ROWS", 70), refused(name="Full"):
            ruzgalt.agg(great, "sum", "cents")

    def test_rows_past_the_limit_of_the_library(self):
        days = np.datetime64("2000-01-01") + np.arange(library.ROWS + 1) // 200 * DAY
        many = pd.DataFrame({"from": days.astype("M8[ns]"), "to": (days + DAY).astype("M8[ns]"), "k": 1})
        few = days_of("2000-01-01", "2000-01-03", 2).assign(k=[1, 2])
        joined = ruzgalt.join(many, few, on="k")
        self.assertEqual(joined["from"].value_counts(sort=False).tolist(), [200, 200])
        for right, left in ((few, 400), (few.iloc[:0], 0), (few.assign(k=3), 0)):
            self.assertEqual(len(ruzgalt.anti(many, right, on="k")), len(many) - left)
        counts = ruzgalt.agg(many, "count", by="k")["count"]
        self.assertEqual(counts.tolist(), [200, 1])


if __name__ == "__main__":
    unittest.main()
