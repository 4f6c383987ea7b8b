"""Texts that look alike don't match; and the rows that a store sends, compared with Python's own texts."""
import unittest
import warnings

import numpy as np
import pandas as pd
from hypothesis import given, settings
from hypothesis import strategies as st

import ruzgalt
from ruzgalt.convert import points, values
from ruzgalt.frames.sides import Side
from ruzgalt.store import tables as script


class Folded(str):
    """Texts that are equal as long as they are alike in small letters."""

    def __eq__(self, other):
        return str.lower(self) == str.lower(other)

    def __hash__(self):
        return hash(str.lower(self))


TEXTS = [
    "", " ", "a", "A", "a ", "a\0", "a\0b", "\0", "é", "e\u0301", "ß", "ss", "\u212a", "K", "k", "1", "01", "1.0",
    'a"b', "a,b", "a\nb", "\ufeff", "\ufeffa", "😀", "\uffff", "\U00010000", "x" * 4096, Folded("A"), Folded("a"),
]
NUMBERS = [-2**63, 2**63 - 1, -1, 0, 1, 9, 10, 10**6, -10**6, 2**53, 2**53 + 1]


class Classes(unittest.TestCase):
    def test_texts_that_look_alike_do_not_meet(self):
        day = pd.to_datetime
        rows = {"from": day("2024-01-01"), "to": day("2024-02-01")}
        frame = pd.DataFrame({**rows, "k": TEXTS, "place": range(len(TEXTS))})
        with warnings.catch_warnings():
            warnings.simplefilter("ignore", ruzgalt.Doubt)
            got = ruzgalt.join(frame, frame, on="k")
            groups = ruzgalt.agg(frame, "count", by="k")
            left = ruzgalt.anti(frame, frame[frame["place"] % 2 == 0], on="k")["place"].tolist()
        wanted = [(one, other) for one, key in enumerate(TEXTS) for other, more in enumerate(TEXTS)
                  if str.encode(key) == str.encode(more)]
        self.assertEqual(sorted(zip(got["place_left"].tolist(), got["place_right"].tolist())), wanted)
        self.assertEqual(len(groups), len(set(map(str.encode, TEXTS))))
        even = {str.encode(text) for text in TEXTS[::2]}
        self.assertEqual(left, [place for place, text in enumerate(TEXTS) if str.encode(text) not in even])


class Rows(unittest.TestCase):
    """The rows that are written, compared with Python's own texts."""

    @settings(deadline=None)
    @given(st.lists(st.tuples(
        st.integers(points.FIRST, points.NO_END - 1), st.booleans(), st.booleans(),
        st.sampled_from(NUMBERS) | st.integers(0, 30), st.sampled_from(TEXTS[:26]),
    ), max_size=30))
    def test_each_field_is_as_python_writes_it(self, rows):
        ends = [points.NO_END if is_open else start + 1 for start, _, is_open, _, _ in rows]
        starts = [start // points.DAY * points.DAY if is_day else start for start, is_day, _, _, _ in rows]
        numbers, texts = [row[3] for row in rows], [row[4] for row in rows]
        words = values.values_of(pd.Series(texts, dtype=object))
        columns = [values.Values(None, "int", np.array(numbers, np.int64)), words]
        side = Side(np.array(starts, np.int64), np.array(ends, np.int64), columns)
        found = [points.texts_of(side.start), points.texts_of(side.end), map(str, numbers), map(values.quoted, texts)]
        wanted = "".join(f"row,{','.join(fields)}\n" for fields in zip(*found)).encode()
        self.assertEqual(script.rows_of(side), wanted)


if __name__ == "__main__":
    unittest.main()
