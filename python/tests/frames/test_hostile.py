"""Calls with names that answers have themselves, or hardly any.

Each either answers exactly the table that by_rows.py computes, or raises Refused or TypeError. hypothesis draws the
frames, and makes small what fails; FRAMES_HOSTILE is how many for each test.
"""
import dataclasses
import importlib.util
import os
import unittest

import by_rows
import ruzgalt

if not importlib.util.find_spec("hypothesis"):
    raise unittest.SkipTest("hypothesis isn't here: apt-get install python3-hypothesis")
from hypothesis import HealthCheck, given, settings, strategies as st  # noqa: E402

from hostile import cases  # noqa: E402

EXAMPLES = int(os.environ.get("FRAMES_HOSTILE", "50"))
MANY = settings(
    max_examples=EXAMPLES, deadline=None, database=None, derandomize=not os.environ.get("FRAMES_LONG"),
    suppress_health_check=list(HealthCheck),
)


def shown(cell):
    """A cell as a text; a number of numpy as Python's."""
    cell = cell.item() if hasattr(cell, "item") else cell
    return "missing" if cell is None or cell != cell else repr(cell)


class Hostile(unittest.TestCase):
    def answered(self, case, asked, wanted):
        """The answer, and what by_rows has; None where the call is refused, and may be."""
        try:
            got = asked()
        except (ruzgalt.Refused, TypeError) as error:
            self.assertTrue(not case.is_plain or wanted() is None, error)
            return None
        self.assertTrue(case.is_right, f"{case.options} is taken")
        found = wanted()
        self.assertIsNotNone(found, "names clash, and it is answered")
        return got, found

    def is_as_by_rows(self, case, asked, wanted):
        found = self.answered(case, asked, wanted)
        if found is None:
            return
        got, (names, rows) = found
        self.assertEqual(list(map(repr, got.columns)), list(map(repr, names)))
        start, end = (by_rows.place([(name, None) for name in names], name) for name in case.periods[0])
        for row in rows:
            row[start], row[end] = case.point(row[start]), case.end(row[end])
        rows = [list(map(case.kept, row)) for row in rows]
        listed = [[shown(got.iloc[row, place]) for place in range(len(names))] for row in range(len(got))]
        self.assertEqual(listed, [list(map(shown, row)) for row in rows])

    @MANY
    @given(cases("join"))
    def test_joins(self, case):
        asked = lambda: ruzgalt.join(*case.frames, **case.options)  # noqa: E731
        self.is_as_by_rows(case, asked, lambda: by_rows.join(case.columns, case))

    @MANY
    @given(cases("anti"))
    def test_anti_joins(self, case):
        asked = lambda: ruzgalt.anti(*case.frames, **case.options)  # noqa: E731
        self.is_as_by_rows(case, asked, lambda: by_rows.anti(case.columns, case))

    @MANY
    @given(cases("agg"))
    def test_aggregates(self, case):
        def wanted():
            found = by_rows.agg(case.columns[0], case.measures, case)
            for row in found[1] if found else ():
                for place, (function, _) in enumerate(case.measures, len(row) - len(case.measures)):
                    row[place] = float(row[place]) if function == "mean" else row[place]
            return found

        asked = lambda: ruzgalt.agg(case.frames[0], *case.asked, **case.options)  # noqa: E731
        self.is_as_by_rows(case, asked, wanted)

    @MANY
    @given(cases("coalesce"))
    def test_united_periods(self, case):
        asked = lambda: ruzgalt.coalesce(case.frames[0], **case.options)  # noqa: E731
        self.is_as_by_rows(case, asked, lambda: by_rows.coalesce(case.columns[0], case))

    @MANY
    @given(cases("gaps"), st.none() | st.tuples(st.integers(0, 12), st.integers(13, 20)))
    def test_gaps(self, case, within):
        span = within and (case.point(within[0]), case.end(within[1]))
        asked = lambda: ruzgalt.gaps(case.frames[0], within=span, **case.options)  # noqa: E731
        self.is_as_by_rows(case, asked, lambda: by_rows.gaps(case.columns[0], case, within))

    @MANY
    @given(cases("spread"), st.none() | st.tuples(st.integers(0, 12), st.integers(13, 20)))
    def test_sums_by_the_calendar(self, case, within):
        def wanted():
            unit = 100 if "decimals" in case.options else 1
            amounts = [int(cell * unit) for cell in by_rows.cells(case.columns[0], case.asked[0])]
            return by_rows.spread(case.columns[0], amounts, case, case.piece_of, within)

        if within and "within" not in case.options:
            case.options["within"] = case.point(within[0]), case.end(within[1])
        asked = lambda: ruzgalt.spread(case.frames[0], *case.asked, **case.options)  # noqa: E731
        self.is_as_by_rows(case, asked, wanted)

    @MANY
    @given(cases("overlaps"))
    def test_overlaps(self, case):
        case = dataclasses.replace(case, is_shared=True, periods=case.periods[:1] * 2, on=case.on[:1] * 2)
        asked = lambda: ruzgalt.overlaps(case.frames[0], **case.options)  # noqa: E731
        self.is_as_by_rows(case, asked, lambda: by_rows.overlaps(case.columns[0], case))

    @MANY
    @given(cases("dip"))
    def test_divisions(self, case):
        frame = case.columns[0]
        listed = lambda: by_rows.most(frame, case.periods[0])  # noqa: E731
        found = self.answered(case, lambda: ruzgalt.dip(case.frames[0], **case.options), listed)
        if found is None:
            return
        division, count = found
        rows = list(zip(by_rows.keys(frame, case.on[0]), by_rows.periods(frame, case.periods[0]), division.parts))
        if case.on[0]:
            self.assertLessEqual(division.count.max(), count)
        else:
            self.assertEqual((division.count, division.parts.max() + 1), (count, count))
        self.are_fewest(rows)

    def are_fewest(self, rows):
        """In a group, rows of one part share no day, and on some day the number of rows equals the number of parts."""
        for group in {group for group, _, _ in rows}:
            own = [(period, part) for key, period, part in rows if key == group]
            held = [[part for (start, end), part in own if start <= day < end] for day in range(by_rows.OPEN)]
            self.assertTrue(all(len(set(parts)) == len(parts) for parts in held))
            self.assertEqual(max(map(len, held)), len({part for _, part in own}))
            self.assertEqual({part for _, part in own}, set(range(max(map(len, held)))))


if __name__ == "__main__":
    unittest.main()
