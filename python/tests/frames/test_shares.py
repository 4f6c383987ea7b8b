"""The amounts of groups in pieces of the calendar by arrays, compared with one row after another; up to 70 bits."""
import importlib.util
import os
import unittest
from fractions import Fraction
from math import floor

import numpy as np

from ruzgalt import periods as pieces
from ruzgalt.convert.arrays import narrowed, of_objects
from ruzgalt.frames import amounts as shares

if not importlib.util.find_spec("hypothesis"):
    raise unittest.SkipTest("hypothesis isn't here: apt-get install python3-hypothesis")
from hypothesis import given, settings, strategies as st  # noqa: E402

EXAMPLES = int(os.environ.get("FRAMES_HOSTILE", "50"))
MANY = settings(max_examples=4 * EXAMPLES, deadline=None, database=None, derandomize=not os.environ.get("FRAMES_LONG"))
# Seconds from the year 1 on: of the first day, of days in our time, and of the last year that there is.
FIRSTS = [0, 738_000 * pieces.DAY, 3_651_000 * pieces.DAY]
# Numbers at the limits of 64 bits: as they are, or in the sum of a month, of a year of seconds, or of many pieces.
LIMITS = [2**63 // part for part in (1, 2, 31, 366, 31 * pieces.DAY, 366 * pieces.DAY)]
NUMBERS = [0, 1, 2**70, *LIMITS, *(limit - 1 for limit in LIMITS), *(limit + 1 for limit in LIMITS)]
VALUES = st.integers(-3, 3) | st.sampled_from([sign * number for number in NUMBERS for sign in (1, -1)])
# The time before a row, its length, in days or in seconds, and its number.
UNITS = {pieces.DAY: (70, 500), 1: (40 * pieces.DAY, 40 * pieces.DAY)}


@st.composite
def sums(draw):
    """Start, end, group and value of rows by group and start, which don't overlap within a group."""
    unit, first, found = draw(st.sampled_from(sorted(UNITS))), draw(st.sampled_from(FIRSTS)), []
    before, long = UNITS[unit]
    rows = st.lists(st.tuples(st.integers(0, before), st.integers(1, long), VALUES), min_size=1, max_size=4)
    for group, own in enumerate(draw(st.lists(rows, max_size=4))):
        at = first
        for free, length, value in own:
            start = at + free * unit if first != FIRSTS[2] else at + unit
            at = start + length * unit if first != FIRSTS[2] else start + min(length, 10) * unit
            found.append((start, at, group, value))
    return found


def by_loop(rows, each, per, is_total):
    """Each row's part of each piece of both calendars, one by one: exact, and for an amount in total rounded."""
    exact, whole = {}, {}
    for start, end, group, value in rows:
        edges = sorted({start, end, *(edge for one in (each, per) for edge in edges_in(one, start, end))})
        for low, high in zip(edges, edges[1:]):
            piece, length = each.number_of(low), end - start
            if not is_total:
                number = per.number_of(low)
                length = per.start_of(number + 1) - per.start_of(number)
            key = group, each.start_of(piece), each.start_of(piece + 1)
            exact[key] = exact.get(key, 0) + Fraction(value * (high - low), length)
            until = [half_up(Fraction(value * (one - start), end - start)) for one in (low, high)]
            whole[key] = whole.get(key, 0) + until[1] - until[0]
    for group in {group for group, _, _ in exact} if not is_total else ():
        keys = sorted(key for key in exact if key[0] == group)
        whole.update({key: floor(exact[key]) for key in keys})
        missing = half_up(sum(exact[key] for key in keys)) - sum(whole[key] for key in keys)
        # The largest remainders count one more, of equal ones the first.
        for key in sorted(keys, key=lambda key: floor(exact[key]) - exact[key])[:missing]:
            whole[key] += 1
    return [(*key[1:], key[0], exact[key], whole[key]) for key in sorted(exact)]


def half_up(fraction):
    return int(abs(fraction) + Fraction(1, 2)) * (-1 if fraction < 0 else 1)


def edges_in(calendar, start, end):
    numbers = range(calendar.number_of(start) + 1, calendar.number_of(end - 1) + 1)
    return map(calendar.start_of, numbers)


def by_arrays(rows, each, per, is_total):
    columns = [of_objects(column) for column in zip(*rows)] or [np.empty(0, object)] * 4
    start, end, group, value = [*(column.astype(np.int64) for column in columns[:3]), narrowed(columns[3])]
    found = start - shares.OFFSET, end - shares.OFFSET, group, value
    if is_total:
        made = [shares.in_total(found, *found[:2], each, is_exact) for is_exact in (True, False)]
    else:
        made = [shares.per_piece(found, each, per, is_exact) for is_exact in (True, False)]
    times = [(column + shares.OFFSET).tolist() for column in made[0][:2]]
    return list(zip(*times, made[0].group.tolist(), *(one.value.tolist() for one in made)))


class Shares(unittest.TestCase):
    @MANY
    @given(sums(), st.sampled_from(pieces.EACH), st.sampled_from(pieces.EACH), st.booleans())
    def test_arrays_have_what_rows_have(self, rows, each, per, is_total):
        given = rows, pieces.calendar(each), pieces.calendar(per), is_total
        self.assertEqual(by_arrays(*given), by_loop(*given))

    def test_halves_of_groups_count_away_from_zero(self):
        week = pieces.calendar("week")
        days = [day * pieces.DAY for day in range(15)]
        for value in (1, -1, 3, -3, 2**62 + 1, -2**62 - 1):
            rows = [(days[0], days[14], 0, value), (days[0] + pieces.DAY // 2, days[4], 1, value)]
            for is_total in (False, True):
                self.assertEqual(by_arrays(rows, week, week, is_total), by_loop(rows, week, week, is_total))


if __name__ == "__main__":
    unittest.main()
