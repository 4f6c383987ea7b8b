"""Pieces of the calendar compared with Python's dates."""
import unittest
from datetime import date, timedelta
from typing import Callable, Dict, Tuple

from ruzgalt import periods
from tests.by_hypothesis import drawn, given, st

DRAWN = drawn()
FIRST = date(1, 1, 1)
# How many days there are.
LATEST = date.max.toordinal()
WORDS = st.sampled_from(periods.EACH)
DAYS = st.one_of(st.integers(0, 800), st.integers(738_000, 738_800), st.integers(LATEST - 400, LATEST - 2))
# What all days of one piece have in common, and no others, and the fewest days of a piece.
KEYS: Dict[str, Tuple[Callable[[date], object], int]] = {
    "day": (lambda day: day.toordinal(), 1), "week": (lambda day: tuple(day.isocalendar())[:2], 7),
    "month": (lambda day: (day.year, day.month), 28), "quarter": (lambda day: (day.year, (day.month + 2) // 3), 90),
    "year": (lambda day: day.year, 365),
}


class Pieces(unittest.TestCase):
    @DRAWN
    @given(DAYS, WORDS)
    def test_a_piece_has_the_days_that_are_like_one_of_it(self, place: int, each: str) -> None:
        calendar, (key_of, fewest) = periods.calendar(each), KEYS[each]
        number = calendar.number_of(place * periods.DAY)
        (start, one), (end, other) = (divmod(calendar.start_of(piece), periods.DAY) for piece in (number, number + 1))
        self.assertEqual((one, other), (0, 0))
        inside, around = ({key_of(FIRST + timedelta(day)) for day in days if 0 <= day < LATEST}
                          for days in (range(start, end), (start - 1, end)))
        wanted = key_of(FIRST + timedelta(place))
        self.assertEqual((inside, wanted in around), ({wanted}, False))
        # At the end of time the last year's pieces are as long as others'.
        self.assertGreaterEqual(end - start, fewest)


if __name__ == "__main__":
    unittest.main()
