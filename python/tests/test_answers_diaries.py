"""The newest commit on a day by a diary, compared with a search from day to day."""
import unittest
from datetime import date, timedelta
from typing import List, NamedTuple, Optional, Tuple

from ruzgalt.script import answers
from ruzgalt.script import changes, run
from ruzgalt.script.answers import Answer
from ruzgalt.errors import Misfit
from tests.by_hypothesis import drawn, given, st
from tests.support import PROGRAM

DRAWN = drawn(100)
FIRST = date(2024, 1, 1)
DAYS, COMMITS = 24, 7
# A start, a length, and a commit, or 0.
ENTRIES = st.lists(st.tuples(st.integers(0, 20), st.integers(1, 20), st.integers(0, COMMITS)), max_size=5)


class Entry(NamedTuple):
    start: date
    end: date
    newest: int


def entries_of(drawn: List[Tuple[int, int, int]], has_order: bool) -> List[Entry]:
    """Rows of a diary. In order, later days have later commits, which a diary must have."""
    days = sorted(drawn) if has_order else drawn
    commits = [commit for _, _, commit in drawn]
    return [
        Entry(FIRST + timedelta(start), FIRST + timedelta(start + length), commit)
        for (start, length, _), commit in zip(days, sorted(commits) if has_order else commits)
    ]


def answer_of(entries: List[Entry]) -> Answer:
    """Returns the answer to `rows` of this diary after `commits` commits."""
    rows = "".join(f"row,{entry.start},{entry.end},{entry.newest}\n" for entry in entries)
    script = f"table,diary,newest,int\nload,diary\n{rows}end\n" + "load,diary\nend\n" * (COMMITS - 2)
    found = run.output(str(PROGRAM), f"{script}rows,diary\n".encode())
    return answers.of(f"{script}rows,diary\n".encode(), found)[-1]


def commit_on(entries: List[Entry], day: date) -> Optional[int]:
    """The greatest number of the rows that began last by then, where some row with it holds on the day."""
    said: List[int] = []
    begun = day
    while not said and begun >= FIRST:
        said = [entry.newest for entry in entries if entry.start == begun and entry.newest]
        begun -= timedelta(1)
    holding = [entry.newest for entry in entries if entry.start <= day < entry.end]
    return max(said) if said and max(said) in holding else None


def goes_back(entries: List[Entry]) -> bool:
    """Returns whether a day has a later commit than a later day."""
    own = [entry for entry in entries if entry.newest]
    return any(one.start < other.start and one.newest > other.newest for one in own for other in own)


class Diaries(unittest.TestCase):
    @DRAWN
    @given(ENTRIES, st.booleans())
    def test_each_day_has_its_commit_or_is_refused(self, drawn: List[Tuple[int, int, int]], has_order: bool) -> None:
        entries = entries_of(drawn, has_order)
        found = answer_of(entries)
        for day in (FIRST + timedelta(place) for place in range(DAYS)):
            commit = None if goes_back(entries) else commit_on(entries, day)
            if commit is None:
                self.assertRaises(Misfit, changes.commits_at, found, [str(day)])
            else:
                self.assertEqual(changes.commits_at(found, [str(day)]), {str(day): commit})


if __name__ == "__main__":
    unittest.main()
