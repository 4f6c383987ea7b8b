"""Which records of two answers to one question differ, compared with counts for each day; and verdicts in sentences."""
import unittest
from collections import Counter
from typing import Counter as Counts, List, Tuple

from ruzgalt.script import answers
from ruzgalt.report import contents
from tests.by_hypothesis import drawn, given, st

DRAWN = drawn(200)
Row = Tuple[int, int, str]
ROWS = st.lists(
    st.tuples(st.integers(1, 20), st.integers(1, 8), st.sampled_from(["a", "b", '"'])).map(
        lambda row: (row[0], row[0] + row[1], row[2])
    ), max_size=7,
)


def script_of(then: List[Row], now: List[Row]) -> Tuple[str, str]:
    """A script that loads the first rows, deletes them and loads the others, and is asked for both; its answers."""
    def loaded(rows: List[Row]) -> str:
        return "".join(f"row,2024-01-{start:02},2024-01-{end:02},{quoted(text)}\n" for start, end, text in rows)

    def listed(rows: List[Row], first: int) -> str:
        lines = (
            f"row,{first + index},2024-01-{start:02},2024-01-{end:02},{quoted(text)}\n"
            for index, (start, end, text) in enumerate(rows)
        )
        return "".join([*lines, f"end,{len(rows)}\n"])

    script = f"table,t,x,text\nload,t\n{loaded(then)}end\ndelete,t,2024-01-01,2025-01-01\nload,t\n{loaded(now)}end\n"
    answered = f"ok,1\nok,2\nok,3\nok,4\n{listed(then, 1)}{listed(now, len(then) + 1)}"
    return f"{script}rows,t,asof,2\nrows,t\n", answered


def quoted(text: str) -> str:
    return '""""' if text == '"' else text


def days(rows: List[Row]) -> Counts[Tuple[int, str]]:
    return Counter((day, text) for start, end, text in rows for day in range(start, end))


class Pairs(unittest.TestCase):
    @DRAWN
    @given(ROWS, ROWS)
    def test_as_many_are_marked_as_there_are_more(self, then: List[Row], now: List[Row]) -> None:
        script, listed = script_of(then, now)
        *_, first, second = answers.of(script.encode(), listed.encode())
        found = contents.marks(first, second)
        assert found is not None
        for rows, others, signs in ((then, now, found[0]), (now, then, found[1])):
            self.assertEqual(len(signs), len(rows))
            own, other = days(rows), days(others)
            kept = days([row for row, sign in zip(rows, signs) if sign == "0"])
            self.assertFalse(kept - other)
            for (start, end, text), sign in zip(rows, signs):
                has_more = any(own[day, text] > other[day, text] for day in range(start, end))
                self.assertFalse(sign == "1" and not has_more)


class Verdicts(unittest.TestCase):
    def test_each_verdict_is_a_sentence(self) -> None:
        script = "table,t\nload,t\nrow,2024-01-01,2024-01-02\nend\ncheck,t,11,{}\npart,1\nend\n"
        for instant, printed, sentence in [
            ("2024-01-05", "yes", "Yes: no two rows of a part overlap, and fewer parts than 11 aren't enough: 11 rows "
             "hold on 2024-01-05."),
            ("-", "yes", "Yes: no two rows of a part overlap, and fewer parts than 11 aren't enough: "
             "the table has no rows."),
            ("2024-01-05", "no,NotCrowded,10", "No: 11 parts are enough, but 2024-01-05 needs only 10: it doesn't show "
             "that fewer aren't."),
            ("-", "no,NotCrowded,0", "No: 11 parts are enough, but no day is claimed: it doesn't show that fewer "
             "aren't."),
            ("-", "no,WrongCount,3", "No: 11 parts are claimed, but there are 3."),
            ("-", "no,EmptyPart,3", "No: part 3 has no row."), ("-", "no,Unknown,3", "No: no row has the id 3."),
            ("-", "no,Twice,3", "No: row 3 occurs twice."), ("-", "no,Missing,3", "No: row 3 is in no part."),
            ("-", "no,Overlap,3,4", "No: rows 3 and 4 are in one part, and overlap."),
        ]:
            found = answers.of(script.format(instant).encode(), f"ok,1\nok,2\n{printed}\n".encode())
            self.assertEqual(answers.sentence_of(found[-1]), sentence)


if __name__ == "__main__":
    unittest.main()
