"""Columns with other names in a file than in the table, and rows that it has twice, compared with Python's csv.

Names and texts are as odd as they may be.
"""
import csv
import io
import unittest
from typing import Any, Callable, Dict, List, NamedTuple

from tests.by_hypothesis import assume, drawn, given, st
from tests.support import run
from tests.test_answers_hostile import NAMES, PIECES, TEXTS, printed

DRAWN = drawn(100)
# What a header may have: signs that words of a command line have too, and other names of the table.
HEADERS = st.lists(
    st.sampled_from([*NAMES, "=", "a=b", "x=", "Neu", "\u00dc", *filter(str.isprintable, PIECES)]),
    min_size=1, max_size=3,
).map("".join).filter(lambda name: name.strip() == name and name[:1] not in ("-", "", "="))
# A field of a file has one line.
FIELDS = TEXTS.filter(lambda text: not set("\0\r\n") & set(text))


class File(NamedTuple):
    """A table's names for the columns of a file, the header's, and the rows with their values."""

    names: List[str]
    header: List[str]
    rows: List[List[str]]

    @property
    def words(self) -> List[str]:
        return [f"{name}={column}" for name, column in zip(self.names, self.header)]

    @property
    def text(self) -> str:
        return printed([["From", "To", *self.header], *(["2024-01-01", "2024-02-01", *row] for row in self.rows)])


@st.composite
def files(draw: Callable[[Any], Any]) -> File:
    names = draw(st.lists(st.sampled_from(NAMES), min_size=1, max_size=3, unique=True))
    count = len(names)
    header = draw(st.lists(HEADERS, min_size=count, max_size=count, unique=True))
    # A word is a name of the header if that has it, so it mustn't be another column's.
    assume(not {f"{name}={column}" for name, column in zip(names, header)} & {*header, "From", "To"})
    assume(not {"From", "To"} & {*header})
    # A name of the table mustn't be another column's in the file, since options take both.
    assume(not any(name in header and header.index(name) != place for place, name in enumerate(names)))
    values = st.lists(st.one_of(st.sampled_from(["", "A", " A"]), FIELDS), min_size=count, max_size=count)
    return File(names, header, draw(st.lists(values, max_size=6)))


def loaded(words: List[str], file: File) -> List[List[str]]:
    status, text, said = run(["tools/csv-to-load", "t", "From", "To", *words], file.text)
    if status:
        raise AssertionError(said)
    return list(csv.reader(io.StringIO(text, newline="")))


class Columns(unittest.TestCase):
    @DRAWN
    @given(files(), st.permutations(range(3)))
    def test_columns_go_where_their_names_say(self, file: File, order: List[int]) -> None:
        table = ["table", "t", *(text for name in file.names for text in (name, "text"))]
        words = [file.words[place] for place in order if place < len(file.names)]
        row = ["row", "2024-01-01", "2024-02-01"]
        wanted = [["load", "t"], *([*row, *values] for values in file.rows), ["end"]]
        self.assertEqual(loaded([*words, "--table", printed([table])], file), wanted)
        by_name: List[Dict[str, str]] = [dict(zip(file.names, values)) for values in file.rows]
        note = [word.partition("=")[0] for word in words]
        plain = [["load", "t"], *([*row, *(one[name] for name in note)] for one in by_name), ["end"]]
        self.assertEqual(loaded(words, file), plain)

    @DRAWN
    @given(files())
    def test_updates_have_the_table_s_names(self, file: File) -> None:
        if len(file.names) < 2:
            return
        first, *others = file.names
        wanted = [
            ["update", "t", "2024-01-01", "2024-02-01", "set", *(one for pair in zip(others, values) for one in pair),
             "where", first, value]
            for value, *values in file.rows
        ]
        empty = [f"--empty={column}" for column in file.header[1:]]
        self.assertEqual(loaded([*file.words, "--update", first, *empty], file), wanted)

    @DRAWN
    @given(files(), st.integers(1, 3))
    def test_deletes_have_the_table_s_names(self, file: File, count: int) -> None:
        names = file.names[:count]
        wanted = [
            ["delete", "t", "2024-01-01", "2024-02-01", "where", *(one for pair in zip(names, row) for one in pair)]
            for row in file.rows
        ]
        self.assertEqual(loaded([*file.words[:count], "--delete"], file), wanted)

    @DRAWN
    @given(files(), st.data())
    def test_equal_rows_are_loaded_once(self, file: File, data: Any) -> None:
        again = data.draw(st.lists(st.sampled_from(file.rows), max_size=6)) if file.rows else []
        rows = [*file.rows, *again]
        once = [[*row] for row in dict.fromkeys(map(tuple, rows))]
        status, text, said = run(
            ["tools/csv-to-load", "t", "From", "To", *file.words, "--drop-equal"],
            file._replace(rows=rows).text,
        )
        found = list(csv.reader(io.StringIO(text, newline="")))
        self.assertEqual((status, [record[3:] for record in found[1:-1]]), (0, once), said)
        count = len(rows) - len(once)
        note = f"--drop-equal: {count} row" if count else "--drop-equal: no row is equal to an earlier one"
        self.assertIn(note, said)


if __name__ == "__main__":
    unittest.main()
