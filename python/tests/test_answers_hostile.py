"""The tools' output for odd texts and names, compared with Python's csv.

hypothesis draws tables, rows and a question. The program answers, and each tool's table must have exactly the fields
that a plain reading of those bytes finds. TOOLS_EXAMPLES is how many are drawn.
"""
import csv
import io
import json
import sqlite3
import subprocess
import sys
import tempfile
import unittest
from contextlib import closing
from datetime import date, timedelta
from pathlib import Path
from typing import Any, Callable, List, NamedTuple, Optional, Tuple

from tests.by_hypothesis import drawn, example, given, needs_program, st
from tests.support import PROGRAM, run

DRAWN = drawn()
# Names that answers have for columns of their own, and others.
NAMES = [
    "row_id", "id", "valid_from", "valid_to", "sys_from", "sys_to", "count", "sum_n", "part", "instant", "change",
    "left_id", "right_id", "left_a", "row_id_", "a", "n", "x" * 32,
]
# Signs of CSV, spreadsheets, shells, SQLite and terminals, and characters without ink.
PIECES = [
    '"', '""', ",", "\n", "\r", "\r\n", "\nend,1\n", "\nrow,1,2024-01-01,2024-02-01,", "end", "=1+1", "-5", "@", "\t",
    "'", ";", " ", "\x1b[2J", "\x07", "\x7f", "\x85", "\u2028", "\u202e", "\u3164", "\ufeff", "\u00fc", "u\u0308",
    "\U0001f600", "NULL", "-", "007", "1e5", "9" * 20, "%s", "{0}", "--", "\\", "`id`", "$(id)",
    # Python's csv reads it since 3.11.
    *(["\0"] if sys.version_info >= (3, 11) else []),
]
LONGEST = 4096


def is_short(text: str) -> bool:
    return len(text.encode()) <= LONGEST


TEXTS = st.one_of(
    st.sampled_from(["", "end", "\u00fc" * (LONGEST // 2), '"' * LONGEST, ",\n" * (LONGEST // 2)]),
    st.lists(st.sampled_from(PIECES), max_size=5).map("".join),
    st.text(st.characters(blacklist_categories=["Cs"], blacklist_characters="\0"), max_size=20),
).filter(is_short)
NUMBERS = st.one_of(st.integers(-(1 << 63), (1 << 63) - 1), st.integers(-3, 3)).map(str)
DAYS = st.integers(0, 20).map(lambda days: date(2024, 1, 1) + timedelta(days))
ENDS = st.one_of(st.integers(1, 9).map(timedelta), st.none())


class Case(NamedTuple):
    """A script whose last command is a question, and the index of numbers that may be missing, if it has one."""

    script: str
    open_place: Optional[int] = None


def printed(records: List[List[str]]) -> str:
    text = io.StringIO()
    # csv's writer quotes a field only for the characters of its own line ends.
    csv.writer(text, lineterminator="\r\n").writerows(records)
    return text.getvalue()


@st.composite
def cases(draw: Callable[[Any], Any]) -> Case:
    """A table of odd names with rows of odd texts, and a question about it."""
    names = draw(st.lists(st.sampled_from(NAMES), min_size=1, max_size=4, unique=True))
    kinds = [draw(st.sampled_from(["int", "text", "text"])) for _ in names]
    values = st.tuples(*(NUMBERS if kind == "int" else TEXTS for kind in kinds))
    rows = draw(st.lists(st.tuples(DAYS, ENDS, values), max_size=6))
    table = ["table", "t", *(one for pair in zip(names, kinds) for one in pair)]
    loaded = [["row", str(start), str(start + end) if end else "9999-12-31", *row] for start, end, row in rows]
    column = draw(st.sampled_from(range(len(names))))
    value = draw(NUMBERS if kinds[column] == "int" else TEXTS)
    change = ["update", "t", "2024-01-05", "2024-01-09", "set", names[column], value]
    numbers = [name for name, kind in zip(names, kinds) if kind == "int"]
    question, place = draw(st.sampled_from([
        *((["agg", "t", word, name], None) for name in numbers for word in ("sum", "min")),
        (["rows", "t"], None), (["at", "t", "2024-01-07"], None), (["between", "t", "0", "9"], 4),
        (["fromto", "t", "1", "3"], 4), (["agg", "t", "count", "by", names[column]], None), (["join", "t", "t"], None),
        (["join", "t", "t", "on", names[column], names[column]], None), (["anti", "t", "t", "asof", "2"], None),
        (["dip", "t"], None), (["log"], None), (["rows", "t", "asof", "2"], None),
    ]))
    return Case(printed([table, ["load", "t"], *loaded, ["end"], change, question]), place)


def read_plainly(output: bytes, place: Optional[int]) -> List[List[Optional[str]]]:
    """Returns the fields of the last answer, read only by csv; at one index `-` is None."""
    records = list(csv.reader(io.StringIO(output.decode(), newline="")))
    if records[-1][0] == "part" or records[-1][0] == "dip":
        [opening] = [record for record in records if record[0] == "dip"]
        parts = [record for record in records if record[0] == "part"]
        return [[part, row, opening[3]] for _, part, *ids in parts for row in ids]
    count = int(records[-1][1])
    found: List[List[Optional[str]]] = [[*record[1:]] for record in records[len(records) - 1 - count:-1]]
    for record in found:
        if place is not None and record[place] == "-":
            record[place] = None
    return found


def is_run(field: str) -> bool:
    """Returns whether a spreadsheet runs a text: by its first sign, except a sign by itself or a number's minus."""
    digits = field[1:].replace(",", ".").split(".")
    is_number = field[:1] == "-" and len(digits) <= 2 and all(one.isascii() and one.isdigit() for one in digits)
    return field[:1] in {*"=+-@\t\r\n\uff1d\uff0b\uff0d\uff20"} and field not in "+-" and not is_number


class Tools:
    """A case in files: its script, and the program's answers."""

    def __init__(self, case: Case, folder: str) -> None:
        self.script, self.kept = Path(folder, "script.csv"), Path(folder, "answers.csv")
        self.database = Path(folder, "z.db")
        self.script.write_bytes(case.script.encode())
        ran = subprocess.run([str(PROGRAM)], input=case.script.encode(), capture_output=True)
        self.kept.write_bytes(ran.stdout)
        self.wanted = read_plainly(ran.stdout, case.open_place)

    def run(self, words: str) -> Tuple[int, str, str]:
        name, *others = words.split()
        return run(["tools/answers", name, str(self.script), *others])

    def by_csv(self, more: str) -> Tuple[List[str], List[List[str]]]:
        status, text, said = self.run(f"csv {more}")
        assert status == 0, said
        header, *records = csv.reader(io.StringIO(text, newline=""))
        return header, records

    def by_json(self, more: str) -> Tuple[List[str], List[List[Optional[str]]]]:
        status, text, said = self.run(f"json last {more}")
        assert status == 0, said
        [answer] = json.loads(text)
        records = [[None if one is None else str(one) for one in record.values()] for record in answer["records"]]
        return [column["name"] for column in answer["columns"]], records

    def by_sqlite(self, more: str) -> Tuple[List[str], List[List[Optional[str]]]]:
        status, _, said = self.run(f"sqlite {self.database} last=found {more}")
        assert status == 0, said
        with closing(sqlite3.connect(self.database)) as database:
            found = database.execute("select * from found order by rowid")
            names = [name for name, *_ in found.description]
            return names, [[None if one is None else str(one) for one in record] for record in found]


@needs_program
class Hostile(unittest.TestCase):
    @DRAWN
    @example(case=Case('table,t,row_id,text\nload,t\nrow,2024-01-01,2024-02-01,"\nend,1\n"\nend\nlog\nrows,t\n'))
    @example(case=Case("table,t,count,int\nload,t\nrow,2024-01-01,2024-02-01,-5\nend\nlog\nagg,t,count,by,count\n"))
    @given(case=cases())
    def test_each_tool_has_the_fields_that_the_program_printed(self, case: Case) -> None:
        with tempfile.TemporaryDirectory() as folder:
            tools = Tools(case, folder)
            wanted = tools.wanted
            texts = [["" if one is None else one for one in record] for record in wanted]
            for more in ("", f"--answers {tools.kept}"):
                header, records = tools.by_csv(more)
                self.assertEqual(records, texts)
                self.assertEqual(len(set(header)), len(header))
                self.assertEqual(tools.by_json(more), (header, wanted))
            self.assertEqual(tools.by_sqlite(f"--answers {tools.kept}"), (header, wanted))

    @DRAWN
    @given(case=cases())
    def test_a_spreadsheet_runs_no_field(self, case: Case) -> None:
        with tempfile.TemporaryDirectory() as folder:
            tools = Tools(case, folder)
            more = f"--answers {tools.kept} --for-spreadsheet --german"
            status, text, said = tools.run(f"csv {more}")
            self.assertEqual((status, text[0]), (0, "\ufeff"), said)
            _, *records = csv.reader(io.StringIO(text[1:], newline=""), delimiter=";")
            for record, plain in zip(records, tools.wanted):
                for field, one in zip(record, plain):
                    self.assertFalse(is_run(field), field)
                    self.assertIn(field, (one or "", f"'{one}"))


if __name__ == "__main__":
    unittest.main()
