"""What tools/answers finds in scripts: possible mistakes, tables, ends of lists, and the line on a terminal."""
import contextlib
import io
import os
import tempfile
import time
import unittest
from pathlib import Path
from typing import Iterator
from unittest import mock

from ruzgalt import progress, which
from ruzgalt.cli import streams
from ruzgalt.progress import Progress
from ruzgalt.script import records
from tests.support import NEEDS_PANDAS, ToolCase, run

PAY = "table,pay,person,text,euros,int\nload,pay\nrow,2024-01-01,2024-03-01,A,5\nrow,2024-04-01,2024-06-01,A,6\nend\n"


OTHER = "table,of,name,text\nload,of\nrow,2024-01-01,{},{}\nend\n"
CHANGE = "update,pay,{},{},set,euros,7{}\n"
LOADED = "load,pay\nrow,{},A,7\nend\n"
# Lines after PAY in a script, and the possible mistake that is reported, or an empty text.
MARKS = [
    (CHANGE.format("2024-01-01", "2024-12-01", ""), "it has no `where`, so it changed all rows of that time: 2"),
    ("delete,pay,2024-01-01,2024-04-30,where,person,A\n", "2024-04-30 isn't in it: a portion ends before its TO"),
    ("delete,pay,2024-01-01,2024-05-30T23:59:59,where,person,A\n", "2024-05-30T23:59:59 isn't in it"),
    *((CHANGE.format("2024-05-01", end, ",where,person,A"), part) for end, part in (
        ("2024-08-01",
         "each row that it changed ends by 2024-06-01, before 2024-08-01: an update can't lengthen a row; load"),
        ("2024-06-01", ""), ("2024-06-01T00:00:00", ""), ("9999-12-31", ""),
    )),
    (LOADED.format("2024-07-01,2024-07-05T23:59:59"), "2024-07-05T23:59:59 doesn't hold in that second"),
    *((PAY.partition("\n")[2][:-1] + end, "it has the same rows as the load at line 2") for end in ("\n", "")),
    ("delete,pay,2030-01-01,2031-01-02\n", "no row holds in that time, so nothing was changed"),
    (LOADED.format("2024-07-01T08:00:00,2024-07-01T12:00:00") + "at,pay,2024-07-01\n",
     "pay has times of day, and this is the midnight"),
    ("load,pay\nrow,2024-08-01,2024-09-01,A,1\nrow,2024-08-01,2024-09-01,A,x\nend\n"
     + LOADED.format("2024-07-01,2024-08-01"), "1 of its other rows are in no later load"),
    (OTHER.format("2024-03-01", "a") + "join,pay,of,on,person,name\n",
     "no value of these columns in common, so no row matches: 'A' and 'a' look alike"),
    (OTHER.format("2024-03-01", "a") + "load,of\nrow,2024-01-01,2024-03-01,A \nend\njoin,pay,of,on,person,name\n",
     "so no row matches: 'A' and 'a' look alike"),
    ("anti,pay,pay,on,person,person\n", "without one of pay, ask by anti,pay,pay"),
    ("table,of,name,text\nanti,of,pay,on,name,person\n", ""),
    ('update,pay,2024-01-01,2024-12-01,set,euros,7,where,person,"A\nrows,pay\n',
     "continues to lines that look like records"),
    ("load,pay\nrow,2024-07-01,2024-08-01,a,6\nend\n",
     "line 6: load,pay: 'A' and 'a' look alike, but are two texts"),
    *((OTHER.format("2024-07-01", "A") + f"anti,pay,of,on,person,name,asof,{commit}\n", part) for commit, part in (
        (2, "of was made by commit 3, so commit 2 has no row of it"),
        (3, "of has rows from commit 4 on, so commit 3 has no row of it"), (4, "each row of pay is matched"),
    )),
]


class Lists(unittest.TestCase):
    def noted(self, script: str, tool: str = "list") -> str:
        return run(["tools/answers", tool, "-", "--go-on"], script)[2]

    def is_marked(self, script: str, part: str) -> None:
        with self.subTest(script):
            said = self.noted(script)
            self.assertEqual((part in said, said == ""), (True, part == ""), said)

    def test_possible_mistakes_are_marked(self) -> None:
        for more, part in MARKS:
            self.is_marked(PAY + more, part)
        self.is_marked("ok,1\n", "these are answers, not a script")
        later = PAY.replace("2024-06-01", "2024-05-31") + "delete,pay,2024-01-01,2024-05-31,where,person,A\n"
        # A portion to the own end of a row.
        self.is_marked(later, "")
        for more, part in MARKS[-3:-1]:
            self.assertIn(part, self.noted(PAY + more, "csv"))

    def test_marks_of_one_kind_are_one_line(self) -> None:
        nothing = "update,pay,2024-01-01,2024-02-01,set,euros,{},where,person,B\n"
        script = PAY + "".join(map(nothing.format, range(6))) + CHANGE.format("2024-01-01", "2024-06-01", "")
        one, other = self.noted(script).splitlines()
        self.assertIn("answers: line 6: update,pay,", one)
        others = "(likewise line 7, line 8, line 9 and 2 more, which `tools/answers refusals` lists)"
        self.assertTrue(one.endswith(f"so nothing was changed {others}"), one)
        self.assertIn("answers: line 12: ", other)
        said = self.noted(script, "refusals")
        self.assertEqual([line.split(": ")[1] for line in said.splitlines()], [f"line {6 + more}" for more in range(7)])
        said = self.noted(PAY + nothing.format(1) * 3)
        self.assertTrue(said.endswith("so nothing was changed (likewise line 7, line 8)\n"), said)

    def test_a_check_that_says_no_and_a_join_without_columns_come_first(self) -> None:
        first, second, third = self.noted(
            PAY + "delete,pay,2030-01-01,2030-02-01\njoin,pay,pay\ncheck,pay,1,-\npart,1\nend\n"
        ).splitlines()
        self.assertIn("join,pay,pay: it has no `on`, so each row of pay is joined with every row of pay of the", first)
        self.assertIn("check,pay,1,-: No: row 2 is in no part.", second)
        self.assertIn("so nothing was changed", third)

    def test_quotes_that_may_not_be_meant_are_marked(self) -> None:
        row = "load,pay\nrow,2024-01-01,2024-03-01,{},5\nrow,2024-01-01,2024-03-01,{},5\nend\n"
        for first, second, part in [
            ('"B\nrow,2024-01-01,2024-03-01,C"', "D", "line 7: B\\nrow,2024-01-01,2024-03-01,C continues to lines"),
            (' "B"', "D", 'line 7:  "B" has a blank before its quote, so blank and quotes are part of it'),
            ("'B'", "'D'", "'B' has single quotes, which are part of it: fields are quoted by double quotes (1 more"),
            (" B", "D ", "line 7:  B has a blank at an end, which is part of it (1 more such fields)"),
            ('"Byron, Ada "', "D", "line 7: Byron, Ada  has a blank at an end"),
            ('"two\nlines"', "O'Neill", ""), ('"Byron, Ada"', "van D", ""),
        ]:
            self.is_marked(PAY + row.format(first, second), part)

    def test_a_script_that_is_empty_is_marked(self) -> None:
        for tool in ("list", "page", "json"):
            self.assertIn("the script is empty", self.noted("\n", tool))

    def test_rows_that_overlap_without_a_key_are_marked_with_the_question(self) -> None:
        script = PAY.replace("2024-04-01", "2024-02-01")
        part = "1 and 2, equal in person, hold at the same time; `tools/answers overlaps SCRIPT person --ask rows,pay`"
        self.is_marked(script, part)
        part = "pay has a key of all columns, and rows 1 and 2, equal in person, hold at the same time"
        self.is_marked(script.replace("euros,int", "euros,int,key,person,euros"), part)
        for other in (script.replace("euros,int", "euros,int,key,person"), script.replace("A,6", "B,6"), PAY):
            self.is_marked(other, "")

    def test_ends_of_rows_that_look_like_last_days_are_marked(self) -> None:
        follows = "TO: of rows that follow one of the same person, 1 start on the day after it (line 4 after line 3)"
        year = "TO is 2024-12-31: a row no longer holds on that day; one that has it ends on the next"
        touching = PAY.replace("2024-04-01", "2024-03-01")
        other = "load,pay\nrow,2024-06-{},2024-07-01,A,7\nend\n"
        for script, part in [
            (PAY.replace("2024-03-01", "2024-03-31"), follows), (PAY, ""),
            ("table,t,a,int\nload,t\nrow,2024-01-01,2024-12-31,1\nend\n", year), (touching, ""),
            (touching + other.format("02"), "1 start on the day after it (line 7 after line 4) and 1 start on it"),
            (touching + other.format("01"), ""), (PAY + other.format("15"), ""),
            ("table,t\nload,t\nrow,2024-01-01,2024-03-31\nrow,2024-04-01,2024-05-01\nend\n", ""),
        ]:
            self.is_marked(script, part)

    def test_ends_on_which_other_rows_start_are_not_marked(self) -> None:
        """Of rows of a day each, day by day, and of a diary whose entries are of last days of months."""
        for commits, days in (("1112", ("01-29", "01-30", "01-31", "02-01", "02-02")),
                              ("2345", ("01-31", "02-29", "03-31", "04-30", "05-31"))):
            rows = "".join(f"row,2024-{one},2024-{end},{commit}\n" for one, end, commit in zip(days, days[1:], commits))
            self.is_marked(f"table,diary,newest,int\nload,diary\n{rows}end\n", "")


DIARY = "table,diary,newest,int\nload,diary\nrow,2024-01-01,{}\nrow,{}\nend\n"


class Tables(ToolCase):
    @NEEDS_PANDAS
    def test_overlaps_and_gaps_are_by_the_size_of_numbers(self) -> None:
        periods = "2024-01-01,2024-02-01", "2024-03-01,2024-04-01"
        rows = [f"{period},{number}" for number in (10, 9) for period in periods]
        script = "table,t,desk,int\nload,t\n" + "".join(f"row,{row}\n" for row in rows * 2) + "end\nrows,t\n"
        for command, heads in (("gaps", "valid_from,valid_to,desk"), ("overlaps", "row_id,other_row_id,valid_from,")):
            first, *records = run(["tools/answers", command, "-", "desk"], script)[1].splitlines()
            self.assertTrue(first.startswith(heads))
            numbers = [int(record.split(",")[-1]) for record in records]
            self.assertEqual((numbers, set(numbers)), (sorted(numbers), {9, 10}))

    @NEEDS_PANDAS
    def test_gaps_and_overlaps_are_those_of_the_answer_s_own_commit(self) -> None:
        self.ends(0, {"gaps - person": "valid_from,valid_to,person\n2024-03-01,2024-04-01,A\n"}, PAY + "rows,pay\n")
        script = PAY.replace("2024-04-01", "2024-02-01") + "rows,pay\ndelete,pay,2024-01-01,2024-02-10\nrows,pay\n"
        heads = "row_id,other_row_id,valid_from,valid_to,person\n"
        self.ends(0, {
            "overlaps - person --of 3": f"{heads}1,2,2024-02-01,2024-03-01,A\n",
            "overlaps - person --of 5": f"{heads}3,4,2024-02-10,2024-03-01,A\n",
        }, script)

    def test_history_tells_what_each_commit_changed_of_a_fact(self) -> None:
        script = PAY + "update,pay,2024-05-01,2024-06-01,set,euros,9,where,person,A\n"
        wanted = "commit,place,change,valid_from,valid_to,person,euros\n3,line 6,-,2024-05-01,2024-06-01,A,6\n"
        wanted += "3,line 6,+,2024-05-01,2024-06-01,A,9\n"
        self.ends(0, {"history - pay --where person=A --commit 3": wanted}, script)
        # By a diary, the past that a commit changed.
        script += DIARY.format("2024-05-11,2", "2024-05-11,9999-12-31,3")
        wanted = "commit,place,entered,change,valid_from,valid_to,person,euros\n"
        wanted += "3,line 6,2024-05-11,-,2024-05-01,2024-05-11,A,6\n3,line 6,2024-05-11,+,2024-05-01,2024-05-11,A,9\n"
        words = "history - pay --diary diary --retroactive --commit"
        self.ends(0, {f"{words} {commits}": wanted for commits in ("3", "3-", "3-4")}, script)

    def test_a_diary_of_commits_that_aren_t_there_is_reported(self) -> None:
        strange = "it names commit 9, which doesn't exist"
        script = PAY + DIARY.format("2024-02-01,1", "2024-02-01,2024-03-01,9")
        note = f"answers: --diary diary: {strange}: the newest is 4\n"
        self.ends(0, {"history - pay --diary diary": note, "page - --diary diary": strange}, script)
        without = "commits without a day, which --retroactive leaves out: 2"
        self.ends(0, {"history - pay --diary diary": without}, script.replace(",9\n", ",1\n"))

    def test_history_without_rows_or_commits_is_reported(self) -> None:
        self.ends(0, {"history - pay --where person=a": "no row of pay ever had the values of --where"}, PAY)
        self.ends(1, {
            "history - pay --commit 3": "no such commit; the newest is 2",
            "history - pay --commit 2-3": "2-3: no such commits", "history - pay --commit 2-1": "2-1: no such commits",
            "history - pay --commit 3-": "3-2: no",
        }, PAY)

    def test_open_ends_are_null_and_a_day_is_a_view_where_asked(self) -> None:
        words = "sqlite - :memory: --open-null --day 2030-01-01 --ask all=rows,pay --query 'select * from all_day'"
        wanted = "row_id,valid_from,valid_to,person,euros\n2,2024-04-01,,A,6\n"
        self.ends(0, {words: wanted}, PAY.replace("2024-06-01", "9999-12-31"))

    def test_possible_mistakes_come_after_a_table_too(self) -> None:
        changes = "".join(
            f"update,pay,2024-0{number}-01,2024-0{number}-02,set,euros,7,where,person,a\n" for number in range(1, 4)
        )
        wrong = "update,pay,2024-01-01,2024-06-30,set,euros,7\ndelete,pay,2030-01-01,2030-01-02\n"
        script = PAY + changes + wrong + "rows,pay\nat,pay,2024-01-05\n"
        status, _, said = run(["tools/answers", "csv", "-"], script)
        self.assertEqual((status, said.count("\n")), (0, 3), said)
        self.assertIn("so nothing was changed (likewise line 7, line 8, line 10)", said)
        script += "load,pay\nrow,2024-07-01,2024-07-01T23:59:59,'B1',1\nend\n"
        script += "rows,pay,asof,1\njoin,pay,pay,on,euros,euros,asof,1\nat,pay,2024-01-05\n"
        status, _, said = run(["tools/answers", "csv", "-"], script)
        self.assertEqual((status, said.count("\n")), (0, 6), said)
        self.assertRegex(said, r"answers: \d+ more possible mistakes: `tools/answers list` has all\n$")


class LongLists(ToolCase):
    TEXT = '"A\nend,9\n"'
    SCRIPT = PAY.replace("A,6", f"{TEXT},6").replace("euros,int", "euros,int,key,person") + "rows,pay\nlog\n"
    ROWS = f"1,2024-01-01,2024-03-01,A,5\n2,2024-04-01,2024-06-01,{TEXT},6\n"

    def test_an_end_in_a_text_is_no_end_of_the_list(self) -> None:
        for size in (1, 2, 3):
            with self.subTest(size), mock.patch.object(records, "PIECE", size):
                self.ends(0, {"csv - 3": f"row_id,valid_from,valid_to,person,euros\n{self.ROWS}"}, self.SCRIPT)
                self.ends(0, {"csv - 4": "\n2,1,load,pay,2,0\n"}, self.SCRIPT)

    def test_a_list_without_its_end_is_reported(self) -> None:
        output = "ok,1\nok,2\nrow,1,2024-01-01,2024-03-01,A,5\nrow,2,2024-04-01,2024-06-01,A,6\n"
        with tempfile.TemporaryDirectory() as folder, mock.patch.object(records, "PIECE", 1):
            program = Path(folder, "program")
            program.write_text(f"#!/bin/sh\ncat >/dev/null\nprintf '{output}'\n")
            program.chmod(0o700)
            with mock.patch.dict(os.environ, DIPQ=str(program)):
                self.ends(1, {"csv -": "the answers end before the list's end"}, PAY + "rows,pay\n")


class Terminals(unittest.TestCase):
    @contextlib.contextmanager
    def terminal(self, is_one: bool = True) -> Iterator[io.StringIO]:
        """Yields standard error, a terminal if `is_one`, without waiting for two seconds."""
        said = io.StringIO()
        with contextlib.redirect_stderr(said), mock.patch.object(said, "isatty", return_value=is_one, create=True):
            with mock.patch.multiple(Progress, PATIENCE=0.01, PAUSE=0.01):
                yield said

    def wait_for(self, said: io.StringIO, part: str) -> None:
        for _ in range(1000):
            if part in said.getvalue():
                return
            time.sleep(0.01)
        self.fail(f"no {part!r}, but {said.getvalue()!r}")

    def test_a_line_tells_how_far_a_tool_is(self) -> None:
        with self.terminal() as said, Progress("answers list"):
            self.wait_for(said, "\ranswers list: 0 s\033[K")
            with Progress("answers") as advance:
                advance(2000)
                self.wait_for(said, "\ranswers: 2,000 records\033[K")
            streams.report("something")
            self.assertIn("\r\033[Ksomething\n", said.getvalue())
        self.assertRegex(said.getvalue(), "(\n|\r\033\\[K)$")

    def test_a_line_ends_when_something_else_is_printed(self) -> None:
        with self.terminal() as said, Progress("answers"):
            self.wait_for(said, "\ranswers: 0 s\033[K")
            progress.end()
            shown = said.getvalue()
            time.sleep(0.1)
            self.assertEqual((said.getvalue(), shown[-4:]), (shown, "\r\033[K"))

    def test_no_line_is_shown_in_a_pipe_or_for_short_runs(self) -> None:
        with self.terminal(is_one=False) as said, Progress("answers"):
            time.sleep(0.1)
        self.assertEqual(said.getvalue(), "")
        said = io.StringIO()
        with contextlib.redirect_stderr(said), mock.patch.object(said, "isatty", return_value=True, create=True):
            with Progress("answers") as advance:
                advance(1000)
        self.assertEqual(said.getvalue(), "")


class Programs(ToolCase):
    def test_the_program_is_named_or_in_the_package_or_next_to_it_or_on_the_path(self) -> None:
        with tempfile.TemporaryDirectory() as name:
            folder = Path(name)
            for place in (folder, folder / "bin", folder / "within"):
                place.mkdir(exist_ok=True)
                (place / "dipq").write_text("#!/bin/sh\n")
                (place / "dipq").chmod(0o700)
            places = mock.patch.multiple(which, TOP=folder, WITHIN=folder / "within")
            with mock.patch.dict(os.environ, {"PATH": f"{folder}/bin"}), places:
                os.environ.pop("DIPQ", None)
                self.assertEqual(which.program(), f"{folder}/within/dipq")
                (folder / "within" / "dipq").unlink()
                self.assertEqual(which.program(), f"{folder}/dipq")
                (folder / "dipq").unlink()
                self.assertEqual(which.program(), f"{folder}/bin/dipq")
                os.environ["DIPQ"] = "/another"
                self.assertEqual(which.program(), "/another")

    def test_a_package_in_another_project_has_not_that_project_s_version(self) -> None:
        with tempfile.TemporaryDirectory() as folder, mock.patch.object(which, "TOP", Path(folder)):
            Path(folder, ".git").mkdir()
            with mock.patch.dict(os.environ):
                os.environ.pop("SOURCE_DATE_EPOCH", None)
                self.assertEqual(which.version(), "0+unknown")

    def test_a_program_that_is_missing_is_reported_with_its_name_in_the_environment(self) -> None:
        with mock.patch.dict(os.environ, DIPQ="/none/dipq"):
            self.ends(1, {"csv -": "DIPQ in the environment"}, PAY)


if __name__ == "__main__":
    unittest.main()
