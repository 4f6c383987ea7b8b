"""Questions as of a day, by a diary of the script, compared with questions as of the newest commit then."""
import unittest
from typing import NamedTuple

from ruzgalt.script import run as program
from tests.support import run

PAY = """table,pay,person,text,euros,int,key,person
load,pay
row,2024-01-01,9999-12-31,Ada,5000
row,2024-03-01,2025-01-01,Grace,4800
end
update,pay,2024-07-01,2025-01-01,set,euros,5400,where,person,Ada
delete,pay,2024-10-01,9999-12-31,where,person,Grace
"""
DIARY = """table,diary,newest,int,who,text
load,diary
row,2024-01-02,2024-06-14,2,Ada
row,2024-06-14,2024-09-20,3,Grace
row,2024-09-20,9999-12-31,4,Ada
end
"""
NO_DIARY = "a diary's first column must be an int, the newest commit from a row's start on"
# The words of each subcommand after the script and its questions.
TOOLS = {
    "csv": "", "json": "", "sqlite": ":memory: --query=select\t*\tfrom\ta", "picture": "", "changed": "",
    "overlaps": "person", "gaps": "person", "coalesce": "person", "months": "--sum euros --per=month --to 2025-01-01",
    "next": "--table t", "list": "", "history": "pay", "refusals": "",
    "raise": "pay euros --percent 2 --from 2024-08-01 --dry-run --round half-up",
}


class Ran(NamedTuple):
    status: int
    printed: str
    said: str


def asked(words: str, *more: str, script: str = PAY + DIARY) -> Ran:
    """What a subcommand does with the script; tabs stand for blanks within a word."""
    tool, *others = words.split(" ")
    given = [tool, "-", *(one.replace("\t", " ") for one in others if one), *more]
    return Ran(*run(["tools/answers", *given], script))


def named(tool: str, question: str) -> str:
    """The question, with a name where the subcommand makes something that has it."""
    return f"a={question}" if tool in ("json", "sqlite", "page") else question


class AsOf(unittest.TestCase):
    def is_refused(self, why: str, *words: str, script: str = PAY + DIARY) -> None:
        with self.subTest(why):
            self.assertEqual(asked("csv", *words, script=script), (1, "", f"answers: {why}\n"))

    def test_a_question_as_of_a_day_is_that_as_of_its_commit(self) -> None:
        for tool, more in TOOLS.items():
            twice = ["--ask", "rows,pay"] if tool == "changed" else []
            with self.subTest(tool):
                by_number = asked(f"{tool} {more}", *twice, "--ask", named(tool, "rows,pay,asof,3"))
                question = named(tool, "rows,pay,asof,2024-06-28")
                by_day = asked(f"{tool} {more}", *twice, "--ask", question, "--diary", "diary")
                if tool == "history":
                    by_number = asked(f"{tool} {more}", "--diary", "diary")
                self.assertEqual(by_day.said, f"answers: asof 2024-06-28 is commit 3, by diary\n{by_number.said}")
                self.assertEqual(by_day[:2], by_number[:2])

    def test_each_point_has_its_commit(self) -> None:
        for point, commit in [
            ("2024-01-02", 2), ("2024-06-13T23:59:59", 2), ("2024-06-14", 3), ("2024-06-14T00:00:00", 3),
            ("2024-09-20", 4), ("9999-12-30", 4),
        ]:
            with self.subTest(point):
                ran = asked("list", "--ask", f"agg,pay,count,asof,{point}", "--diary", "diary")
                self.assertEqual(ran.said, f"answers: asof {point} is commit {commit}, by diary\n")
                self.assertTrue(ran.printed.endswith(f'"agg,pay,count,asof,{commit}"\n'), ran.printed)

    def test_each_command_of_a_question_may_have_a_day_of_its_own(self) -> None:
        check = "check,pay,2,-,asof,2024-03-01\npart,1\npart,2\nend\n"
        block = f"together\nrows,pay,asof,2024-06-14\nrows,pay,asof,2\n{check}end"
        ran = asked("list", "--ask", block, "--ask", "rows,pay,asof,2024-06-14", "--diary", "diary")
        shown = [line.split(",", 5)[5] for line in ran.printed.splitlines()[-5:]]
        wanted = ["together", '"rows,pay,asof,3"', '"rows,pay,asof,2"', '"check,pay,2,-,asof,2"', '"rows,pay,asof,3"']
        self.assertEqual(shown, wanted)
        notes = "answers: asof 2024-06-14 is commit 3, by diary\nanswers: asof 2024-03-01 is commit 2, by diary\n"
        self.assertTrue(ran.said.startswith(notes), ran.said)

    def test_a_difference_of_sums_is_by_the_answer_of_a_day(self) -> None:
        months = "months --per month --ask rows,pay --sum euros --from 2024-07-01 --to 2024-08-01 --diary diary --less"
        ran = asked(f"{months} rows,pay,asof,2024-03-31")
        self.assertEqual(ran[:2], (0, "valid_from,valid_to,euros\n2024-07-01,2024-08-01,400\n"))
        self.assertEqual(ran.said, "answers: asof 2024-03-31 is commit 2, by diary\n")

    def test_a_page_is_made_again_by_the_same_day(self) -> None:
        ran = asked("page --ask then=rows,pay,asof,2024-03-31 --ask rows,pay --diary diary")
        self.assertEqual(ran.status, 0, ran.said)
        self.assertIn('"command":"rows,pay,asof,2"', ran.printed)
        self.assertRegex(ran.printed, "tools/answers page [^\"]* --ask then=rows,pay,asof,2024-03-31 --ask rows,pay")

    def test_a_refused_change_is_reported_as_without_a_day(self) -> None:
        script = f"load,none\nend\n{PAY}{DIARY}"
        words = ["--ask", "rows,pay,asof,2024-06-28", "--diary", "diary"]
        ran = asked("csv", *words, script=script)
        self.assertEqual((ran.status, ran.printed, ran.said.count("\n")), (1, "", 1))
        self.assertIn("line 1: load,none: NoTable", ran.said)
        self.assertEqual(asked("csv --go-on", *words, script=script).printed, asked("csv", *words).printed)

    def test_a_day_that_has_no_commit_is_refused(self) -> None:
        for day, why in [
            ("2024-01-01", "asof 2024-01-01: the first day in diary is 2024-01-02"),
            ("2024-02-30", "asof 2024-02-30 isn't a day that exists"),
            ("2024-02-03T24:00:00", "asof 2024-02-03T24:00:00 isn't a time of day: the last is 23:59:59"),
        ]:
            self.is_refused(why, "--ask", f"rows,pay,asof,{day}", "--diary", "diary")
        question = ["--ask", "rows,pay,asof,2024-07-01", "--diary", "diary"]
        ended = "asof 2024-07-01: diary doesn't say which commit was the newest then: its last row before that, of"
        for old, new, why in [
            ("2024-09-20,3", "2024-07-01,3", f"{ended} commit 3, ends 2024-07-01"),
            ("row,2024-06-14,2024-09-20,3,Grace\n", "", f"{ended} commit 2, ends 2024-06-14"),
            (",4,Ada", ",40,Ada", "--diary diary: it names commit 40, which doesn't exist: the newest is 6"),
            (",2,Ada", ",5,Ada", "--diary diary: commit 3 is the newest from 2024-06-14 on, but 5 before that"),
            ("newest,int", "newest,text", f"diary: {NO_DIARY}"),
        ]:
            self.is_refused(why, *question, script=PAY + DIARY.replace(old, new))
        empty = PAY + DIARY.partition("load")[0]
        self.is_refused("asof 2024-07-01: diary has no day of a commit", *question, script=empty)

    def test_a_diary_is_read_without_a_day_too(self) -> None:
        none, other = "notes: no such table; the tables are pay, diary", f"pay: {NO_DIARY}"
        for tool, more in [*TOOLS.items(), ("page", "--ask a=rows,pay")]:
            twice = ["--ask", "rows,pay"] if tool == "changed" else []
            for name, why in (("notes", none), ("pay", other)):
                with self.subTest(tool, name=name):
                    ran = asked(f"{tool} {more}", *twice, "--ask", named(tool, "rows,pay"), "--diary", name)
                    self.assertEqual(ran, (1, "", f"answers: {why}\n"))

    def test_what_has_no_diary_is_refused(self) -> None:
        day = ["--ask", "rows,pay,asof,2024-07-01"]
        begun = "rows,pay,asof,2024-07-01: asof takes"
        self.is_refused(f"{begun} a commit's number; with --diary TABLE it also takes a day", *day)
        self.is_refused("notes: no such table; the tables are pay, diary", *day, "--diary", "notes")


class Questions(unittest.TestCase):
    def test_one_without_a_day_stays_as_it_is_written(self) -> None:
        for question in [
            'rows,"pay",asof,2', "rows,pay,asof,2024-3-1", "rows,pay,asof", "asof,2024-03-01", "rows,asof,2024-03-01,a",
            "delete,pay,2024-01-01,2024-02-01,where,asof,2024-03-01", "between,pay,asof,2024-03-01",
            "load,pay\nrow,2024-01-01,2024-02-01,asof,2024-03-01\nend", 'rows,pay,asof,"2024-03-01', "", "\n",
            "together\nrows,pay,asof,2024-03-01",
        ]:
            with self.subTest(question):
                self.assertEqual(program.dated(question), {})
                self.assertEqual(program.with_commits(question, {}), question)

    def test_only_the_day_is_replaced_by_its_commit(self) -> None:
        for question, wanted in [
            ('\nrows,"pay",asof,2024-03-01\n', "rows,pay,asof,7\n"),
            ('at,"a,b",2024-03-01,asof,"2024-03-01"', 'at,"a,b",2024-03-01,asof,7\n'),
            ("rows,a\udcff,asof,2024-03-01", "rows,a\udcff,asof,7\n"),
        ]:
            with self.subTest(question):
                self.assertEqual(program.with_commits(question, {"2024-03-01": 7}), wanted)


if __name__ == "__main__":
    unittest.main()
