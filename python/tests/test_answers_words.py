"""The words of tools/answers, with the scripts of examples/ and others, and with answers that are given here."""
import os
import re
import tempfile
import unittest
from pathlib import Path
from unittest import mock

from ruzgalt.cli import answers as answers_tool
from ruzgalt.cli.options import OPTIONS
from ruzgalt.script.records import to_text
from tests.support import EXAMPLE, NEEDS_PANDAS, TOP, ToolCase, run


class Reading(ToolCase):
    def test_wrong_words_end_with_status_2(self) -> None:
        self.ends(2, {"": "usage: ", "tables": "COMMAND: invalid choice: 'tables' (choose from ", "csv": "usage: "})
        self.ends(1, {"csv none.csv": "answers: "})

    def test_answers_are_those_to_the_script(self) -> None:
        self.ends(1, {
            f"csv {EXAMPLE} --answers examples/joins.csv.stdout":
            "answers: examples/joins.csv.stdout, line 4: it has ok,4, and the program prints row,2,2024-03-01,",
            "csv PAY 99": "answers: 99: no such answer",
        })
        self.ends(0, {"csv PAY @7": "row_id,valid_from,valid_to,person,euros\n"})
        other = "answers: standard input, line 2: it has no more, and the program prints ok,2: these answers are "
        self.ends(1, {f"csv {EXAMPLE} --answers -": other}, "ok,1\n")
        with mock.patch.dict(os.environ, DIPQ="/bin/false"):
            self.ends(1, {f"csv {EXAMPLE}": "answers: line 1: "})

    def test_a_refusal_stops_where_it_isn_t_passed_over(self) -> None:
        self.ends(1, {
            "csv TERMS": "answers: line 10: load,terms: BadPeriod: field 2, 2024-10-01, ",
            "refusals TERMS": "line 16: at,posts,2024-07-01: NoTable: field 2, posts, ",
        })
        self.ends(0, {"csv TERMS --go-on": "part,row_id,instant\n0,1,2024-03-15\n"})

    def test_a_picture_takes_the_words_that_it_has_a_use_for(self) -> None:
        self.ends(1, {
            "picture POSTS --by row_id": "can't be drawn with --by",
            "picture POSTS --where row_id=07": "answers: --where row_id=07: not ",
            "picture PAY 4 --where euros=4.800": "answers: --where euros=4.800: not a whole number in digits only",
            "picture PAY 4 --where valid_to=2025-1-1": "answers: --where valid_to=2025-1-1: not a date or time as it ",
            "picture PAY 4 --german": "answers: --german says how decimals are printed, so give --dec",
        })
        self.ends(0, {
            "picture POSTS --from 2030-01-01": ">nothing to draw: ",
            "picture POSTS --svg": 'fill="#c00">2024-02-05</text>\n<text ',
            "picture PAY 4 --german --decimals euros=2": ">54,00</text>",
            "picture PAY 6 --where sys_to= --where euros=5400": ">Byron, Ada 5400</text>",
        })

    def test_changed_compares_what_can_be_compared(self) -> None:
        time = "2024-08-15,2024-08-15T00:00:01"
        second = f'+,{time},"Byron, Ada",5000\n-,{time},"Byron, Ada",5400\n'
        self.ends(0, {"changed PAY 4 5": "change,valid_from,valid_to,person,euros\n" + second})
        twice = "answers: line 7: at,pay,2024-08-15: picked twice\n"
        self.ends(1, {"changed PAY 4 7": "answers: line 10: log: ", "changed PAY 4 @7": twice})
        texts = "table,u,n,text\nload,u\nrow,2024-01-01,2024-02-01,x\nend\n"
        script = f"{texts.replace('text', 'int').replace('u', 't').replace('x', '5')}{texts}rows,t\nrows,u\n"
        note = "line 9 and line 10: rows,t and rows,u: n is int in one, and text in the other"
        self.ends(1, {"changed -": note}, script)


class Options(ToolCase):
    def test_an_option_of_one_value_is_given_once(self) -> None:
        for words in (
            "csv --folder a", "csv --answers a", "history pay --commit 2", "picture --from 2024-01-01",
            "sqlite :memory: --day 2024-01-01", "page --title a", "months --sum euros --each week", "list --diary a",
        ):
            *_, option, value = words.split()
            wrong = f"tools/answers {words.split()[0]}: error: argument {option}: given twice\n"
            self.ends(2, {f"{words.replace(' ', f' {EXAMPLE} ', 1)} {option}={value}": wrong})
        self.ends(0, {"csv PAY --go-on --go-on": "number,"})

    def test_a_word_that_a_shell_has_left_empty_is_refused(self) -> None:
        for words in (
            "csv {} --folder", "picture {} --by", "picture {} --label", "picture {}", "months {} --sum euros",
            "next {} --table t", "list {} --answers",
        ):
            self.ends(2, {words.format(EXAMPLE) + " ''": ": the word is empty\n"})


class Helps(ToolCase):
    def test_help_begins_with_an_example_and_has_the_first_options(self) -> None:
        for words in (["tools/csv-to-load"], *(["tools/answers", name] for name in answers_tool.TOOLS)):
            _, printed, _ = run([*words, "--help"])
            _, whole, _ = run([*words, "--help-all"])
            with self.subTest(words):
                self.assertTrue(printed.startswith(f"For example:\n\n    {' '.join(words)} "), printed)
                shown, there = (re.findall("^  (--[a-z-]+)", text, re.MULTILINE) for text in (printed, whole))
                count = min(len(there), OPTIONS)
                self.assertEqual((len(shown), set(shown) <= set(there)), (count, True), printed)
                self.assertEqual("--help-all lists " in printed, len(there) > count)


STAFF = """table,pay,person,text,cents,int,key,person
load,pay
row,2024-01-01,9999-12-31,Ada,500000
row,2024-01-15,2025-01-01,Bob,300001
end
rows,pay
"""


class Mistakes(ToolCase):
    """What a new user gets wrong is refused or noted, with what to write instead."""

    def test_nothing_is_advised_that_was_given_or_does_not_help(self) -> None:
        german = "--german says how decimals are printed, so give --decimals COLUMN=DIGITS"
        for words, given, part, other in (
            ("csv - --ask at,pay,31.12.2024 --german", STAFF, german, "needs"),
            ("csv - --ask at,pay,31.12.2024", STAFF, "isn't a date or time, such as 2024-01-05", "--go-on"),
            ("csv - --ask at,pay,31.12.2024 --go-on", STAFF, "isn't a date or time, such as 2024-01-05", "--go-on"),
            ("csv -", f"{STAFF}at,pay,x\n", "--go-on goes on", "--ask"),
            ("csv - rows,pay", STAFF, "that is a question, not an answer of the script: --ask rows,pay asks it", "@"),
            ("changed - --ask rows,pay,asof,2", STAFF, "1 answer given, but it takes 2: give one more", "`ok`"),
            ("csv - --ask agg,pay,sum,zz", STAFF, "zz, isn't a column of pay; its columns are person, cents", "docs/"),
        ):
            self.ends(1, {words: part}, given)
            self.assertNotIn(other, run(["tools/answers", *words.split()], given)[2])
        self.ends(1, {"csv - --ask 'rows pay'": "separate fields by commas"}, STAFF)
        self.ends(2, {"xlsx - rows,pay": "rows,pay: not the name of a workbook"}, STAFF)

    @NEEDS_PANDAS
    def test_the_last_day_of_a_month_is_counted_or_reported(self) -> None:
        months = "months - --sum cents --per month --from 2024-12-01 --to "
        note = "--to 2024-12-31: that day isn't counted; --to 2025-01-01, or --last-day, counts it"
        self.ends(0, {f"{months}2024-12-31": note}, STAFF)
        for more in ("2024-12-31 --last-day", "2025-01-01", "2024-12-20"):
            status, printed, said = run(["tools/answers", *(months + more).split()], STAFF)
            self.assertEqual((status, "isn't counted" in said), (0, False), said)
            self.assertTrue(more > "2024-12-31" or f"2024-12-01,{more}," in printed, printed)


class Questions(ToolCase):
    def test_a_refused_question_isn_t_passed_over(self) -> None:
        refused = "answers: --ask: rows,u: NoTable: field 2, u, isn't a table; the "
        tools, script = ("csv -", "csv - --folder none", "json -", "sqlite - :memory:"), "table,t\nrows,t\n"
        self.ends(1, {f"{tool} --go-on --ask rows,u": refused for tool in tools}, script)
        self.ends(1, {"csv - --ask rows,t --ask rows,t": "answers: 2 answers given, but it takes 1:"}, script)
        self.ends(0, {"list - --go-on --ask rows,u": "NoTable,,"}, script)

    def test_a_question_is_a_command_of_its_own(self) -> None:
        self.ends(1, {f"csv {EXAMPLE} --ask ''": "answers: --ask: the question is empty"})
        taken = "answers: --ask at,t,2024-01-01: the question became part of line "
        for cut in ('table,t,a,text\nload,t\nrow,2024-01-01,2024-01-02,"x', "table,t\nload,t", "together\nload,t\nend"):
            self.ends(1, {"csv - --ask at,t,2024-01-01": taken}, cut)


class Forms(ToolCase):
    def test_answers_that_differ_by_a_byte_are_noticed(self) -> None:
        answered = (TOP / f"{EXAMPLE}.stdout").read_text(encoding="utf-8")
        for changed, line, has in [
            (answered.replace(",5400", ",5401"), 5, 'row,4,2024-07-01,2025-01-01,"Byron, Ada",5401, and the program'),
            (answered.replace("\n", "\r\n"), 1, "ok,1\\r, and the program prints ok,1: these"),
            (answered[:-1], answered.count("\n"), "end,3, and"),
            (answered + "ok,4\n", 1 + answered.count("\n"), "ok,4, and"),
        ]:
            with self.subTest(has):
                part = f"answers: standard input, line {line}: it has {has}"
                self.ends(1, {f"list {EXAMPLE} --answers -": part}, changed)

    def test_a_column_may_have_the_name_of_a_period_s_end(self) -> None:
        self.ends(0, {
            "csv -": "valid_to_,valid_from,valid_to,count\nx,2024-01-01,2024-02-01,1\n",
            "picture -": "valid_to: 2024-02-01, count: 1</title>",
        }, "table,t,valid_to,text\nload,t\nrow,2024-01-01,2024-02-01,x\nend\nagg,t,count,by,valid_to\n")


SQLITE = "sqlite PAY :memory: 5=Pay "


class Sqlite(ToolCase):
    def test_tables_have_the_names_of_picks(self) -> None:
        self.ends(0, {"sqlite PAY :memory: 4=pay 7=commits": "table,rows\npay,2\ncommits,3\n"})
        self.ends(1, {
            "sqlite PAY 5=pay": "answers: 5=pay: the DATABASE is missing",
            "sqlite PAY :memory: 5=pay 6=PaY": "give each its own, such as 6=PaY_6\n",
            "json examples/pay.csv --ask a=log --ask A=log": "its own, such as --ask A_9=log\n",
            "picture PAY 4 --from x": "--from x: not a date or time",
            "sqlite PAY 'select * from pay'": "select * from pay: not the name of a DATABASE, which comes after ",
        })

    def test_the_contents_of_a_database_aren_t_lost(self) -> None:
        with tempfile.TemporaryDirectory() as folder:
            words = f"sqlite PAY {folder}/pay.db"
            self.ends(0, {f"{words} 4=pay": "pay,2"})
            self.ends(1, {f"{words} 7=log 5=Pay": "answers: Pay is already in the database, so no table was made: "})
            changes = "--query='delete from more where euros < 5000' --query='create view few as select * from more'"
            self.ends(0, {f"{words} 7=log 5=Pay --replace": "log,3\nPay,2", f"{words} 4=more {changes}": ""})
            self.ends(1, {f"{words} 4=few --replace": "answers: use DROP VIEW to delete view few"})
            self.ends(0, {f"{words} 5=a --query 'select count(*) from few'": "count(*)\n1\n"})

    def test_wrong_queries_are_reported(self) -> None:
        self.ends(1, {
            f"{SQLITE} --query 'select * from pays'":
            "answers: --query: no such table: pays; the tables are Pay(row_id, valid_from, ",
            f"{SQLITE} --query ' '": "answers: --query: the query is empty",
            f"{SQLITE} --query 'select 1; select 2'": "one statement at a time",
        })

    def test_what_a_query_may_lack_is_reported(self) -> None:
        words = "sqlite PAY :memory: 5=a 7=log"
        quotes = "column: Hill, Grace; put a text in "
        self.ends(1, {f"{words} --query 'select * from a where person = \"Hill, Grace\"'": quotes})
        self.ends(0, {
            f"{words} --query 'select x.euros, y.euros from a x, a y'": "several columns are called euros: rename them",
            f"{words} --query 'select cast(person as blob) as p from a limit 1'": 'p\n"Byron, Ada"\n',
            f"{words} --day 2024-08-15": "answers: --day: log has no period, so no view was made of it\n",
        })

    def test_a_name_in_double_quotes_is_a_name(self) -> None:
        words = ["tools/answers", "sqlite", EXAMPLE, ":memory:", "5=Pay", "--query"]
        for name in ("euro", "eu`ro", 'eu""ro'):
            wrong = f"""select 'a "text"', euros from Pay where "{name}" > 0"""
            self.check([*words, wrong], "", 1, "no such column: eu")
        right = """select [euros], 'a "text"' as "a ""b" from Pay where "euros" > 4900 -- "euro\n"""
        self.check([*words, right], "", 0, 'euros,"a ""b"\n5000,"a ""text"""\n')

    def test_a_database_is_made_or_changed_whole_or_not_at_all(self) -> None:
        with tempfile.TemporaryDirectory() as folder:
            file, words = Path(folder, "z.db"), f"sqlite PAY {folder}/z.db"
            for more, part in {
                "5=a --day 2024-02-30": "--day 2024-02-30: not a date", "99=a": "99: no such answer",
                "5=a --query 'select 1' --query 'select x'": "no such column: x",
                "5=a --query rollback": "a query ended the transaction",
                "5=a --query commit": "a query ended the transaction",
                "5=a --query ' '": "the query is empty", "5=sqlite_a": "object name reserved for internal",
            }.items():
                self.ends(1, {f"{words} {more}": part})
                self.assertEqual(list(Path(folder).iterdir()), [])
            self.ends(0, {f"{words} 5=a": "a,2\n"})
            before = file.read_bytes()
            for more, part in {
                "5=b --query 'drop table a' --query 'select x'": "no such column: x",
                "7=a 5=sqlite_a --replace": "object name reserved for internal use",
                "5=b --day x": "--day x: not a date", "5=a --day 2024-01-05": "a is already in ",
            }.items():
                self.ends(1, {f"{words} {more}": part})
                self.assertEqual((file.read_bytes(), list(Path(folder).iterdir())), (before, [file]))
            # A view of a user.
            self.ends(0, {f"{words} 5=b --query 'create view c_day as select 1'": ""})
            self.ends(1, {f"{words} 5=c --day 2024-01-05": "c_day is already in the database"})


class Folders(ToolCase):
    ONLY = (
        "nothing is made here that has a name; only what `csv --folder`, `xlsx`, "
        "`sqlite`, `json` and `page` make has one: give"
    )

    def test_a_file_is_replaced_only_where_that_is_asked(self) -> None:
        words = "csv PAY @7=august"
        with tempfile.TemporaryDirectory() as folder:
            self.ends(0, {f"{words} --folder {folder}": ""})
            there = f"answers: {folder}/august.csv already exists, so no file "
            self.ends(1, {f"{words} @9=versions --folder {folder}": there})
            self.ends(0, {f"{words} --folder {folder} --replace": ""})
            for name in ("a/b", ".a", "a\nb"):
                self.ends(1, {f"csv PAY '@7={name}' --folder {folder}": ": not a file's name"})
        self.ends(1, {f"{words} --replace": "answers: --replace needs --folder, whose files "})

    def test_a_name_is_refused_where_nothing_has_it(self) -> None:
        for words in (
            "list", "csv", "picture", "changed", "overlaps person", "gaps person", "coalesce",
            "months --sum euros --per=month",
            "history pay", "refusals", "raise pay euros --percent 1 --from 2024-01-01", "next --table t",
        ):
            name, _, more = words.partition(" ")
            asked = f"{name} {EXAMPLE} {more} --answers {EXAMPLE}.stdout --ask 'a b=rows,pay'"
            self.ends(1, {asked: f"answers: --ask a b=rows,pay: {self.ONLY} rows,pay\n"})
        less = "months PAY --sum euros --per=month --less a=rows,pay,asof,2"
        self.ends(1, {less: f"answers: --less a=rows,pay,asof,2: {self.ONLY} rows,pay,asof,2\n"})
        self.ends(1, dict.fromkeys((
            "csv PAY @7=august", "picture PAY @7=august", "changed PAY @9 @7=august", "next PAY --table t @7=august",
            "months PAY --sum euros --per=month @7=august", "gaps PAY person --of @7=august",
            "coalesce PAY --of @7=august", "months PAY @9 --per=month --sum euros --less @7=august",
        ), f"answers: @7=august: {self.ONLY} @7\n"))

    def test_only_questions_without_a_name_take_one(self) -> None:
        for words in ("json -", "sqlite - :memory:", "page -"):
            self.ends(1, {
                f"{words} --ask a=table,u --ask b=rows,u": "answers: --ask a=..: table,u: only questions have names\n",
                f"{words} --ask table,u --ask b=rows,u last=c":
                "answers: last=c: --ask: rows,u has the name b already\n",
            }, "table,t\n")


class Spreadsheets(ToolCase):
    def test_what_would_be_run_is_reported_and_guarded_where_that_is_wanted(self) -> None:
        texts = ["=1", "-5", "-x", "+1", "@a", "\ta", "\uff0b1", "a;=1"]
        rows = [f"2024-01-01,2024-02-01,{text},-5\n" for text in texts]
        listed = [f"{number},{row}" for number, row in enumerate(rows, 1)]
        script = f"table,t,a,text,b,int\nload,t\n{''.join(f'row,{row}' for row in rows)}end\nrows,t\n"
        exact = f"row_id,valid_from,valid_to,a,b\n{''.join(listed)}"
        guarded = "\ufeff" + exact.replace("\n", "\r\n")
        for text in ("=1,", "-x", "+1", "@a", "\ta", "\uff0b1"):
            guarded = guarded.replace(f",{text}", f",'{text}")
        german = guarded.replace("a;=1", '"a;=1"').replace(",", ";")
        said = "answers: a spreadsheet would run 6 fields, the first =1: --for-spreadsheet prevents it\n"
        wanted = {"": (exact, said), "--for-spreadsheet": (guarded, ""), "--for-spreadsheet --german": (german, "")}
        for words, one in wanted.items():
            with self.subTest(words):
                status, printed, said = run(["tools/answers", "csv", "-", *words.split()], script)
                self.assertEqual((status, printed, said[:len(one[1])]), (0, *one))
                self.assertEqual("spreadsheet" in said, bool(one[1]))
        self.ends(1, {"csv - --german": "--german says how decimals are printed"}, script)

    def test_a_number_in_quotes_is_one_up_to_its_end(self) -> None:
        said = "answers: a spreadsheet would run a field, -2,x: --for-spreadsheet prevents it\n"
        for text, wanted in (("-2,50", ""), ("-2,x", said)):
            row = f'2024-01-01,2024-02-01,"{text}"\n'
            script = f"table,t,a,text\nload,t\nrow,{row}end\nrows,t\n"
            with self.subTest(text):
                found = run(["tools/answers", "csv", "-"], script)
                self.assertEqual(found, (0, f"row_id,valid_from,valid_to,a\n1,{row}", wanted))


class Asked(ToolCase):
    def test_a_question_is_taken_with_picked_answers(self) -> None:
        script = "table,t,a,int\nload,t\nrow,2024-01-01,2024-02-01,5\nend\ndip,t\n"
        self.ends(0, {
            "sqlite - :memory: 3=plan --ask t=rows,t": "table,rows\nplan,1\nt,1\n",
            "sqlite - :memory: last=x --ask rows,t": "table,rows\nx,1\n",
        }, script)
        self.ends(1, {"csv - --ask rows,t 3": "2 answers given, but it takes 1"}, script)
        with tempfile.TemporaryDirectory() as folder:
            self.ends(0, {f"csv - --ask t=rows,t 3=plan --folder {folder}": ""}, script)
            self.assertEqual(sorted(file.name for file in Path(folder).iterdir()), ["plan.csv", "t.csv"])

    def test_a_name_is_of_its_own_question(self) -> None:
        """Whatever commands are in the words before it."""
        words = "sqlite - :memory: --ask"
        plain = {f"{words} 'rows,t\nlog' --ask b=dip,t": "table,rows\nrows_t_2,0\nlog_3,1\nb,0\n"}
        self.ends(0, plain, "table,t\n")
        wrong = "answers: --ask a=..: a name is for one question, but log follows it"
        self.ends(1, {f"{words} 'a=rows,t\nlog' --ask b=dip,t": wrong}, "table,t\n")

    def test_a_name_may_have_what_can_be_seen(self) -> None:
        for odd in ("my-t", "Was gilt \u00fcber", "2024", '"x"', "a.b (c)", "rows"):
            both = to_text([["table", "rows"], [odd, "0"]])
            self.ends(0, {f"sqlite - :memory: --ask '{odd}=rows,t'": both}, "table,t\n")
            with tempfile.TemporaryDirectory() as folder:
                self.ends(0, {f"csv - --ask '{odd}=rows,t' --folder {folder}": ""}, "table,t\n")
                self.assertEqual([file.name for file in Path(folder).iterdir()], [f"{odd}.csv"])
        query = "--query 'select count(*) as n from \"what is due\"'"
        self.ends(0, {f"sqlite - :memory: --ask 'what is due=rows,t' {query}": "n\n0\n"}, "table,t\n")
        names = ("", " a", "a ", "a\tb", "a\nb", "\u200b")
        self.ends(1, {f"csv - --ask '{odd}=rows,t'": "no name of letters, signs, and" for odd in names}, "table,t\n")


class Reported(ToolCase):
    def test_tools_on_a_table_of_numbers(self) -> None:
        january, february = "row,2024-01-01,2024-02-01,{}\n", "row,2024-02-01,2024-03-01,{}\n"
        two, five, half = january.format(-2) + february.format(2), january.format(5), january.format(1 << 62)
        for words, rows, questions, status, part in [
            ("picture -", two, "agg,t,sum,a", 0, 'y="186.0" width="392" height="120.0"'),
            ("sqlite - :memory: 3=due", half + half, "agg,t,sum,a", 0, "answers: due.sum_a has sums past SQLite's "),
            ("changed - 3", five, "rows,t\nrows,t", 1, "1 answer given, but it takes 2: give one more PICK or --ask"),
            ("changed -", five, "rows,t\nat,t,2024-01-05", 1, "rows,t and at,t,2024-01-05: an `at` "),
            ("changed -", five, "at,t,2024-01-05\nat,t,2024-02-05", 1, "answers: line 5 and line 6"),
            ("changed -", two, "agg,t,sum,a,asof,1\nagg,t,sum,a", 0, ",-2\n+,2024-02-01,2024-03-01,2"),
            ("changed -", "", "at,t,9999-12-31T23:59:59\nat,t,9999-12-31T23:59:59", 0, "change,"),
            ("overlaps - a", five, "at,t,2024-01-05", 1, "answers: line 5: at,t,2024-01-05: an `at` "),
            ("csv -", "", "join,t,t,asof,0", 0, "answers: line 4: join,t,t,asof,0: t was made by commit 1, so commit "),
            ("list -", "", "at,t,1", 1, "3,4,4,BadPoint,,"), ("list - --go-on", "", "at,t,1", 0, "3,4,4,BadPoint,,"),
            ("list -", five, "delete,t,2024-01-01,2024-02-01,where,a,6", 0, "answers: line 5: "),
            ("refusals -", five, "delete,t,2024-02-01,2024-02-02,where,a,5", 0, "no row of "),
            ("list -", "", "together\nend", 0, "3,4,4,together 2,,together\n"),
            ("changed -", "", "rows,t\nrows,t,asof,1", 0, "the first answer is of commit 2, the second of the "),
            ("refusals -", "", "together\nload,t\nend\nrows,t,asof,3\nend", 1,
             "line 7: rows,t,asof,3: Future: field 4, 3, is a later commit than the one that the block "),
        ]:
            self.ends(status, {words: part}, f"table,t,a,int\nload,t\n{rows}end\n{questions}\n")


class Refusals(ToolCase):
    def test_each_is_reported_with_its_field_and_reason(self) -> None:
        for command, note in [
            ("table,set", "line 2: table,set: BadName: field 2, set, is a word of the language: "),
            ("table,u,a,integer", "field 4, integer, isn't a KIND"),
            ("table,u,a,int,key,b", "field 6, b, isn't a column before `key`, field 5 (a): names of its "),
            ("update,t,2024-01-01,2024-01-02,set,key,5", "where can't be names; key_ can"),
            ("delete,t,2024-01-01,2024-01-02,where,asof,5", "field 6, asof, is only for queries: a "),
            ("rows,t,asof,2024-01-01", "isn't a commit's number, such as the 2 of `ok,2`"),
            ("rows, t", "field 2, ' t', isn't a name, which has 1 to 32 of a to z, 0 to 9 and _, the first a letter; "),
            ("csv-to-load failed", "replaces a load: tools/csv-to-load has reported why on standard "),
            ("ROWS,t", "BadCommand: field 1, ROWS, isn't a command; rows is"),
            ("\ufeffrows,t", "begins with a byte order mark, which only the start of a script may have"),
            ("rows;t", "field 1, rows;t, isn't a command: separate fields by commas"),
            ("Name;Pay", "; tools/csv-to-load makes a load of a CSV file with a header"),
            ("load,t,t.csv", "the form is load,T and then rows: no file is read"),
            ('load,t\nrow,"2024-01-01\nend', "is a second quote missing in line 3? a field "),
            ("load,t\nEND", "Unended: the block has no end, so the rest of the script was skipped; line 3, END, isn't"),
            ("load,t\nrows,t\nend", "a load has only row records, not rows,t; is its end missing before it?"),
            ("rows,u", "NoTable: field 2, u, isn't a table; the tables are t"),
            ("at,t,2024-02-30", "BadPoint: field 3, 2024-02-30, isn't a day that exists"),
            ("at,t,2024\u201102-01", "2024\\u201102-01"),
            ("update,t,2024-01-01,2024-01-02,set,a,05", "has a zero in front"),
            ("agg,t,sum,b", "isn't a column of t; its columns are a"),
            ("agg,t,count,by,a,a", "`by` takes one column"),
            ("between,t,3,2", "BadPeriod: field 3, 3, is greater than the next field"),
            ("delete,t,2024-02-01,2024-02-01", "isn't before the next field: for one day, end on the next one"),
            ("select * from pay", "the commands are table, load, "), ("hello", "the commands are table, load, "),
            ("# a comment", "a script has no comments"), ("sep=;", "a spreadsheet's first line"),
        ]:
            self.ends(1, {"refusals -": note}, f"table,t,a,int\n{command}\n")
        none = "line 1: rows,t: NoTable: field 2, t, isn't a table: make it by a `table` record before"
        self.ends(1, {"refusals -": none}, "rows,t\n")


if __name__ == "__main__":
    unittest.main()
