"""Answers as a person reads them: amounts with decimals and last days, compared with Python's decimals and dates."""
import unittest
from datetime import timedelta
from decimal import Decimal

from tests.by_hypothesis import assume, drawn, given, needs_program, st
from tests.support import NEEDS_PANDAS, ToolCase, run
from tests.test_answers_over_time import Case, cases, read

DRAWN = drawn(100)


def money(amount: int, digits: int, is_german: bool) -> str:
    text = format(Decimal(amount).scaleb(-digits), f".{digits}f")
    return text.replace(".", ",") if is_german else text


@needs_program
class Looks(unittest.TestCase):
    @DRAWN
    @given(cases(), st.integers(0, 20), st.booleans())
    def test_amounts_and_last_days_are_those_of_the_records(self, case: Case, digits: int, is_german: bool) -> None:
        words = ["tools/answers", "csv", "-", "--last-day"]
        amount = case.named[-1]
        more = ["--decimals", f"{amount}={digits}", *["--german"] * is_german]
        status, text, said = run([*words, *more], case.script)
        self.assertEqual(status, 0, said)
        header, *records = read(text)
        self.assertEqual(header, ["row_id", "valid_from", "last_day", *case.named])
        wanted = [
            [str(row.start), str(row.end - timedelta(1)), *row.group, money(row.amount, digits, is_german)]
            for row in case.rows
        ]
        self.assertEqual([record[1:] for record in records], wanted)

    @DRAWN
    @given(cases(), st.booleans())
    def test_shown_values_load_as_they_were(self, case: Case, is_german: bool) -> None:
        assume(not any(set("\0\r\n") & set(text) for row in case.rows for text in row.group))
        rows, german = case.rows, ["--german"] * is_german
        shown = ["--decimals", f"{case.named[-1]}=2", "--last-day", *german]
        status, text, said = run(["tools/answers", "csv", "-", *shown], case.script)
        self.assertEqual(status, 0, said)
        words = ["tools/csv-to-load", "t", "valid_from", "last_day", *case.named, *shown]
        status, text, said = run(words, text)
        self.assertEqual(status, 0, said)
        wanted = [[str(row.start), str(row.end), *row.group, str(row.amount)] for row in rows]
        self.assertEqual([record[1:] for record in read(text)[1:-1]], wanted)


class Words(ToolCase):
    def test_amounts_and_ends_are_as_a_person_reads_them(self) -> None:
        sqlite = "sqlite PAY :memory: 4=pay --last-day --query"
        self.ends(0, {
            # An end that isn't known stays.
            "csv JOINS --last-day --decimals euros=2": "2024-06-01,2024-12-31,99.00\n2025-01-01,9999-12-31,49.00\n",
            "csv PAY 4 --decimals euros=2 --german --last-day --for-spreadsheet":
            "2;2024-03-01;2024-12-31;Hill, Grace;48,00\r\n",
            f"{sqlite} 'select person, valid_to, sum(euros) as total from pay group by person' --decimals total=2":
            'person,last_day,total\n"Byron, Ada",2024-12-31,54.00\n',
            f"{sqlite} 'select valid_to, person as last_day, valid_to from pay where row_id = 2'":
            'last_day,last_day_,last_day\n2024-12-31,"Hill, Grace",2024-12-31\n',
        })

    def test_words_without_a_use_are_refused(self) -> None:
        sqlite = "sqlite PAY :memory: 4=pay"
        query = f"{sqlite} --query 'select 1.0 * euros as mean, euros from pay' --decimals"
        self.ends(1, {
            "csv PAY 7 --last-day": "--last-day: the answer has no column",
            "csv PAY 4 --decimals cents=2": "cents: not a column of numbers; those are row",
            "csv PAY 4 --german": "--german says how decimals are printed",
            f"{sqlite} --last-day": "--last-day need --query, whose answers they print",
            f"{sqlite} --query 'select 1' --german": "--german says how decimals are printed",
            f"{query} mean=2": "--decimals mean: 4800.0 isn't a whole number",
            f"{query} cents=2": "cents: not a column of numbers; those are mean, euros",
        })
        time = "table,t,n,int\nload,t\nrow,2024-01-01,2024-01-02T08:00:00,1\nend\nrows,t\n"
        self.ends(1, {"csv - --last-day": "--last-day: 2024-01-02T08:00:00 has a time"}, time)

    def test_a_column_s_own_name_says_its_decimals_before_that_of_another(self) -> None:
        script = "table,t,cents,int,sum_cents,int\nload,t\nrow,2024-01-01,2024-02-01,500,7\nend\nrows,t\n"
        two, none = "--decimals cents=2", "--decimals sum_cents=0"
        shown = "1,2024-01-01,2024-02-01,5.00,7\n"
        self.ends(0, {f"csv - {two} {none}": shown, f"csv - {none} {two}": shown}, script)
        self.ends(1, {f"csv - {two} --decimals cents=0": "--decimals cents: given twice"}, script)

    @NEEDS_PANDAS
    def test_other_tables_of_time_are_shown_so_too(self) -> None:
        rows = "row,2024-01-01,2024-02-01,A,5\nrow,2024-03-01,2024-04-01,A,7\n"
        script = f"table,pay,person,text,euros,int\nload,pay\n{rows}end\nrows,pay\nrows,pay,asof,1\n"
        self.ends(0, {
            "gaps - person --of 3 --last-day": "2024-02-01,2024-02-29,A\n",
            "coalesce - person --of 3 --last-day": "2024-01-01,2024-01-31,A\n2024-03-01,2024-03-31,A\n",
            "changed - 4 3 --decimals euros=2 --last-day":
            "+,2024-01-01,2024-01-31,A,0.05\n+,2024-03-01,2024-03-31,A,0.07\n",
            "history - pay --decimals euros=2 --last-day": "2,line 2,+,2024-01-01,2024-01-31,A,0.05\n",
        }, script)

    @NEEDS_PANDAS
    def test_other_tables_are_printed_for_a_spreadsheet_too(self) -> None:
        rows = 'row,2024-01-01,2024-02-01,"=A;B",5\nrow,2024-03-01,2024-04-01,"=A;B",7\n'
        script = f"table,pay,person,text,euros,int\nload,pay\n{rows}end\nrows,pay\nrows,pay,asof,1\n"
        for words, wanted in {
            "gaps - person --of 3": "valid_from;valid_to;person\r\n2024-02-01;2024-03-01;\"'=A;B\"\r\n",
            "coalesce - person --of 3": "2024-01-01;2024-02-01;\"'=A;B\"\r\n",
            "months - 3 --per=month --sum=euros --by=person": "2024-01-01;2024-02-01;\"'=A;B\";5\r\n",
            "changed - 4 3": "+;2024-01-01;2024-02-01;\"'=A;B\";5\r\n",
            "history - pay": "2;line 2;+;2024-01-01;2024-02-01;\"'=A;B\";5\r\n",
            "overlaps - person --of 3": "row_id;other_row_id;valid_from;valid_to;person\r\n",
        }.items():
            note = f"a spreadsheet would run {'2 fields, the first' if ' pay' in words else ''}"
            plain = "" if words.startswith("overlaps") else note
            self.ends(0, {f"{words} --for-spreadsheet --german": wanted, words: plain}, script)
            self.ends(1, {f"{words} --german": "--german says how decimals are printed"}, script)


if __name__ == "__main__":
    unittest.main()
