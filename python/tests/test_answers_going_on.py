"""What `raise` and `next` of tools/answers print, answered by the program, compared with the days before.

Names, texts and amounts are as odd as they may be.
"""
import decimal
import unittest
from collections import Counter
from datetime import date, timedelta
from typing import Any, Counter as Counts, List, Tuple

from tests.by_hypothesis import drawn, given, needs_program, st
from tests.support import ToolCase, kept, run
from tests.test_answers_hostile import printed
from tests.test_answers_over_time import START, Case, cases, read

DRAWN = drawn(100)
PERCENTS = ["2.5", "3", "+1.1", "-3", "-50.5", "-100", "0.000000001", "33.333333333", "100", "900", "50"]
ROUNDINGS = {
    "half-up": decimal.ROUND_HALF_UP, "half-down": decimal.ROUND_HALF_DOWN, "half-even": decimal.ROUND_HALF_EVEN,
    "up": decimal.ROUND_UP, "down": decimal.ROUND_DOWN, "ceiling": decimal.ROUND_CEILING, "floor": decimal.ROUND_FLOOR,
}
EXACT = decimal.Context(prec=60)
Day = Tuple[date, Tuple[str, ...], int]


def raised(amount: int, percent: str, rounding: str) -> int:
    exact = EXACT.multiply(decimal.Decimal(amount), EXACT.add(100, decimal.Decimal(percent)))
    return int(EXACT.divide(exact, decimal.Decimal(100)).quantize(decimal.Decimal(1), ROUNDINGS[rounding], EXACT))


def days_of(rows: List[List[str]], first: int) -> Counts[Day]:
    """Returns the rows of each day, from the column `first` on; the last one is the amount."""
    found: Counts[Day] = Counter()
    for record in rows:
        start, end = (date.fromisoformat(point) for point in record[first:first + 2])
        for more in range((end - start).days):
            found[start + timedelta(more), tuple(record[first + 2:-1]), int(record[-1])] += 1
    return found


def answer_of(script: str) -> List[List[str]]:
    """Returns the records of the script's last answer, from tools/answers."""
    with kept(script) as file:
        status, text, said = run(["tools/answers", "csv", file])
    if status:
        raise AssertionError(said)
    return read(text)[1:]


@needs_program
class GoingOn(unittest.TestCase):
    @DRAWN
    @given(cases(), st.sampled_from(PERCENTS), st.sampled_from(sorted(ROUNDINGS)), st.data())
    def test_updates_raise_each_amount_once(self, case: Case, percent: str, rounding: str, data: Any) -> None:
        start = START + timedelta(data.draw(st.integers(-5, 100)))
        end = data.draw(st.one_of(st.none(), st.integers(1, 60).map(lambda days: start + timedelta(days))))
        where = data.draw(st.sampled_from([None, *case.rows])) if case.texts else None
        words = ["tools/answers", "raise", "-", "t", case.amounts, "--percent", percent, "--from", str(start)]
        more = [*(["--to", str(end)] if end else []), "--round", rounding]
        more += ["--where", f"{case.texts[0]}={where.group[0]}"] if where else []
        status, text, said = run([*words, *more], case.script)
        wanted: Counts[Day] = Counter()
        for row in case.rows:
            meets = where is None or row.group[0] == where.group[0]
            for day in row.days:
                is_raised = meets and start <= day and (end is None or day < end)
                wanted[day, row.group, raised(row.amount, percent, rounding) if is_raised else row.amount] += 1
        if status:
            self.assertTrue(any(not -(1 << 63) <= amount < 1 << 63 for _, _, amount in wanted), said)
            return
        self.assertEqual(days_of(answer_of(f"{case.script}{text}rows,t\n"), 1), wanted)
        amounts = {amount for day, _, amount in self.before(case) if start <= day}
        self.assertLessEqual(len(read(text)), len(amounts))

    def before(self, case: Case) -> Counts[Day]:
        return Counter((day, row.group, row.amount) for row in case.rows for day in row.days)

    @DRAWN
    @given(cases(), st.booleans())
    def test_an_answer_is_a_table_of_the_next_script(self, case: Case, has_ids: bool) -> None:
        words = ["tools/answers", "next", "-", "--table", "n", *["--ids"] * has_ids]
        status, text, said = run(words, case.script)
        self.assertEqual((status, said), (0, ""))
        made, before = answer_of(f"{text}rows,n\n"), answer_of(case.script)
        own = [[*start_end, *([row_id] if has_ids else []), *others] for row_id, *start_end, others in (
            (record[0], record[1], record[2], record[3:]) for record in before
        )]
        self.assertEqual([record[1:] for record in made], own)

    def test_a_raise_that_the_script_has_is_refused(self) -> None:
        rows = "row,2024-01-01,9999-12-31,A,5000\nrow,2024-01-01,9999-12-31,B,6000\n"
        load = f"table,t,dept,text,n,int\nload,t\n{rows}end\n"
        words = ["tools/answers", "raise", "-", "t", "n", "--percent"]
        status, updates, said = run([*words, "2.5", "--from", "2025-01-01"], load)
        self.assertEqual((status, updates.count("\n"), said), (0, 2, ""))
        raised = load + updates
        note = "raise of t: n was raised from 2025-01-01 on already, by 2 updates, the first from 6000 to 6150 (line 6)"
        for percent, start in (("2.5", "2025-01-01"), ("3", "2025-01-01T00:00:00")):
            found = run([*words, percent, "--from", start, "--round", "half-up"], raised)
            self.assertEqual((found[:2], note in found[2]), ((1, ""), True), found)
        more = run([*words, "2.5", "--from", "2025-01-01", "--round", "half-up", "--again"], raised)[1]
        self.assertIn("set,n,5253,where,n,5125\n", more)
        for other, is_noted in (("--from 2026-01-01", False), ("--from 2025-01-01 --where dept=A", True)):
            status, updates, said = run([*words, "2.5", *other.split(), "--round", "half-up"], raised)
            self.assertEqual((status, updates != "", note[12:] in said), (0, True, is_noted), said)
        once = load + run([*words, "2.5", "--from", "2025-01-01", "--where", "dept=A"], load)[1]
        for dept, is_noted in (("A", True), ("B", False)):
            found = run([*words, "2.5", "--from", "2025-01-01", "--where", f"dept={dept}", "--round", "up"], once)
            self.assertEqual((found[0], "was raised from" in found[2]), (int(is_noted), is_noted), found)
        self.assertIn("was raised from", run([*words, "2.5", "--from", "2025-01-01", "--round", "up"], once)[2])

    def test_a_sum_goes_on_by_its_group(self) -> None:
        script = printed([
            ["table", "t", "name", "text", "n", "int"], ["load", "t"], ["row", "2024-01-01", "2024-02-01", 'a"b', "7"],
            ["end"], ["agg", "t", "sum", "n", "by", "name"],
        ])
        words = ["tools/answers", "next", "-", "--table", "total", "--key", "name"]
        wanted = 'table,total,name,text,sum_n,int,key,name\nload,total\nrow,2024-01-01,2024-02-01,"a""b",7\nend\n'
        self.assertEqual(run(words, script), (0, wanted, ""))


class Words(ToolCase):
    def test_what_can_t_be_raised_is_refused(self) -> None:
        pay, more = "raise PAY pay euros", "--percent 2.5 --from 2024-07-01"
        self.ends(1, {
            f"{pay} --percent 2,5 --from 2024-07-01": "--percent 2,5: not a number such as 2.5 or -3",
            f"{pay} --percent 0.0 --from 2024-07-01": "--percent 0.0: nothing is raised",
            f"{pay} --percent -100.1 --from 2024-07-01": "more than all is taken",
            f"{pay} --percent 2.5 --from 1.7.2024": "--from 1.7.2024: not a date or time",
            f"{pay} {more} --to 2024-07-01T00:00:00": "isn't before --to",
            f"{pay} {more} --where name=A": "the table pay has no column name; its columns are person, euros",
            f"{pay} {more} --where euros=05": "--where euros=05: not a whole number in digits only",
            f"raise PAY pay person {more}": "person: a column of texts",
            f"raise PAY salary person {more}": "salary: no such table; the tables are pay",
        })
        self.ends(2, {f"{pay} {more} --round nearest": "invalid choice: 'nearest'"})

    def test_a_raise_says_how_it_rounds(self) -> None:
        pay = "raise PAY pay euros --from 2024-07-01 --dry-run --percent"
        half = "4800 becomes 4800.048, which isn't a whole number: say how it is rounded"
        self.ends(1, {f"{pay} 0.001 --where euros=4800": half})
        note = "--to 2024-12-31: amounts of that day stay as they are; --to 2025-01-01 raises the amounts of the last"
        self.ends(0, {
            f"{pay} 2.5": "rows,euros,exact,raised\n1,5400,5535,5535\n1,4800,4920,4920\n",
            f"{pay} 2.5 --to 2024-12-31": note, f"{pay} 0.001 --round down": "1,5400,5400.054,5400\n",
        })

    def test_what_can_t_go_on_is_refused(self) -> None:
        pay = "next PAY 4 --table t"
        self.ends(1, {
            "next PAY 7 --table t": "its records aren't rows of one commit",
            "next PAY 6 --table t": "its records aren't rows of one commit",
            "next PAY 4 --table T": "--table T: not a table's name",
            f"{pay} --key who": "who: not one of the table's columns person",
            f"{pay} --key person --key person": "--key person: given twice",
            f"{pay} --ids --column euros": "--ids can't be given with --column",
            f"{pay} --column person=Person": "Person: not a column's name",
            f"{pay} --column person --column euros=person": "the name of two columns",
            f"{pay} --column name": "no column name; its columns are row_id, ",
            f"{pay} --column person=by": "by: not a column's name",
        })
        self.ends(0, {f"{pay} --column euros=pay": "table,t,pay,int\nload,t\nrow,2024-03"})

    def test_a_sum_past_64_bits_can_t_go_on(self) -> None:
        rows = "row,2024-01-01,2024-02-01,9223372036854775807\nrow,2024-01-01,2024-02-01,1\n"
        part = "sum_n is 9223372036854775808, which has more than 64 bits"
        self.ends(1, {"next - --table n": part}, f"table,t,n,int\nload,t\n{rows}end\nagg,t,sum,n\n")


if __name__ == "__main__":
    unittest.main()
