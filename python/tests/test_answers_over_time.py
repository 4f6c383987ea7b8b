"""The output of `months` and `coalesce`, compared with counting day by day.

Names and texts are odd. The program answers if it is built.
"""
import csv
import io
import sys
import unittest
from collections import defaultdict
from datetime import date, timedelta
from fractions import Fraction
from typing import Any, Callable, DefaultDict, Dict, List, NamedTuple, Optional, Set, Tuple
from unittest import mock

from tests.by_hypothesis import drawn, given, needs_program, st
from tests.support import EXAMPLE, NEEDS_PANDAS, ToolCase, kept, run
from tests.test_answers_hostile import NAMES, TEXTS, is_run, printed

DRAWN = drawn(100)
START = date(2023, 12, 28)
DAYS = st.integers(0, 70).map(lambda days: START + timedelta(days))
AMOUNTS = st.one_of(st.integers(1 - (1 << 63), (1 << 63) - 1), st.integers(-9, 9))
KEYS: Dict[str, Callable[[date], Any]] = {
    "month": lambda day: (day.year, day.month), "quarter": lambda day: (day.year, (day.month + 2) // 3),
    "year": lambda day: day.year, "week": lambda day: day.isocalendar()[:2], "day": lambda day: day,
}
EACH = st.sampled_from(sorted(KEYS))


class Row(NamedTuple):
    start: date
    end: date
    group: Tuple[str, ...]
    amount: int

    @property
    def days(self) -> List[date]:
        return [self.start + timedelta(more) for more in range((self.end - self.start).days)]


class Case(NamedTuple):
    """A table's columns of texts and its column of amounts, and its rows."""

    texts: List[str]
    amounts: str
    rows: List[Row]

    @property
    def script(self) -> str:
        return self.script_of("t", self.rows)

    def script_of(self, name: str, rows: List[Row]) -> str:
        """A table that has some of the rows, and the question for them."""
        table = ["table", name, *(one for name in self.texts for one in (name, "text")), self.amounts, "int"]
        records = [["row", str(row.start), str(row.end), *row.group, str(row.amount)] for row in rows]
        return printed([table, ["load", name], *records, ["end"], ["rows", name]])

    @property
    def named(self) -> List[str]:
        """The names of these columns in an answer."""
        own = ["row_id", "valid_from", "valid_to"]
        return [f"{name}_" if name in own else name for name in [*self.texts, self.amounts]]


@st.composite
def cases(draw: Callable[[Any], Any]) -> Case:
    names = [name for name in NAMES if name != "row_id_"]
    *texts, amounts = draw(st.lists(st.sampled_from(names), min_size=1, max_size=3, unique=True))
    values = [draw(st.lists(TEXTS, min_size=1, max_size=2)) for _ in texts]
    lengths = st.integers(1, 60).map(timedelta)
    drawn = st.tuples(DAYS, lengths, st.tuples(*map(st.sampled_from, values)), AMOUNTS)
    return Case(texts, amounts, [
        Row(start, start + length, group, amount) for start, length, group, amount in draw(st.lists(drawn, max_size=5))
    ])


def read(text: str) -> List[List[str]]:
    return list(csv.reader(io.StringIO(text, newline="")))


# The values of a group, and what the days of a piece have in common.
Place = Tuple[Tuple[str, ...], Any]


def plain_sums(rows: List[Row], each: str, per: str) -> Dict[Place, Fraction]:
    """The amount of each group in each piece, day by day."""
    key = KEYS[per]
    around = [START + timedelta(more) for more in range(-400, 600)]
    lengths: DefaultDict[Any, int] = defaultdict(int)
    for day in around:
        lengths[key(day)] += 1
    found: DefaultDict[Place, Fraction] = defaultdict(Fraction)
    for row in rows:
        for day in row.days:
            found[(row.group, KEYS[each](day))] += Fraction(row.amount, lengths[key(day)])
    return found


def differences(rows: List[Row], less: List[Row], each: str, per: str) -> Dict[Place, Fraction]:
    """Returns the amount of each group in each piece, less the other rows' amount."""
    found, others = plain_sums(rows, each, per), plain_sums(less, each, per)
    return {place: found.get(place, Fraction(0)) - others.get(place, Fraction(0)) for place in {*found, *others}}


@NEEDS_PANDAS
@needs_program
class OverTime(unittest.TestCase):
    @DRAWN
    @given(cases(), EACH, EACH)
    def test_sums_are_those_of_days(self, case: Case, each: str, per: str) -> None:
        by = [word for name in case.named[:-1] for word in ("--by", name)]
        with kept(case.script) as script:
            words = ["tools/answers", "months", script, "--each", each, "--per", per]
            status, text, said = run([*words, "--sum", case.named[-1], *by])
        self.assertEqual(status, 0, said)
        header, *records = read(text)
        self.assertEqual(header, ["valid_from", "valid_to", *case.named])
        self.check_sums(records, plain_sums(case.rows, each, per), each, said)
        for start, end, *_ in records:
            days = [date.fromisoformat(start) + timedelta(more) for more in (-1, 0)]
            self.assertNotEqual(*map(KEYS[each], days))
            self.assertEqual(KEYS[each](days[1]), KEYS[each](date.fromisoformat(end) - timedelta(1)))

    def check_sums(self, records: List[List[str]], wanted: Dict[Place, Fraction], each: str, said: str) -> None:
        """Each sum is close to the exact one, a group's sums to its own sum, and rounding is reported."""
        found = {(tuple(group), KEYS[each](date.fromisoformat(start))): int(one) for start, _, *group, one in records}
        self.assertEqual(sorted(found), sorted(wanted))
        self.assertEqual(len(found), len(records))
        self.assertEqual("rounded" in said, any(one.denominator != 1 for one in wanted.values()))
        for group in {group for group, _ in wanted}:
            whole = sum(cents for (one, _), cents in found.items() if one == group)
            exact = sum((cents for (one, _), cents in wanted.items() if one == group), Fraction(0))
            self.assertLessEqual(abs(whole - exact), Fraction(1, 2))
        for piece, exact in wanted.items():
            self.assertLess(abs(found[piece] - exact), 1)
            self.assertTrue(exact.denominator > 1 or found[piece] == exact)

    @DRAWN
    @given(cases(), EACH, st.sampled_from([None, "3", "rows,less"]), st.data())
    def test_differences_and_wanted_values_are_those_of_days(
        self, case: Case, each: str, less: Optional[str], data: Any,
    ) -> None:
        per = data.draw(EACH)
        some = st.lists(st.sampled_from(case.rows), max_size=4) if case.rows else st.just([])
        taken, added = data.draw(some), data.draw(some)
        value = data.draw(st.sampled_from([*(row.group[0] for row in case.rows), "none"])) if case.texts else None
        words = ["months", "--each", each, "--per", per, "--sum", case.named[-1]]
        words += [word for name in case.named[:-1] for word in ("--by", name)]
        words += [] if value is None else ["--where", f"{case.named[0]}={value}"]
        has_zeros = data.draw(st.booleans())
        words += [] if has_zeros else ["--no-zeros"]
        with kept(case.script_of("less", taken) + case.script_of("t", added)) as script:
            status, text, said = run(["tools/answers", *words, script, *([] if less is None else ["--less", less])])
        self.assertEqual(status, 0, said)
        counted, taken = ([one for one in rows if value in (None, *one.group[:1])] for rows in (added, taken))
        wanted = differences(counted, taken if less else [], each, per)
        listed = {piece: exact for piece, exact in wanted.items() if exact or has_zeros}
        self.check_sums(read(text)[1:], listed, each, said)
        is_noted = value is not None and not (counted or less and taken)
        self.assertEqual("no record has the values of --where" in said, is_noted)

    @DRAWN
    @given(cases(), st.integers(0, 2))
    def test_united_periods_have_the_days_of_their_records(self, case: Case, count: int) -> None:
        names = case.named[:-1][:count]
        with kept(case.script) as script:
            words = ["tools/answers", "coalesce", script, *names]
            status, text, said = run(words)
        self.assertEqual(status, 0, said)
        header, *records = read(text)
        self.assertEqual(header, ["valid_from", "valid_to", *names])
        # What a spreadsheet would run is reported, and nothing else.
        runnable = sum(map(is_run, (field for _, _, *group in records for field in group)))
        self.assertEqual(said.count("\n"), min(runnable, 1))
        self.assertEqual(f"would run {runnable} fields" in said or "would run a field" in said, runnable > 0)
        wanted: DefaultDict[Tuple[str, ...], Set[date]] = defaultdict(set)
        for row in case.rows:
            wanted[row.group[:count]].update(row.days)
        found: DefaultDict[Tuple[str, ...], List[date]] = defaultdict(list)
        for start, end, *group in records:
            first, behind = date.fromisoformat(start), date.fromisoformat(end)
            # A maximal period: neither neighbouring day is the group's.
            self.assertFalse({first - timedelta(1), behind} & wanted[tuple(group)])
            found[tuple(group)].extend(first + timedelta(more) for more in range((behind - first).days))
        self.assertEqual({group: sorted(days) for group, days in wanted.items() if days}, dict(found))
        self.assertEqual([tuple(group) for _, _, *group in records], sorted(tuple(group) for _, _, *group in records))


class WithoutPandas(ToolCase):
    def test_one_line_says_how_to_have_it(self) -> None:
        needed = "answers: this command needs pandas: `apt-get install python3-pandas`, or `pip install pandas`"
        with mock.patch.dict(sys.modules):
            for name in [name for name in sys.modules if name.startswith(("ruzgalt.frames", "pandas."))]:
                del sys.modules[name]
            sys.modules["pandas"] = None  # type: ignore[assignment]
            words = (f"gaps {EXAMPLE} person", f"months {EXAMPLE} --sum euros --per month")
            self.ends(1, {f"{one} --ask rows,pay": needed for one in words})


SUMS = "months PAYROLL --go-on --sum sum_euros"
TABLE = "table,t,k,text,cents,int\nload,t\nrow,2024-01-15,2025-01-15,a,120000\n"


@NEEDS_PANDAS
class Words(ToolCase):
    def test_what_can_t_be_counted_is_refused(self) -> None:
        monthly = f"{SUMS} --per month"
        told = "--sum sum_euros: say what an amount is: --per month if a record has it in each month, such as a pay"
        self.ends(1, {
            "months PAY --per month 4 --sum euros": "an `at` is of one point only: ask by `rows`",
            "months PAY --per month 6 --sum euros": "versions of several commits",
            "months PAY --per month 7 --sum number": "its records aren't periods",
            "months PAYROLL --go-on --per month --sum euros": "no column euros; its columns are valid_from, valid_to, ",
            "months PAYROLL --go-on --per month --sum valid_to": "valid_to: a start or an end",
            f"months {EXAMPLE} --ask rows,pay --per month --sum row_id":
            "--sum row_id: a column of ids, whose sums mean nothing",
            monthly: "9999-12-31,42150: no end is known: give --to, the time until which",
            f"{monthly} --to 2024-13-01": "--to 2024-13-01: not a date or time",
            f"{monthly} --from 2024-02-01 --to 2024-02-01": "--from 2024-02-01 isn't before --to 2024-02-01",
            SUMS: told, f"{monthly} --in-total": told,
            f"{SUMS} --in-total": "agg,pay,sum,euros: its records are parts of rows, and each part has",
        })
        self.ends(2, {f"{monthly} --each hour": "invalid choice: 'hour'"})

    def test_only_the_time_that_is_given_counts(self) -> None:
        cut, december = f"{SUMS} --per month --from 2024-06-16", "--from 2024-12-01 --to 2024-12-31"
        last = f"{SUMS} --per month --last-day"
        self.ends(0, {
            # 41,810 for 15 of 30 days, and 41,830 for half of a day of 31. Each piece has the time that counts.
            f"{cut} --to 2024-07-01T12:00:00": "2024-06-16,2024-07-01,20905\n2024-07-01,2024-07-01T12:00:00,675\n",
            f"{cut} --to 2024-07-01": "valid_to,sum_euros\n2024-06-16,2024-07-01,20905\n",
            f"{last} {december}": "last_day,sum_euros\n2024-12-01,2024-12-31,42150\n",
            f"{last} --from 2024-12-31 --to 2024-12-31": "last_day,sum_euros\n2024-12-31,2024-12-31,1360\n",
        })
        self.ends(1, {
            f"{last} --from 2025-01-01 --to 2024-12-31": "2025-01-01 is after --to 2024-12-31",
            f"{last} --to 2024-12-31T12:00:00": "--last-day it is the last day that counts",
        })

    def test_an_amount_in_total_is_divided_over_its_record(self) -> None:
        months = "months - --ask rows,t --sum cents --by k --in-total"
        self.ends(0, {
            f"{months} --each year": "2024-01-01,2025-01-01,a,115410\n2025-01-01,2026-01-01,a,4590\n",
            f"{months} --from 2025-01-01 --to 2025-01-11": "2025-01-01,2025-01-11,a,3279\n",
        }, TABLE + "end\n")
        for row, known in (("2024-01-01,9999-12-31", "end"), ("0001-01-01,2024-01-01", "start")):
            part = f"no {known} is known, so an amount in total can't be divided: leave the record out by --where"
            self.ends(1, {f"{months} --from 2024-01-01 --to 2024-02-01": part}, f"{TABLE}row,{row},b,5\nend\n")
        change = f"{TABLE}end\nupdate,t,2024-07-01,2025-01-15,set,k,b,where,k,a\n"
        note = "update,t,2024-07-01,2025-01-15,set,k,b,where,k,a: if it has cut a row, each part of the row has"
        self.ends(0, {months: note}, change)
        before = ["tools/answers", *months.replace("rows,t", "rows,t,asof,2").split()]
        self.assertNotIn("cut a row", run(before, change)[2])

    def test_sums_grouped_by_the_summed_column_have_its_decimals(self) -> None:
        months = "months - --ask rows,t --by cents --sum cents --per month --decimals cents=2"
        january = "valid_from,valid_to,cents,cents_\n2024-01-01,2024-02-01,48.00,"
        self.ends(0, {
            months: f"{january}48.00\n", f"{months} --decimals cents_=0": f"{january}4800\n",
        }, "table,t,cents,int\nload,t\nrow,2024-01-01,2024-02-01,4800\nend\n")

    def test_a_difference_is_of_two_answers(self) -> None:
        months = f"{SUMS} --per month --from 2024-05-01 --to 2024-08-01"
        june = "2024-05-01,2024-06-01,0\n2024-06-01,2024-07-01,480\n2024-07-01,2024-08-01,360\n"
        self.ends(0, {
            f"{months} last --less last-1": june, f"{months} --less last-1": june,
            f"{months} --less last-1 --no-zeros": "sum_euros\n2024-06-01,2024-07-01,480\n",
        })
        self.ends(1, {
            f"{months} last --less last": "--less last: that is the answer whose amounts are",
            f"{months} --less before": "before: not a NUMBER, @LINE, last or last-N",
            f"{months} --less @29": "an `at` is of one point only",
        })


if __name__ == "__main__":
    unittest.main()
