"""Divisions with their rows, and by groups, compared with counts of rows on each day."""
import unittest
from collections import Counter, defaultdict
from datetime import date, timedelta
from typing import Counter as Counts, DefaultDict, List, Tuple

from tests.by_hypothesis import drawn, given, needs_program, st
from tests.support import ToolCase, run
from tests.test_answers_over_time import Case, cases, read

DRAWN = drawn(100)
OWN = ["part", "row_id", "instant", "valid_from", "valid_to"]


def asked(script: str, *words: str) -> List[List[str]]:
    status, text, said = run(["tools/answers", "csv", "-", "--ask", "dip,t", *words], script)
    if status:
        raise AssertionError(said)
    return read(text)


def days(start: str, end: str) -> List[date]:
    first = date.fromisoformat(start)
    return [first + timedelta(more) for more in range((date.fromisoformat(end) - first).days)]


@needs_program
class Divided(unittest.TestCase):
    @DRAWN
    @given(cases(), st.integers(0, 2))
    def test_each_group_has_the_fewest_parts(self, case: Case, count: int) -> None:
        names = [*case.texts, case.amounts]
        by = [word for name in names[:count] for word in ("--by", name)]
        header, *records = asked(case.script, *(by or ["--rows"]))
        self.assertEqual(header, [*OWN, *(f"{name}_" if name in OWN else name for name in names)])
        own = {str(number): row for number, row in enumerate(case.rows, 1)}
        self.assertEqual(sorted(record[1] for record in records), sorted(own))
        counts: List[List[str]] = [["0", "0", ""]] if not (by or case.rows) else []
        groups: DefaultDict[Tuple[str, ...], List[List[str]]] = defaultdict(list)
        for record in records:
            row = own[record[1]]
            self.assertEqual(record[3:], [str(row.start), str(row.end), *row.group, str(row.amount)])
            groups[tuple(record[5:5 + count])].append(record)
        for rows in groups.values():
            held: Counts[date] = Counter(day for record in rows for day in days(*record[3:5]))
            within = Counter((record[0], day) for record in rows for day in days(*record[3:5]))
            self.assertEqual(set(within.values()), {1})
            fewest = max(held.values())
            self.assertEqual({record[0] for record in rows}, {str(part) for part in range(fewest)})
            first = min(day for day, number in held.items() if number == fewest)
            self.assertEqual({record[2] for record in rows}, {str(first)})
            counts.append([str(len(rows)), str(fewest), str(first), *rows[0][5:5 + count]])
        self.assertCountEqual(asked(case.script, "--counts", *by)[1:], counts)

    def test_many_groups_are_asked_in_several_runs(self) -> None:
        rows = "".join(f"row,2024-01-01,2024-01-0{2 + number % 3},{number % 150}\n" for number in range(300))
        _, *records = asked(f"table,t,n,int\nload,t\n{rows}end\n", "--by", "n")
        self.assertEqual([record[5] for record in records], [str(place // 2) for place in range(300)])
        self.assertEqual([record[0] for record in records], ["0", "1"] * 150)


class Words(ToolCase):
    def test_only_a_division_has_parts(self) -> None:
        self.ends(1, dict.fromkeys(
            ("csv PAY 4 --rows", "csv PAY 4 --by person", "csv PAY 4 --counts"),
            "line 7: at,pay,2024-08-15: not a division: ask by `dip`",
        ))
        self.ends(1, {
            "csv PAY 4 --rows --folder x": "--by and --counts can't be given with --folder",
            "csv PAY 4 --rows --counts": "--rows can't be given with --counts",
        })

    def test_a_division_has_its_counts_or_rows(self) -> None:
        self.ends(0, {
            "csv POSTS --counts": "rows,parts,instant\n7,3,2024-02-05\n",
            "csv POSTS --rows":
            "part,row_id,instant,valid_from,valid_to\n0,1,2024-02-05,2024-01-08,2024-03-01\n",
            "csv POSTS --rows --last-day": "0,1,2024-02-05,2024-01-08,2024-02-29\n",
        })


if __name__ == "__main__":
    unittest.main()
