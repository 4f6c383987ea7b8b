"""The rows that `refusals` shows for a key, compared with a plain computation on sets of instants.

hypothesis draws a table with a key, and loads, updates and deletes of it. The program refuses some, and of each the
pairs must be the rows that are equal in the key and share an instant. TOOLS_EXAMPLES is how many are drawn.
"""
import re
import subprocess
import tempfile
import unittest
from collections import Counter
from itertools import combinations
from pathlib import Path
from typing import Any, Callable, Dict, FrozenSet, Iterator, List, NamedTuple, Tuple

from tests.by_hypothesis import drawn, given, needs_program, st
from tests.support import PROGRAM, run

DRAWN = drawn()
# In the order of time. Instant 0 is that from the first of these on and before the second.
DAYS = ["0001-01-01", "2024-02-28", "2024-02-29", "2024-03-01", "2025-01-01", "9999-12-31"]
SECONDS = [
    "2023-12-31T23:59:59", "2024-01-01", "2024-01-01T00:00:01", "2024-01-01T08:30:00", "2024-01-02",
    "9999-12-31T23:59:59",
]
NAMES = ["a", "count", "row_id", "key_", "valid_from", "x" * 32]
TEXTS = ["a", "A", "", " a", "\u00e9", "e\u0301", "1", "01", "x,y", 'q"q', '"', "set", "two\nlines", "cr\rlf", "\u2028"]
NUMBERS = ["0", "1", "-1", "10", str((1 << 63) - 1), str(-1 << 63)]
# So many pairs of rows are shown of one refusal, and then that there are more.
SHOWN, MORE = 20, "and more pairs of rows"
# A record with just an empty text.
EMPTY = '""'
Values = Tuple[str, ...]
Pairs = List[Tuple[int, str]]
Instants = FrozenSet[int]
# The line of a pair of rows, and the lines of the two.
Shown = Tuple[str, Tuple[str, ...]]


class Row(NamedTuple):
    """A row: its instants, its values, and its origin for a person."""

    instants: Instants
    values: Values
    origin: str


class Step(NamedTuple):
    """A load of rows, or a change of the rows that hold at some instants and have the values of `where`."""

    word: str
    rows: List[Tuple[Instants, Values]] = []
    instants: Instants = frozenset()
    set_to: Pairs = []
    where: Pairs = []


class Case(NamedTuple):
    points: List[str]
    names: List[str]
    kinds: List[str]
    key: List[int]
    steps: List[Step]


@st.composite
def cases(draw: Callable[[Any], Any]) -> Case:
    names = draw(st.lists(st.sampled_from(NAMES), min_size=1, max_size=4, unique=True))
    kinds = [draw(st.sampled_from(["int", "text"])) for _ in names]
    texts = (st.sampled_from(NUMBERS if kind == "int" else TEXTS) for kind in kinds)
    some = [draw(st.lists(one, min_size=1, max_size=3)) for one in texts]
    places = range(len(names))
    key = draw(st.lists(st.sampled_from(places), min_size=1, unique=True))
    points = draw(st.sampled_from([DAYS, SECONDS]))
    ends = st.lists(st.sampled_from(range(len(points))), min_size=2, max_size=2, unique=True)
    spans = ends.map(lambda both: frozenset(range(min(both), max(both))))
    pairs = st.sampled_from(places).flatmap(lambda place: st.tuples(st.just(place), st.sampled_from(some[place])))
    rows = st.tuples(spans, st.tuples(*(st.sampled_from(values) for values in some)))
    loads = st.builds(Step, st.just("load"), st.lists(rows, max_size=draw(st.sampled_from([3, 3, 30]))))
    wheres = st.lists(pairs, max_size=2)
    updates = st.builds(Step, st.just("update"), st.just([]), spans, st.lists(pairs, min_size=1, max_size=3), wheres)
    deletes = st.builds(Step, st.just("delete"), st.just([]), spans, st.just([]), wheres)
    steps = draw(st.lists(st.one_of(loads, updates, updates, deletes), max_size=8))
    return Case(points, names, kinds, key, [draw(loads), *steps])


def record(fields: List[str]) -> str:
    return ",".join('"' + one.replace('"', '""') + '"' if set(one) & {*'",\r\n'} else one for one in fields)


class Plain:
    """What a case's script is, which of its changes are refused, and the pairs of rows of each refusal."""

    def __init__(self, case: Case) -> None:
        self.case, self.script = case, ""
        self.rows: Dict[int, Row] = {}
        self.ids, self.commits = 0, 1
        self.refused: Dict[int, List[Shown]] = {}
        columns = [one for pair in zip(case.names, case.kinds) for one in pair]
        self.write(["table", "t", *columns, "key", *(case.names[place] for place in case.key)])
        self.answers = ["ok"]
        for step in case.steps:
            self.do(step)

    def write(self, fields: List[str]) -> int:
        """The line on which the record begins."""
        line = len(re.findall("\r\n|\r|\n", self.script)) + 1
        self.script += record(fields) + "\n"
        return line

    def period(self, instants: Instants) -> List[str]:
        return [self.case.points[min(instants)], self.case.points[max(instants) + 1]]

    def do(self, step: Step) -> None:
        line, closed, made = self.loaded(step) if step.word == "load" else self.changed(step)
        kept = {row_id: row for row_id, row in self.rows.items() if row_id not in closed}
        pairs = list(self.pairs([*kept.values(), *made]))
        self.answers.append("KeyOverlap" if pairs else "ok")
        if pairs:
            self.refused[line] = pairs
            return
        self.commits += 1
        self.rows = kept
        for row in made:
            self.ids += 1
            self.rows[self.ids] = row._replace(origin=f"row {self.ids}, made by commit {self.commits}")

    def loaded(self, step: Step) -> Tuple[int, List[int], List[Row]]:
        line, made = self.write(["load", "t"]), []
        for instants, values in step.rows:
            of_row = self.write(["row", *self.period(instants), *values])
            made.append(Row(instants, values, f"line {of_row}"))
        self.write(["end"])
        return line, [], made

    def changed(self, step: Step) -> Tuple[int, List[int], List[Row]]:
        set_to, where = self.named(step.set_to), self.named(step.where)
        more = [*(["set", *set_to] if set_to else []), *(["where", *where] if where else [])]
        line = self.write([step.word, "t", *self.period(step.instants), *more])
        closed = [
            row_id for row_id, row in self.rows.items()
            if row.instants & step.instants and all(row.values[place] == value for place, value in step.where)
        ]
        return line, closed, [part for row_id in closed for part in self.parts(row_id, step, line)]

    def named(self, pairs: Pairs) -> List[str]:
        return [one for place, value in pairs for one in (self.case.names[place], value)]

    def parts(self, row_id: int, step: Step, line: int) -> Iterator[Row]:
        row, origin = self.rows[row_id], f"line {line} in place of row {row_id}"
        last = {**dict(enumerate(row.values)), **dict(step.set_to)}
        values = tuple(last[place] for place in range(len(row.values)))
        before = frozenset(one for one in row.instants if one < min(step.instants))
        behind = frozenset(one for one in row.instants if one > max(step.instants))
        inside = row.instants & step.instants if step.word == "update" else frozenset()
        for instants, made in ((before, row.values), (inside, values), (behind, row.values)):
            if instants:
                yield Row(instants, made, origin)

    def pairs(self, rows: List[Row]) -> Iterator[Shown]:
        for one, other in combinations(rows, 2):
            both = one.instants & other.instants
            if both and all(one.values[place] == other.values[place] for place in self.case.key):
                start, end = self.period(both)
                texts = ((self.case.names[place], one.values[place]) for place in self.case.key)
                key = ", ".join(f"{name} {record([text]) or EMPTY}" for name, text in texts)
                yield f"{key}: both hold from {start} to {end}", tuple(sorted(map(self.shown, (one, other))))

    def shown(self, row: Row) -> str:
        return f"{row.origin}: {record([*self.period(row.instants), *row.values])}"


def shown_in(printed: str) -> Dict[int, List[Shown]]:
    """Of each refusal its line and the pairs. No text of a row has a line that begins as these do."""
    found: Dict[int, List[Shown]] = {}
    for refusal in re.split(r"(?m)^(?=line \d+: )", printed)[1:]:
        head, *pairs = re.split(r"(?m)^  (?! )", refusal)
        blocks = [re.split(r"(?m)^    (?=line|row)", pair) for pair in pairs]
        line = int(head.split(":")[0].split()[1])
        found[line] = [(block[0][:-1], tuple(sorted(row[:-1] for row in block[1:]))) for block in blocks]
    return found


@needs_program
class KeyRows(unittest.TestCase):
    @DRAWN
    @given(case=cases())
    def test_the_rows_of_a_refusal_are_those_that_share_a_key_and_an_instant(self, case: Case) -> None:
        plain = Plain(case)
        answers = subprocess.run([str(PROGRAM)], input=plain.script.encode(), capture_output=True).stdout
        said = [line.split(",")[-1] if line.startswith("error") else "ok" for line in answers.decode().splitlines()]
        self.assertEqual(said, plain.answers)
        with tempfile.TemporaryDirectory() as folder:
            script, kept = Path(folder, "script.csv"), Path(folder, "answers.csv")
            script.write_bytes(plain.script.encode())
            kept.write_bytes(answers)
            status, printed, _ = run(["tools/answers", "refusals", str(script), "--answers", str(kept)])
        self.assertEqual(status, 1 if plain.refused else 0)
        found = shown_in(printed)
        self.assertEqual(list(found), list(plain.refused))
        for line, wanted in plain.refused.items():
            self.are_shown(found[line], wanted)

    def are_shown(self, found: List[Shown], wanted: List[Shown]) -> None:
        if len(wanted) > SHOWN:
            self.assertEqual((len(found), found.pop()), (SHOWN + 1, (MORE, ())))
            self.assertFalse(Counter(found) - Counter(wanted))
        else:
            self.assertEqual(Counter(found), Counter(wanted))


if __name__ == "__main__":
    unittest.main()
