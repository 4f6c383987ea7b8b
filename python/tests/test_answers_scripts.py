"""Each script of examples/ and tests/ with its answers: tables, pictures, refusals, and answers that are damaged."""
import json
import re
import subprocess
import sys
import unittest
import xml.etree.ElementTree
from pathlib import Path
from typing import Iterator, List, Tuple

from ruzgalt.errors import Misfit
from ruzgalt.report import databases, export, figures, picks, svg
from ruzgalt.script import answers, commands, overlaps, records, refusals
from ruzgalt.script.answers import Answer
from ruzgalt.script.run import Past
from tests.support import NEEDS_PANDAS, PROGRAM, TOP

SCRIPTS = sorted([*TOP.glob("examples/*.csv"), *TOP.glob("tests/**/*.csv")])
# So many records of a script's answers are left out and doubled, one by one.
DAMAGED = 60


def output_of(script: Path) -> bytes:
    return script.with_name(script.name + ".stdout").read_bytes()


def found_in(script: Path) -> List[Answer]:
    return answers.of(script, output_of(script))


def past_of(script: Path) -> Past:
    source = records.Source(script.read_bytes())
    begun = list(commands.commands(source))
    return Past(str(PROGRAM), source, output_of(script), begun, found_in(script))


def damaged(output: bytes) -> Iterator[Tuple[int, bytes]]:
    """The output with a record too few, or one twice."""
    kept = [list(record.fields) for record in records.Reader(records.Source(output))]
    for place in range(min(len(kept), DAMAGED)):
        for wrong in (kept[:place] + kept[place + 1:], kept[:place] + kept[place:place + 1] + kept[place:]):
            yield place + 1, records.encode(records.to_text(wrong))


class Scripts(unittest.TestCase):
    def test_rows_are_the_versions_of_their_commit(self) -> None:
        for script in SCRIPTS:
            past = past_of(script)
            for answer in found_in(script):
                if answer.command.word == "rows" and not answer.refusal:
                    with self.subTest(script.name, line=answer.line):
                        rows = past.versions(answer.command.front[1]).at(answer.commit)
                        texts = [[str(one.row_id), one.start, one.end, *one.values] for one in rows]
                        self.assertEqual(texts, list(answer.table.records))

    def test_a_refusal_is_described_in_one_line_and_of_a_key_the_rows(self) -> None:
        for script in SCRIPTS:
            found = found_in(script)
            for answer in found:
                if answer.refusal:
                    with self.subTest(script.name, line=answer.line):
                        listed = refusals.described(answer)
                        self.assertIn(f": {answer.refusal.name}: ", listed)
                        self.assertNotIn("\n", listed)
            overlapping = [one.number for one in found if one.refusal and one.refusal.name == "KeyOverlap"]
            explained = overlaps.explained(past_of(script), [one for one in found if one.refusal])
            self.assertEqual([number for number, lines in explained.items() if lines], overlapping)

    def test_pictures_are_xml(self) -> None:
        for script in SCRIPTS:
            past = past_of(script)
            for answer in found_in(script):
                with self.subTest(script.name, line=answer.line):
                    self.draw(past, answer)

    def draw(self, past: Past, answer: Answer) -> None:
        word = answer.command.word
        if answer.refusal or word not in ("dip", "rows", "at", "anti", "join", "agg", "between", "fromto"):
            return
        try:
            picture = figures.of(answer, figures.Wish(), past.versions)
        except Misfit:
            # Versions are drawn of one fact, and there may be several.
            self.assertIn(word, ("between", "fromto"))
            return
        xml.etree.ElementTree.fromstring(svg.draw(picture))

    def test_tables_are_the_same_in_sqlite_and_json(self) -> None:
        for script in SCRIPTS:
            chosen = picks.pick(found_in(script), [], [], {})
            with databases.opened(":memory:") as database:
                databases.make_tables(chosen, database, databases.Wishes())
                for pick, answered in zip(chosen, json.loads(export.to_json(chosen))):
                    with self.subTest(script.name, answer=pick.name):
                        table = pick.answer.table
                        kept = database.execute(f"select * from {databases.quoted(pick.name)}")
                        texts = [[None if value is None else str(value) for value in row] for row in kept]
                        self.assertEqual(texts, list(table.records))
                        self.assertEqual([list(row.values()) for row in answered["records"]], list(table.values()))

    def test_a_record_too_few_or_one_twice_is_noticed(self) -> None:
        for script in SCRIPTS:
            for number, output in damaged(output_of(script)):
                with self.subTest(script.name, record=number), self.assertRaises(Misfit):
                    answers.of(script, output)

    @NEEDS_PANDAS
    def test_the_lines_for_pandas_make_a_frame(self) -> None:
        recipe = (TOP / "docs" / "RECIPES.md").read_text(encoding="utf-8")
        [lines] = re.findall(r"^```python\n(.*?)^```$", recipe, re.MULTILINE | re.DOTALL)
        code = lines + "print(list(frame.columns), frame.shape, frame.euros.sum())\n"
        ran = subprocess.run([sys.executable, "-c", code], cwd=TOP, stdout=subprocess.PIPE, check=True)
        self.assertEqual(
            ran.stdout.decode(), "['row_id', 'valid_from', 'valid_to', 'person', 'euros'] (2, 5) 10200\n",
        )


if __name__ == "__main__":
    unittest.main()
