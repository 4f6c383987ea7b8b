"""The table of the language's commands: a command of fields and answers as others have needs no more than its line."""
import re
import unittest
from unittest import mock

from ruzgalt.report import figures, picks
from ruzgalt.script import answers, refusals
from ruzgalt.script.commands import COMMANDS, Answered, Form, Role
from tests.support import TOP

HOLDING = Form("holding,T,POINT[,asof,N]", Answered.ROWS, more=(Role.POINT,))
# The module with the calls of a store. It has no arrays, so it can't read rows.
SENDING = ("store",)
SCRIPT = b"""table,t,k,text
load,t
row,2024-01-01,2024-02-01,a
end
holding,t,2024-01-05,asof,2
holding,t,2024-01-32
holding,u,2024-01-05
"""
OUTPUT = b"ok,1\nok,2\nrow,1,2024-01-01,2024-02-01,a\nend,1\nerror,6,BadPoint\nerror,7,NoTable\n"


class Language(unittest.TestCase):
    def test_a_new_command_is_read_explained_picked_and_drawn_by_its_line(self) -> None:
        with mock.patch.dict(COMMANDS, holding=HOLDING):
            found = answers.of(SCRIPT, OUTPUT)
            self.assertEqual(found[2].table.names, ["row_id", "valid_from", "valid_to", "k"])
            self.assertEqual((found[2].commit, [one.answer.number for one in picks.pick(found, [], [], {})]), (2, [3]))
            self.assertIsInstance(figures.of(found[2], figures.Wish(), mock.Mock()), figures.Bars)
            self.assertIn("isn't a day that exists", refusals.reason(found[3]))
            self.assertIn("isn't a table; the tables are t", refusals.reason(found[4]))

    def test_only_the_program_decides_what_a_change_a_key_or_a_query_does(self) -> None:
        package = TOP / "python" / "ruzgalt"
        texts = {file.stem: file.read_text(encoding="utf-8") for file in package.joinpath("store").glob("*.py")}
        self.assertEqual([name for name in SENDING if "numpy" in texts[name]], [])
        # Only the program finds the rows that make a key refuse a change.
        self.assertEqual([name for name, text in texts.items() if 'Refused("KeyOverlap"' in text], ["state"])
        self.assertIn("Live(", texts["state"])

    def test_each_word_has_its_part_of_the_language_s_page(self) -> None:
        page = TOP.joinpath("docs/LANGUAGE.md").read_text(encoding="utf-8")
        headings = "".join(re.findall(r"^### .*$", page, re.MULTILINE))
        self.assertEqual(set(re.findall(r"`(\w+)`", headings)), set(COMMANDS))


if __name__ == "__main__":
    unittest.main()
