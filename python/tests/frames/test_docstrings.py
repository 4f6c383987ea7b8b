"""The docstrings of the calls: their examples run, they have what a signature has, and docs/API.md is made of them."""
import contextlib
import copy
import doctest
import inspect
import sys
import tempfile
import unittest
from pathlib import Path

import pandas as pd

import ruzgalt

TOP = Path(__file__).resolve().parents[3]
sys.path.append(str(TOP / "tools"))

from manual import api  # noqa: E402
from manual.numpydoc import Docstring  # noqa: E402

SUBJECTS = dict(api.subjects())
SECTIONS = ("Parameters", "Returns", "Raises", "Warns", "Examples")
CALLS = {name: subject for name, subject in SUBJECTS.items() if inspect.isroutine(subject)}


def parameters(call):
    kept = [one for one in inspect.signature(call).parameters.values() if one.kind is not one.VAR_POSITIONAL]
    return [one.name for one in kept if one.name not in ("self", "cls")]


class Docstrings(unittest.TestCase):
    def run_example(self, name, names):
        """Runs an example, which has these names and adds its own to them."""
        found = inspect.getdoc(SUBJECTS[name])
        example = doctest.DocTestParser().get_doctest(found, names, name, None, None)
        self.assertTrue(example.examples, "no example")
        said = []
        doctest.DocTestRunner().run(example, out=said.append, clear_globs=False)
        self.assertEqual(said, [], "".join(said))
        return example.globs

    def test_examples(self):
        first = {"pd": pd, "ruzgalt": ruzgalt}
        of_store = self.run_example("Store", dict(first))
        for name in SUBJECTS:
            of_methods = {**of_store, "store": copy.copy(of_store["store"])}
            # Some write files.
            with self.subTest(name), tempfile.TemporaryDirectory() as folder, contextlib.chdir(folder):
                self.run_example(name, of_methods if name.startswith("Store.") else dict(first))

    def test_they_have_each_parameter_and_the_answer(self):
        for name, call in CALLS.items():
            with self.subTest(name):
                found = Docstring(call)
                self.assertEqual(found.names("Parameters"), parameters(call))
                self.assertEqual(list(found.sections), [one for one in SECTIONS if one in found.sections])
                self.assertIn("Returns", found.sections)
        self.assertEqual(Docstring(ruzgalt.Store).names("Parameters"), parameters(ruzgalt.Store))

    def test_each_begins_with_a_sentence_in_a_line(self):
        for name, subject in SUBJECTS.items():
            with self.subTest(name):
                [first] = inspect.getdoc(subject).split("\n\n")[0].splitlines()
                self.assertTrue(first.endswith("."), first)

    def test_api_is_made_of_them(self):
        page = Path(TOP, "docs/API.md").read_text(encoding="utf-8")
        self.assertEqual(page.splitlines(), list(api.page()), "tools/make-api > docs/API.md")


if __name__ == "__main__":
    unittest.main()
