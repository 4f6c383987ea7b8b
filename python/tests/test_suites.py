"""The tests themselves: a warning is an error, a test that is left out says why, and unittest finds all of them."""
import os
import subprocess
import sys
import unittest
import warnings
from typing import Callable, List, Type

from tests import suites
from tests.support import TOP


class Suites(unittest.TestCase):
    def run_alone(self, suite: Type[unittest.TestSuite], tests: List[unittest.TestCase]) -> unittest.TestResult:
        return suite(tests).run(unittest.TestResult())

    def warns(self, module: str) -> Callable[[], None]:
        """What warns as a line of this module does."""
        return lambda: warnings.warn_explicit("old", DeprecationWarning, "file", 1, module)

    def test_a_warning_is_an_error(self) -> None:
        for suite, module, errors in (
            (suites.OfTools, "any", 1), (suites.OfFrames, "ruzgalt.frames.pairs", 1), (suites.OfFrames, "pandas", 0),
        ):
            with self.subTest(suite=suite, module=module), warnings.catch_warnings():
                warnings.simplefilter("ignore")
                ran = self.run_alone(suite, [unittest.FunctionTestCase(self.warns(module))])
                self.assertEqual((ran.testsRun, len(ran.errors)), (1, errors))

    def test_a_test_that_is_left_out_says_why(self) -> None:
        ran = self.run_alone(suites.OfFrames, [suites.LeftOut("frames", "it is missing")])
        self.assertEqual([(str(test), reason) for test, reason in ran.skipped], [("frames", "it is missing")])

    def test_discovery_finds_those_of_tools_and_of_frames(self) -> None:
        # One of each, by their names.
        words = ["-k", "test_a_test_that_is_left_out_says_why", "-k", "test_other_names_are_no_attributes"]
        unset = ("PYTHONPATH", "DIPQ")
        environment = {name: value for name, value in os.environ.items() if name not in unset}
        for folder in (TOP, TOP / "python"):
            with self.subTest(folder):
                command = [sys.executable, "-m", "unittest", "discover", "-v", *words]
                ran = subprocess.run(command, cwd=folder, env=environment, stderr=subprocess.PIPE)
                said = ran.stderr.decode()
                self.assertEqual((ran.returncode, said.count(" ... ok")), (0, 2), said)


if __name__ == "__main__":
    unittest.main()
