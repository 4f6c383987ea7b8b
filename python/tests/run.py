"""Runs the tests of the tools, or of frames, a module at a time in each of several processes.

    PYTHONPATH=python python3 -m tests.run tools
    PYTHONPATH=python python3 -m tests.run frames

There is a process for each processor. The text of failed tests comes first, then the tests that were left out, with
reasons. The last line has the counts, as ./check reads them.
"""
import io
import multiprocessing
import os
import sys
import unittest
from concurrent.futures import ProcessPoolExecutor, as_completed
from dataclasses import dataclass
from typing import Dict, Iterator, List, Set

from tests import suites


@dataclass(frozen=True)
class Outcome:
    """How the tests of one module ended."""

    count: int
    failed: Set[str]
    # The tests that were left out, each with its reason.
    skipped: Dict[str, str]
    # What unittest prints of tests that fail.
    text: str


def name_of(test: unittest.TestCase) -> str:
    """The name of a test. A subtest has its test's name."""
    return str(getattr(test, "test_case", test))


def run_module(kind: str, module: str) -> Outcome:
    """Runs the tests of one module in this process."""
    printed = io.StringIO()
    result = unittest.TextTestRunner(printed, verbosity=0).run(suites.of_module(kind, module))
    failed = {name_of(test) for test, _ in [*result.failures, *result.errors]}
    failed |= {name_of(test) for test in result.unexpectedSuccesses}
    skipped = {name_of(test): reason for test, reason in result.skipped}
    return Outcome(result.testsRun, failed, skipped, printed.getvalue() if failed else "")


def outcomes(kind: str) -> Iterator[Outcome]:
    """Yields the outcomes of a suite's modules as they end."""
    modules = suites.modules_of(kind)
    count = min(len(modules), len(os.sched_getaffinity(0)))
    with ProcessPoolExecutor(count, multiprocessing.get_context("spawn")) as pool:
        for ended in as_completed([pool.submit(run_module, kind, module) for module in modules]):
            yield ended.result()


def main(words: List[str]) -> int:
    [kind] = words
    suites.set_environment()
    passed, failed, reasons = 0, 0, set()
    for outcome in outcomes(kind):
        print(outcome.text, end="", flush=True)
        failed += len(outcome.failed)
        passed += outcome.count - len(outcome.failed) - len(outcome.skipped)
        reasons |= set(outcome.skipped.values())
    for reason in sorted(reasons):
        print(f"left out: {reason}")
    print(f"{kind}: {passed} passed, {failed} failed")
    return 1 if failed else 0


if __name__ == "__main__":
    sys.exit(main(sys.argv[1:]))
