"""All tests of Python. `python3 -m unittest discover` runs them, in python/ and at the repository's top."""
from typing import Optional
from unittest import TestLoader, TestSuite

from tests import suites


def load_tests(loader: TestLoader, standard: TestSuite, pattern: Optional[str]) -> TestSuite:
    """As unittest asks a package for its tests."""
    return suites.of_all(loader)
