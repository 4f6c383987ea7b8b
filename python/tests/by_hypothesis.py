"""What tests draw, by hypothesis: without it a test that imports this is left out.

TOOLS_EXAMPLES is how many are drawn. They are the same ones each time, unless many are wanted.
"""
import os
import unittest

from tests.support import PROGRAM

try:
    from hypothesis import assume, example, given, settings, strategies as st
except ModuleNotFoundError as error:
    raise unittest.SkipTest("what hypothesis draws for the tools") from error

__all__ = ["assume", "drawn", "example", "given", "needs_program", "st"]


def drawn(count: int = 150) -> settings:
    """Returns the settings of a test."""
    wanted = int(os.environ.get("TOOLS_EXAMPLES", count))
    return settings(max_examples=wanted, deadline=None, database=None, derandomize=wanted <= 200)


needs_program = unittest.skipUnless(PROGRAM.exists(), "a built program to answer what hypothesis draws")
