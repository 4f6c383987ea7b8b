"""Runs the tools as a shell does, in this process, from the repository's top."""
import contextlib
import io
import os
import re
import shlex
import sys
import tempfile
import unittest
from importlib.util import find_spec
from pathlib import Path
from typing import Iterator, List, Mapping, Tuple
from unittest import mock

from ruzgalt.cli import answers as answers_tool, load as load_tool

TOP = Path(__file__).resolve().parents[2]
# The program that answers, as tests of both suites are given it.
PROGRAM = Path(os.environ.get("DIPQ", TOP / "crates/dipq/out/dipq")).resolve()
EXAMPLE = "examples/pay.csv"
# Each example's script with its answers, by its name in capitals.
EXAMPLES = {
    file.stem.upper(): f"examples/{file.name} --answers examples/{file.name}.stdout"
    for file in TOP.glob("examples/*.csv")
}
NEEDS_PANDAS = unittest.skipUnless(find_spec("pandas"), "pandas isn't installed: apt-get install python3-pandas")
TOOLS = {"tools/answers": answers_tool.main, "tools/csv-to-load": load_tool.main}


class Stream(io.TextIOWrapper):
    """Standard input, output or error, with its bytes."""

    def __init__(self, given: bytes = b"") -> None:
        self.bytes = io.BytesIO(given)
        super().__init__(self.bytes, "utf-8", "surrogateescape", newline="", write_through=True)


def run(words: List[str], given: str = "") -> Tuple[int, str, str]:
    """Returns the status of a tool, and its standard output and error."""
    printed, said = Stream(), Stream()
    with mock.patch.multiple(sys, stdin=Stream(given.encode()), stdout=printed, stderr=said), moved_to(TOP):
        try:
            status = TOOLS[words[0]](words[1:])
        except SystemExit as ended:
            status = int(ended.code or 0)
    return status, printed.bytes.getvalue().decode(), said.bytes.getvalue().decode()


@contextlib.contextmanager
def moved_to(folder: Path) -> Iterator[None]:
    before = os.getcwd()
    os.chdir(folder)
    try:
        yield
    finally:
        os.chdir(before)


@contextlib.contextmanager
def kept(script: str) -> Iterator[str]:
    """The name of a file that has the script."""
    with tempfile.NamedTemporaryFile("w", encoding="utf-8", newline="") as file:
        file.write(script)
        file.flush()
        yield file.name


class ToolCase(unittest.TestCase):
    def check(self, words: List[str], given: str, status: int, part: str) -> None:
        """The tool ends with the status, and prints or reports this part; where something is wrong, in one line."""
        with self.subTest(" ".join(words)[:200]):
            ended, printed, said = run(words, given)
            self.assertEqual(ended, status, said)
            self.assertIn(part, printed + said)
            if status == 1 and said:
                # Instead of a load it prints a record that the store refuses.
                nothing = "csv-to-load failed\n" if words[0] == "tools/csv-to-load" else ""
                self.assertEqual((said.count("\n"), printed), (1, nothing))

    def ends(self, status: int, parts: Mapping[str, str], given: str = "") -> None:
        """Each command line of tools/answers ends with the status, and prints or reports its part.

        An example's name in capitals, such as PAY, stands for the script and its answers.
        """
        for words, part in parts.items():
            line = re.sub(r"\b[A-Z]+\b", lambda name: EXAMPLES.get(name[0], name[0]), words)
            self.check(["tools/answers", *shlex.split(line)], given, status, part)
