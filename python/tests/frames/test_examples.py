"""examples/frames.py: each cell prints the lines below it that begin with # |, and nothing is warned of."""
import contextlib
import io
import unittest
import warnings
from pathlib import Path

import pandas as pd

NOTEBOOK = Path(__file__).resolve().parents[3] / "examples" / "frames.py"
CELL, OUTPUT = "# %%", "# |"


def cells():
    """Yields the lines of each cell of the notebook, and the output that it should print."""
    first, *others = NOTEBOOK.read_text(encoding="utf-8").split(f"\n{CELL}")
    for text in others:
        lines = f"{CELL}{text}".splitlines()
        found = [line[len(OUTPUT):].removeprefix(" ") for line in lines if line.startswith(OUTPUT)]
        yield "\n".join(line for line in lines if not line.startswith(OUTPUT)), found


class Examples(unittest.TestCase):
    def test_each_cell_prints_the_lines_below_it(self):
        names = {"__file__": str(NOTEBOOK)}
        found = list(cells())
        with pd.option_context("display.width", 120, "display.max_columns", None), warnings.catch_warnings():
            warnings.simplefilter("error")
            for source, answered in found:
                printed = io.StringIO()
                with contextlib.redirect_stdout(printed):
                    exec(compile(source, str(NOTEBOOK), "exec"), names)
                with self.subTest(source.splitlines()[0]):
                    self.assertEqual([line.rstrip() for line in printed.getvalue().splitlines()], answered)
        self.assertGreater(sum(len(answered) for _, answered in found), 50)


if __name__ == "__main__":
    unittest.main()
