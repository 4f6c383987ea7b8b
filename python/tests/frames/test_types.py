"""mypy --strict accepts the types of frames, and checks a program that calls them."""
import importlib.util
import os
import subprocess
import sys
import tempfile
import unittest
from pathlib import Path

TOP = Path(__file__).resolve().parents[3]
# Stand for packages that have no types, or whose types would be read for long.
STUBS = {
    "pandas.pyi": "class DataFrame: ...\nclass Series: ...\n",
    "dask/__init__.pyi": "",
    "dask/dataframe.pyi": "class DataFrame: ...\n",
    "numpy.pyi": "from typing import Any\ndef __getattr__(name: str) -> Any: ...\n",
}
# mypy must refuse the lines whose comments say so, and no others.
PROGRAM = """
from typing import Optional, Union
import dask.dataframe as dd
import pandas as pd
import ruzgalt

frame, spread = pd.DataFrame(), dd.DataFrame()
store = ruzgalt.Store(workers=2)
pairs: pd.DataFrame = ruzgalt.join(frame, frame, on="k", suffixes=("_l", None))
left: pd.DataFrame = ruzgalt.anti(frame, frame, ["k"], period=["start", "end"], decimals={"k": 2})
costs: pd.DataFrame = ruzgalt.agg(frame, "sum", "cents", by="k", open_end=True)
division: ruzgalt.Division[pd.Series] = ruzgalt.dip(frame, last_day=True)
parts: pd.Series = division.parts
number: int = division.count
two: dd.DataFrame = ruzgalt.join(spread, spread, on="k")
first: Union[pd.DataFrame, dd.DataFrame] = ruzgalt.join(spread, frame, on="k")
second: Union[pd.DataFrame, dd.DataFrame] = ruzgalt.anti(frame, spread, on="k")
beds: ruzgalt.Checked = ruzgalt.check(frame, part="bed")
counts: dd.DataFrame = ruzgalt.agg(spread, "count")
changed: Optional[ruzgalt.Changed] = store.table("pay", frame, key="k", open_end=True)
rows: pd.DataFrame = store.rows("pay", as_of=2)
version: str = ruzgalt.__version__
ruzgalt.join(frame, frame, onn="k")  # refused
ruzgalt.join(frame, frame, "k", ["k"])  # refused
ruzgalt.join(frame, [frame])  # refused
ruzgalt.join(frame, frame, workers="4")  # refused
ruzgalt.join(frame, frame, last_day="both")  # refused
ruzgalt.anti(frame, frame, suffixes=True)  # refused
ruzgalt.agg(spread, "count", open_ends=True)  # refused
ruzgalt.dip(frame, on="k")  # refused
ruzgalt.dip(spread)  # refused
none: dd.DataFrame = ruzgalt.join(frame, frame)  # refused
store.table("pay", frame, opened=True)  # refused
ruzgalt.jion(frame, frame)  # refused
"""


def mypy(words, path, folder):
    """What mypy prints, whose own files go to the folder."""
    environment = {**os.environ, "MYPYPATH": os.pathsep.join(map(str, path))}
    command = [sys.executable, "-m", "mypy", "--config-file", "python/mypy.ini", "--cache-dir", f"{folder}/cache"]
    return subprocess.run([*command, *words], cwd=TOP, env=environment, capture_output=True).stdout.decode()


@unittest.skipUnless(importlib.util.find_spec("mypy"), "mypy isn't here: apt-get install python3-mypy")
class Types(unittest.TestCase):
    def setUp(self):
        folder = tempfile.TemporaryDirectory()
        self.addCleanup(folder.cleanup)
        self.folder = Path(folder.name)

    @unittest.skipUnless(os.environ.get("FRAMES_LONG"), "only in the long form, since it reads all of numpy")
    def test_types_are_right(self):
        packages = [word for name in ("convert", "frames", "store") for word in ("-p", f"ruzgalt.{name}")]
        printed = mypy(packages, [TOP / "python"], self.folder)
        self.assertTrue(printed.startswith("Success"), printed)

    def test_a_program_is_refused_where_it_is_wrong(self):
        for name, text in {**STUBS, "program.py": PROGRAM}.items():
            self.folder.joinpath(name).parent.mkdir(exist_ok=True)
            self.folder.joinpath(name).write_text(text)
        # Of other Pythons' packages nothing is read.
        words = ["--no-site-packages", "--hide-error-context", str(self.folder / "program.py")]
        printed = mypy(words, [self.folder, TOP / "python"], self.folder)
        found = {int(line.split(":")[1]) for line in printed.splitlines() if ": error: " in line}
        wanted = {number for number, line in enumerate(PROGRAM.splitlines(), 1) if "# refused" in line}
        self.assertEqual(found, wanted, printed)


if __name__ == "__main__":
    unittest.main()
