"""The library: messages if it is missing, another version or without memory, and calls by many threads."""
import doctest
import os
import subprocess
import sys
import tempfile
import threading
import unittest
from concurrent.futures import ThreadPoolExecutor
from pathlib import Path
from unittest import mock

import numpy as np
import pandas as pd

import ruzgalt
from ruzgalt import which
from ruzgalt.kernel import library
from ruzgalt.kernel.library import Rows

FRAME = pd.DataFrame({"from": pd.to_datetime(["2024-01-01"]), "to": pd.to_datetime(["2024-02-01"]), "k": [1]})
# Calls with the MB that they get: enough for the arrays of the answer, too few for the library's own work.
HUNGRY = """
import resource
from pathlib import Path
import numpy as np
from ruzgalt.errors import OutOfMemory
from ruzgalt.kernel import library
start = np.arange(1_000_000)
rows = library.Rows(start % 7, start, start + 2)
calls = {
    "dip": (8, lambda: library.dip(rows.start, rows.end)), "join": (64, lambda: library.join(rows, rows)),
    "anti": (56, lambda: library.anti(rows, rows)), "agg": (96, lambda: library.agg(rows, start, "sum")),
}
library.version()
soft, hard = resource.getrlimit(resource.RLIMIT_AS)
for name, (room, call) in calls.items():
    size = int(Path("/proc/self/statm").read_text().split()[0]) * resource.getpagesize()
    resource.setrlimit(resource.RLIMIT_AS, (size + room * 1_000_000, hard))
    try:
        call()
    except OutOfMemory as ended:
        print(name, ended)
    resource.setrlimit(resource.RLIMIT_AS, (soft, hard))
"""
CALL = """
import pandas, ruzgalt
frame = pandas.DataFrame({"from": pandas.to_datetime(["2024-01-01"]), "to": pandas.to_datetime(["2024-02-01"])})
ruzgalt.dip(frame)
"""


def run(lines):
    return subprocess.run([sys.executable, "-W", "error", "-c", lines], capture_output=True, text=True)


class Loading(unittest.TestCase):
    def setUp(self):
        folder = tempfile.TemporaryDirectory(prefix="frames-")
        self.addCleanup(folder.cleanup)
        self.folder = Path(folder.name)
        # The next call loads the library anew, and so does the first one after the test.
        library.loaded.cache_clear()
        self.addCleanup(library.loaded.cache_clear)

    def says(self, *wanted):
        with self.assertRaises(ruzgalt.Stopped) as caught:
            ruzgalt.dip(FRAME)
        for text in wanted:
            self.assertIn(text, str(caught.exception))

    def named(self, file):
        patch = mock.patch.dict(os.environ, RUZGALT_LIBRARY=str(file))
        patch.start()
        self.addCleanup(patch.stop)

    def test_a_library_that_is_not_there_is_reported(self):
        self.named("/nowhere/libruzgalt.so")
        self.says("/nowhere/libruzgalt.so is missing", "`make library` makes one")

    def test_another_file_is_reported(self):
        text = self.folder / "libruzgalt.so"
        text.write_text("no library")
        self.named(text)
        self.says(f"{text} isn't a libruzgalt of this version")

    def test_a_library_without_one_of_the_functions_is_reported(self):
        self.named(which.library())
        with mock.patch.dict(library.ARGUMENTS, {"spread": []}):
            self.says("isn't a libruzgalt of this version", "undefined symbol: ruzgalt_spread")

    def test_a_clone_s_library_is_made_of_its_sources(self):
        made, out = Path(which.library()).resolve(), self.folder / "out"
        for folder in ("crates", "out", "tools"):
            (self.folder / folder).mkdir()
        is_built = self.folder / "tools" / "is-built"
        is_built.write_text(f'#!/bin/sh\n[ "$2" = libruzgalt ] && [ ! -e {self.folder}/changed ]\n')
        is_built.chmod(0o755)
        with mock.patch.dict(os.environ), mock.patch.object(which, "TOP", self.folder):
            os.environ.pop("RUZGALT_LIBRARY", None)
            self.says(f"{out}/libruzgalt.so is missing", "`make library` makes it")
            (out / "libruzgalt.so").symlink_to(made)
            (self.folder / "changed").touch()
            self.says("isn't made from these sources: `make library` makes it")
            (self.folder / "changed").unlink()
            which.is_built_at.cache_clear()
            self.assertEqual(len(ruzgalt.join(FRAME, FRAME, on="k")), 1)
            # A library that is loaded stays.
            (self.folder / "changed").touch()
            which.is_built_at.cache_clear()
            self.assertEqual(len(ruzgalt.join(FRAME, FRAME, on="k")), 1)

    def test_threads_that_call_first_load_it_once(self):
        found, loads = [], []
        file = which.library
        threads = [threading.Thread(target=lambda: found.append(len(ruzgalt.join(FRAME, FRAME, on="k"))))
                   for _ in range(8)]
        with mock.patch.object(which, "library", side_effect=lambda: loads.append(1) or file()):
            for thread in threads:
                thread.start()
            for thread in threads:
                thread.join()
        self.assertEqual((found, loads), ([1] * 8, [1]))


class Calls(unittest.TestCase):
    def test_too_little_memory_is_reported(self):
        ran = run(HUNGRY)
        self.assertEqual(ran.stderr, "")
        self.assertEqual([line.split()[0] for line in ran.stdout.splitlines()], ["dip", "join", "anti", "agg"])
        for line in ran.stdout.splitlines():
            self.assertIn("too little memory for 1,000,000 rows: give fewer rows in a call", line)

    def test_what_a_caller_owes_is_tested(self):
        day, none = np.array([0]), np.array([], int)
        faults = [
            (lambda: library.dip(day, none), "equally long"), (lambda: library.dip(day, day), "end after it starts"),
            (lambda: library.agg(Rows(day, day, day + 1), day, "mean"), "one of count, sum"),
            (lambda: library.dip(np.zeros(1_000_001), np.ones(1_000_001)), "more than 1,000,000 rows"),
        ]
        for call, wanted in faults:
            with self.assertRaisesRegex(ValueError, wanted):
                call()

    def test_threads_at_once_have_answers_of_their_own(self):
        def asked(number):
            return len(ruzgalt.join(pd.concat([FRAME] * number), FRAME, on="k"))
        with ThreadPoolExecutor(8) as pool:
            self.assertEqual(list(pool.map(asked, range(1, 40))), list(range(1, 40)))

    def test_any_arrays_of_numbers_may_be_given(self):
        start, end = np.arange(20, dtype=np.int32)[::2], np.arange(40)[3::4]
        self.assertEqual(library.dip(start, end)[1:], library.dip(start.copy(), end.astype(np.int64))[1:])
        self.assertEqual(len(library.dip(start, end)[0]), 10)

    def test_the_example_of_the_page(self):
        page = (Path(__file__).resolve().parents[3] / "docs" / "CALLERS.md").read_text()
        example = doctest.DocTestParser().get_doctest(page, {}, "CALLERS", None, None)
        said = []
        self.assertEqual(doctest.DocTestRunner().run(example, out=said.append), (0, 4), "".join(said))

    def test_nothing_is_printed(self):
        ran = run(CALL)
        self.assertEqual((ran.returncode, ran.stdout, ran.stderr), (0, "", ""))


if __name__ == "__main__":
    unittest.main()
