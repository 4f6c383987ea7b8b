"""Workers of Dask that lack something: the library, memory for it, the package."""
import os
import socket
import tempfile
import unittest
from pathlib import Path

import numpy as np
import pandas as pd

import ruzgalt

try:
    import dask.dataframe as dd
    from distributed import Client
except ImportError:
    raise unittest.SkipTest("Dask isn't here: apt-get install python3-dask python3-distributed") from None

from cluster import Cluster  # noqa: E402

ROWS = 20_000
# A worker whose library has no memory.
SMALL = """
from ruzgalt.kernel import library

class Refusing:
    ruzgalt_join = staticmethod(lambda *given: library.NO_MEMORY)

library.loaded = Refusing
"""


def frame(seed):
    random = np.random.default_rng(seed)
    start = np.datetime64("2000-01-01") + random.integers(0, 1000, ROWS)
    end = start + random.integers(1, 60, ROWS)
    values = random.integers(0, 200, ROWS)
    return pd.DataFrame({"from": start.astype("M8[ns]"), "to": end.astype("M8[ns]"), "k": values})


class Workers(unittest.TestCase):
    @classmethod
    def setUpClass(cls):
        cls.cluster = Cluster(workers=0)
        cls.addClassCleanup(cls.cluster.__exit__)
        cls.cluster.__enter__()

    def setUp(self):
        folder = tempfile.TemporaryDirectory(prefix="frames-")
        self.addCleanup(folder.cleanup)
        self.folder = Path(folder.name)

    def worker(self, *words, **variables):
        """The only worker, of these words and variables."""
        self.cluster.add_worker(*words, **variables)
        self.addCleanup(self.cluster.kill, self.cluster.workers[-1])

    def asked(self):
        """Of one worker the answer of a join."""
        left, right = (dd.from_pandas(frame(seed), npartitions=2) for seed in (1, 2))
        with Client(scheduler_file=self.cluster.file) as client:
            client.wait_for_workers(1, timeout=120)
            return ruzgalt.join(left, right, on="k").compute()

    def test_a_worker_without_the_library_is_named(self):
        self.worker("--name", "bare", RUZGALT_LIBRARY="/nowhere/libruzgalt.so")
        with self.assertRaises(ruzgalt.Stopped) as caught:
            self.asked()
        where = f"; on worker bare at tcp:.* of {socket.gethostname()}"
        self.assertRegex(str(caught.exception), f"/nowhere/libruzgalt.so is missing.*{where}")

    def test_a_worker_with_too_little_memory_is_named(self):
        (self.folder / "small.py").write_text(SMALL)
        self.worker("--name", "small", "--preload", str(self.folder / "small.py"))
        with self.assertRaises(ruzgalt.Stopped) as caught:
            self.asked()
        wanted = "give fewer rows in a call, of Dask more partitions; on worker small at tcp:"
        self.assertRegex(str(caught.exception), wanted)

    def test_a_worker_without_the_package_is_named(self):
        (self.folder / "ruzgalt.py").write_text("raise ModuleNotFoundError(\"No module named 'ruzgalt'\")\n")
        path = os.pathsep.join(filter(None, [str(self.folder), os.environ.get("PYTHONPATH")]))
        self.worker("--name", "empty", PYTHONPATH=path)
        with self.assertRaises(RuntimeError) as caught:
            self.asked()
        self.assertRegex(str(caught.exception), "named 'ruzgalt' on worker empty at tcp:.*: install the package")


if __name__ == "__main__":
    unittest.main()
