"""A worker of Dask is killed while it answers: the answers are the same."""
import os
import time
import unittest
from random import Random

import numpy as np
import pandas as pd

import ruzgalt

try:
    import dask
    import dask.dataframe as dd
    from distributed import Client
except ImportError:
    raise unittest.SkipTest("Dask isn't here: apt-get install python3-dask python3-distributed") from None

from cluster import Cluster  # noqa: E402

KILLS = int(os.environ.get("FRAMES_KILLS", "2"))
SEED = int(os.environ.get("FRAMES_SEED", "1"))
ROWS, PERSONS, PIECES = 5_000, 3_000, 6
QUESTIONS = {
    "join": lambda left, right, **words: ruzgalt.join(left, right, on="person", **words),
    "anti": lambda left, right, **words: ruzgalt.anti(left, right, on="person", **words),
    "agg by": lambda left, right, **words: ruzgalt.agg(left, "count", by="person", **words),
    "agg": lambda left, right, **words: ruzgalt.agg(left, "count", **words),
}


def piece(seed, seconds=0.0):
    """Rows of up to 60 days of some persons, made in this time."""
    time.sleep(seconds)
    random = np.random.default_rng(seed)
    start = np.datetime64("2000-01-01") + random.integers(0, 100, ROWS)
    end = start + random.integers(1, 60, ROWS)
    person = random.integers(0, PERSONS, ROWS)
    return pd.DataFrame({"from": start.astype("M8[ns]"), "to": end.astype("M8[ns]"), "person": person})


def spread(first):
    """A frame whose partitions take time, so that a worker is killed during one."""
    pieces = [dask.delayed(piece)(first + place, 0.3) for place in range(PIECES)]
    return dd.from_delayed(pieces, meta=piece(0).iloc[:0])


def in_order(frame):
    return frame.sort_values(list(frame.columns)).reset_index(drop=True)


class KilledWorker(unittest.TestCase):
    def setUp(self):
        whole = [pd.concat([piece(first + place) for place in range(PIECES)]) for first in (100, 200)]
        self.wanted = {name: in_order(asked(*whole)) for name, asked in QUESTIONS.items()}

    def test_answers_are_the_same(self):
        random, hits = Random(SEED), 0
        with Cluster(workers=3) as cluster, Client(scheduler_file=cluster.file) as client:
            for run in range(KILLS):
                name = random.choice(list(QUESTIONS))
                with self.subTest(run=run, question=name):
                    client.wait_for_workers(3, timeout=120)
                    lazy = QUESTIONS[name](spread(100), spread(200))
                    future = client.compute(lazy, pure=False)
                    victim = random.choice(cluster.workers)
                    # As it makes rows, sends or fetches them, or answers.
                    time.sleep(random.uniform(0, 2))
                    hits += not future.done()
                    cluster.kill(victim)
                    cluster.add_worker()
                    pd.testing.assert_frame_equal(in_order(future.result(timeout=120)), self.wanted[name])
        self.assertGreater(hits, 0, "no worker was killed before the answer was there")


if __name__ == "__main__":
    unittest.main()
