"""Wrong bodies of functions. The random tests must notice each; only the long run has them, since it takes long."""
import os
import unittest
from unittest import mock

import numpy as np
import pandas as pd

import test_hostile_stores  # Without hypothesis it leaves this module out too.
import test_random_frames
from hypothesis import Phase, settings
from ruzgalt.convert import instants, kinds, points, values
from ruzgalt.frames import sides as rows, split
from ruzgalt.script import naming
from ruzgalt.store import lists as answers

# So many seeds are tried until a wrong body is noticed.
SEEDS = 400


def unglued(before, behind, cut):
    return tuple(np.concatenate([one, other]) for one, other in zip(before, behind))


def unchained(sides, workers):
    """Takes each block of right rows from the left rows by itself, and keeps all results."""
    parts = [split.rest_of([left, right], workers) for left in sides[0].blocks(3) for right in sides[1].blocks(3)]
    found = split.found_of(split.together(parts) if parts else sides[0])
    order = np.lexsort((found[0], found[2]))
    return tuple(column[order] for column in found)


def factorized(cells):
    codes, found = pd.factorize(cells)
    return codes, list(found)


def quoted(data, start, stop):
    return answers.of_objects([data[low:high].tobytes().decode() for low, high in zip(start, stop)])


def unclipped(side, low, high):
    return side.take(np.flatnonzero((side.start < (high or points.LAST)) & (side.end > (low or points.FIRST))))


def next_days(form, column):
    return points.seconds_of(column, form.is_open)


def unmoved(start, end, form):
    ends = points.NO_END if end is None else instants.second_of(end)
    return np.array([instants.second_of(start), ends], np.int64)


def apart(columns, sort=False):
    """Each row in a class of its own."""
    count = sum(len(one.codes) for one in next(iter(columns)))
    return np.arange(count), count


def by_side(column, sort):
    """The texts of each side numbered for themselves."""
    return np.concatenate([one.codes for one in column]), 10**6


def first_alone(one, other, sort):
    return one


FRAMES, STORES = test_random_frames.RandomFrames, test_hostile_stores.Hostile
# A name, the object and its attribute, the value that replaces it, and the tests that must notice.
WRONG = [
    ("halves of what goes on over a cut", split, "closed_up", unglued, FRAMES),
    ("rows that aren't clipped at a cut", split.Side, "clipped", unclipped, FRAMES),
    ("an anti-join by blocks each for itself", split, "anti", unchained, FRAMES),
    ("texts that end at a zero byte", values, "codes_by_dict", factorized, FRAMES),
    ("a missing end as a start", points, "NO_END", points.LAST, FRAMES),
    ("points as the left frame's", kinds, "joint_kind", lambda *kinds: kinds[0], FRAMES),
    ("last days as the days after them", points.Form, "ends_of", next_days, FRAMES),
    ("each row in a class of its own", rows, "codes_of", apart, FRAMES),
    ("texts numbered side by side", rows, "numbered", by_side, FRAMES),
    ("only the first of several columns", rows, "crossed", first_alone, FRAMES),
    ("quotes that stay", answers, "READERS", {**answers.READERS, "t": quoted}, STORES),
    ("names of tables that stay", naming, "apart", list, STORES),
    ("ends of changes as they are given", instants, "portion", unmoved, STORES),
]


def is_noticed(tests):
    """Whether a test fails: random frames of some seed, or some of a thousand stores, which aren't shortened."""
    many = settings(test_hostile_stores.MANY, max_examples=1000, derandomize=False, phases=[Phase.generate])
    with mock.patch.object(test_random_frames, "PAIRS", 20), mock.patch.object(test_hostile_stores, "MANY", many):
        for seed in range(1, SEEDS, 20) if tests is FRAMES else [0]:
            result = unittest.TestResult()
            with mock.patch.object(test_random_frames, "SEED", seed):
                unittest.defaultTestLoader.loadTestsFromTestCase(tests).run(result)
            if result.failures or result.errors:
                return True
    return False


@unittest.skipUnless(os.environ.get("FRAMES_LONG"), "only in the long form")
class WrongBodies(unittest.TestCase):
    def test_each_is_noticed(self):
        for what, owner, name, wrong, tests in WRONG:
            with self.subTest(what), mock.patch.object(owner, name, wrong):
                self.assertTrue(is_noticed(tests))


if __name__ == "__main__":
    unittest.main()
