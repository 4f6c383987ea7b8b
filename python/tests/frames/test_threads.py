"""Calls on several threads: they give the answers of one call, and each lot has whole classes."""
import unittest
from unittest import mock

import numpy as np
from hypothesis import assume, given
from hypothesis import strategies as st

from ruzgalt.kernel import library, threads
from ruzgalt.kernel.library import Rows

DAY, FIRST, LAST = 86_400, -62_135_596_800, 253_402_300_799
COUNTS = st.lists(st.integers(0, 30), min_size=1, max_size=30)


def rows(seed, count, classes, unit=DAY):
    random = np.random.default_rng(seed)
    start = random.integers(0, 200, count) * unit
    end = start + random.integers(1, 40, count) * unit
    # Some hold from the first second there is, or up to the last one.
    start[random.random(count) < 0.05] = FIRST
    end[random.random(count) < 0.05] = LAST
    return Rows(random.integers(0, classes, count), start, end)


class Threads(unittest.TestCase):
    def same(self, found, wanted):
        self.assertEqual([one.tolist() for one in found], [one.tolist() for one in wanted])

    def test_answers_are_those_of_one_call(self):
        for seed, (classes, unit) in enumerate([(1, DAY), (2, 1), (7, DAY), (300, 1), (4_000, DAY)]):
            left, right = rows(seed, 2_000, classes, unit), rows(seed + 100, 1_500, classes, unit)
            amount = np.random.default_rng(seed).integers(-9, 10, 2_000) * np.int64(2)**59
            whole = threads.dips(left, 1)
            for workers in (2, 7):
                with self.subTest(classes=classes, workers=workers), mock.patch.object(threads, "FEW", 20):
                    self.same(threads.join(left, right, workers), library.join(left, right))
                    self.same(threads.anti(left, right, workers), library.anti(left, right))
                    self.same(threads.dips(left, workers), whole)
                    for function in library.FUNCTIONS:
                        wanted = library.agg(left, amount, function)
                        self.same(threads.agg(left, amount, function, workers), wanted)

    def test_a_division_of_classes_is_one_of_each(self):
        given = rows(1, 300, 9)
        part, parts, instants = threads.dips(given, 1)
        for number in range(9):
            own = given.classes == number
            start, end = given.start[own], given.end[own]
            wanted, count, instant = library.dip(start, end)
            self.assertEqual((part[own].tolist(), parts[number], instants[number]), (wanted.tolist(), count, instant))
            self.assertEqual(library.check(start, end, wanted, count, instant), (0, 0, 0))

    @given(COUNTS, COUNTS, st.integers(1, 8), st.integers(1, 40))
    def test_lots_have_whole_classes_each_row_once(self, lefts, rights, wanted, most):
        assume(any([*lefts, *rights]))
        sides = [np.random.default_rng(1).permutation(np.repeat(np.arange(len(one)), one)) for one in (lefts, rights)]
        lots = threads.lots_of(sides, wanted, most)
        for side, classes in enumerate(sides):
            self.assertEqual(sorted(np.concatenate([lot[side] for lot in lots])), list(range(len(classes))))
            self.assertTrue(all((np.diff(lot[side]) > 0).all() for lot in lots))
        found = [set(classes[lot[side]]) for lot in lots for side, classes in enumerate(sides)]
        both = [one | other for one, other in zip(found[::2], found[1::2])]
        self.assertEqual(sum(map(len, both)), len(set().union(*both)))
        for lot, own in zip(lots, both):
            self.assertTrue(len(own) <= 1 or max(map(len, lot)) <= most)

    def test_lots_are_of_about_as_many_rows(self):
        for classes, most in ((10, 0.31), (1_000, 0.26), (100_000, 0.26)):
            given = np.random.default_rng(1).integers(0, classes, 100_000)
            lots = threads.lots_of([given, given[:50_000]], 4)
            self.assertEqual(len(lots), 4)
            self.assertLess(max(len(lot[0]) for lot in lots) / len(given), most)

    def test_pairs_are_in_order_wherever_they_are(self):
        random = np.random.default_rng(1)
        columns = [random.choice([FIRST, 0, 1, DAY, LAST], 2_000), random.choice([0, DAY, LAST], 2_000)]
        columns.append(random.choice([-1, 0, 1, 2**28 - 2], 2_000))
        wanted = sorted(zip(*columns), key=lambda row: (*row[:2], row[2] % 2**28))
        found = threads.in_order(columns, threads.by_period(*columns))
        self.assertEqual(list(zip(*found)), wanted)


if __name__ == "__main__":
    unittest.main()
