"""join, anti, agg and dip of random frames, compared with by_rows.py and plainly.py."""
import datetime
import os
import unittest
from random import Random
from unittest import mock

import pandas as pd

import by_rows
import labels
import plainly
import random_frames
import ruzgalt
from ruzgalt.frames import split

PAIRS = int(os.environ.get("FRAMES_PAIRS", "40"))
SEED = int(os.environ.get("FRAMES_SEED", "1"))
# Limits for a table's rows: some are never reached, others are so low that frames go in parts.
ROWS = [1_000_000, 1_000_000, 1, 2, 3, 5, 8, 12]


def is_same(one, other):
    """Equal and of one type, or both missing."""
    if one is other:
        return True
    try:
        if pd.isna(one) and pd.isna(other):
            return True
    except (TypeError, ValueError):
        pass
    return type(one) is type(other) and one == other


class Case:
    """Two random frames, and how they are asked."""

    def __init__(self, seed):
        self.random = random = Random(seed)
        self.rows = random.choice(ROWS)
        self.is_last_day = random.random() < 0.2
        self.is_open = random.random() < 0.5
        kinds = ["ns", "D", "date"] if self.is_last_day else random_frames.POINTS
        first = random.choice(kinds)
        self.kinds = (first, first if random.random() < 0.8 else random.choice(kinds))
        count = random.choice([0, 1, 1, 1, 2])
        compared = [random.choice(["int", "text"]) for _ in range(count)]
        self.is_shared = count > 0 and random.random() < 0.5
        self.names = [[f"k{place}" for place in range(count)]] * 2
        if not self.is_shared:
            self.names[1] = [f"w{place}" for place in range(count)]
        self.periods = (random_frames.PERIOD, random.choice([random_frames.PERIOD, ("start", "stop")]))
        self.frames = [
            random_frames.frame(
                random, random.choice([0, 1, 3, 8, 14]), kind, names=names, kinds=compared, period=period,
                is_open=self.is_open, is_last_day=self.is_last_day,
            ) for kind, names, period in zip(self.kinds, self.names, self.periods)
        ]
        self.times = [
            plainly.periods(frame, period, self.is_last_day) for frame, period in zip(self.frames, self.periods)
        ]
        # by_rows.py counts days; here a day is the index of a point among all.
        self.points = sorted({point for times in self.times for column in times for point in column.tolist()})
        self.held = [
            list(zip(zip(*(map(self.points.index, column.tolist()) for column in times)), self.keys(frame, names)))
            for times, frame, names in zip(self.times, self.frames, self.names)
        ]

    def keys(self, frame, names):
        return list(zip(*(frame[name].tolist() for name in names))) if names else [()] * len(frame)

    @property
    def common(self):
        return {"period": self.periods[0], "open_end": self.is_open, "last_day": self.is_last_day}

    @property
    def words(self):
        names = [one[0] if len(one) == 1 and self.random.random() < 0.5 else one for one in self.names]
        on = {} if not names[0] else {"on": names[0]} if self.is_shared else {"left_on": names[0], "right_on": names[1]}
        return {**self.common, "right_period": self.periods[1], **on}

    def kept(self, side, with_compared=True):
        """The columns except for the period and, if wanted, the compared ones."""
        left_out = [*self.periods[side], *([] if with_compared else self.names[side])]
        return [name for name in self.frames[side].columns if name not in left_out]


class RandomFrames(unittest.TestCase):
    def has_points(self, case, column, wanted, is_end=False):
        days = int(is_end and case.is_last_day)
        self.assertEqual([plainly.number(point, days) for point in column], wanted)
        if case.kinds[0] == case.kinds[1] and len(column):
            self.assertEqual(column.dtype, case.frames[0][case.periods[0][0]].dtype)
            wanted_type = {"date": datetime.date, "datetime": datetime.datetime}.get(case.kinds[0])
            for point in column if wanted_type else ():
                self.assertIs(type(point), type(None) if point is None else wanted_type)
            if case.is_open and is_end:
                is_open = [plainly.moment(point) == plainly.OPEN for point in column]
                self.assertEqual([bool(pd.isna(point)) for point in column], is_open)

    def has_cells(self, got, frame, name, places):
        """Tests that a column has the cells of a frame's column at these indices, with their dtype and types."""
        cells = frame[name].tolist()
        self.assertEqual((got.dtype, len(got)), (frame[name].dtype, len(places)))
        for one, place in zip(got.tolist(), places):
            self.assertTrue(is_same(one, cells[place]), (name, one, cells[place]))

    def joins(self, case):
        wanted = [(*map(case.points.__getitem__, row[:2]), *row[2:]) for row in sorted(by_rows.pairs(*case.held))]
        got = labels.join(*case.frames, **case.words)
        self.has_points(case, got["from"], [row[0] for row in wanted])
        self.has_points(case, got["to"], [row[1] for row in wanted], is_end=True)
        kept = [case.kept(0), case.kept(1, with_compared=not case.is_shared)]
        self.assertEqual(len(got.columns), 4 + len(kept[0]) + len(kept[1]))
        for side, (label, suffix) in enumerate((("left_label", "_left"), ("right_label", "_right"))):
            places, frame = [row[2 + side] for row in wanted], case.frames[side]
            self.assertEqual(got[label].tolist(), [frame.index[place] for place in places])
            for name in kept[side]:
                self.has_cells(got[name + suffix if name in kept[1 - side] else name], frame, name, places)

    def anti_joins(self, case):
        wanted = [(row, *map(case.points.__getitem__, times)) for row, *times in by_rows.unmet(*case.held)]
        got, frame = ruzgalt.anti(*case.frames, **case.words), case.frames[0]
        self.has_points(case, got["from"], [row[1] for row in wanted])
        self.has_points(case, got["to"], [row[2] for row in wanted], is_end=True)
        self.assertEqual(got.index.tolist(), [frame.index[row[0]] for row in wanted])
        self.assertEqual(list(got.columns), list(frame.columns))
        for name in case.kept(0):
            self.has_cells(got[name], frame, name, [row[0] for row in wanted])

    def aggregates(self, case):
        function = case.random.choice(["count", "sum", "min", "max"])
        column = None if function == "count" else "euros"
        frame = case.frames[0]
        try:
            by = {"by": case.names[0]} if case.names[0] else {}
            got = ruzgalt.agg(frame, function, column, **by, **case.common)
        except ruzgalt.Refused as refused:
            # More rows at one time than so short a table may have, even in blocks.
            self.assertEqual((refused.name, case.rows < 20), ("Full", True), refused)
            return
        amounts = [1] * len(frame) if column is None else frame[column].tolist()
        held = [(*row, amount) for row, amount in zip(case.held[0], amounts)]
        wanted = [(*row[:-3], *map(case.points.__getitem__, row[-3:-1]), row[-1])
                  for row in by_rows.by_group(held, by_rows.FUNCTIONS[function])]
        if case.kinds[0] == case.kinds[1]:
            self.has_points(case, got["from"], [row[-3] for row in wanted])
            self.has_points(case, got["to"], [row[-2] for row in wanted], is_end=True)
        self.assertEqual([int(value) for value in got.iloc[:, -1]], [row[-1] for row in wanted])
        for place, name in enumerate(case.names[0]):
            self.assertEqual((got[name].dtype, got[name].tolist()), (frame[name].dtype, [row[place] for row in wanted]))

    def divides(self, case):
        parts, count, instant = plainly.dip(case.times[0])
        got, frame = ruzgalt.dip(case.frames[0], **case.common), case.frames[0]
        self.assertEqual((got.parts.tolist(), got.count), (parts, count))
        self.assertEqual(got.parts.index.tolist(), frame.index.tolist())
        self.assertEqual(None if got.instant is None else plainly.number(got.instant), instant)

    def test_random_frames_are_answered_as_numpy_answers_them(self):
        for seed in range(SEED, SEED + PAIRS):
            with self.subTest(seed=seed):
                case = Case(seed)
                before = [frame.copy(deep=True) for frame in case.frames]
                with mock.patch.object(split, "ROWS", case.rows):
                    self.joins(case)
                    self.anti_joins(case)
                    self.aggregates(case)
                self.divides(case)
                for frame, copy in zip(case.frames, before):
                    pd.testing.assert_frame_equal(frame, copy)


if __name__ == "__main__":
    unittest.main()
