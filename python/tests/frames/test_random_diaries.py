"""Random labels and days, compared with a list of the commits that has them; and the table that keeps them."""
import datetime
import importlib.util
import os
import subprocess
import unittest

import pandas as pd

import ruzgalt
from ruzgalt import which
from ruzgalt.script import answers
from ruzgalt.script import changes as diary
from ruzgalt.errors import Misfit

if not importlib.util.find_spec("hypothesis"):
    raise unittest.SkipTest("hypothesis isn't here: apt-get install python3-hypothesis")
from hypothesis import given, settings, strategies as st  # noqa: E402

EXAMPLES = int(os.environ.get("FRAMES_HOSTILE", "50"))
MANY = settings(max_examples=max(EXAMPLES // 5, 10), deadline=None, database=None, derandomize=EXAMPLES < 1000)
FIRST = datetime.date(2024, 1, 1)
DAYS = st.none() | st.integers(0, 9).map(lambda day: FIRST + datetime.timedelta(days=day))
# Some of these texts aren't labels.
HOSTILE = ["a", "A", "a,b", 'a"b', " a", "a\nb", "7", "", "2024-01-03", "e\u0301"]
LABELS = st.none() | st.sampled_from(HOSTILE) | st.text('aZ7-+ ,"\r\n\0\u00e9', min_size=1, max_size=4)
# How many commits a change makes; a batch is a list of changes.
CHANGES = st.tuples(st.integers(0, 3), LABELS, DAYS)
STEPS = st.lists(CHANGES | st.tuples(st.lists(CHANGES, max_size=3), LABELS, DAYS), max_size=7)


class Plain:
    """The commits: of each its labels and its day."""

    def __init__(self, commits=()):
        self.commits = [{"labels": list(one["labels"]), "day": one["day"]} for one in commits]

    def change(self, count, label, day):
        """Whether it is accepted; of several commits the last one has the label, and all have the day."""
        if label is not None and (not self.is_free(label) or not count):
            return False
        if self.goes_back(day):
            return False
        self.commits += [{"labels": [], "day": day} for _ in range(count)]
        if label is not None:
            self.commits[-1]["labels"].append(label)
        return True

    def goes_back(self, day):
        """Whether some commit has a later day; a day that does is refused, whatever the change makes."""
        return day is not None and any(one["day"] is not None and one["day"] > day for one in self.commits)

    def is_free(self, label):
        text = label.strip()
        is_number = text.lstrip("+-").isdecimal() and len(text) - len(text.lstrip("+-")) < 2
        is_one = bool(text) and not is_number and text[:4] != "2024"
        return is_one and not any(label in one["labels"] for one in self.commits)

    def batch(self, changes, label, day):
        if self.goes_back(day):
            return False
        for count, own_label, own_day in changes:
            if not self.change(count, own_label, day if own_day is None else own_day):
                return False
        is_made = any(count for count, _, _ in changes)
        if label is not None and (not is_made or not self.is_free(label)):
            return False
        if label is not None:
            self.commits[-1]["labels"].append(label)
        return True

    def labels(self):
        return {label: number for number, one in enumerate(self.commits, 1) for label in one["labels"]}

    def newest(self, day):
        """The last commit with that day or an earlier one."""
        known = [number for number, one in enumerate(self.commits, 1) if one["day"] is not None and one["day"] <= day]
        return max(known, default=None)


class Diaries(unittest.TestCase):
    def change(self, store, count, label, day):
        """So many commits of one call."""
        rows = pd.DataFrame({"from": pd.to_datetime(FIRST), "to": pd.to_datetime("2024-12-01"), "k": "a",
                             "n": range(count)}, index=range(count))
        store.update_rows("t", rows, ["k"], label=label, day=day)

    def done(self, store, step):
        """Whether the store takes it."""
        changes, label, day = step
        try:
            if isinstance(changes, int):
                self.change(store, *step)
            else:
                with store.batch(label=label, day=day):
                    for one in changes:
                        self.change(store, *one)
        except ruzgalt.Refused:
            return False
        return True

    def is_as(self, store, plain):
        for label, number in plain.labels().items():
            self.assertEqual(store.rows("t", label)["row_id"].tolist(), store.rows("t", number)["row_id"].tolist())
        for day in range(-1, 11):
            day = FIRST + datetime.timedelta(days=day)
            number = plain.newest(day)
            if number is None:
                self.assertRaises(ruzgalt.Refused, store.rows, "t", day)
            else:
                versions = [store.between("t", one, one)["row_id"].tolist() for one in (day.isoformat(), number)]
                self.assertEqual(*versions)

    def is_as_for_the_tools(self, script, plain):
        """tools/answers takes the same commits of the diary's table."""
        script += b"rows,diary\n"
        ran = subprocess.run([which.program()], input=script, stdout=subprocess.PIPE)
        *_, rows = answers.of(script, ran.stdout)
        for day in ((FIRST + datetime.timedelta(days=place)).isoformat() for place in range(-1, 11)):
            number = plain.newest(datetime.date.fromisoformat(day))
            if number is None:
                self.assertRaises(Misfit, diary.commits_at, rows, [day])
            else:
                self.assertEqual(diary.commits_at(rows, [day]), {day: number})

    @MANY
    @given(STEPS)
    def test_labels_and_days_are_as_they_are_plainly(self, steps):
        store, plain = ruzgalt.Store(), Plain()
        first = pd.DataFrame({"from": pd.to_datetime([FIRST]), "to": pd.to_datetime("2024-12-01"), "k": "a", "n": -1})
        store.table("t", first)
        plain.change(2, None, None)
        for step in steps:
            trial = Plain(plain.commits)
            word = trial.change if isinstance(step[0], int) else trial.batch
            is_taken = word(*step)
            self.assertEqual(self.done(store, step), is_taken, step)
            plain = trial if is_taken else plain
        self.assertEqual(len(store.log()), len(plain.commits))
        self.is_as(store, plain)
        store.table("diary", store.diary())
        self.is_as_for_the_tools(bytes(store.script()), plain)
        again = ruzgalt.Store.from_script(bytes(store.script()), diary="diary")
        self.assertEqual(again.diary()["label"].tolist(), store.diary()["label"].tolist())
        self.is_as(again, plain)


if __name__ == "__main__":
    unittest.main()
