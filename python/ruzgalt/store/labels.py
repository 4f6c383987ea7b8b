"""Labels and days of a store's commits, and the table, a diary, that keeps them.

A commit without a day counts with the next one that has a day. As of a day the newest commit is the last one whose day
is that day or before, so days can't go back.
"""
from __future__ import annotations

import datetime
import difflib
from bisect import bisect_right
from typing import Any, Dict, Iterator, List, NamedTuple, Optional, Sequence, Tuple

import numpy as np
import pandas as pd

from ruzgalt.convert import checks, instants, points
from ruzgalt.convert.arrays import Cells, Ints
from ruzgalt.convert.errors import Refused, doubt
from ruzgalt.convert.kinds import Kind
from ruzgalt.errors import Misfit
from ruzgalt.script import changes as past
from ruzgalt.script import forms
from ruzgalt.script.schemas import Schema
from ruzgalt.store.tables import written

# The columns of a diary after its period. The tools read the first one, and Store.from_script all.
NEWEST, COMMIT, LABEL = COLUMNS = ("newest", "commit", "label")
# The most labels that a message lists, the most among which it searches for one that looks alike, and how much alike.
LISTED, COMPARED, ALIKE = 10, 1_000, 0.75
# The types of a day; a text is a day or a label.
DAYS = (datetime.date, np.datetime64, pd.Period)


class Note(NamedTuple):
    """The label of a change's last commit, and the second of its day."""

    label: Optional[str] = None
    second: Optional[int] = None

    def refuse_without_commit(self) -> None:
        """Raises Refused for a label of a change that makes no commit."""
        if self.label is not None:
            raise Refused("BadCommand", f"label={self.label!r} would name a commit, but this change makes none")


def note_of(label: Any, day: Any) -> Note:
    """Returns a checked label and day. Raises Refused."""
    second = None if day is None else instants.second_in(written(day), None)
    if second is not None and second >= points.NO_END:
        raise Refused("BadPoint", f"day={day!r}: 9999-12-31 stands for no end, so it can't be the day of a commit")
    return Note(None if label is None else label_of(label), second)


def label_of(given: Any) -> str:
    """Returns the label. Raises Refused if it isn't a text of the store, or looks like a number or a day."""
    if not isinstance(given, str):
        raise checks.wrong("label", given, "must be a text")
    label, shown = str.__str__(given), checks.shown(given)
    for is_wrong, name, reason in (
        (not label.strip(), "BadName", "is blank: give it some letters"),
        (is_number(label), "BadName", f"looks like a commit's number: add a word, such as 'run {label}'"),
        (forms.POINT.fullmatch(label.strip().replace(" ", "T")), "BadName", "looks like a day: day= takes one"),
        (not forms.is_utf8(label), "BadUtf8", "has half of a surrogate pair, so it isn't a text"),
        (forms.is_utf8(label) and not forms.is_short(label), "TooLong", "has more than 4,096 bytes: shorten it"),
    ):
        if is_wrong:
            raise Refused(name, f"label={shown} {reason}")
    return label


def is_number(label: str) -> bool:
    try:
        int(label)
    except ValueError:
        return False
    return True


class Row(NamedTuple):
    """A row of a diary. `newest` is 0 if the label's commit has no day: then the row says nothing about days."""

    start: int
    end: int
    newest: int
    commit: int
    label: str


class Diary:
    """Labels with their commits, and days with the newest commit from each day on.

    seconds  the days' midnights, or later seconds. They rise, and so do `commits`
    """

    def __init__(self) -> None:
        self.labels: Dict[str, int] = {}
        self.seconds: List[int] = []
        self.commits: List[int] = []

    def copied(self) -> Diary:
        made = Diary()
        made.labels, made.seconds, made.commits = dict(self.labels), list(self.seconds), list(self.commits)
        return made

    def add(self, commit: int, note: Note) -> None:
        """Adds the label and day of a commit. Raises Refused, as refuse() does."""
        self.refuse(note)
        if note.label is not None:
            self.labels[note.label] = commit
        if note.second is not None:
            self.seconds.append(note.second)
            self.commits.append(commit)

    @property
    def size(self) -> Tuple[int, int]:
        return len(self.labels), len(self.seconds)

    def cut(self, size: Tuple[int, int]) -> None:
        """Removes the labels and days that were added after the diary had this size."""
        while len(self.labels) > size[0]:
            self.labels.popitem()
        del self.seconds[size[1]:], self.commits[size[1]:]

    def refuse(self, note: Note) -> None:
        """Raises Refused if a commit has the label, or a later day."""
        if note.label is not None and note.label in self.labels:
            reason = f"label={checks.shown(note.label)} already names commit {self.labels[note.label]}"
            raise Refused("TwiceNamed", f"{reason}: give another one; diary() lists them")
        if note.second is not None and self.seconds and note.second < self.seconds[-1]:
            last = f"{points.text_of(self.seconds[-1])}, the day of commit {self.commits[-1]}"
            raise Refused("BadPoint", f"day={points.text_of(note.second)} is before {last}: days can't go back")

    def commit_of(self, option: str, given: Any) -> int:
        """Returns the commit of a label, or the newest commit of a day. Raises Refused."""
        if isinstance(given, str) and given in self.labels:
            return self.labels[given]
        if isinstance(given, str) and not instants.written(given):
            raise Refused("NoLabel", f"{option}={checks.shown(given)} {self.why_unknown(given)}")
        commit = past.newest_at(self.seconds, self.commits, instants.second_in(given, None))
        if commit is not None:
            return commit
        reason = f"the first day of a commit is {points.text_of(self.seconds[0])}" if self.seconds else (
            "no commit has a day; give days by day= of changes, or by diary= of Store.from_script")
        raise Refused("NoDay", f"{option}={str(given)!r}: {reason}")

    def why_unknown(self, given: str) -> str:
        reason = "isn't a day, and no commit has this label"
        alike = difflib.get_close_matches(given, list(self.labels)[-COMPARED:], 1, ALIKE)
        reason += f", but {alike[0]!r} looks alike" if alike else ""
        reason += f"; give a commit's number as a number: {int(given)}" if is_number(given) else ""
        if not self.labels:
            return f"{reason}; give labels by label= of changes, or by diary= of Store.from_script"
        newest = ", ".join(map(checks.shown, list(self.labels)[-LISTED:]))
        more = f" and {len(self.labels) - LISTED} more" if len(self.labels) > LISTED else ""
        return f"{reason}; the labels are {newest}{more}; diary() lists them"

    def days(self) -> past.Days:
        """Returns the days, each with the newest commit from then on, in the form of the tools."""
        return list(zip(points.texts_of(np.array(self.seconds, np.int64)), self.commits))

    def frame(self, after: int) -> pd.DataFrame:
        """Returns the rows of commits after this one, as Store.diary describes them."""
        rows = [row for row in self.rows() if row.commit > after]
        times = np.array([(row.start, row.end) for row in rows], np.int64).reshape(-1, 2)
        kind = Kind("D" if points.has_all(Kind("D"), times) else "S")
        made = {name: points.series_of(column, kind) for name, column in zip(("from", "to"), times.T)}
        made[NEWEST], made[COMMIT] = np.array([(row.newest, row.commit) for row in rows], np.int64).reshape(-1, 2).T
        return pd.DataFrame({**made, LABEL: pd.Series([row.label for row in rows], dtype=object)})

    def rows(self) -> Iterator[Row]:
        """Yields a row for each label and each day, by commits. Labels without a day come first."""
        labels_of: Dict[int, List[str]] = {}
        for label, commit in sorted(self.labels.items(), key=lambda one: one[1]):
            labels_of.setdefault(commit, []).append(label)
        for commit in sorted(set(labels_of) - set(self.commits)):
            yield from (Row(points.FIRST, points.NO_END, 0, commit, label) for label in labels_of[commit])
        for number, (second, commit) in enumerate(zip(self.seconds, self.commits), 1):
            later = bisect_right(self.seconds, second)
            end = self.seconds[later] if later < len(self.seconds) else points.NO_END
            # If a day has several commits, the last is the newest; others are listed only if they have labels. A
            # diary that a user made may have a commit on several days.
            for label in labels_of.pop(commit, [""] if number == later else []):
                yield Row(second, end, commit, commit, label)


def read(schema: Schema, cells: Sequence[Cells], newest: int) -> Diary:
    """Returns the diary in a table whose rows have these starts, ends and cells. Raises Refused if it isn't a diary."""
    start, end, *values = cells
    rows = zip(points.texts_of(start), points.texts_of(end), *([str(cell) for cell in one] for one in values))
    try:
        # A commit of several labels has a row for each.
        days = list(dict.fromkeys(past.days_of(schema, rows)))
    except Misfit as misfit:
        raise Refused("WrongKind", str(misfit)) from None
    named = list(labels_in(schema, values))
    for reason in past.strange_commits([*days, *(("", commit) for _, commit in named)], newest):
        raise Refused("Future", f"{schema.name}: {reason}")
    for reason in past.steps_back(days):
        raise Refused("BadNumber", f"{schema.name}: {reason}")
    gap = gap_in(start, end, values[0])
    if gap:
        doubt(f"{schema.name}: no row holds {gap}; as of a day then the commit before that is taken")
    made = Diary()
    made.seconds, made.commits = [points.FIRST + forms.seconds(day) for day, _ in days], [one for _, one in days]
    for label, commit in named:
        if made.labels.get(label) != commit:
            made.add(commit, Note(label_of(label)))
    return made


def gap_in(starts: Ints, ends: Ints, newest: Ints) -> str:
    """Returns the first gap in the rows of a diary that have a commit, or nothing."""
    spans = sorted(zip(starts[newest != 0].tolist(), ends[newest != 0].tolist()))
    reached = spans[0][0] if spans else points.NO_END
    for start, end in [*spans, (points.NO_END, points.NO_END)]:
        if start > reached:
            to = f"to {points.text_of(start)}" if start < points.NO_END else "on"
            return f"from {points.text_of(reached)} {to}"
        reached = max(reached, end)
    return ""


def labels_in(schema: Schema, values: Sequence[Cells]) -> Iterator[Tuple[str, int]]:
    """Yields the labels of a diary's rows with the commits in column `commit`, or with the newest ones."""
    columns = {(column.name, column.kind.value): own for column, own in zip(schema.columns, values)}
    commits = columns.get((COMMIT, "int"), values[0])
    yield from ((label, int(one)) for label, one in zip(columns.get((LABEL, "text"), ()), commits) if label)
