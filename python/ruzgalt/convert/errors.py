"""The exceptions of frames and stores, and the warning."""
from __future__ import annotations

import contextlib
import inspect
import os
import warnings
from pathlib import Path
from typing import Any, Optional

from ruzgalt import progress
from ruzgalt.convert.arrays import Marks
from ruzgalt.script import forms

# The package's folder. A caller's file may have a name that begins as its name does.
PACKAGE = f"{Path(__file__).resolve().parents[1]}{os.sep}"
# What to do if the program refuses something by this name.
REMEDIES = {
    "BadName": f"a name has {forms.NAME_HAS}",
    "BadPeriod": "a start must be before its end, which is the first point after the row",
    "BadPoint": f"must be a date or time, such as {forms.POINTS}, of the years 0001 to 9999",
    "Full": "a table has at most 1,000,000 versions of rows, of all commits",
    "Future": "log() lists the commits",
    "TableExists": "load() adds rows to a table",
    "TooMany": "a table has at most 16 columns, a store 64 tables",
    "TwiceNamed": "each name can be given once",
}


class Refused(ValueError):
    """A frame, an option, a change or a question was refused, and nothing was changed.

    Attributes
    ----------
    name : str
        Its name in the language, such as BadPeriod or KeyOverlap; WrongKind for a dtype, NoLabel or NoDay for a commit.
    reason : str
        The fault and the remedy, in one line.
    column : name or None
        The frame's column at fault.
    label : object or None
        The index label of the row at fault.

    Examples
    --------
    >>> day = pd.to_datetime
    >>> pay = pd.DataFrame({"from": day(["2024-07-01"]), "to": day([None])}, index=["Ada"])
    >>> try:
    ...     ruzgalt.dip(pay)
    ... except ruzgalt.Refused as refused:
    ...     print(refused.name, refused.column, refused.label, refused.reason, sep=" | ")
    BadPoint | to | Ada | no date or time is given; open_end=True reads a missing end as 9999-12-31
    """

    def __init__(self, name: str, reason: str, column: Any = None, label: Any = None) -> None:
        # All four are args, so that the exception comes whole from a worker of Dask.
        super().__init__(name, reason, column, label)
        self.name, self.reason, self.column, self.label = name, reason, column, label

    def __str__(self) -> str:
        named = [("column", self.column), ("row", self.label)]
        where = ", ".join(f"{word} {value!r}" for word, value in named if value is not None)
        return f"{self.name}: {where + ': ' if where else ''}{self.reason}"


class Doubt(UserWarning):
    """A possible mistake: a warning of Python's `warnings`. The call answers as it was asked.

    Examples
    --------
    >>> import warnings
    >>> day = pd.to_datetime
    >>> pay = pd.DataFrame({"from": day(["2024-01-01"]), "to": day(["2024-02-01"]), "person": ["Hill "]})
    >>> with warnings.catch_warnings():
    ...     warnings.simplefilter("error", ruzgalt.Doubt)
    ...     try:
    ...         ruzgalt.join(pay, pay.assign(person="HILL"), on="person")
    ...     except ruzgalt.Doubt as doubt:
    ...         print(str(doubt).partition(";")[0])
    'person' has 'Hill ' and 'HILL', which don't meet
    """


def doubt(reason: str) -> None:
    """Warns, naming the line that called this package. The line of progress is removed before."""
    progress.take_away()
    level, frame = 1, inspect.currentframe()
    while frame is not None and is_ours(frame.f_code.co_filename):
        level, frame = level + 1, frame.f_back
    warnings.warn(reason, Doubt, stacklevel=level)


def is_ours(file: str) -> bool:
    """Returns whether a file is the package's, or contextlib, which leaves its `with` blocks."""
    return file.startswith(PACKAGE) or file == contextlib.__file__


def label_at(marked: Marks, index: Any) -> Optional[Any]:
    """Returns the index label of the first marked row; a number or text of numpy as Python's own."""
    label = index[int(marked.argmax())]
    return label.item() if hasattr(label, "item") else label


def refuse(marked: Marks, column: Any, name: str, reason: str) -> None:
    """Raises Refused for the first marked row of a column (a Series), if one is marked."""
    if marked.any():
        raise Refused(name, reason, column.name, label_at(marked, column.index))
