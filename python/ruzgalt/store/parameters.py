"""The parameters of a store's calls. Each is described once; the docstrings are made of that."""
from __future__ import annotations

import inspect
from typing import TypeVar

from ruzgalt.frames import docstrings
from ruzgalt.frames.options import OPTIONS, PARAMETERS as OF_FRAMES

Class = TypeVar("Class", bound=type)
# Store's own docstring says what points and commits are.
POINT, A_POINT, COMMIT, A_COMMIT = "point", "point, optional", "commit", "commit, optional"
NAMES, FRAME, TEXT = "name or list of names, optional", "DataFrame", "str, optional"
WHERE, FLAG = "dict, optional", "bool, default False"
TABLE = "str", "The table."
OF_ROWS = WHERE, "Columns with the values that rows must have; by default all rows."
COMMITS = "The first and the last commit."
DIARY = TEXT, "A table of labels and days made of diary(), or one with the newest commit in its first column."
HEADINGS = TEXT, "The heading of the page, and a text below it."
DRAWN = A_POINT, "The first point that is drawn, and the first one after."
# The options of frames, and parameters that have another text in a store.
PARAMETERS: docstrings.Texts = {
    **{name: one.described for name, one in OPTIONS.items()}, **OF_FRAMES,
    "name": TABLE, "left": TABLE, "right": TABLE,
    "table.name": ("str", "1 to 32 of a to z, 0 to 9 and _, a letter first."),
    # Changes.
    "table.frame": (FRAME, "A frame of pandas: the period, and columns of any names."),
    "load.frame": (FRAME, "A frame of pandas with the period and exactly the table's columns, in any order."),
    "update_rows.frame": (FRAME, "A frame of pandas with periods, values that find rows, and new values."),
    "key": (NAMES, "Rows with equal values in these columns never hold at one point."),
    "missing": (
        "dict, optional",
        'A value for missing cells, which no cell has, such as `{"note": "?"}`. The column isn\'t compared, added or '
        "raised then."),
    "set": ("dict", "Columns with their new values."),
    "where": OF_ROWS,
    "update_rows.where": (NAMES, "The columns that find rows, by default the table's key."),
    "percent": ("str, int, float or Decimal", "A raise such as 2.5, or a cut such as -3."),
    "round": (
        TEXT,
        "How Python's decimal rounds new amounts: half-up, half-down, half-even, up, down, ceiling or floor. By "
        "default they must be whole."),
    "dry_run": (FLAG, "Changes nothing, and returns the updates."),
    "again": (FLAG, "Also raises amounts that were already raised from this start on, which is otherwise refused."),
    "label": (TEXT, "A name of the last commit, which no other commit has."),
    "day": (A_POINT, "The day of the commits, from midnight on. Days can't go back."),
    "batch.day": (A_POINT, "The day of changes that have none of their own."),
    # Questions.
    "as_of": (A_COMMIT, "The commit to ask, by default the newest."),
    "point": (POINT, "A day means its midnight."),
    "first": (A_COMMIT, COMMITS), "last": (A_COMMIT, COMMITS),
    "between.first": (COMMIT, COMMITS), "between.last": (COMMIT, COMMITS),
    "diary.after": (A_COMMIT, "Lists only commits after this one."),
    "retroactive": (FLAG, "Lists only changes of the time before the commit's day."),
    "before": (COMMIT, "The first commit."),
    "after": (A_COMMIT, "The second one, by default the newest."),
    # Scripts, files and pictures.
    "script": ("bytes or path", "A script, or its file."),
    "options": (
        "dict, optional",
        "By table a dict of period, open_end, last_day, decimals and missing as in `table`, and of `names` as in "
        "Script.names. With decimals, numbers become Decimals."),
    "path": ("str or path", "The file."),
    "questions": ("list of str, optional", 'Questions of the language, also with names: `"cost=agg,pay,sum,cents"`.'),
    "title": HEADINGS, "note": HEADINGS, "diary": DIARY,
    "question": (
        "str",
        'A question of the language, such as `"rows,pay"` or `"dip,pay"`. Columns are named as in the script.'),
    "picture.by": (TEXT, "The column whose values have a lane each, by default the first."),
    "picture.label": (TEXT, "The column whose values are shown in the bars."),
    "picture.where": (WHERE, "Columns with values that records must have: 1 for True."),
    "picture.start": DRAWN, "picture.end": DRAWN,
    "width": ("int, optional", "Pixels, 40 to 100,000; by default as needed, up to 1,600."),
}
# What a change returns, unless its docstring says something else.
CHANGED = "Returns Changed: Within a batch None.\n\n"


def described(cls: Class) -> Class:
    """Makes the docstrings of a class and its methods."""
    for name, one in {cls.__name__: cls, **vars(cls)}.items():
        call = getattr(one, "__func__", getattr(one, "fget", one))
        if name[0] != "_" and (call is cls or inspect.isfunction(call)) and call.__doc__:
            text = docstrings.made(name, call, PARAMETERS, "" if call is cls else CHANGED)
            (one if isinstance(one, property) else call).__doc__ = text
    return cls
