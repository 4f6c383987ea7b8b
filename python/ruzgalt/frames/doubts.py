"""Possible mistakes in frames. Each is a warning, ruzgalt.Doubt; the call answers as it was asked.

Texts and ends are tested by the classes that test files which are loaded. Only different texts are tested, and if there
are many rows, only some, with all rows of a key. So a million rows take less than a tenth of a second.
"""
from __future__ import annotations

from dataclasses import replace
from typing import Any, Collection, Dict, Iterable, List, Mapping, Sequence, Tuple

import numpy as np

from ruzgalt.convert import instants, kinds, points
from ruzgalt.convert.arrays import Ints
from ruzgalt.convert.errors import doubt
from ruzgalt.convert.instants import Span
from ruzgalt.convert.kinds import DAY
from ruzgalt.convert.named import names_of, same
from ruzgalt.convert.values import Values
from ruzgalt.frames.options import Options
from ruzgalt.frames.sides import Side, codes_of
from ruzgalt.lint.rows import Ends
from ruzgalt.lint.texts import NO_VALUES, folds

# The most texts of a column, and the most rows, that are tested.
MOST_TEXTS, MOST_ROWS = 20_000, 4_000
# Frames of fewer rows may well have no common value.
FEW = 2
# Ends from the one on and before the other may mean no end, as in files (script/forms.is_far_off).
FAR, FARTHEST = map(instants.second_of, ("2099-01-01", "9999-01-01"))
REMEDY = (
    "they differ only in spaces, capitals, accents of their own, zeros in front, or .0 at the end: "
    ".str.strip(), .str.lower(), .str.normalize('NFKC'), .str.lstrip('0'), .str.removesuffix('.0')"
)


def of_frame(frame: Any, side: Side, key: Sequence[Values], options: Options) -> None:
    """Warns of possible mistakes in a frame whose rows are grouped by the columns of a key."""
    if options.is_part:
        return
    of_decimals(options.decimals, frame)
    of_groups(key)
    of_ends(side, key, options.period[-1], options.form.has_last_days)


def of_span(span: Span, side: Side, options: Options) -> None:
    """Warns of a time whose end looks like a last day: it begins on a month's first day, and ends on a last one."""
    if options.form.has_last_days or options.is_part or span[1] == points.NO_END:
        return
    walls = walls_of(np.array(span, np.int64), side) + [0, DAY]
    days = (walls // DAY).view("M8[D]")
    if not (walls % DAY).any() and (days == days.astype("M8[M]")).all():
        last = points.text_of(int(walls[1]) - DAY)
        doubt(f"the time ends before {last}, a month's last day: give the day after it to count {last} too, or "
              f"last_day=True if the frame's ends are last days")


def of_pair(frames: Sequence[Any], both: Sequence[Side], codes: Sequence[Ints], options: Options) -> None:
    """Warns of possible mistakes in two frames that are compared. codes: the key codes of their rows."""
    if options.left_on is None:
        of_no_columns(*(
            [name for name in names_of(frame) if name not in own] for frame, own in zip(frames, options.periods)
        ))
    of_decimals(options.decimals, *frames)
    keys = [side.columns for side in both]
    if not of_keys(*keys) and len(keys[0]) > 1 and min(map(len, both)) >= FEW and not have_common(*codes):
        examples = " and ".join(f"({', '.join(map(example_of, key))})" for key in keys)
        doubt(f"no row of the left frame has the keys of a right row, such as {examples}: are these the columns to "
              f"compare, in this order?")
    for one, other in zip(*keys):
        of_no_value(one.name, one.texts.cells, other.texts.cells)
    for side, period, form in zip(both, options.periods, options.forms):
        of_ends(side, side.columns, period[-1], form.has_last_days)


def of_decimals(decimals: Mapping[Any, int], *frames: Any) -> None:
    """Warns of decimals of no column."""
    there = list(dict.fromkeys(name for frame in frames for name in names_of(frame)))
    for name in decimals:
        if same(name) not in there:
            doubt(f"decimals= has {name!r}, which isn't a column; the columns are {there}")


def of_no_columns(left: Iterable[Any], right: Collection[Any]) -> None:
    """Warns of frames that aren't compared, and have common columns, by their names."""
    both = [name for name in left if name in right]
    if both:
        # on=None means no columns, and a tuple several.
        is_name = len(both) == 1 and both[0] is not None and not isinstance(both[0], tuple)
        isnt = f"{both[0]!r}, which isn't" if len(both) == 1 else f"{', '.join(map(repr, both))}, which aren't"
        on = repr(both[0] if is_name else both)
        doubt(f"both frames have {isnt} compared: give on={on} to compare, or on=[] for none")


def of_keys(left: Sequence[Values], right: Sequence[Values]) -> bool:
    """Warns of texts that only look like one of the other side, and of columns without a common value.

    Returns whether it warned.
    """
    is_found = False
    for one, other in zip(left, right):
        texts = one.texts.cells, other.texts.cells
        # A column of another kind has none.
        found = alike(*texts) or [(left_one, right_one) for right_one, left_one in alike(*texts[::-1])]
        if found:
            more = f", nor do {len(found) - 1} more" if len(found) > 1 else ""
            doubt(f"{one.name!r} has {found[0][0]!r} and {found[0][1]!r}, which don't meet{more}; {REMEDY}")
        elif min(len(one.codes), len(other.codes)) >= FEW and not (
            have_common(one.codes, other.codes) if one.kind == "int" else {*texts[0]} & {*texts[1]}
        ):
            examples = " and ".join(map(example_of, (one, other)))
            doubt(f"{one.name!r} has no value that {other.name!r} of the right frame has, such as {examples}: "
                  f"are these the columns to compare?")
        else:
            continue
        is_found = True
    return is_found


def have_common(one: Ints, other: Ints) -> bool:
    # The first rows mostly have a common one already.
    return any(np.isin(codes, other).any() for codes in (one[:MOST_ROWS], one))


def example_of(column: Values) -> str:
    is_text = column.kind == "text"
    return repr(column.texts.cells[column.codes[0]]) if is_text else str(column.restored(column.codes[:1])[0])


def alike(texts: Sequence[str], others: Sequence[str]) -> List[Tuple[str, str]]:
    """Returns the texts that aren't among the others, each with another one that looks like it."""
    there = set(others)
    alone = [text for text in texts[:MOST_TEXTS] if text not in there]
    known = dict(zip(folds(others[:MOST_TEXTS]), others)) if alone else {}
    return [(text, known[folded]) for text, folded in zip(alone, folds(alone)) if folded in known]


def of_no_value(name: Any, *sides: Sequence[str]) -> None:
    """Warns of a text that each side has, and that other programs write for a missing value."""
    # A blank group is common, but blank keys that match are a surprise.
    blanks = ("",) if len(sides) > 1 else ()
    texts = (text for text in sides[0][:MOST_TEXTS] if text.lower() in NO_VALUES or text.strip() in blanks)
    found = next((text for text in texts if all(text in side for side in sides)), None)
    if found is not None:
        is_blank = not found.strip()
        remedy = f".dropna(subset=[{name!r}]) before .astype(str) leaves such rows out"
        remedy = f"frame[frame[{name!r}].str.strip() != ''] leaves such rows out" if is_blank else remedy
        doubt(f"{name!r} has {found!r}, which other programs write for no value, and rows with it are equal; {remedy}")


def of_groups(columns: Iterable[Values]) -> None:
    """Warns of groups of texts that look alike, and of a text that means a missing value elsewhere."""
    for column in columns:
        of_no_value(column.name, column.texts.cells)
        seen: Dict[str, str] = {}
        for folded, text in zip(folds(column.texts.cells[:MOST_TEXTS]), column.texts.cells):
            other = seen.setdefault(folded, text)
            if other != text:
                doubt(f"{column.name!r} has {other!r} and {text!r}, which are two groups; {REMEDY}")
                break


class RowEnds(Ends):
    """Ends of a frame's rows, which are named by their labels, with remedies of a call."""

    remedies = (
        "a row no longer holds on that day; last_day=True reads it as the last one",
        "last_day=True reads it as the last day of a row; without it, the day before is the last",
    )

    def example_of(self, ends: Any) -> str:
        starts = dict(zip(self.starts, self.lines[0]))
        label, end = next(pair for pair in zip(self.lines[0], ends) if pair[1] in starts)
        return f"row {starts[end]!r} after row {label!r}"


def of_ends(side: Side, key: Sequence[Values], name: Any, is_last_day: bool) -> None:
    """Warns of ends that look like last days but aren't read as last days, or the other way round."""
    if side.kind.is_long or side.has_intervals:
        return
    walls = walls_of(side.end, side)
    of_odd_ends(walls, name)
    rows = some_rows(key, len(side))
    start, end = walls_of(side.start[rows], side), walls_of(side.end[rows], side)
    if not len(rows) or (start % DAY).any() or (end % DAY).any() or not are_odd(start, end, is_last_day):
        return
    columns = key or [Values(None, "int", np.zeros(len(side), np.int64))]
    keys = codes_of([replace(column, kind="int", codes=column.codes[rows])] for column in columns)[0]
    # Without a key rows that share a last day may well be of two things, and of some rows none follows another.
    is_apart = not key and (is_last_day or len(rows) < len(side))
    if is_apart or overlap(keys, start, np.where(end == points.NO_END, end, end - is_last_day * DAY)):
        keys = np.arange(len(rows))
    ends = RowEnds(str(name), ", ".join(str(column.name) for column in key), is_last_day)
    labels = list(side.labels[rows])
    ends.add(labels, keys.tolist(), texts_of(start), texts_of(end))
    for note in ends.notes():
        doubt(note)


def texts_of(days: Ints) -> List[str]:
    texts: List[str] = np.datetime_as_string((days // DAY).view("M8[D]")).tolist()
    return texts


def are_odd(start: Ints, end: Ints, is_last_day: bool) -> bool:
    """Returns whether Ends may warn: if ends were read the other way, one would be a start or the first of a month.

    Mostly none would be, and then no text is made.
    """
    days = end - DAY if is_last_day else end[end < points.NO_END] + DAY
    dates = (days // DAY).view("M8[D]")
    is_first = dates == dates.astype("M8[M]")
    return bool(is_first.any()) or not set(start.tolist()).isdisjoint(days.tolist())


def walls_of(seconds: Ints, side: Side) -> Ints:
    """Returns what clocks show in the side's zone; no end stays no end."""
    if side.kind.zone is None:
        return seconds
    walls, known = seconds.copy(), seconds != points.NO_END
    walls[known] = kinds.walls_of(seconds[known], side.kind.zone)
    return walls


def of_odd_ends(end: Ints, name: Any) -> None:
    """Warns of an end in the last minute of a day, and of one that is far off, which databases have for no end."""
    late = end[(end % DAY >= DAY - 60) & (end < points.NO_END)]
    if len(late):
        reason = "a row doesn't hold at its end, and a day ends at the next one's midnight"
        doubt(f"{name} is {points.text_of(int(late[0]))}: {reason}; .dt.ceil('D') makes it so")
    far = end[(end >= FAR) & (end < FARTHEST)]
    if len(far):
        remedy = "if its end isn't known, leave it missing, with open_end=True"
        doubt(f"{name} is {points.text_of(int(far[0]))}: a row ends there; {remedy}")


def some_rows(key: Sequence[Values], count: int) -> Ints:
    """Returns all rows, or MOST_ROWS of many; if a key's first column has many values, all rows of some values."""
    if count <= MOST_ROWS:
        return np.arange(count)
    parts = 2 * count // MOST_ROWS
    codes = key[0].codes if key else np.arange(count)
    return np.flatnonzero(codes % parts == codes[0] % parts)[:MOST_ROWS]


def overlap(keys: Ints, start: Ints, end: Ints) -> bool:
    """Returns whether rows of one key overlap; then a row that starts on another's end doesn't follow it."""
    order = np.lexsort((end, start, keys))
    is_same = keys[order][1:] == keys[order][:-1]
    return bool((is_same & (start[order][1:] < end[order][:-1])).any())
