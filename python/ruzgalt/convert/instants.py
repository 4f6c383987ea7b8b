"""Single points of questions and changes: texts as the store reads them, or values of a column of points."""
from __future__ import annotations

import datetime
from typing import Any, Optional, Tuple

import numpy as np
import pandas as pd

from ruzgalt.convert import checks, points
from ruzgalt.convert.arrays import Ints
from ruzgalt.convert.errors import REMEDIES, Refused
from ruzgalt.convert.kinds import DAY, begins_of, has_time, walls_of
from ruzgalt.convert.points import Form
from ruzgalt.script import forms

# Units of datetime64 that are longer than a day: a year, a month and a week.
LONG = ("Y", "M", "W")
# The first second of a time, and the first one after it.
Span = Tuple[int, int]


def written(point: Any) -> Optional[str]:
    """Returns a text as the store reads it, or None for no text of a point. str() of a Timestamp has a space for T."""
    text = point.replace(" ", "T") if isinstance(point, str) else ""
    return text if text and forms.read_point(text) is not None else None


def column_of(point: Any) -> Any:
    """Returns a Series of one point. Raises Refused (BadPoint, WrongKind)."""
    if isinstance(point, str):
        text = written(point)
        if text is None:
            raise Refused("BadPoint", f"{point!r}: {REMEDIES['BadPoint']}")
        return pd.Series([forms.read_point(text)], dtype=object)
    if not pd.api.types.is_scalar(point):
        raise Refused("WrongKind", f"{checks.shown(point)}: {REMEDIES['BadPoint']}")
    if pd.isna(point):
        raise Refused("BadPoint", f"{point!r}: {REMEDIES['BadPoint']}")
    if isinstance(point, np.datetime64):
        point = datetime_of(point)
    if isinstance(point, pd.Period) and points.kind_of_period(pd.PeriodDtype(point.freq)).is_long:
        raise Refused("WrongKind", f"{point!r} isn't a date or time: .asfreq('D', 'start') is its first day")
    # Objects for dates, datetimes and Timestamps; pandas finds the dtype of a Period itself.
    return pd.Series([point], dtype=object if isinstance(point, datetime.date) else None)


def datetime_of(point: Any) -> datetime.datetime:
    """Returns a datetime64 as a datetime. pandas takes it to nanoseconds, which not all years have. Raises Refused."""
    if np.datetime_data(point.dtype)[0] in LONG:
        raise Refused("WrongKind", f"{point!r} isn't a date or time: .astype('M8[D]') is its first day")
    cut = point.astype("M8[s]")
    found = cut.item()
    if cut != point or not isinstance(found, datetime.datetime):
        raise Refused("BadPoint", f"{point!r} has a fraction of a second, or is outside the years 0001 to 9999")
    return found


def second_of(point: Any) -> int:
    """Returns the point's second. Raises Refused (BadPoint, WrongKind)."""
    text = written(point)
    if text:
        return points.FIRST + forms.seconds(text)
    column = column_of(point)
    try:
        return int(points.seconds_of(column)[0][0])
    except Refused as error:
        raise Refused(error.name, f"{point!r}: {error.reason}") from None


def second_in(point: Any, zone: Any) -> int:
    """Returns the point's second of UTC. If it has no zone, clocks in this zone show it, and a day is its begin.

    9999-12-31 means no end in each zone.
    """
    own = getattr(point, "tzinfo", None)
    if own is None:
        wall = second_of(point)
        return wall if zone is None or wall == points.NO_END else second_shown(wall, point, zone)
    if zone is None:
        reason = "dates and times here have no time zone; .replace(tzinfo=None) removes it"
        raise Refused("WrongKind", f"{point!r}: {reason}")
    return second_of(in_utc(point))


def one_second(point: Any, zone: Any) -> Span:
    second = second_in(point, zone)
    return second, second + 1


def in_utc(point: Any) -> Any:
    """Returns a datetime of a zone as clocks show it in UTC. Raises Refused (BadPoint) outside of their years."""
    if not isinstance(point, datetime.datetime):
        return point
    try:
        return point.astimezone(datetime.timezone.utc).replace(tzinfo=None)
    except OverflowError:
        raise Refused("BadPoint", f"{point!r}: {REMEDIES['BadPoint']}") from None


def second_shown(wall: int, point: Any, zone: Any) -> int:
    """Returns the second when clocks in the zone show a wall. Raises Refused if they never do, or twice."""
    if wall % DAY == 0:
        return int(begins_of(np.array([wall], np.int64), zone)[0])
    near = wall + np.arange(-DAY, DAY + 1, dtype=np.int64)
    found = near[walls_of(near, zone) == wall]
    if len(found) != 1:
        times = "never" if not len(found) else "twice"
        raise Refused("BadPoint", f"{point!r}: clocks in {zone} show it {times}; give a Timestamp with tz=")
    return int(found[0])


def span(start: Any, end: Any, form: Form, zone: Any) -> Span:
    """Returns the seconds of a start, and of the first point after an end as the form has it. Raises Refused."""
    first, after = bounds(start, end, form, zone)
    if first >= after:
        last = "the last day" if form.has_last_days else "the first point after it"
        raise Refused("BadPeriod", f"{start!r} to {end!r}: a start must be before its end, which is {last}")
    return first, after


def portion(start: Any, end: Any, form: Form) -> Ints:
    """Returns the bounds of a change. Whether the start is before the end isn't tested."""
    return np.array(bounds(start, end, form, None), np.int64)


def bounds(start: Any, end: Any, form: Form, zone: Any) -> Span:
    """Returns the seconds of a start, and of the first point after an end; None means no end."""
    first = second_in(start, zone)
    if form.has_last_days and first != points.NO_END and has_time(np.array([first], np.int64), zone).any():
        raise Refused("BadPoint", f"{start!r}: with last_day=True, a start can't have a time")
    return first, points.NO_END if end is None else end_of(end, form, zone)


def end_of(end: Any, form: Form, zone: Any) -> int:
    """Returns the second of an end; after a last day, when the next day begins in the zone. Raises Refused."""
    if not form.has_last_days:
        return second_in(end, zone)
    day = end
    if getattr(end, "tzinfo", None) is not None:
        day = points.EPOCH + datetime.timedelta(seconds=int(walls_of(np.array([second_in(end, zone)]), zone)[0]))
    try:
        after = form.ends_of(column_of(day))[0]
    except Refused as error:
        raise Refused(error.name, f"{end!r}: {error.reason}") from None
    return points.NO_END if after[0] == points.NO_END else int(begins_of(after, zone)[0])


def text_of(point: Any) -> str:
    """Returns a point of a question as the store reads it."""
    return written(point) or points.text_of(second_in(point, None))
