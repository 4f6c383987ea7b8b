"""The kinds of points that a column of a frame may have, types of pyarrow, and days in a time zone.

A kind has a name; docs/FRAMES.md says what each may hold:

    ns, us, ms, s   datetime64 of that unit. datetime64[ns], the only one of pandas 1.5, ends in 2262
    D, S            period[D], period[S]
    M, Q-DEC, ..    longer periods, by pandas' name of their frequency: each includes all its days
    date, datetime  objects of datetime.date, of datetime.datetime
    (empty)         objects without a single point

Points of the first four may be in a time zone, or timestamps of pyarrow; dates may be dates of pyarrow.
"""
from __future__ import annotations

from dataclasses import dataclass
from importlib import import_module
from typing import Any

import numpy as np
import pandas as pd

from ruzgalt.convert.arrays import Cells, Ints, Marks
from ruzgalt.convert.errors import Refused

NS, DAY = 1_000_000_000, 86_400
# Units of datetime64, with how many of each a second has; from the finest.
UNITS = {"ns": NS, "us": 1_000_000, "ms": 1_000, "s": 1}
OFFSETS = {"D": pd.offsets.Day(), "S": pd.offsets.Second()}
# How the names of longer periods begin; A of pandas before 2.2.
LONG = ("W", "M", "Q", "Y", "A")
# Kinds whose points are days.
DAYS = ("", "D", "date")
WITHOUT_ZONE = ".dt.tz_localize(None)"
ARROW_TEXTS = ("string", "large_string")
# The unit of points for each type of pyarrow's dates.
ARROW_DATES = {"date32[day]": "s", "date64[ms]": "ms"}
# Before pandas 2 its points are in nanoseconds, so it has clocks from the one second on and before the other.
HAS_SECONDS = np.datetime_data(pd.DatetimeIndex(np.zeros(1, "M8[s]")).dtype)[0] == "s"
CLOCKS = tuple(np.datetime64(year, "s").astype(np.int64) for year in ("1678", "2262"))


@dataclass(frozen=True)
class Kind:
    """A kind by its name. zone is the tzinfo of its time zone, arrow its dtype of pyarrow, or None."""

    name: str = ""
    zone: Any = None
    arrow: Any = None

    @property
    def is_long(self) -> bool:
        """Whether its points are weeks, months, quarters or years."""
        return self.name.partition("-")[0] in LONG


def refuse_two_zones(one: Kind, other: Kind, name: Any) -> None:
    """Raises Refused, with the name of the other's column, if two kinds have different time zones.

    Zones are compared by name, since pytz and zoneinfo have different objects for one zone.
    """
    zones = [str(kind.zone or "no zone") for kind in (one, other)]
    if one.name and other.name and zones[0] != zones[1]:
        reason = f"points in {zones[1]} and points in {zones[0]}: all points of a call must be in one zone, or in none"
        raise Refused("WrongKind", f"{reason}; .dt.tz_convert(ZONE) of both, or {WITHOUT_ZONE} of both", name)


def joint_kind(*kinds: Kind) -> Kind:
    """Returns the kind of an answer from frames of these: the same kind, the coarser of two units, or period[S]."""
    there = [kind for kind in kinds if kind.name]
    # A set isn't possible, since zones of dateutil have no hash.
    if all(kind == there[0] for kind in there):
        return there[0] if there else Kind()
    names = {kind.name for kind in there}
    if names <= {*UNITS} or len(names) == 1:
        return Kind(max(names, key=[*UNITS, *names].index), there[0].zone)
    return Kind("datetime" if names == {"date", "datetime"} else "S", there[0].zone)


# Types of pyarrow (pandas.ArrowDtype). pyarrow is imported only if a column has one.

def arrow_type(dtype: Any) -> str:
    """Returns the name of a dtype's type of pyarrow, or nothing for another dtype."""
    own = getattr(pd, "ArrowDtype", None)
    return str(dtype.pyarrow_dtype) if own is not None and isinstance(dtype, own) else ""


def datetimes_of_arrow(column: Any) -> Any:
    """Returns a column of points of pyarrow as datetime64 of their unit, in their zone."""
    pyarrow, dtype = import_module("pyarrow"), column.dtype.pyarrow_dtype
    unit = ARROW_DATES[str(dtype)] if str(dtype) in ARROW_DATES else dtype.unit
    numbers = pyarrow.array(column.array).cast(pyarrow.timestamp(unit)).cast(pyarrow.int64())
    missing = column.isna().to_numpy()
    cells = numbers.fill_null(0).to_numpy(zero_copy_only=False).view(f"M8[{unit}]")
    made = pd.Series(np.where(missing, np.datetime64("NaT", unit), cells), column.index, name=column.name)
    zone = getattr(dtype, "tz", None)
    return made if zone is None else made.dt.tz_localize("UTC").dt.tz_convert(zone)


def arrow_of_datetimes(cells: Cells, missing: Marks, dtype: Any) -> Any:
    """Returns datetimes in UTC as an array of a dtype of pyarrow."""
    pyarrow, own = import_module("pyarrow"), dtype.pyarrow_dtype
    unit = np.datetime_data(cells.dtype)[0]
    made = pyarrow.array(cells.view("i8"), mask=missing).cast(pyarrow.timestamp(unit, getattr(own, "tz", None)))
    return pd.arrays.ArrowExtensionArray(made.cast(own))


# Days in a time zone. They may have 23 or 25 hours, or be left out. Without a zone (None) they have 24 hours.

def walls_of(seconds: Ints, zone: Any) -> Ints:
    """Returns what clocks show at these seconds, as seconds from 1970 on.

    Outside of pandas' years, clocks keep the offset of its first or last point. Frames have no rows there.
    """
    if zone is None:
        return seconds
    known = seconds if HAS_SECONDS else np.clip(seconds, CLOCKS[0], CLOCKS[1])
    points = pd.DatetimeIndex(np.ascontiguousarray(known).view("M8[s]")).tz_localize("UTC")
    shown = points.tz_convert(zone).tz_localize(None).to_numpy()
    walls: Ints = shown.astype("M8[s]").view("i8") + (seconds - known)
    return walls


def begins_of(walls: Ints, zone: Any) -> Ints:
    """Returns the first seconds when clocks show the days of these walls, or a later day.

    It doesn't search for midnight, since a day may have none, or two.
    """
    days = walls - walls % DAY
    if zone is None:
        return days
    codes, found = pd.factorize(days)
    # No clock is a day away from UTC.
    before, after = found - DAY, found + DAY
    while (after - before > 1).any():
        middle = (before + after) // 2
        has_begun = walls_of(middle, zone) >= found
        before, after = np.where(has_begun, before, middle), np.where(has_begun, middle, after)
    begins: Ints = after[codes]
    return begins


def has_time(seconds: Ints, zone: Any) -> Marks:
    """Returns which seconds aren't the first ones of a day."""
    marked: Marks = begins_of(walls_of(seconds, zone), zone) != seconds
    return marked


def next_days(begins: Ints, zone: Any) -> Ints:
    """Returns the ends of the days that begin at these seconds."""
    return begins_of(walls_of(begins, zone) + DAY, zone)


def days_before(begins: Ints, zone: Any) -> Ints:
    """Returns the starts of the days that end at these seconds."""
    return begins_of(walls_of(begins - 1, zone), zone)
