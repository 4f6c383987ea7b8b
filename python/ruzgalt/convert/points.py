"""Points of a frame's columns as seconds from 1970 on, and back in the dtype of the frame.

Points in a time zone are seconds of UTC.
"""
from __future__ import annotations

import datetime
from dataclasses import dataclass
from functools import lru_cache
from typing import Any, List, Tuple

import numpy as np
import pandas as pd

from ruzgalt.convert import kinds
from ruzgalt.convert.arrays import Cells, Ints, Marks, of_objects
from ruzgalt.convert.errors import Refused, label_at, refuse
from ruzgalt.convert.kinds import DAY, DAYS, NS, OFFSETS, UNITS, Kind
from ruzgalt.script import forms

FIRST, LAST, NO_END = -62_135_596_800, 253_402_300_799, 253_402_214_400
NS_RANGE = (-(2**63) // NS + 1, (2**63 - 1) // NS)
NAT = np.iinfo(np.int64).min
EPOCH = datetime.datetime(1970, 1, 1)
# The remedy for a missing end.
OPEN_END = "open_end=True reads a missing end as 9999-12-31"
LENGTHS = {"D": DAY, "S": 1}
# The last day before the one that means no end.
LAST_BUT_ONE = NO_END - DAY
# The years of points in a time zone, by whether they are of datetime64[ns]. The years before and after exist too.
ZONED = {False: ("0002", "9998"), True: ("1678", "2261")}


@dataclass(frozen=True)
class Form:
    """How a frame has its periods.

    is_open         a missing end means 9999-12-31, and comes back as missing
    has_last_days   an end is the last day of its row, and not the first point after it
    """

    is_open: bool = False
    has_last_days: bool = False

    def starts_of(self, column: Any) -> Tuple[Ints, Kind]:
        """Returns the starts, and their kind. Raises Refused (BadPoint, WrongKind)."""
        seconds, kind = seconds_of(column, remedy=f".dropna(subset=[{column.name!r}]) leaves such rows out")
        if self.has_last_days:
            refuse_times(seconds, kind, column)
        return seconds, kind

    def ends_of(self, column: Any) -> Tuple[Ints, Kind]:
        """Returns the first points after the rows, and their kind. Raises Refused (BadPoint, WrongKind)."""
        if kind_of_period(column.dtype).is_long:
            return ends_of_long(column, self.is_open)
        seconds, kind = seconds_of(column, self.is_open)
        if not self.has_last_days:
            return seconds, kind
        known = ~self.are_open(seconds)
        refuse_times(seconds, kind, column, known)
        is_last = (seconds == NO_END) & known
        refuse(is_last, column, "BadPoint", "there is no day after it; open_end=True reads it as no known end")
        reason = "the day after it is 9999-12-31, which means no known end: give an earlier day"
        refuse((seconds == LAST_BUT_ONE) & self.is_open, column, "BadPoint", reason)
        seconds[known] = kinds.next_days(seconds[known], kind.zone)
        return seconds, kind

    def restored_ends(self, seconds: Ints, kind: Kind, index: Any = None) -> Any:
        """Returns a column of ends, or of last days if the form has these. Raises Refused (BadPoint)."""
        known = ~self.are_open(seconds)
        if kind.is_long:
            return series_of(np.where(known, seconds - 1, seconds), kind, index, self.is_open)
        if not self.has_last_days:
            return series_of(seconds, kind, index, self.is_open)
        ends = seconds[known]
        with_times = ends[kinds.has_time(ends, kind.zone)]
        if len(with_times):
            reason = f"a row ends at {text_of(kinds.walls_of(with_times, kind.zone)[0])}, so it has no last day"
            raise Refused("BadPoint", f"{reason}; leave out last_day=True")
        lasts = seconds.copy()
        lasts[known] = kinds.days_before(ends, kind.zone)
        return series_of(lasts, kind, index, self.is_open)

    def are_open(self, seconds: Ints) -> Marks:
        """Returns which of these ends mean no end."""
        marked: Marks = (seconds == NO_END) & self.is_open
        return marked


def refuse_times(seconds: Ints, kind: Kind, column: Any, known: Any = slice(None)) -> None:
    """Raises Refused for a time of day among the known points."""
    marked = np.zeros(len(seconds), bool)
    marked[known] = kinds.has_time(seconds[known], kind.zone)
    reason = "with last_day=True, points must be days, but this has a time; .dt.floor('D') drops it"
    refuse(marked, column, "BadPoint", reason)


def seconds_of(column: Any, is_open: bool = False, remedy: str = OPEN_END) -> Tuple[Ints, Kind]:
    """Returns the points of a Series as seconds, and their kind. Raises Refused (BadPoint, WrongKind) with the label.

    is_open: a missing point means 9999-12-31. remedy: what to do with one otherwise.
    """
    dtype = column.dtype
    if kinds.arrow_type(dtype) in kinds.ARROW_DATES or kinds.arrow_type(dtype).startswith("timestamp["):
        seconds, kind = of_arrow(column)
    elif isinstance(dtype, pd.DatetimeTZDtype):
        seconds, kind = of_zone(column)
    elif kind_of_period(dtype).name in OFFSETS:
        seconds, kind = of_periods(column)
    elif kind_of_period(dtype).is_long:
        seconds, kind = of_long(column, "start")
    elif getattr(dtype, "kind", "") == "M":
        seconds, kind = of_datetimes(column)
    elif dtype == object:
        seconds, kind = of_dates(column)
    else:
        others = "pandas.to_datetime converts texts, and numbers such as 20240105 with format='%Y%m%d'"
        reason = f"{dtype} isn't datetime64, period[D], period[S] or date; {others}, .dt.to_timestamp() other periods"
        raise Refused("WrongKind", reason, column.name)
    missing = seconds == NAT
    refuse_missing(missing, is_open, column, remedy)
    seconds[missing] = NO_END
    return seconds, kind


def kind_of_period(dtype: Any) -> Kind:
    """Returns the kind of a dtype of periods; another dtype has none. From pandas 2.2 on seconds are `s`."""
    name = str(dtype)[len("period["):-1] if isinstance(dtype, pd.PeriodDtype) else ""
    return Kind("S" if name == "s" else name)


def of_long(column: Any, how: str) -> Tuple[Ints, Kind]:
    """Returns the first seconds of longer periods, or the last ones."""
    seconds = of_periods(column.dt.asfreq(OFFSETS["S"].freqstr, how))[0]
    return seconds, kind_of_period(column.dtype)


def ends_of_long(column: Any, is_open: bool) -> Tuple[Ints, Kind]:
    """Returns the first points after longer periods: an end of March is April 1st, with last_day or without."""
    lasts, kind = of_long(column, "end")
    missing = lasts == NAT
    refuse_missing(missing, is_open, column)
    reason = "it ends at 9999-12-31 or later: leave it missing, with open_end=True, if no end is known"
    refuse(~missing & (lasts >= NO_END - 1), column, "BadPoint", reason)
    return np.where(missing, NO_END, lasts + 1), kind


def refuse_missing(missing: Marks, is_open: bool, column: Any, remedy: str = OPEN_END) -> None:
    if not is_open:
        refuse(missing, column, "BadPoint", f"no date or time is given; {remedy}")


def of_arrow(column: Any) -> Tuple[Ints, Kind]:
    datetimes = kinds.datetimes_of_arrow(column)
    seconds, kind = of_zone(datetimes) if isinstance(datetimes.dtype, pd.DatetimeTZDtype) else of_datetimes(datetimes)
    is_date = kinds.arrow_type(column.dtype) in kinds.ARROW_DATES
    return seconds, Kind("date" if is_date else kind.name, kind.zone, column.dtype)


def of_zone(column: Any) -> Tuple[Ints, Kind]:
    """Returns points in a time zone as seconds in UTC. Those are refused whose clocks may show another year."""
    seconds, kind = of_datetimes(column.dt.tz_convert(None))
    first, last = ZONED[kind.name == "ns"]
    years = np.where(seconds == NAT, np.int64(0), seconds).view("M8[s]").astype("M8[Y]")
    reason = f"in a time zone, points of this dtype must be in the years {first} to {last}"
    refuse((years < np.datetime64(first)) | (years > np.datetime64(last)), column, "BadPoint", reason)
    return seconds, Kind(kind.name, column.dtype.tz)


def of_datetimes(column: Any) -> Tuple[Ints, Kind]:
    cells = column.to_numpy()
    name = np.datetime_data(cells.dtype)[0]
    numbers, many = cells.view("i8"), UNITS[name]
    # A remainder takes longer than a product.
    seconds, missing = numbers // many, numbers == NAT
    is_cut = seconds * many != numbers
    refuse(is_cut & ~missing, column, "BadPoint", "a fraction of a second; .dt.floor('s') drops it")
    seconds[missing] = NAT
    refuse_outside(seconds, FIRST, LAST, column)
    return seconds, Kind(name)


def of_periods(column: Any) -> Tuple[Ints, Kind]:
    numbers, name = column.array.asi8, kind_of_period(column.dtype).name
    length = LENGTHS[name]
    refuse_outside(numbers, FIRST // length, LAST // length, column)
    return np.where(numbers != NAT, numbers * length, NAT), Kind(name)


def refuse_outside(numbers: Ints, first: int, last: int, column: Any) -> None:
    """Raises Refused for a point that isn't between two others, and isn't missing."""
    if len(numbers) and not first <= numbers.min() <= numbers.max() <= last:
        marked = (numbers != NAT) & ((numbers < first) | (numbers > last))
        refuse(marked, column, "BadPoint", "outside the years 0001 to 9999")


def of_dates(column: Any) -> Tuple[Ints, Kind]:
    """Reads objects: dates or datetimes. Equal ones are tested once."""
    inferred = pd.api.types.infer_dtype(column, skipna=True)
    if inferred not in ("date", "datetime", "empty"):
        reason = f"{inferred} isn't a date: pandas.to_datetime or .astype('period[S]') converts it"
        raise Refused("WrongKind", reason, column.name)
    codes, found = pd.factorize(np.asarray(column, object))
    names = {"datetime" if isinstance(one, datetime.datetime) else "date" for one in found}
    if len(names) > 1:
        reason = "dates and datetimes in one column: pandas.to_datetime makes one kind"
        raise Refused("WrongKind", reason, column.name)
    for place, one in enumerate(found):
        if isinstance(one, datetime.datetime) and (one.tzinfo or one.microsecond or getattr(one, "nanosecond", 0)):
            label = label_at(codes == place, column.index)
            reason = f"{one} has a zone or a fraction of a second; .replace drops it, pandas.to_datetime takes one zone"
            raise Refused("BadPoint", reason, column.name, label)
    table = np.array([second_of(one) for one in found] + [NAT], np.int64)
    return table[codes], Kind("".join(names))


def second_of(point: datetime.date) -> int:
    days = point.toordinal() - EPOCH.toordinal()
    if not isinstance(point, datetime.datetime):
        return days * DAY
    return days * DAY + point.hour * 3600 + point.minute * 60 + point.second


def has_all(kind: Kind, seconds: Ints) -> bool:
    """Returns whether a column of the kind can have each of these points."""
    if kind.name in DAYS:
        return not (seconds % DAY).any()
    return kind.name != "ns" or bool(((seconds >= NS_RANGE[0]) & (seconds <= NS_RANGE[1])).all())


def series_of(seconds: Ints, kind: Kind, index: Any = None, is_open: bool = False) -> Any:
    """Returns the points as a Series. Raises Refused (BadPoint) if the kind can't have one of them.

    The dtype is given: of objects pandas makes datetime64[ns] if all of them fit.
    """
    name, missing = kind.name, seconds == NO_END if is_open else np.zeros(len(seconds), bool)
    if name in DAYS and (seconds % DAY).any():
        point = text_of(seconds[seconds % DAY > 0][0])
        raise Refused("BadPoint", f"{point} isn't a day: give the points of both frames as period[S] or datetime64")
    if kind.arrow is not None:
        cells = datetimes_of(seconds, missing, name if name in UNITS else "s")
        return pd.Series(kinds.arrow_of_datetimes(cells, missing, kind.arrow), index)
    if name in UNITS:
        # pandas 1.5 has only ns.
        made = pd.Series(datetimes_of(seconds, missing, name if kinds.HAS_SECONDS else "ns"), index)
        return made if kind.zone is None else made.dt.tz_localize("UTC").dt.tz_convert(kind.zone)
    if name in OFFSETS:
        return periods_of(seconds, missing, name, index)
    if kind.is_long:
        return periods_of(seconds, missing, "S", index).dt.asfreq(name)
    return pd.Series(objects_of(seconds, missing, name), index, dtype=object)


def periods_of(seconds: Ints, missing: Marks, name: str, index: Any) -> Any:
    ordinals = np.where(missing, NAT, seconds // LENGTHS[name])
    return pd.Series(pd.arrays.PeriodArray(ordinals, dtype=pd.PeriodDtype(OFFSETS[name])), index)


def datetimes_of(seconds: Ints, missing: Marks, kind: str) -> Cells:
    outside = ((seconds < NS_RANGE[0]) | (seconds > NS_RANGE[1])) & ~missing
    if kind == "ns" and outside.any():
        second = seconds[outside][0]
        remedy = "open_end=True returns it as missing" if second == NO_END else "period[S] does: .dt.to_period('S')"
        raise Refused("BadPoint", f"datetime64[ns] can't hold {text_of(second)}; {remedy}")
    numbers = np.where(missing, 0, seconds) * UNITS[kind]
    return np.where(missing, NAT, numbers).view(f"M8[{kind}]")


def objects_of(seconds: Ints, missing: Marks, kind: str) -> Cells:
    codes, found = pd.factorize(np.where(missing, NAT, seconds))
    times = [None if one == NAT else EPOCH + datetime.timedelta(seconds=int(one)) for one in found]
    table = of_objects(times) if kind == "datetime" else of_objects([one and one.date() for one in times])
    cells: Cells = table[codes]
    return cells


def texts_of(seconds: Ints) -> List[str]:
    """Returns the points as a script has them."""
    codes, found = pd.factorize(np.asarray(seconds, np.int64))
    texts = np.datetime_as_string(found.astype("M8[s]")).tolist()
    points: List[str] = of_objects([text.replace("T00:00:00", "") for text in texts])[codes].tolist()
    return points


def text_of(second: int) -> str:
    return forms.print_point(forms.at_second(int(second) - FIRST))


@lru_cache(maxsize=1)
def first_days() -> Ints:
    """Returns the number of the first day of each month, from year 0 on."""
    months = np.arange(-12 * 1970, 12 * (10_000 - 1970)).astype("M8[M]")
    days: Ints = months.astype("M8[D]").astype(np.int64)
    return days


def day_of(year: Ints, month: Ints, day: Ints) -> Ints:
    """Returns the number of a day of the calendar."""
    days: Ints = first_days()[12 * year + month - 1] + day - 1
    return days
