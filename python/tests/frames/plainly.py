"""Answers of stores computed plainly, with numpy and Python's datetimes; nothing here is of the package.

A frame's periods are counted in seconds from year 1 on, by Python's own calendar.
"""
import datetime

import numpy as np
import pandas as pd

OPEN = datetime.datetime(9999, 12, 31)
BEGIN = datetime.datetime(1, 1, 1)


def moment(point):
    """A point of any kind as a datetime; a missing point as 9999-12-31."""
    if point is None or point is pd.NaT:
        return OPEN
    if isinstance(point, pd.Period):
        return datetime.datetime(point.year, point.month, point.day, point.hour, point.minute, point.second)
    if isinstance(point, pd.Timestamp):
        return point.to_pydatetime()
    if isinstance(point, datetime.datetime):
        return point
    return datetime.datetime(point.year, point.month, point.day)


def number(point, days=0):
    found = moment(point)
    return round((found - BEGIN).total_seconds()) + (86_400 * days if found != OPEN else 0)


def numbers(column, days=0):
    return np.array([number(point, days) for point in column], np.int64)


def periods(frame, names, is_last_day=False):
    return numbers(frame[names[0]]), numbers(frame[names[1]], int(is_last_day))


def equal(left, right):
    """Which left row is equal to which right one, by Python's own comparison."""
    found = {key: place for place, key in enumerate(dict.fromkeys([*left, *right]))}
    codes = [np.array([found[key] for key in side], np.int64) for side in (left, right)]
    return codes[0][:, None] == codes[1][None, :]


def anti(left, right, left_keys, right_keys):
    """Index of the left row, start and end, sorted by these."""
    matched, found = equal(left_keys, right_keys), []
    for place, (start, end) in enumerate(zip(*left)):
        begins, ends = right[0][matched[place]], right[1][matched[place]]
        cuts = np.unique(np.clip(np.concatenate([[start, end], begins, ends]), start, end))
        is_free = ~((begins[:, None] <= cuts[:-1]) & (cuts[:-1] < ends[:, None])).any(axis=0)
        found += [(place, *one[:2]) for one in steps(cuts, is_free, [True] * len(is_free))]
    return found


def steps(cuts, is_there, values):
    """Start, end and value of each longest stretch of cuts that is there and has one value."""
    found = []
    for start, end, there, value in zip(cuts[:-1].tolist(), cuts[1:].tolist(), is_there, values):
        if there and found and found[-1][1] == start and found[-1][2] == value:
            found[-1] = (found[-1][0], end, value)
        elif there:
            found.append((start, end, value))
    return found


def agg(times, groups, function, amounts):
    """(*group, start, end, value), by group and start; texts by their bytes."""
    found = []
    for group in sorted(set(groups), key=order):
        mine = np.array([one == group for one in groups], bool)
        start, end = times[0][mine], times[1][mine]
        cuts = np.unique(np.concatenate([start, end]))
        holds = (start[:, None] <= cuts[:-1]) & (cuts[:-1] < end[:, None])
        listed = [amount for amount, own in zip(amounts, mine) if own]
        values = [value_of([one for one, held in zip(listed, column) if held], function) for column in holds.T]
        found += [(*group, *one) for one in steps(cuts, holds.any(axis=0), values)]
    return found


def value_of(given, function):
    return {"count": len, "sum": sum, "min": min, "max": max}[function](given) if given else None


def order(group):
    return tuple(one.encode() if isinstance(one, str) else one for one in group)


def dip(times):
    """The part of each row, the number of parts, and the first second when that number of rows hold."""
    ends, parts = [], {}
    for place in np.lexsort((np.arange(len(times[0])), times[1], times[0])):
        free = [(end, part) for part, end in enumerate(ends) if end <= times[0][place]]
        part = min(free)[1] if free else len(ends)
        ends[part:part + 1] = [times[1][place]]
        parts[place] = part
    counts = ((times[0][:, None] <= times[0]) & (times[0] < times[1][:, None])).sum(axis=0)
    most = [second for second, count in zip(times[0].tolist(), counts) if count == len(ends)]
    return [parts[place] for place in range(len(times[0]))], len(ends), min(most, default=None)
