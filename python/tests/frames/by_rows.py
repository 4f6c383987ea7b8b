"""Answers of small frames by rows and days, in plain Python; nothing here is of the package, nor of numpy or pandas.

A frame is a list of columns, each a name and its cells. Points are numbers of days, OPEN for no end. An answer is a
list of names and a list of rows, or None where some column has no name of its own.
"""
from fractions import Fraction
from typing import NamedTuple

OPEN = 60
FUNCTIONS = {
    "count": len, "sum": sum, "min": min, "max": max, "mean": lambda one: Fraction(sum(one)) / len(one),
}


def is_same(one, other):
    return one is other or one == other


def named(columns):
    """The names of an answer's columns (name, suffix, cells): what several have gets its suffix."""
    names = [name for name, _, _ in columns]
    found = [f"{name}{suffix}" if suffix and times(names, name) > 1 else name for name, suffix, _ in columns]
    return found if all(times(found, name) == 1 for name in found) else None


def times(names, name):
    return sum(is_same(one, name) for one in names)


def place(frame, name):
    return next(place for place, (one, _) in enumerate(frame) if is_same(one, name))


def cells(frame, name):
    return frame[place(frame, name)][1]


def periods(frame, period):
    return list(zip(*(cells(frame, name) for name in period)))


def keys(frame, names):
    return list(zip(*(cells(frame, name) for name in names))) if names else [()] * len(frame[0][1])


def answer(columns):
    names = named(columns)
    return None if names is None else (names, [list(row) for row in zip(*(answered for _, _, answered in columns))])


NONE = -1
# An index after the index of each row.
LAST = 1000


class Kept(NamedTuple):
    """A cell of a frame's own period."""

    side: int
    is_end: bool
    day: int


def join(frames, given):
    """given has periods and on, of each frame; how, suffixes, and whether the rows' own periods are kept."""
    left, right = keyed(frames, given)
    found = pairs(left, right)
    if given.how in ("left", "outer"):
        found += [(start, end, row, NONE) for row, start, end in unmet(left, right)]
    if given.how in ("right", "outer"):
        found += [(start, end, NONE, row) for row, start, end in unmet(right, left)]
    found.sort(key=lambda row: [LAST if one == NONE else one for one in row])
    return side_by_side(frames, found, given)


def keyed(frames, given):
    """The rows of each frame as pairs of a period and a key."""
    columns = zip(frames, given.periods, given.on)
    return [list(zip(periods(frame, period), keys(frame, on))) for frame, period, on in columns]


def pairs(left, right):
    """Start, end, and the indices of each pair of rows with one key that share days."""
    return [
        (max(one[0], two[0]), min(one[1], two[1]), row, other)
        for row, (one, key) in enumerate(left) for other, (two, other_key) in enumerate(right)
        if key == other_key and max(one[0], two[0]) < min(one[1], two[1])
    ]


def joined(left, right):
    """The sorted pairs of rows that are each a start, an end and a key."""
    return sorted(pairs(*([(row[:2], row[2]) for row in rows] for rows in (left, right))))


def side_by_side(frames, found, given):
    """The answer's columns; each item of found has a start, an end, and the indices of its rows."""
    places = [[row[2 + side] for row in found] for side in (0, 1)]
    columns = [(name, None, [row[side] for row in found]) for side, name in enumerate(given.periods[0])]
    for side, frame in enumerate(frames if given.keeps_periods else ()):
        for is_end, name in enumerate(given.periods[side]):
            own = [Kept(side, bool(is_end), day) for day in cells(frame, name)]
            columns.append((name, given.suffixes[side], taken(own, places[side])))
    shared = [one for one, other in zip(*given.on) if is_same(one, other)]
    for side, frame in enumerate(frames):
        away = [*given.periods[side], *(shared if side else [])]
        for name, values in frame:
            if not times(away, name):
                own = taken(values, places[side])
                if side == 0 and times(shared, name):
                    own = either(values, cells(frames[1], name), places)
                columns.append((name, given.suffixes[side], own))
    return answer(columns)


def unmet(left, right):
    """Index of a left row, start and end of each time without a right row; rows are pairs of a period and a key."""
    for row, ((start, end), key) in enumerate(left):
        met = [period for period, other in right if other == key]
        held = [start <= day < end and not any(one <= day < two for one, two in met) for day in range(OPEN)]
        yield from ((row, one, two) for one, two, _ in runs([value or None for value in held]))


def taken(values, places):
    """The cells at these indices. NONE means a missing cell; then whole numbers are floats."""
    is_whole = NONE in places and all(type(value) is int for value in values)
    found = [None if place == NONE else values[place] for place in places]
    return [float(value) if is_whole and value is not None else value for value in found]


def either(values, others, places):
    return [others[two] if one == NONE else values[one] for one, two in zip(*places)]


def runs(days):
    """Start, end and value of each longest run of days with one value; None isn't a value."""
    found = []
    for day, value in enumerate(days):
        if value is not None and found and found[-1][1:] == (day, value):
            found[-1] = (found[-1][0], day + 1, value)
        elif value is not None:
            found.append((day, day + 1, value))
    return found


def anti(frames, given):
    left, right = keyed(frames, given)
    ends = [place(frames[0], name) for name in given.periods[0]]
    rows = []
    for row, one, two in unmet(left, right):
        made = [values[row] for _, values in frames[0]]
        made[ends[0]], made[ends[1]] = one, two
        rows.append(made)
    return [name for name, _ in frames[0]], rows


def order(group):
    return [cell.encode() if isinstance(cell, str) else cell for cell in group]


def agg(frame, measures, given):
    """measures: pairs of a function and its columns; if rows are counted, the columns are None."""
    amounts = [frame[0][1] if column is None else cells(frame, column[0]) for _, column in measures]
    held = list(zip(periods(frame, given.periods[0]), keys(frame, given.on[0]), zip(*amounts)))
    values = lambda day: tuple(FUNCTIONS[one](column) for (one, _), column in zip(measures, zip(*day)))  # noqa: E731
    rows = [[*found, *value] for *found, value in by_group(held, values)]
    names = [function if column is None else f"{function}_{column[0]}" for function, column in measures]
    names = [*given.on[0], *given.periods[0], *names]
    return (names, rows) if all(times(names, name) == 1 for name in names) else None


def by_group(held, value_of):
    """Group, start, end and value of each longest run of days with one value of a group's rows.

    held: the period, the group and the amount of each row.
    """
    for group in sorted({group for _, group, _ in held}, key=order):
        days = [[own for (start, end), other, own in held if other == group and start <= day < end]
                for day in range(OPEN)]
        for found in runs([value_of(day) if day else None for day in days]):
            yield (*group, *found)


def by_groups(frame, given, days_of):
    """Runs of days of each group, of what days_of makes of its periods."""
    groups, rows = keys(frame, given.on[0]), []
    for group in sorted(set(groups), key=order):
        held = [period for period, own in zip(periods(frame, given.periods[0]), groups) if own == group]
        rows += [[*group, start, end] for start, end, _ in runs([is_held or None for is_held in days_of(held)])]
    names = [*given.on[0], *given.periods[0]]
    return (names, rows) if all(times(names, name) == 1 for name in names) else None


def is_held(periods, day):
    return any(start <= day < end for start, end in periods)


def coalesce(frame, given):
    return by_groups(frame, given, lambda held: [is_held(held, day) for day in range(OPEN)])


def gaps(frame, given, within):
    def free(held):
        first, behind = within or (min(start for start, _ in held), max(end for _, end in held))
        return [first <= day < behind and not is_held(held, day) for day in range(OPEN)]
    return by_groups(frame, given, free)


def spread(frame, amounts, given, piece_of, within):
    """piece_of: the first day of a day's piece, and the day after it, by a word. Amounts are whole numbers."""
    groups, rows = keys(frame, given.on[0]), []
    whole = periods(frame, given.periods[0])
    held = [(max(start, within[0]), min(end, within[1])) if within else (start, end) for start, end in whole]
    is_total, each = given.options["amount"] == "in total", given.options["each"]
    if any(start < end and OPEN in (end, own[1] if is_total else end) for (start, end), own in zip(held, whole)):
        return None
    for group in sorted(set(groups), key=order):
        exact, rounded = {}, {}
        for (start, end), (first, last), own, amount in zip(held, whole, groups, amounts):
            for day in range(start, end) if own == group else ():
                piece = piece_of(day, each)
                if is_total:
                    until = [half_up(Fraction(amount * (one - first), last - first)) for one in (day, day + 1)]
                    rounded[piece] = rounded.get(piece, 0) + until[1] - until[0]
                per = (first, last) if is_total else piece_of(day, given.options["amount"][4].upper())
                exact[piece] = exact.get(piece, 0) + Fraction(amount, per[1] - per[0])
        found = sorted(exact)
        made = [rounded[piece] for piece in found] if is_total else wholes(exact, found)
        rows += [[*group, *piece, given.sum_of(exact[piece], one)] for piece, one in zip(found, made)]
    return [*given.on[0], *given.periods[0], given.asked[0]], rows


def half_up(fraction):
    """The nearest whole number, a half away from zero."""
    return int(abs(fraction) + Fraction(1, 2)) * (-1 if fraction < 0 else 1)


def wholes(sums, found):
    """Whole numbers that add up to the rounded sum: numbers with the largest remainders are raised by one."""
    listed = [sums[piece] // 1 for piece in found]
    total = sum(sums.values())
    for _ in range(half_up(total) - sum(listed)):
        place = max(range(len(found)), key=lambda one: (sums[found[one]] - listed[one], -one))
        listed[place] += 1
    return listed


def overlaps(frame, given):
    rows, _ = keyed([frame, frame], given)
    found = sorted(row for row in pairs(rows, rows) if row[2] < row[3])
    return side_by_side([frame, frame], found, given)


def most(frame, period):
    """As many rows as hold on some day, at most."""
    return max((sum(start <= day < end for start, end in periods(frame, period)) for day in range(OPEN)), default=0)
