"""A store of several tables, computed plainly: rows are dicts, and times are numbers.

Nothing here uses the package. A call answers a list of names and a list of rows, or REFUSED if it must be refused.
"""
import copy
from collections import Counter

import numpy as np

import plainly

REFUSED = "refused"


class PlainStore:
    def __init__(self):
        self.tables, self.log = {}, []

    @property
    def newest(self):
        return len(self.log)

    def commit(self, kind, name, added=0, closed=0):
        self.log.append((len(self.log) + 1, 1, kind, name, added, closed))

    # Changes. Each answers commit, added and closed, or REFUSED, and then nothing is changed.

    def tried(self, change):
        """Makes a change in a copy; the copy replaces the store if no key is broken."""
        other = copy.deepcopy(self)
        before = other.newest
        change(other)
        if any(table.breaks_key() for table in other.tables.values()):
            return REFUSED
        self.__dict__ = other.__dict__
        return self.newest, *(sum(one[place] for one in self.log[before:]) for place in (4, 5))

    def make(self, name, table, rows):
        if name in self.tables:
            return REFUSED
        return self.tried(lambda other: other.do_make(name, table, rows))

    def do_make(self, name, table, rows):
        self.tables[name] = table
        self.commit("table", name)
        if rows:
            self.do_load(name, rows)

    def load(self, name, rows):
        return self.tried(lambda other: other.do_load(name, rows))

    def do_load(self, name, rows):
        self.commit("load", name, len(rows))
        for start, end, values in rows:
            self.tables[name].add(start, end, values, self.newest)

    def change(self, word, name, changes):
        """changes: tuples of start, end, where and to; each change makes a commit."""
        def done(other):
            for one in changes:
                other.do_change(word, name, *one)
                if other.tables[name].breaks_key():
                    return
        return self.tried(done)

    def do_change(self, word, name, start, end, where, to):
        table = self.tables[name]
        hit = [row for row in table.shown(self.newest) if row["start"] < end and start < row["end"]
               and all(row["values"][column] == value for column, value in where.items())]
        self.commit(word, name)
        before = len(table.rows)
        for row in hit:
            row["closed"] = self.newest
            if row["start"] < start:
                table.add(row["start"], start, row["values"], self.newest)
            if to is not None:
                table.add(max(row["start"], start), min(row["end"], end), {**row["values"], **to}, self.newest)
            if end < row["end"]:
                table.add(end, row["end"], row["values"], self.newest)
        self.log[-1] = (*self.log[-1][:4], len(table.rows) - before, len(hit))


class PlainTable:
    def __init__(self, names, period, key):
        self.names, self.period, self.key, self.rows = names, period, key, []

    def add(self, start, end, values, commit):
        row_id = len(self.rows) + 1
        self.rows.append(dict(id=row_id, start=start, end=end, values=dict(values), made=commit, closed=None))

    def shown(self, commit):
        return [row for row in self.rows if row["made"] <= commit and (row["closed"] is None or commit < row["closed"])]

    def open(self):
        return [row for row in self.rows if row["closed"] is None]

    def breaks_key(self):
        rows = self.open()
        return bool(self.key) and any(
            one["id"] < other["id"] and meet(one, other)
            and all(one["values"][name] == other["values"][name] for name in self.key) for one in rows for other in rows
        )

    def cells(self, row):
        return [row["values"][name] for name in self.names]


def meet(one, other):
    return one["start"] < other["end"] and other["start"] < one["end"]


# Questions.

def rows(table, shown):
    cells = [[row["id"], row["start"], row["end"], *table.cells(row)] for row in shown]
    return apart(["row_id", *table.period, *table.names]), cells


def versions(table, first, last):
    seen = [row for row in table.rows if row["made"] <= last and (row["closed"] is None or row["closed"] > first)]
    cells = [[row["id"], row["start"], row["end"], row["made"], row["closed"], *table.cells(row)] for row in seen]
    return apart(["row_id", *table.period, "sys_from", "sys_to", *table.names]), cells


def changed(table, before, after):
    """How often a row of these values holds on a day more ("+") or less ("-") than before."""
    more = Counter()
    for sign, commit in ((-1, before), (1, after)):
        for row in table.shown(commit):
            for day in range(row["start"], row["end"]):
                more[(day, *table.cells(row))] += sign
    return Counter({("+" if count > 0 else "-", *key): abs(count) for key, count in more.items() if count})


def join(sides, pairs, shared, suffixes, how="inner"):
    (left, lefts), (right, rights) = sides
    found = []
    for one in lefts:
        for other in rights:
            if meet(one, other) and all(one["values"][a] == other["values"][b] for a, b in pairs):
                start, end = max(one["start"], other["start"]), min(one["end"], other["end"])
                found.append((start, end, one, other))
    if how in ("left", "outer"):
        found += [(*part, None) for part in free_parts(lefts, rights, pairs)]
    if how in ("right", "outer"):
        found += [(*part, None, other) for *part, other in free_parts(rights, lefts, [(b, a) for a, b in pairs])]
    found.sort(key=lambda pair: (*pair[:2], *(10**9 if row is None else row["id"] for row in pair[2:])))
    rest = [name for name in right.names if name not in shared]
    given = [*((name, None) for name in (*left.period, "left_id", "right_id")),
             *((name, suffixes[0]) for name in left.names), *((name, suffixes[1]) for name in rest)]
    listed = [name for name, _ in given]
    names = [f"{name}{suffix}" if suffix and listed.count(name) > 1 else name for name, suffix in given]
    if len(set(names)) < len(names):
        return REFUSED
    return names, [[*pair[:2], *(row and row["id"] for row in pair[2:]), *cells_of_pair(left, rest, shared, *pair[2:])]
                   for pair in found]


def cells_of_pair(left, rest, shared, one, other):
    """The left row's cells, then the right row's. If the left row is missing, shared cells are the right row's."""
    mine = [one["values"][name] if one else other["values"][name] if name in shared else None for name in left.names]
    return [*mine, *(other and other["values"][name] for name in rest)]


def times(rows):
    return tuple(np.array([row[side] for row in rows], np.int64) for side in ("start", "end"))


def keys(rows, names):
    array = np.empty(len(rows), object)
    array[:] = [tuple(row["values"][name] for name in names) for row in rows]
    return array


def free_parts(rows, others, pairs):
    """Start, end and row for the times of rows when no other row with equal values in the pairs of columns holds."""
    own = keys(rows, [a for a, _ in pairs]), keys(others, [b for _, b in pairs])
    return [(start, end, rows[place]) for place, start, end in plainly.anti(times(rows), times(others), *own)]


def anti(sides, pairs):
    (left, lefts), (_, rights) = sides
    found = [[one["id"], *part, *left.cells(one)] for *part, one in free_parts(lefts, rights, pairs)]
    return apart(["row_id", *left.period, *left.names]), found


def agg(table, shown, function, column, by):
    names = [*by, *table.period, function if column is None else f"{function}_{column}"]
    if len(set(names)) < len(names):
        return REFUSED
    amounts = [row["values"].get(column) for row in shown]
    return names, list(map(list, plainly.agg(times(shown), keys(shown, by).tolist(), function, amounts)))


def dip(shown):
    """part and id, by part and start, and how many parts there are."""
    parts, count, _ = plainly.dip(times(shown))
    found = sorted((part, row["start"], row["id"]) for part, row in zip(parts, shown))
    return [[part, row_id] for part, _, row_id in found], count


def apart(names):
    """Makes names unique: a repeated name gets `_` until it differs from all others."""
    found = []
    for name in names:
        if name in found:
            name = f"{name}_"
            while name in found or name in names:
                name += "_"
        found.append(name)
    return found
