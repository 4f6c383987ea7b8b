"""The questions of a store. If an answer has a column of the same name, a table's column gets `_` after its name.

The program lists rows, versions and commits. The library joins, aggregates and divides rows.
"""
from __future__ import annotations

from dataclasses import replace
from typing import Any, Collection, Iterable, List, Mapping, NamedTuple, Optional, Sequence, Tuple

import numpy as np
import pandas as pd

from ruzgalt.convert import checks, instants, points
from ruzgalt.convert.arrays import Cells, Ints, of_objects
from ruzgalt.convert.errors import Refused, doubt
from ruzgalt.convert.kinds import Kind
from ruzgalt.convert.values import Values
from ruzgalt.frames import answer, division, doubts, groups, measures, pairs, split
from ruzgalt.frames.answer import Column, Columns
from ruzgalt.frames.division import Division
from ruzgalt.frames.measures import Measures
from ruzgalt.frames.options import (
    INNER, SUFFIXES, AsOf, Commit, Functions, Names, Options, PairOfSuffixes, compared, options_of, shared_in,
)
from ruzgalt.frames.pairs import Taken
from ruzgalt.frames.sides import Side, with_codes
from ruzgalt.kernel import library
from ruzgalt.script import changes as past
from ruzgalt.script import forms
from ruzgalt.script.run import Versions, versions_of
from ruzgalt.store.parameters import described
from ruzgalt.store.state import State
from ruzgalt.store.tables import Table, coded, in_python

LOG = ("commit", "caller", "kind", "table", "added", "closed")
IDS = ("left_id", "right_id")


@described
class Queries:
    """The questions of a store. Changes and questions of other threads wait for a question."""

    state: State

    def rows(self, name: str, as_of: AsOf = None) -> pd.DataFrame:
        """All rows of a table as of a commit.

        Returns DataFrame: row_id, the period and the table's columns, in the dtypes of the loaded frames.

        >>> store.rows("pay", as_of=2)
           row_id       from         to person  cents
        0       1 2024-01-01 2025-01-01    Ada   5000
        1       2 2024-03-01 2024-10-01  Grace   4800
        """
        with self.state.lock:
            return listed(self.state, as_of, ["rows", name])

    def at(self, name: str, point: Any, as_of: AsOf = None) -> pd.DataFrame:
        """The rows of a table that hold at a point, as of a commit.

        Returns DataFrame: The columns of rows().

        >>> [store.at("pay", "2024-12-01", as_of=commit)["cents"].tolist() for commit in (2, 3)]
        [[5000], [5400]]
        """
        with self.state.lock:
            return listed(self.state, as_of, ["at", name, instants.text_of(point)])

    def between(self, name: str, first: Commit, last: Commit) -> pd.DataFrame:
        """The versions of rows that the commits from `first` to `last` show.

        Returns DataFrame: The columns of rows(). After the period, sys_from is the commit that made the version, and
        sys_to the one that closed it, or NA.

        >>> store.between("pay", 1, 3)[["row_id", "sys_from", "sys_to", "cents"]]
           row_id  sys_from  sys_to  cents
        0       1         2       3   5000
        1       2         2    <NA>   4800
        2       3         3    <NA>   5000
        3       4         3    <NA>   5400
        """
        with self.state.lock:
            table = self.state.known(name)
            numbers = self._numbers(first, last, may_be_later=True)
            cells = self.state.block(["between", name, *map(str, numbers)], "ippii" + table.readers)
            columns = Columns([("row_id", next(cells)), *table.period_cells(next(cells), next(cells))])
            made, closed = next(cells), next(cells)
            # An open version has a dash, which is read as 0.
            columns.add([("sys_from", made), ("sys_to", pd.arrays.IntegerArray(closed, closed == 0))])
            columns.add(table.cells(cells))
            return columns.of_table()

    def join(self, left: str, right: str, on: Names = None, *, left_on: Names = None, right_on: Names = None,
             how: str = INNER, suffixes: PairOfSuffixes = SUFFIXES, as_of: AsOf = None) -> pd.DataFrame:
        """Joins rows of two tables with equal values in `on`, for the time when both hold.

        Returns DataFrame: As ruzgalt.join, with left_id and right_id after the period, in Int64 with unmatched rows.
        Rows are by start, end and ids.

        >>> lab = pd.DataFrame({"from": day(["2024-02-01"]), "to": day(["2024-06-01"]), "person": ["Grace"]})
        >>> store.table("lab", lab)
        commit 5: 1 added, 0 closed
        >>> store.join("lab", "pay", on="person", how="left")
                from         to  left_id  right_id person   cents
        0 2024-02-01 2024-03-01        1      <NA>  Grace     NaN
        1 2024-03-01 2024-06-01        1         2  Grace  4800.0
        """
        workers = self.state.live.workers
        options = options_of(left_on=left_on, right_on=right_on, how=how, suffixes=suffixes, workers=workers)
        with self.state.lock:
            return joined(both_of(self.state, as_of, (left, right), on, options), options)

    def anti(self, left: str, right: str, on: Names = None, *, left_on: Names = None, right_on: Names = None,
             as_of: AsOf = None) -> pd.DataFrame:
        """The left table's rows, each for the time when no right row with equal values in `on` holds.

        Returns DataFrame: The columns of rows(), by row_id and start.

        >>> lab = pd.DataFrame({"from": day(["2024-02-01"]), "to": day(["2024-06-01"]), "person": ["Grace"]})
        >>> store.table("lab", lab)
        commit 5: 1 added, 0 closed
        >>> store.anti("lab", "pay", on="person")
           row_id       from         to person
        0       1 2024-02-01 2024-03-01  Grace
        """
        options = options_of(left_on=left_on, right_on=right_on)
        with self.state.lock:
            one, other = both_of(self.state, as_of, (left, right), on, options)
            start, end, places = split.anti(with_codes([one.side, other.side]), self.state.live.workers)
            taken = Taken(one.frame, places, False)
            columns = Columns([("row_id", one.ids[places]), *one.table.period_cells(start, end, other.table.kind)])
            columns.add(taken.others(()))
            return columns.of_table()

    def agg(self, name: str, function: Functions, column: Optional[str] = None, by: Names = None,
            as_of: AsOf = None) -> pd.DataFrame:
        """Aggregates the rows that hold, by groups, for each period while the value stays the same.

        Returns DataFrame: As ruzgalt.agg.

        >>> store.agg("pay", "max", "cents", by="person")
          person       from         to  max_cents
        0    Ada 2024-01-01 2024-07-01       5000
        1    Ada 2024-07-01 2025-01-01       5400
        2  Grace 2024-03-01 2024-10-01       4800
        """
        asked, options = measures.of_call(function, column), options_of(by=by)
        with self.state.lock:
            return agg(self.state, as_of, self.state.known(name), asked, options)

    def dip(self, name: str, as_of: AsOf = None) -> Division[pd.DataFrame]:
        """Divides the rows into the fewest parts so that no two rows of a part hold at one time.

        Returns Division: Its parts are a frame of part and row_id, by part and start.

        >>> division = store.dip("pay")
        >>> division
        2 parts of 3 rows, as many as hold at 2024-03-01 00:00:00
        >>> division.parts.to_dict("list")
        {'part': [0, 0, 1], 'row_id': [3, 4, 2]}
        """
        with self.state.lock:
            table = self.state.known(name)
            side, frame = rows_with(self.state, as_of, table, [])
        part, count, second = split.answer(library.dip, side.start, side.end)
        order = np.lexsort((side.start, part))
        parts = pd.DataFrame({"part": part[order].astype(np.int64), "row_id": ids_of(frame)[order]})
        return Division(parts, count, None if second is None else division.point_of(second, table.kind))

    def log(self) -> pd.DataFrame:
        """The commits, with what each did.

        Returns DataFrame: commit, caller, kind (table, load, update or delete), table, and how many versions it added
        and closed.

        >>> store.log()
           commit  caller    kind table  added  closed
        0       1       1   table   pay      0       0
        1       2       1    load   pay      2       0
        2       3       1  update   pay      2       1
        """
        with self.state.lock:
            return pd.DataFrame(dict(zip(LOG, self.state.block(["log"], "iittii"))))

    def diary(self, *, after: AsOf = None) -> pd.DataFrame:
        """The labels and days of the commits, which a script doesn't have, for a table that keeps them.

        `store.load("diary", store.diary(after=..))` adds later ones to it. `--diary` of tools/answers reads it too.

        Returns DataFrame: from and to, the time when the commit was the newest, in period[D] or period[S]; newest and
        commit, its number; label, which may be empty. A label without a day has newest 0 and all time. If several
        commits of a day have no label, only the last is listed.

        >>> store.update("pay", "2024-07-01", None, {"cents": 5600}, {"person": "Ada"}, label="July", day="2024-07-25")
        commit 4: 1 added, 1 closed
        >>> store.diary()
                 from          to  newest  commit label
        0  2024-07-25  9999-12-31       4       4  July
        >>> store.table("diary", store.diary())
        commit 6: 1 added, 0 closed
        >>> again = ruzgalt.Store.from_script(store.script(), diary="diary")
        >>> again.at("pay", "2024-09-01", as_of="July")["cents"].tolist()
        [4800, 5600]
        """
        with self.state.lock:
            return self.state.diary.frame(0 if after is None else self.state.commit("after", after))

    def history(self, name: str, where: Optional[Mapping[str, Any]] = None, *, first: AsOf = None, last: AsOf = None,
                retroactive: bool = False) -> pd.DataFrame:
        """Lists what each commit changed: the times for which values hold since, or no longer.

        Returns DataFrame: commit; entered, its day, if commits have days; change: "-" for values that no longer hold,
        "+" for values that hold since; the period and the table's columns. Rows are by commit, values and start.

        >>> store.history("pay", where={"person": "Ada"})
           commit change       from         to person  cents
        0       2      + 2024-01-01 2025-01-01    Ada   5000
        1       3      - 2024-07-01 2025-01-01    Ada   5000
        2       3      + 2024-07-01 2025-01-01    Ada   5400
        """
        with self.state.lock:
            numbers = self._numbers(0 if first is None else first, self.state.newest if last is None else last)
            flag = checks.flag("retroactive", retroactive)
            return history(self.state, name, where, range(numbers[0], numbers[1] + 1), flag)

    def changed(self, name: str, before: Commit, after: AsOf = None) -> pd.DataFrame:
        """Lists the times for which values hold at only one of two commits.

        Returns DataFrame: change: "-" for values only at `before`, "+" only at `after`; the period and the table's
        columns. Rows are by values and start.

        >>> store.changed("pay", 2)
          change       from         to person  cents
        0      - 2024-07-01 2025-01-01    Ada   5000
        1      + 2024-07-01 2025-01-01    Ada   5400
        """
        with self.state.lock:
            state, table = self.state, self.state.known(name)
            numbers = state.commit("before", before), state.newest if after is None else state.commit("after", after)
            if numbers[0] > numbers[1]:
                what = f"commit {numbers[0]} is later than {numbers[1]}: `-` is what only the later one has"
                doubt(f"changed of {name}: {what}")
            answers = [state.answer_to(f"rows,{name},asof,{commit}") for commit in numbers]
            return frame_of(table, [], past.between(*answers).records)

    def _numbers(self, first: Commit, last: Commit, may_be_later: bool = False) -> Tuple[int, int]:
        """Returns the numbers of a first and a last commit. Raises Refused."""
        numbers = self.state.commit("first", first, may_be_later), self.state.commit("last", last, may_be_later)
        if numbers[0] > numbers[1]:
            raise Refused("BadPeriod", f"{numbers[0]} to {numbers[1]}: the first commit is after the last")
        return numbers


def listed(state: State, as_of: AsOf, fields: Sequence[str]) -> Any:
    """Returns rows of a table."""
    table = state.known(fields[1])
    cells = state.block(fields, "ipp" + table.readers, as_of)
    columns = Columns([("row_id", next(cells)), *table.period_cells(next(cells), next(cells))])
    columns.add(table.cells(cells))
    return columns.of_table()


def rows_with(state: State, as_of: AsOf, table: Table, names: Sequence[Any],
              kept: Collection[Any] = ()) -> Tuple[Side, Any]:
    """Returns a table's rows with some columns, and a frame of the columns `kept`, whose index is the rows' ids.

    Other columns aren't read.
    """
    wanted = [table.column(name).name for name in names]
    there = [name for name in table.columns if name in wanted or name in kept]
    readers = "".join(reader if name in there else "-" for name, reader in zip(table.columns, table.readers))
    ids, start, end, *cells = state.block(["rows", table.name], "ipp" + readers, as_of)
    found = dict(zip(there, cells))
    columns = [coded(table.columns[name], found[name]) for name in wanted]
    restored = [table.restored(table.columns[name], found[name]) for name in kept]
    frame = answer.frame_of(list(kept), restored) if restored else pd.DataFrame(index=range(len(ids)))
    return Side(start, end, columns, table.kind, places=np.arange(len(ids))), frame.set_axis(ids)


def ids_of(frame: Any) -> Ints:
    ids: Ints = frame.index.to_numpy(np.int64)
    return ids


# Joins.

class Read(NamedTuple):
    """A table's rows: their periods and compared columns, and a frame of all columns, whose index is the ids."""

    table: Table
    side: Side
    frame: Any

    @property
    def ids(self) -> Ints:
        return ids_of(self.frame)


def both_of(state: State, as_of: AsOf, names: Sequence[str], on: Any, options: Options) -> List[Read]:
    """Returns the rows of two tables. Raises Refused if columns can't be compared; warns of possible mistakes."""
    tables, keys = [state.known(name) for name in names], compared(on, options)
    for name in keys[0]:
        if isinstance(name, tuple) and name not in tables[0].columns:
            wanted = "must be names of columns that both tables have; give others by left_on= and right_on="
            raise checks.wrong("on", on, wanted)
    for pair in zip(*([table.column(name) for name in own] for table, own in zip(tables, keys))):
        pairs.refuse_two_kinds(*pair)
    for table, own in zip(tables, keys):
        for name in own:
            table.refuse_missing(name, "would match another row's")
    both = [Read(one, *rows_with(state, as_of, one, own, one.columns)) for one, own in zip(tables, keys)]
    if on is None and options.left_on is None:
        doubts.of_no_columns(*(table.columns for table in tables))
    columns = [one.side.columns for one in both]
    for left, right in zip(*columns):
        doubts.of_no_value(left.name, left.texts.cells, right.texts.cells)
    doubts.of_keys(*columns)
    return both


def joined(both: Sequence[Read], options: Options) -> Any:
    """Returns the columns of a join."""
    left, right = both
    start, end, *rows = pairs.matched(with_codes([one.side for one in both]), options)
    taken = [Taken(one.frame, own, False) for one, own in zip(both, rows)]
    period = left.table.period_cells(start, end, right.table.kind, is_open=right.table.form.is_open)
    ids = [(name, ids_at(one.ids, own, options.how)) for name, one, own in zip(IDS, both, rows)]
    shared = shared_in(*([column.name for column in one.side.columns] for one in both))
    digits = {column.name: column.digits for column in right.side.columns}
    return answer.of_two([*period, *ids], pairs.columns_of_both(taken, shared, digits), options.suffixes)


def ids_at(ids: Ints, rows: Ints, how: str) -> Any:
    """Returns the ids of rows, NA for no row."""
    return ids[rows] if how == INNER else pd.arrays.IntegerArray(np.append(ids, 0)[rows], rows < 0)


# Aggregates.

def agg(state: State, as_of: AsOf, table: Table, asked: Measures, options: Options) -> Any:
    """Returns an aggregate. Raises Refused."""
    for one in asked:
        if one.is_of_column:
            table.refuse_missing(one.column, "would be counted as a value")
    by = [table.column(name).name for name in options.by or ()]
    amounts = {name: table.column(name) for name in measures.amounts_of(asked)}
    measures.refuse_texts(asked, amounts)
    side, _ = rows_with(state, as_of, table, [*by, *amounts])
    counted, side = dict(zip(amounts, side.columns[len(by):])), replace(side, columns=side.columns[:len(by)])
    doubts.of_groups(one for one in side.columns if table.stand_in(one.name) is None)
    codes, firsts = groups.group_codes(side, len(by))
    start, end, group, *found = measures.measured(
        replace(side, columns=[codes]), counted, asked, state.live.workers
    )
    made = Columns([(one.name, restored_at(table, one, firsts[group])) for one in side.columns])
    made.add(table.period_cells(start, end))
    made.add(measures.columns_of(found, asked, amounts))
    return made.frame()


def restored_at(table: Table, column: Values, rows: Ints) -> Any:
    """Returns the cells of these rows as the column's frames have them."""
    codes = column.codes[rows]
    cells: Cells = codes if column.kind == "int" else of_objects(column.texts.cells)[codes]
    return table.restored(column, cells)


# Changes of a table, which the tools' functions compute.

def history(state: State, name: str, where: Any, numbers: range, is_retroactive: bool) -> Any:
    """Returns the changes by each of these commits in rows that have the values of where=. Raises Refused."""
    table, days = state.known(name), state.diary.days()
    pairs_given = table.condition(where)[1:]
    if is_retroactive and not days:
        raise Refused("NoDay", "retroactive=True needs days of commits: give them by day= of changes")
    wanted = [(table.schema.index_of(word), value) for word, value in zip(pairs_given[::2], pairs_given[1::2])]
    found = past.history(Versions(state.answer_to(versions_of(name))), wanted, numbers, days, is_retroactive)
    if found.is_of_none:
        doubt(f"history of {name}: no row ever had the values of where=")
    for reason in found.doubts if is_retroactive else ():
        doubt(f"history of {name}: {in_python(reason)}")
    own: Sequence[Column] = [("commit", np.array([one.commit for one in found.entries], np.int64))]
    if days:
        kind = table.options.kind_of(table.period, table.kind)
        own = [*own, ("entered", days_of([one.day for one in found.entries], kind))]
    return frame_of(table, own, [one.change for one in found.entries])


def frame_of(table: Table, own: Iterable[Column], found: Sequence[Sequence[Optional[str]]]) -> Any:
    """Returns the frame of changes, after columns of its own."""
    signs, start, end, *texts = list(zip(*found)) or [()] * (len(past.CHANGE) + len(table.columns))
    columns = Columns([*own, ("change", of_objects(signs)), *table.period_cells(seconds_of(start), seconds_of(end))])
    kinds = [one.kind for one in table.columns.values()]
    cells = (np.array(one, np.int64) if kind == "int" else of_objects(one) for one, kind in zip(texts, kinds))
    columns.add(table.cells(cells))
    return columns.of_table()


def days_of(days: Sequence[Optional[str]], kind: Kind) -> Any:
    """Returns the days of commits as points of this kind, or period[S] if that can't hold all. Some may be missing."""
    known = seconds_of([day for day in days if day is not None])
    seconds = np.full(len(days), points.NO_END)
    seconds[[day is not None for day in days]] = known
    return points.series_of(seconds, kind if points.has_all(kind, known) else Kind("S"), is_open=True)


def seconds_of(texts: Sequence[Any]) -> Ints:
    return points.FIRST + np.fromiter(map(forms.seconds, texts), np.int64, len(texts))
