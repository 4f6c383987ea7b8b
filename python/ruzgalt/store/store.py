"""A store: tables with a past, from frames and in frames.

A program holds the tables and does each change. The script is kept too: for files, and for another program if the first
one was killed, or did changes that must be undone.
"""
from __future__ import annotations

import copy
import os
import tempfile
from contextlib import contextmanager
from dataclasses import dataclass
from functools import partial
from pathlib import Path
from typing import Any, ContextManager, Dict, Iterable, Iterator, List, Mapping, Optional, Sequence, Union

import pandas as pd

from ruzgalt import files
from ruzgalt.cli import answers as answers_tool
from ruzgalt.cli import given as given_tool
from ruzgalt.convert import checks, instants
from ruzgalt.convert.errors import Refused, doubt
from ruzgalt.frames.options import (
    NO_DECIMALS, NO_STAND_INS, PERIOD, WORKERS, Names, PeriodNames, options_of, workers_of,
)
from ruzgalt.frames.progress import of_call
from ruzgalt.report import contents, document, figures, svg
from ruzgalt.script import changes as past, naming
from ruzgalt.script.run import Versions, versions_of
from ruzgalt.store import changes, opening, tables
from ruzgalt.store.changes import Change, Changed, Done, sums
from ruzgalt.store.labels import Note, note_of
from ruzgalt.store.opening import Given
from ruzgalt.store.parameters import described
from ruzgalt.store.queries import Queries
from ruzgalt.store.state import Batch, State, from_program
from ruzgalt.store.tables import Script, Table, refusing

AnyPath = Union[str, "os.PathLike[str]"]
Where = Optional[Mapping[str, Any]]
# A store of at most this number of commits counts each change at once. The answer to `log` lists all commits.
COUNTED = 1_000
# A raise by fewer per cent may be meant as a fraction.
LEAST_RAISE = 0.1


@dataclass(frozen=True, repr=False)
class Picture:
    """A picture of an answer of a store.

    Attributes
    ----------
    svg : str
        The picture, for a browser.

    Examples
    --------
    >>> day = pd.to_datetime
    >>> store = ruzgalt.Store()
    >>> store.table("stay", pd.DataFrame({"from": day(["2024-01-01"]), "to": day(["2024-01-05"]), "desk": [7]}))
    commit 2: 1 added, 0 closed
    >>> store.picture("rows,stay").svg.startswith("<svg")
    True
    """

    svg: str

    def __repr__(self) -> str:
        return f"<Picture of {len(self.svg):,} characters of SVG>"

    def _repr_svg_(self) -> str:
        return self.svg


@described
class Store(Queries):
    """Tables with a past, in memory: each change is a commit, and each question may be asked as of any of them.

    A point is a str, date, datetime, Timestamp or Period. A commit is given by its number, its label, or a day: the
    newest commit at its midnight. Threads may share a store. Copies, pickles and forks go on by themselves.

    Raises
    ------
    Refused
        If a table, column or commit doesn't exist, an argument is invalid, or rows of one key would overlap. Within a
        batch also by script, save, page, copies and pickle.
    Stopped
        If the program or the library is missing or ended.

    Warns
    -----
    Doubt
        Of possible mistakes, such as changes of no row, rows loaded twice or a missing `on`.

    Examples
    --------
    Each method's example begins with this store.

    >>> day = pd.to_datetime
    >>> pay = pd.DataFrame({"from": day(["2024-01-01", "2024-03-01"]), "to": day(["2025-01-01", "2024-10-01"]),
    ...                     "person": ["Ada", "Grace"], "cents": [5000, 4800]})
    >>> store = ruzgalt.Store()
    >>> store.table("pay", pay, key="person")
    commit 2: 2 added, 0 closed
    >>> store.update("pay", "2024-07-01", "2025-01-01", {"cents": 5400}, where={"person": "Ada"})
    commit 3: 2 added, 1 closed
    >>> store
    <Store of 3 commits, tables: pay>
    """

    def __init__(self, *script: Any, workers: int = WORKERS, progress: Optional[bool] = None) -> None:
        if script:
            raise checks.wrong("script", script[0], "a store begins empty; Store.from_script(..) opens a script")
        self.state = State(workers_of("workers", workers), options_of(progress=progress).progress)

    @classmethod
    def from_script(cls, script: Given, *, workers: int = WORKERS, progress: Optional[bool] = None,
                    options: Optional[Mapping[str, Mapping[str, Any]]] = None,
                    diary: Optional[str] = None) -> Store:
        """Opens a script, without its questions and refused changes.

        Returns Store: Its points are period[D], or period[S] in a table with times.

        Raises Refused: If the file or the diary doesn't exist, or the script isn't complete.

        >>> ruzgalt.Store.from_script(store.script(), options={"pay": {"open_end": True}})
        <Store of 3 commits, tables: pay>
        """
        store = cls(workers=workers, progress=progress)
        with of_call("Store", store.state.progress):
            opening.read(store.state, script, {} if options is None else options, diary)
        return store

    def __repr__(self) -> str:
        with self.state.lock:
            return f"<Store of {self.state.newest} commits, tables: {', '.join(self.state.tables) or 'none'}>"

    def __getstate__(self) -> Dict[str, Any]:
        with self.state.lock:
            return {"state": copy.copy(self._settled())}

    def __deepcopy__(self, _: Any) -> Store:
        """Does what copy.copy does: commands and tables are never changed, so both stores may share them."""
        return copy.copy(self)

    @property
    def tables(self) -> Dict[str, Table]:
        """The tables by their names.

        Returns dict: A table has columns, period and key.

        >>> {name: list(table.columns) for name, table in store.tables.items()}
        {'pay': ['person', 'cents']}
        """
        with self.state.lock:
            return dict(self.state.tables)

    def _settled(self) -> State:
        """Returns the state to copy or to write. Raises Refused in a batch, whose changes may still be undone."""
        if self.state.batch is not None:
            reason = "the batch hasn't ended, and its changes may still be undone"
            raise Refused("BadCommand", f"{reason}: copy, save and make pages after its end")
        return self.state

    def table(self, name: str, frame: pd.DataFrame, *, period: PeriodNames = PERIOD, key: Names = (),
              open_end: bool = False, last_day: bool = False, decimals: Mapping[Any, int] = NO_DECIMALS,
              missing: Mapping[Any, Any] = NO_STAND_INS, label: Optional[str] = None,
              day: Any = None) -> Optional[Changed]:
        """Makes a table of a frame's columns, and loads its rows.

        >>> store.table("centre", pay[["from", "to", "person"]].assign(centre="lab"), key=["person"])
        commit 5: 2 added, 0 closed
        """
        options = options_of(period=period, open_end=open_end, last_day=last_day, decimals=decimals, missing=missing)
        return self._change(changes.making(name, frame, key, options), note_of(label, day))

    def load(self, name: str, frame: pd.DataFrame, *, label: Optional[str] = None,
             day: Any = None) -> Optional[Changed]:
        """Adds the rows of a frame.

        >>> store.load("pay", pay.assign(person=["Mary", "Emmy"]))
        commit 4: 2 added, 0 closed
        """
        with self.state.lock:
            return self._change(changes.loading(self.state.known(name), frame), note_of(label, day))

    def update(self, name: str, start: Any, end: Any, set: Mapping[str, Any], where: Where = None, *,
               label: Optional[str] = None, day: Any = None) -> Optional[Changed]:
        """Sets values of rows, for a time.

        >>> store.update("pay", "2024-09-01", None, set={"cents": 4900}, where={"person": "Grace"})
        commit 4: 2 added, 1 closed
        """
        with self.state.lock:
            table = self.state.known(name)
            fields = ["set", *table.pairs("set", set), *table.condition(where)]
            return self._change(changes.changing("update", table, start, end, fields), note_of(label, day))

    def delete(self, name: str, start: Any, end: Any, where: Where = None, *, label: Optional[str] = None,
               day: Any = None) -> Optional[Changed]:
        """Removes a time from rows.

        >>> store.delete("pay", "2024-06-01", None, where={"person": "Grace"})
        commit 4: 1 added, 1 closed
        """
        with self.state.lock:
            table = self.state.known(name)
            made = changes.changing("delete", table, start, end, table.condition(where))
            return self._change(made, note_of(label, day))

    def update_rows(self, name: str, frame: pd.DataFrame, where: Names = None, *, label: Optional[str] = None,
                    day: Any = None) -> Optional[Changed]:
        """Does an update for each row of a frame, in their order. Each is a commit; all are done, or none.

        >>> store.update_rows("pay", pay.assign(cents=[5100, 4900]))
        commit 5: 3 added, 3 closed
        """
        with self.state.lock:
            return self._change(changes.updating(self.state.known(name), frame, where), note_of(label, day))

    def raise_by(self, name: str, column: Any, percent: Any, start: Any, end: Any = None, *, where: Where = None,
                 round: Optional[str] = None, dry_run: bool = False, again: bool = False,
                 label: Optional[str] = None, day: Any = None) -> Union[Changed, pd.DataFrame, None]:
        """Raises amounts by a percentage, exactly: an update for each amount that rows have.

        Returns Changed or DataFrame: With dry_run for each update its number of rows, the amount, and the exact and the
        rounded new amount, in the column's smallest units.

        >>> store.raise_by("pay", "cents", "2.5", "2024-09-01", dry_run=True)
           rows  cents exact  raised
        0     1   5400  5535    5535
        1     1   4800  4920    4920
        """
        is_dry, is_again = checks.flag("dry_run", dry_run), checks.flag("again", again)
        note = note_of(label, day)
        with self.state.lock:
            self.state.diary.refuse(note)
            table = self.state.known(name)
            made = changes.raise_of(self.state, table, column, (percent, start, end, where, round), is_again)
            if abs(float(percent)) < LEAST_RAISE:
                doubt(f"percent={percent!r} is less than a tenth of 1 per cent: 2.5 raises 1000 to 1025")
            if is_dry:
                names = naming.apart(["rows", "exact", "raised", column])
                return pd.DataFrame(list(made.table().values()), columns=[names[0], names[3], *names[1:3]])
            commands = [tables.command(*fields) for fields in made.updates()]
            if not commands:
                note.refuse_without_commit()
                doubt(f"raise of {name}: {'; '.join(made.notes())}")
                return None
            return self._change(Change(name, commands, portion=table.portion(start, end)), note)

    def batch(self, *, label: Optional[str] = None, day: Any = None) -> ContextManager[List[Changed]]:
        """Keeps all changes of a `with` block, or none if an exception ends it, such as a refusal.

        Each change is a commit, which questions within see. Other threads wait. To undo changes takes as long as to
        open the script.

        Returns context manager: A list, which at the end has a Changed for each change.

        >>> with store.batch() as changed:
        ...     store.update("pay", "2024-08-01", "2024-09-01", {"cents": 5500}, where={"person": "Ada"})
        ...     store.delete("pay", "2024-09-01", None, where={"person": "Ada"})
        >>> changed
        [commit 4: 3 added, 1 closed, commit 5: 0 added, 1 closed]
        """
        return self._held(note_of(label, day))

    @contextmanager
    def _held(self, note: Note) -> Iterator[List[Changed]]:
        """Holds the lock for a batch."""
        changed: List[Changed] = []
        state = self.state
        with state.lock:
            state.refuse_lost()
            if state.batch is not None:
                raise Refused("BadCommand", "a batch can't begin within a batch: end the outer one first")
            state.diary.refuse(note)
            try:
                with state.whole():
                    state.batch = batch = Batch(note, [])
                    yield changed
                    state.refuse_lost()
                    if any(one.change.commands for one in batch.done):
                        state.diary.add(state.newest, Note(note.label))
                    else:
                        note.refuse_without_commit()
                    changed += [self._reported(one, True) for one in batch.done]
            finally:
                state.batch, state.is_lost = None, False

    def _change(self, change: Change, note: Note) -> Optional[Changed]:
        """Does a change, with its label and day. If it is refused, nothing is changed."""
        with self.state.lock:
            state, batch = self.state, self.state.batch
            state.refuse_lost()
            if batch is not None and note.second is None:
                note = Note(note.label, batch.note.second)
            state.diary.refuse(note)
            if not change.commands:
                note.refuse_without_commit()
            is_repeated = bool(change.commands) and change.commands[-1].data in state.loads
            with state.whole():
                before = state.newest
                is_counted = batch is None and before < COUNTED
                state.do(change, is_counted)
                if change.commands:
                    state.diary.add(state.newest, note)
                done = Done(change, before, state.newest, is_repeated)
                if batch is None:
                    return self._reported(done, is_counted)
            batch.done.append(done)
            return None

    def _reported(self, done: Done, is_counted: bool) -> Changed:
        """Returns what a change did, and warns of possible mistakes in it."""
        counted = partial(self.state.counted, done.before, done.last)
        counts = counted() if is_counted else None
        for reason in changes.mistakes_in(done, self.state.tables[done.change.name], counts):
            doubt(reason)
        return Changed(done.last, later=counted) if counts is None else Changed(done.last, *sums(counts))

    # Files and pictures.

    def script(self) -> Script:
        """All changes that were accepted, as ./dipq and tools/answers read them.

        Returns Script: Bytes of CSV in UTF-8.

        >>> print(store.script().decode().strip())
        table,pay,person,text,cents,int,key,person
        load,pay
        row,2024-01-01,2025-01-01,Ada,5000
        row,2024-03-01,2024-10-01,Grace,4800
        end
        update,pay,2024-07-01,2025-01-01,set,cents,5400,where,person,Ada
        """
        with self.state.lock:
            return self._settled().script

    def save(self, path: AnyPath) -> None:
        """Writes the script to a file, which it replaces.

        Returns None: After an OSError the file is complete or as it was. It keeps its mode and its links.

        >>> store.save("pay.csv")
        >>> ruzgalt.Store.from_script("pay.csv")
        <Store of 3 commits, tables: pay>
        """
        write(path_of(path), [self.script()])

    def page(self, path: AnyPath, questions: Sequence[str] = (), *, title: str = "", note: str = "",
             diary: Optional[str] = None) -> None:
        """Writes a page for a browser: commits, tables, and answers to questions.

        Returns None: It writes the file as `save` does.

        >>> store.page("pay.html", ["agg,pay,sum,cents"])
        """
        asked, target = checks.texts("questions", questions), path_of(path)
        given = {"title": title, "note": note, **({} if diary is None else {"diary": diary})}
        words = [f"--{option}={checks.text(option, one)}" for option, one in given.items()]
        words += [f"--ask={question}" for question in asked]
        with self.state.lock:
            script = self._settled().script
            for question in asked:
                self.state.answer_to(question)
        if not script:
            raise Refused("NoTable", "the store is empty, so there is nothing to show")
        with tempfile.TemporaryDirectory() as folder, refusing():
            file = Path(folder, target.with_suffix(".csv").name)
            file.write_bytes(script)
            options = answers_tool.options_of("page", [str(file), *words])
            if diary is not None:
                past.refuse_no_commits(self.state.known(diary).schema)
            with from_program():
                found = given_tool.sources(options)
            write(target, document.pieces(contents.of(found, diary)))

    def picture(self, question: str, *, by: Optional[str] = None, label: Optional[str] = None, where: Where = None,
                start: Any = None, end: Any = None, width: Optional[int] = None) -> Picture:
        """Draws the answer to a question.

        Returns Picture: A notebook shows it.

        >>> store.picture("rows,pay", by="person").svg.count("<svg")
        1
        """
        if width is not None:
            width = checks.whole("width", width, 40, 100_000)
        limits = [None if point is None else instants.text_of(point) for point in (start, end)]
        wish = figures.Wish(by, label, [] if where is None else checks.records("where", where), limits[0], limits[1])
        with self.state.lock, refusing():
            return Picture(svg.draw(figures.of(self.state.answer_to(question), wish, self._versions), width, None))

    def _versions(self, name: str) -> Versions:
        return Versions(self.state.answer_to(versions_of(name)))


def path_of(given: Any) -> Path:
    """Returns the path of a file. Raises Refused."""
    if not isinstance(given, (str, os.PathLike)) or not Path(given).name:
        raise checks.wrong("path", given, "must be the path of a file, such as 'pay.csv'")
    return Path(given)


def write(path: Path, pieces: Iterable[bytes]) -> None:
    """Writes a file, which is complete or as it was. Raises Refused if standard output goes to it."""
    with refusing(), files.whole([path]) as [made], made.open("wb") as file:
        file.writelines(pieces)
