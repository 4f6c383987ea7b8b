"""The state of a store: its tables, the commands that made them, and the program that has done these commands."""
from __future__ import annotations

import os
import weakref
from contextlib import contextmanager
from dataclasses import replace
from threading import RLock
from typing import Any, Callable, Dict, Iterator, List, NamedTuple, Optional, Sequence, Set, Tuple

import numpy as np
import pandas as pd

from ruzgalt.convert import checks, points
from ruzgalt.convert.arrays import Cells, of_objects
from ruzgalt.convert.errors import REMEDIES, Refused, doubt
from ruzgalt.convert.kinds import DAY
from ruzgalt.convert.values import Values
from ruzgalt.errors import Misfit
from ruzgalt.frames import worker
from ruzgalt.frames.options import AsOf
from ruzgalt.frames.progress import of_call
from ruzgalt.kernel.live import Ended, Live, unreadable
from ruzgalt.script import commands, records, refusals, run
from ruzgalt.script.answers import Answer, Reading
from ruzgalt.script.records import Source
from ruzgalt.store import tables
from ruzgalt.store.changes import Change, Counts, Done
from ruzgalt.store.labels import DAYS, Diary, Note
from ruzgalt.store.lists import columns_of, reading
from ruzgalt.store.tables import Command, Script, Table, refusing

LOG = tables.command("log")
# The most bytes of a command with its block.
LIMIT = 67_108_864
# All states, for forks.
STATES: "weakref.WeakSet[State]" = weakref.WeakSet()
# Tables, the size of the diary, and the number of commits, to which changes can be undone.
Saved = Tuple[Dict[str, Table], Tuple[int, int], int]


class Batch(NamedTuple):
    """The label and the day of an open batch, and its changes."""

    note: Note
    done: List[Done]


class State:
    """Tables, and the commands that made them. Each command is a commit. The lock is held while the state is used.

    counts   for the first commits how many versions each added, and how many it closed
    loads    the bytes of all loads
    diary    the labels and days of the commits
    live     a program that has done all commands, from the first question on
    batch    the batch that is open
    is_lost  whether the process was forked within a batch, which is undone here and hasn't ended
    saved    what the end of the outermost `whole` may have to restore
    """

    def __init__(self, workers: int, progress: Optional[bool]) -> None:
        self.lock, self.live, self.progress = RLock(), Live(workers, worker.place, worker.memory), progress
        self.tables: Dict[str, Table] = {}
        self.commands: List[Command] = []
        self.counts: Counts = []
        self.loads: Set[bytes] = set()
        self.diary = Diary()
        self.batch: Optional[Batch] = None
        self.is_lost = False
        self.saved: Optional[Saved] = None
        STATES.add(self)

    def __reduce__(self) -> Tuple[Any, ...]:
        """Returns what makes a copy, which has a program of its own."""
        own = dict(self.tables), list(self.commands), list(self.counts), set(self.loads), self.diary.copied()
        return copied, (self.live.workers, self.progress, *own)

    @property
    def newest(self) -> int:
        """The number of the newest commit."""
        return len(self.commands)

    @property
    def script(self) -> Script:
        names = {one.name: {word: name for name, word in one.words.items()} for one in self.tables.values()}
        return Script(b"".join(command.data for command in self.commands), names)

    def known(self, name: Any) -> Table:
        """Returns the table of this name. Raises Refused (NoTable)."""
        if not isinstance(name, str) or name not in self.tables:
            there = f"the tables are {', '.join(self.tables)}" if self.tables else "the store has none"
            raise Refused("NoTable", f"{checks.shown(name)} isn't a table; {there}")
        return self.tables[name]

    def commit(self, option: str, given: Any, may_be_later: bool = False) -> int:
        """Returns a commit's number, given its number, label or day. Raises Refused."""
        if isinstance(given, (str, *DAYS)) and not pd.isna(given):
            return self.diary.commit_of(option, given)
        if not checks.is_whole(given) or given < 0:
            wanted = f"must be a commit's number, here 0 to {self.newest}, or its label, or a day"
            raise Refused("BadNumber", f"{option}={checks.shown(given)}: {wanted}; log() and diary() list the commits")
        if given > self.newest and not may_be_later:
            raise Refused("Future", f"{option}={given}: the commits are 0 to {self.newest}; log() lists them")
        return int(given)

    # Questions.

    def ask(self, *asked: Command) -> List[bytes]:
        """Returns the answers to commands. Raises Stopped."""
        with of_call("Store", self.progress):
            return self.answers(b"".join(one.data for one in asked), lambda: len(asked))

    def answers(self, data: bytes, count: Callable[[], int]) -> List[bytes]:
        """Returns what Live.answers does. A program that is killed or runs out of memory is replaced once."""
        try:
            return self.live.answers((one.data for one in self.commands), data, count)
        except Ended as ended:
            doubt(f"{ended}: it was started again with all changes, and is asked once more")
        return self.live.answers((one.data for one in self.commands), data, count)

    def block(self, fields: Sequence[str], kinds: str, as_of: AsOf = None) -> Iterator[Cells]:
        """Yields the columns of the answer to a question as of a commit. Raises Refused, Stopped."""
        suffix = [] if as_of is None else ["asof", str(self.commit("as_of", as_of))]
        question = tables.command(*fields, *suffix)
        [found] = self.ask(question)
        if found.startswith(b"error,"):
            raise refusal(question, found)
        return iter(columns_of(found, kinds))

    def answer_to(self, question: Any) -> Answer:
        """Returns the answer to a question in the words of the language. Raises Refused, Stopped."""
        checks.text("question", question)
        with refusing():
            begun = list(commands.commands(Source(run.line_of(run.named(question)[1]))))
        if len(begun) != 1 or not begun[0].form.is_query or not begun[0].is_ended:
            raise checks.wrong("question", question, "must be one question of the language, such as 'rows,pay'")
        fields = [one.fields for one in (begun[0].record, *begun[0].block)]
        [output] = self.ask(Command(fields[0], records.encode(records.to_text(fields))))
        if output.startswith(b"error,"):
            # The program counts records from its start on.
            output = b"error,1," + output.split(b",", 2)[2]
        found = Reading(Source(output))
        found.tables, found.commits = {name: table.schema for name, table in self.tables.items()}, self.newest
        with from_program():
            answer = next(found.answers(begun))
        if answer.refusal is not None:
            raise Refused(answer.refusal.name, f"question={checks.shown(question)}: {refusals.reason(answer)}")
        return answer

    def counted(self, first: int, last: int) -> Counts:
        """Returns how many versions each commit after `first` up to `last` added, and how many it closed."""
        with self.lock:
            if len(self.counts) < last:
                self.count(self.ask(LOG)[0])
            return self.counts[first:last]

    def count(self, log: bytes) -> None:
        """Reads the counts that are missing from the answer to `log`."""
        missing = self.newest - len(self.counts)
        lines = log.rsplit(b"\n", missing + 2)[-missing - 2:-2]
        with reading():
            self.counts += [(int(added), int(closed)) for *_, added, closed in (one.split(b",") for one in lines)]

    # Changes.

    @contextmanager
    def whole(self) -> Iterator[None]:
        """Within, all changes are kept, or none if an exception is raised."""
        outer, own = self.saved, (dict(self.tables), self.diary.size, self.newest)
        self.saved = outer or own
        try:
            yield
        except BaseException as error:
            # The program may have done a change that an interrupt kept from being recorded here.
            self.undo(own, not isinstance(error, Exception))
            raise
        finally:
            self.saved = outer

    def undo(self, saved: Saved, has_others: bool = False) -> None:
        """Undoes later changes. has_others: the program may have changes that aren't recorded."""
        self.tables, size, count = saved
        self.diary.cut(size)
        if self.newest > count or has_others:
            del self.commands[count:], self.counts[count:]
            self.loads = {one.data for one in self.commands if one.word == "load"}
            self.live.end()

    def begun_in_child(self) -> None:
        """Undoes unfinished changes in a forked process, which has a program of its own, and only one thread."""
        self.live.end()
        if self.saved is not None:
            self.undo(self.saved)
        if self.lock.acquire(blocking=False):
            self.is_lost = self.is_lost or self.batch is not None
            self.lock.release()
        else:
            self.lock, self.saved = RLock(), None
        self.batch = None

    def refuse_lost(self) -> None:
        """Raises Refused in a process that was forked within a batch, until the batch ends."""
        if self.is_lost:
            reason = "this process was forked within a batch, so its store has no change of the batch"
            raise Refused("BadCommand", f"{reason}: begin a batch after a fork, or fork after its end")

    def do(self, change: Change, is_counted: bool) -> None:
        """Does a change, and asks for its counts too. Raises Refused for its first command that is refused, Stopped."""
        first, table, asked = self.newest, change.made or self.known(change.name), change.commands
        for one in asked:
            if len(one.data) > LIMIT:
                raise Refused("Full", f"{one.word} has more than {LIMIT:,} bytes: give fewer rows or shorter texts")
        # The first one by itself: if it is refused, no other one is done.
        for some in filter(None, (asked[:1], asked[1:])):
            self.send(some, table, change, is_counted and some[-1] is asked[-1])
        if change.side is not None and len(change.side):
            table = table.with_rows(change.side)
            self.loads.add(asked[-1].data)
        wider = table.widened(change.portion)
        if wider is not table and any(closed for _, closed in self.counted(first, self.newest)):
            table = wider
        self.tables[change.name] = table

    def send(self, some: Sequence[Command], table: Table, change: Change, is_counted: bool) -> None:
        found = self.ask(*some, *[LOG] * is_counted)
        for number, (one, answer) in enumerate(zip(some, found), 1):
            if not answer.startswith(b"ok,"):
                if number < len(some):
                    # The program has done later ones.
                    self.live.end()
                row_labels = None if change.side is None else change.side.labels
                raise overlap(self, table, one, row_labels) if b"KeyOverlap" in answer else refusal(one, answer)
            self.commands.append(one)
        if is_counted:
            self.count(found[-1])


def copied(workers: int, progress: Optional[bool], *own: Any) -> State:
    """Returns a state of these tables, commands, counts, loads and diary."""
    made = State(workers, progress)
    made.tables, made.commands, made.counts, made.loads, made.diary = own
    return made


def begin_in_child() -> None:
    for one in list(STATES):
        one.begun_in_child()


os.register_at_fork(after_in_child=begin_in_child)


# Refusals.

def refusal(command: Command, answer: bytes) -> Exception:
    """Returns the exception for an answer that is an error, or that the command can't have."""
    record = answer.decode(errors="replace").rstrip("\n").split(",")
    if record[0] != "error" or len(record) < 3:
        return unreadable(f"the program answered {records.visible(records.to_record(record))} to {command.word}")
    reason = REMEDIES.get(record[2], f"see {command.word} in docs/LANGUAGE.md")
    return Refused(record[2], f"{' '.join(command.fields[:2])}: {reason}", label=command.label)


@contextmanager
def from_program() -> Iterator[None]:
    """Within, a Misfit becomes Stopped: answers of the program can't be read."""
    try:
        yield
    except Misfit as misfit:
        raise unreadable(misfit) from None


def overlap(state: State, table: Table, command: Command, row_labels: Any) -> Exception:
    """Returns why a key refused a command, naming two rows. The program names none.

    So another program does the table's changes and this one without the key, and joins the table with itself on it.
    row_labels: the labels of the rows that the command loads, or None for an update.
    """
    trial = State(state.live.workers, None)
    own = [one for one in state.commands if one.fields[1] == table.name][1:]
    trial.commands = [tables.command(*replace(table.schema, key=()).fields), *own]
    on = [word for name in table.key for word in [table.word(name)] * 2]
    rows = tables.command("rows", table.name)
    before, _, found, after = trial.ask(rows, command, tables.command("join", *[table.name] * 2, "on", *on), rows)
    begins, _, left, right = columns_of(found, "ppii")
    pairs = np.flatnonzero(left < right)
    if not len(pairs):
        return refusal(command, b"error,,KeyOverlap")
    there, cells = set(columns_of(before, "i")[0].tolist()), columns_of(after, "ipp" + table.readers)
    # A row with a greater id than all rows before was loaded, or updated.
    other, at_fault = ([column[cells[0] == one[pairs[0]]][0] for column in cells] for one in (left, right))
    begin_of_load = int(cells[0].max()) - (0 if row_labels is None else len(row_labels))

    def named(row: Sequence[Any]) -> str:
        number, start, end = (int(one) for one in row[:3])
        last = end - DAY if table.form.has_last_days and end != points.NO_END else end
        name = f"the store's row of id {number}" if number in there else "the updated row"
        if number not in there and row_labels is not None:
            name = f"row {row_labels[number - begin_of_load - 1]!r}"
        return f"{name} from {points.text_of(start)} to {points.text_of(last)}"

    values = zip(table.columns.items(), at_fault[3:])
    shown = ", ".join(f"{name} {cell_shown(column, value)}" for (name, column), value in values if name in table.key)
    reason = f"{shown}: {named(at_fault)} and {named(other)} both hold at {points.text_of(int(begins[pairs[0]]))}"
    label = command.label if row_labels is None else row_labels[int(at_fault[0]) - begin_of_load - 1]
    return Refused("KeyOverlap", f"{reason}: end one before the other starts, or update() it", label=label)


def cell_shown(column: Values, value: Any) -> str:
    """Returns a value of the key as its frame has it, the beginning of a long one."""
    cells = np.array([value], np.int64) if column.kind == "int" else of_objects([value])
    cell = column.restored(cells)[0]
    text = repr(cell) if isinstance(cell, str) else str(cell)
    return text if len(text) < 100 else text[:98] + ".."
