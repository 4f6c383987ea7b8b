"""The promises of costs: scripts for rising numbers, and the greatest ratio of each cost to the one before it."""
from dataclasses import dataclass
from pathlib import Path
from typing import Callable, List, Mapping, Sequence, Tuple

from growth.counting import BUSIEST, BYTES, CALLGRIND, DHAT, INSTRUCTIONS, Run
from growth.scripts import (
    CHANGES, MANY, add, add_with_key, again, at_half, block, filled, load, long_texts, of_few_rows, rename,
    spread, to_be_asked, to_be_changed, to_be_loaded_in_blocks, to_be_shared, update,
)

# The greatest ratios when rows double: for costs that are linear, perhaps with a logarithm, and for constant costs. A
# full list allocates twice its bytes, so bytes grow by steps. A quadratic cost would have the ratio 4.
LINEAR = {INSTRUCTIONS: 2.3, BYTES: 3.0}
CONSTANT = {INSTRUCTIONS: 1.3, BYTES: 1.3}
# The greatest ratios of four workers' cost to one worker's: in all, and the busiest thread's.
SHARED = {INSTRUCTIONS: 1.3, BUSIEST: 0.75}

# The units of the numbers.
ROWS, TIMES, WORKERS = "rows", "changes", "workers"
# A script for a number.
Maker = Callable[[int], str]


@dataclass(frozen=True)
class Promise:
    """Scripts for some numbers, whose costs are counted, and the greatest ratios of each cost to the one before it."""

    what: str
    limits: Mapping[str, float]
    # The script `more` is counted. It runs after `base`, which may be empty.
    base: Maker
    more: Maker
    unit: str
    numbers: Sequence[int]

    def runs(self, program: Path, number: int) -> List[Run]:
        """Returns the run of both scripts and, if it isn't empty, the run of the first one, which isn't counted."""
        base = self.base(number)
        scripts = [base + self.more(number), *filter(None, [base])]
        if self.unit == WORKERS:
            return [Run(CALLGRIND, program, number, script) for script in scripts]
        return [Run(DHAT, program, 1, script) for script in scripts]


def asked(question: str) -> Maker:
    return lambda _: f"{question}\n"


def others(change: Maker) -> Maker:
    """Changes of a kind, with other numbers than in to_be_changed."""
    return lambda _: "".join(map(change, range(CHANGES, 2 * CHANGES)))


def repeated(change: Maker) -> Maker:
    """A number of changes of a kind."""
    return lambda count: "".join(map(change, range(count)))


def of_no_table(_: int) -> str:
    return ""


# The name of a promise, its limits, and the script that is counted.
Line = Tuple[str, Mapping[str, float], Maker]
CHANGED: List[Line] = [
    ("one-row updates by a condition", CONSTANT, others(update)),
    ("one-row updates of a key", CONSTANT, others(rename)),
    # A block of commands precedes these; its snapshot has been dropped.
    ("one-row loads", CONSTANT, others(add)),
    ("one-row loads, table with a key", CONSTANT, others(add_with_key)),
]
IN_BLOCKS: List[Line] = [
    ("one-row loads in blocks of commands", CONSTANT, others(block)),
]
ASKED: List[Line] = [
    ("a load", LINEAR, lambda count: load("empty", spread(count))),
    ("rows as of an old commit", LINEAR, asked("rows,past,asof,2")),
    ("between", LINEAR, asked("between,past,1,9")),
    ("at, half of the rows at once", LINEAR, at_half),
    ("dip, ten rows a day", LINEAR, asked("dip,a")),
    ("dip, half of the rows at once", LINEAR, asked("dip,crowded")),
    ("join by a column", LINEAR, asked("join,a,b,on,who,who")),
    ("join without columns", LINEAR, asked("join,a,b")),
    ("join of a payroll", LINEAR, asked("join,pay,job,on,who,who")),
    ("anti-join without columns", LINEAR, asked("anti,a,b")),
    ("anti-join of a payroll", LINEAR, asked("anti,job,pay,on,who,who")),
    ("aggregate by group", LINEAR, asked("agg,a,sum,amount,by,who")),
    ("aggregate, ten rows a day", LINEAR, asked("agg,a,sum,amount")),
    ("aggregate, half of the rows at once", LINEAR, asked("agg,crowded,max,amount")),
]
REPEATED: List[Line] = [
    ("one-row loads, one after another", LINEAR, repeated(add)),
    ("updates of one row, one after another", LINEAR, repeated(again)),
]
READ_BY_ALL: List[Line] = [
    ("a script's pieces", SHARED, lambda _: long_texts(1_100)),
    ("a load's records", SHARED, lambda _: filled("t", spread(MANY))),
]
SHARED_OUT: List[Line] = [
    ("a list's records", SHARED, asked("rows,a")),
    ("a join's classes", SHARED, asked("join,a,b,on,who,who")),
    ("an anti-join's classes", SHARED, asked("anti,a,b,on,who,who")),
    ("an aggregate's groups", SHARED, asked("agg,a,sum,amount,by,who")),
]


def promises(rows: Sequence[int], times: Sequence[int]) -> List[Promise]:
    """Returns all promises, for these numbers of rows and of changes."""
    kinds: List[Tuple[List[Line], Maker, str, Sequence[int]]] = [
        (CHANGED, to_be_changed, ROWS, rows),
        (IN_BLOCKS, to_be_loaded_in_blocks, ROWS, rows),
        (ASKED, to_be_asked, ROWS, rows),
        (REPEATED, of_few_rows, TIMES, times),
        (READ_BY_ALL, of_no_table, WORKERS, (1, 4)),
        (SHARED_OUT, to_be_shared, WORKERS, (1, 4)),
    ]
    return [
        Promise(what, limits, base, more, unit, numbers)
        for lines, base, unit, numbers in kinds for what, limits, more in lines
    ]
