"""The cost of a program's run, in counts that hardly change from run to run and from machine to machine."""
import json
import os
import re
import shutil
import tempfile
from concurrent.futures import Future, ThreadPoolExecutor
from dataclasses import dataclass
from itertools import zip_longest
from pathlib import Path
from typing import Callable, Dict, Iterable, List, Mapping, Sequence

from growth.children import Children, NotOver

# The counts. Copying a table allocates its bytes, and reading all of its rows takes instructions.
INSTRUCTIONS, BYTES, BUSIEST = "instructions", "bytes asked for", "instructions of the busiest thread"
Counts = Mapping[str, int]
# The counts of each thread; the main thread is first.
PerThread = List[Counts]
TOTAL = re.compile(r"^totals: (\d+)$", re.M)
# A run that takes longer has failed: most take a second.
SECONDS = 300


class NoCount(Exception):
    """A run took too long, had a command refused, or left no counts."""


@dataclass(frozen=True)
class Tool:
    """A tool of valgrind: its options, with `{}` for the path of its counts, and the function that reads these."""

    words: str
    read: Callable[[Path], PerThread]


def of_dhat(path: Path) -> PerThread:
    found = json.loads(path.read_text())
    if found["tu"] != "instrs":
        raise ValueError(f"time is counted in {found['tu']}")
    return [{INSTRUCTIONS: found["te"], BYTES: sum(point["tb"] for point in found["pps"])}]


def of_callgrind(path: Path) -> PerThread:
    """Returns the counts of each thread. Its file has the thread's number after the path."""
    texts = [file.read_text() for file in sorted(path.parent.glob(f"{path.name}-*"))]
    return [{INSTRUCTIONS: int(total[1])} for total in map(TOTAL.search, texts) if total]


# Instructions and allocated bytes. If a block grows, all bytes of the longer block count. Dhat replaces the C library's
# functions for memory and copies by its own, so these count alike on all machines.
DHAT = Tool("--tool=dhat --num-callers=1 --dhat-out-file={}", of_dhat)
# The instructions of each thread. Valgrind runs one thread at a time: in turns if its scheduler is fair, and else often
# one thread until its end, which then draws what all should share.
CALLGRIND = Tool("--tool=callgrind --fair-sched=yes --separate-threads=yes --callgrind-out-file={}", of_callgrind)


@dataclass(frozen=True)
class Run:
    """A run of a program on a script, with its number of workers, and the tool that counts."""

    tool: Tool
    program: Path
    workers: int
    script: str

    def words(self, folder: Path) -> List[str]:
        """The command line that runs it and leaves counts in a folder."""
        words = f"valgrind -q --command-line-only=yes --vgdb=no {self.tool.words}".split()
        return [*(word.format(folder / "counts") for word in words), str(self.program), "--workers", str(self.workers)]


def counted(children: Children, run: Run) -> PerThread:
    """Returns the cost of a run, which must refuse no command. Raises NoCount."""
    with tempfile.TemporaryDirectory(prefix="check-growth-") as name:
        folder = Path(name)
        # A file is read alike in each run, and a pipe isn't.
        (folder / "script").write_text(run.script)
        try:
            ended = children.run(run.words(folder), folder / "script", SECONDS)
            found = run.tool.read(folder / "counts") if ended.status == 0 else []
        except (NotOver, OSError, ValueError, LookupError, TypeError) as why:
            raise NoCount(f"no counts by valgrind: {why!r}") from why
    if not found:
        raise NoCount(f"no counts by valgrind, status {ended.status}: {ended.said[-300:]}")
    return found


class Counting:
    """Counts runs side by side, one for each thread of the pool. Each run is counted only once."""

    def __init__(self, children: Children, pool: ThreadPoolExecutor) -> None:
        self.children, self.pool = children, pool
        self.begun: Dict[Run, "Future[PerThread]"] = {}

    def begin(self, runs: Iterable[Run]) -> None:
        """Begins runs, in this order, after all earlier ones."""
        for run in runs:
            if run not in self.begun:
                self.begun[run] = self.pool.submit(counted, self.children, run)

    def of(self, run: Run) -> PerThread:
        """Returns the cost of a run that was begun. Raises NoCount."""
        return self.begun[run].result()


def above(whole: Sequence[Counts], base: Sequence[Counts] = ()) -> Counts:
    """Returns a run's cost without its first part, which another run counts: in all, and the busiest thread's."""
    none: Counts = {}
    pairs = zip_longest(whole, base[:len(whole)], fillvalue=none)
    threads = [{what: count - less.get(what, 0) for what, count in more.items()} for more, less in pairs]
    in_all = {what: sum(thread[what] for thread in threads) for what in threads[0]}
    return {**in_all, BUSIEST: max(thread[INSTRUCTIONS] for thread in threads)}


def is_there() -> bool:
    """Whether valgrind is installed."""
    return shutil.which("valgrind") is not None


def processors() -> int:
    """Returns the number of processors that this program may use."""
    return len(os.sched_getaffinity(0))
