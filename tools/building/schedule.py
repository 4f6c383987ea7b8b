"""Which crate is proved next, and by how many jobs.

Several crates are proved at once. The first ones are at the head of the longest chains of work, which decide the end.
A job is a process of the compiler. The crate that heads the longest chain has two of them; processors that no
other crate waits for are shared out, up to four a crate: each job more takes more of processors for the same proof.
"""
import os
from typing import Dict, List, Mapping, NamedTuple, Set

from building.crates import Crate, Crates

# Lines of code whose proof takes as long as a crate takes that has none.
LINES_OF_EMPTY = 300
# What a check takes at most, in bytes: for a crate without lines, for each line, and for each further job a part of it.
BYTES_OF_EMPTY, BYTES_OF_LINE, PART_OF_JOB = 1.2e9, 8e5, 0.6
# The part of the free memory that checks may take together.
PART_OF_MEMORY = 0.85
MOST_JOBS = 4


class Turn(NamedTuple):
    """A crate, and the jobs that prove it."""

    crate: Crate
    jobs: int


def free_memory() -> int:
    """Returns bytes, which the system reports."""
    with open("/proc/meminfo", encoding="ascii") as lines:
        return next(1024 * int(line.split()[1]) for line in lines if line.startswith("MemAvailable"))


class Schedule:
    """The crates that are left, and the crates that are being proved."""

    def __init__(self, crates: Crates, processors: int = 0, memory: float = 0) -> None:
        self.crates = crates
        self.processors = processors or len(os.sched_getaffinity(0))
        self.memory = memory or PART_OF_MEMORY * free_memory()
        self.work = {crate.name: LINES_OF_EMPTY + crate.lines() for crate in crates}
        self.chain = self.chains()
        self.left: Set[str] = set(self.work)
        self.jobs: Dict[str, int] = {}

    def chains(self) -> Mapping[str, int]:
        """Returns for each crate the work of its longest chain: crates that each use the one before."""
        chain: Dict[str, int] = {}
        for crate in reversed(list(self.crates)):
            above = (it.name for it in self.crates if crate.name in it.libraries)
            chain[crate.name] = self.work[crate.name] + max((chain[name] for name in above), default=0)
        return chain

    def bytes_of(self, name: str, jobs: int) -> float:
        """The memory that a check may take."""
        return (BYTES_OF_EMPTY + BYTES_OF_LINE * self.work[name]) * (1 + PART_OF_JOB * (jobs - 1))

    def ready(self, done: Set[str]) -> List[str]:
        """Returns the crates whose libraries are all there, with the longest chain of work first."""
        found = (name for name in self.left if done.issuperset(it.name for it in self.crates.own(self.crates[name])))
        return sorted(found, key=lambda name: -self.chain[name])

    def jobs_for(self, name: str, others: int) -> int:
        """Returns the number of jobs for a crate if others are ready too, or 0 if it has to wait."""
        idle = self.processors - sum(self.jobs.values())
        room = self.memory - sum(self.bytes_of(it, jobs) for it, jobs in self.jobs.items())
        if idle <= 0 or self.jobs and self.bytes_of(name, 1) > room:
            return 0
        heads = self.chain[name] == max(self.chain[it] for it in self.left.union(self.jobs))
        wanted = max(2 if heads and self.processors > 2 else 1, idle // (others + 1))
        fitting = (jobs for jobs in range(min(MOST_JOBS, idle, wanted), 1, -1) if self.bytes_of(name, jobs) <= room)
        return next(fitting, 1)

    def next_turns(self, done: Set[str]) -> List[Turn]:
        """Returns the crates that should begin now, with their jobs."""
        turns, ready = [], self.ready(done)
        for at, name in enumerate(ready):
            jobs = self.jobs_for(name, len(ready) - at - 1)
            if jobs:
                self.left.remove(name)
                self.jobs[name] = jobs
                turns.append(Turn(self.crates[name], jobs))
        return turns

    def end(self, name: str) -> None:
        """Notes that the crate's check has ended."""
        del self.jobs[name]

    def is_over(self) -> bool:
        return not self.left and not self.jobs
