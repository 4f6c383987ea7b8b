"""Whether a program's costs grow only as promised."""
from dataclasses import dataclass
from pathlib import Path
from typing import Iterable, Iterator, List, Sequence

from growth.counting import Counting, Counts, NoCount, above
from growth.promises import Promise


def spaced(numbers: Iterable[int]) -> str:
    return " ".join(f"{it:,}" for it in numbers)


@dataclass(frozen=True)
class Verdict:
    """The counts for a promise, one for each of its numbers, or the fault that prevented them."""

    promise: Promise
    counts: Sequence[Counts]
    fault: str = ""

    def ratios(self, what: str) -> List[float]:
        """Returns the ratio of each count to the one before it. A count of 0 is taken as 1."""
        found = [max(it[what], 1) for it in self.counts]
        return [more / less for less, more in zip(found, found[1:])]

    def is_kept(self) -> bool:
        return not self.fault and all(max(self.ratios(what)) <= most for what, most in self.promise.limits.items())

    def line(self) -> str:
        """Returns the promise, its numbers, and for each kind of counts their ratios and the limit."""
        parts = [f"{self.promise.what}, {self.promise.unit} {spaced(self.promise.numbers)}"]
        for what, most in () if self.fault else self.promise.limits.items():
            ratios = " ".join(f"{it:.2f}" for it in self.ratios(what))
            parts.append(f"{what} {spaced(it[what] for it in self.counts)}: {ratios}, at most {most}")
        return ("" if self.is_kept() else "FAILED ") + "; ".join([*parts, *filter(None, [self.fault])])


def judged(counting: Counting, program: Path, promise: Promise) -> Verdict:
    """Returns the counts for a promise whose runs were begun."""
    try:
        each = [[counting.of(run) for run in promise.runs(program, number)] for number in promise.numbers]
    except NoCount as why:
        return Verdict(promise, [], str(why))
    return Verdict(promise, [above(whole, *base) for whole, *base in each])


def verdicts(counting: Counting, program: Path, wanted: Sequence[Promise]) -> Iterator[Verdict]:
    """Begins all runs; yields the counts for each promise, in order."""
    for promise in wanted:
        for number in promise.numbers:
            counting.begin(promise.runs(program, number))
    return (judged(counting, program, promise) for promise in wanted)
