"""How many crates are proved, shown on standard error while a build goes on."""
import sys
import time
from typing import Set

from building.crates import Crates

# Seconds between two lines on a terminal, so that one sees the minutes go on.
PAUSE = 5


class Progress:
    """Shows one line on a terminal; otherwise a line when the proof of a crate begins."""

    def __init__(self, program: str, crates: Crates) -> None:
        self.program, self.crates = program, crates
        self.proved: Set[str] = set()
        self.begun = self.shown = time.monotonic()
        self.on_terminal = sys.stderr.isatty()

    def tick(self) -> None:
        """Shows the minutes, if that is due."""
        if self.on_terminal and time.monotonic() - self.shown > PAUSE:
            self.show()

    def show(self) -> None:
        """The first crate that isn't proved, and whose libraries are, is the one that is named."""
        self.shown = time.monotonic()
        waiting = (
            crate.name for crate in self.crates if crate.name not in self.proved
            and self.proved.issuperset(it.name for it in self.crates.own(crate))
        )
        number = min(len(self.proved) + 1, len(self.crates))
        name = next(waiting, self.program)
        line = f"{self.program}: proving {number} of {len(self.crates)} crates, {name}; {self.minutes()} min"
        start, end = ("\r", "\x1b[K") if self.on_terminal else ("", "\n")
        print(start + line, end=end, file=sys.stderr, flush=True)

    def minutes(self) -> int:
        return int(time.monotonic() - self.begun) // 60

    def clear(self) -> None:
        """Leaves an empty line on a terminal."""
        if self.on_terminal:
            print("\r\x1b[K", end="", file=sys.stderr, flush=True)
