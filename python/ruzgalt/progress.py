"""A line on a terminal that shows how far a tool is after two seconds; a pipe has no such line."""
import sys
from threading import Event, RLock, Thread
from time import monotonic
from typing import Callable, ClassVar, List, Optional


class Line:
    """A plain line, which is written anew."""

    def show(self, progress: "Progress") -> None:
        self.write(f"\r{progress.what}: {progress.done}\033[K")

    def take_away(self) -> None:
        self.write("\r\033[K")

    def write(self, text: str) -> None:
        """Writes it, if somebody still reads it."""
        try:
            sys.stderr.write(text)
            sys.stderr.flush()
        except (OSError, ValueError):
            pass


class Progress:
    """For a `with`, which takes the line away. It shows the seconds since, or how many records there were.

    A thread writes it, so the line moves while the tool waits for the program. If several are nested, the innermost
    is shown. Standard error is read when one begins, so that tests may replace it.
    """

    PATIENCE, PAUSE = 2.0, 0.5
    LOCK: ClassVar[RLock] = RLock()
    begun: ClassVar[List["Progress"]] = []
    # Which one has the line, and whether no line is written any more.
    shown: ClassVar[Optional["Progress"]] = None
    is_over: ClassVar[bool] = False

    def __init__(self, what: str, is_watched: Optional[bool] = None) -> None:
        self.what, self.start = what, monotonic()
        self.count: Optional[int] = None
        self.line = Line()
        self.is_watched, self.is_done = sys.stderr.isatty() if is_watched is None else is_watched, Event()
        self.thread = Thread(target=self.watch, daemon=True)

    @property
    def done(self) -> str:
        """How far it is."""
        return f"{monotonic() - self.start:,.0f} s" if self.count is None else f"{self.count:,} records"

    def advance(self, count: int) -> None:
        self.count = count

    def watch(self) -> None:
        pause = self.PATIENCE
        while not self.is_done.wait(pause):
            pause = self.PAUSE
            with self.LOCK:
                if self.begun[-1:] == [self] and not Progress.is_over:
                    self.show()

    def show(self) -> None:
        if Progress.shown is not self:
            take_away()
            self.line, Progress.shown = self.new_line(), self
        self.line.show(self)

    def new_line(self) -> Line:
        return Line()

    def __enter__(self) -> Callable[[int], None]:
        if self.is_watched:
            with self.LOCK:
                Progress.is_over = Progress.is_over and bool(self.begun)
                self.begun.append(self)
            self.thread.start()
        return self.advance

    def __exit__(self, *_: object) -> None:
        if self.is_watched:
            self.is_done.set()
            with self.LOCK:
                self.begun.remove(self)
                take_away()
            self.thread.join()


def take_away() -> None:
    """Takes a line away from the terminal."""
    with Progress.LOCK:
        if Progress.shown:
            Progress.shown.line.take_away()
            Progress.shown = None


def end() -> None:
    """Takes the line away for good, since output follows on the same terminal."""
    with Progress.LOCK:
        take_away()
        Progress.is_over = True
