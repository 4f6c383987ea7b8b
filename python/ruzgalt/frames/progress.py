"""How long a call has taken, on standard error: by tqdm if it is installed, otherwise on a terminal's line."""
from __future__ import annotations

import os
import sys
from contextlib import nullcontext
from typing import Any, ContextManager, Optional

from ruzgalt.progress import Line, Progress


def is_terminal() -> bool:
    """Returns whether standard error is a terminal. IDLE says so of its own, and a notebook's has another's number."""
    try:
        return sys.stderr.isatty() and os.isatty(sys.stderr.fileno())
    except (AttributeError, OSError, ValueError):
        return False


def of_call(call: str, is_wanted: Optional[bool]) -> ContextManager[Any]:
    """Shows how long a call takes, as progress= says. If nothing is shown, no thread is started."""
    if is_terminal() if is_wanted is None else is_wanted and sys.stderr is not None:
        return OfCall(f"ruzgalt.{call}", True)
    return nullcontext()


class OfCall(Progress):
    """Shows the seconds since a call began."""

    def new_line(self) -> Line:
        try:
            from tqdm.auto import tqdm  # type: ignore[import]  # It has no types.
        except (ImportError, Warning):
            # tqdm warns in a notebook without its widgets, and a warning may be an error.
            return Line() if is_terminal() else Nothing()
        return Bar(tqdm)


class Nothing(Line):
    """Shows nothing, since a pipe has no line to write anew."""

    def write(self, text: str) -> None:
        pass


class Bar(Line):
    """The line of tqdm, without its bar."""

    def __init__(self, tqdm: Any) -> None:
        self.bar = tqdm(bar_format="{desc}", leave=False, file=sys.stderr)

    def show(self, progress: Progress) -> None:
        self.bar.set_description_str(f"{progress.what}: {progress.done}")

    def take_away(self) -> None:
        self.bar.close()
