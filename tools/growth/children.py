"""Programs that run side by side, from several threads. They are killed when the work that needs them ends."""
import contextlib
import os
import signal
import subprocess
import threading
from dataclasses import dataclass
from pathlib import Path
from types import TracebackType
from typing import List, Mapping, Optional, Set, Type

Child = subprocess.Popen


class NotOver(Exception):
    """A program took too long, or all programs were stopped."""


@dataclass(frozen=True)
class Ended:
    """The status of a program that has ended, and the text of its stderr."""

    status: int
    said: str


def kill(child: "Child[str]") -> None:
    """Kills a program with all that it began, if it still runs."""
    with contextlib.suppress(ProcessLookupError):
        if child.poll() is None:
            os.killpg(child.pid, signal.SIGKILL)


class Children:
    """Runs programs, each in its own process group. Leaving the context kills all of them; none can be begun later."""

    def __init__(self) -> None:
        self.running: Set["Child[str]"] = set()
        self.lock = threading.Lock()
        self.is_over = False

    def __enter__(self) -> "Children":
        return self

    def __exit__(
        self, kind: Optional[Type[BaseException]], why: Optional[BaseException], trace: Optional[TracebackType]
    ) -> None:
        with self.lock:
            self.is_over = True
            for child in self.running:
                kill(child)

    def run(
        self, words: List[str], given: Path, seconds: int, environment: Optional[Mapping[str, str]] = None
    ) -> Ended:
        """Runs a program on a file, for at most `seconds`, and drops its answers. Raises NotOver."""
        child = self.begin(words, given, environment)
        try:
            _, said = child.communicate(timeout=seconds)
            return Ended(child.returncode, said)
        except subprocess.TimeoutExpired as late:
            raise NotOver(f"not over in {seconds} seconds") from late
        finally:
            self.end(child)

    def begin(self, words: List[str], given: Path, environment: Optional[Mapping[str, str]]) -> "Child[str]":
        with self.lock, given.open() as script:
            if self.is_over:
                raise NotOver("stopped")
            child = Child(
                words, stdin=script, stdout=subprocess.DEVNULL, stderr=subprocess.PIPE, env=environment,
                text=True, errors="replace", start_new_session=True,
            )
            self.running.add(child)
        return child

    def end(self, child: "Child[str]") -> None:
        kill(child)
        child.communicate()
        with self.lock:
            self.running.remove(child)
