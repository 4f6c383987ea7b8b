"""Commands that run side by side. They end with the program that began them, however that ends."""
import os
import signal
import subprocess
import tempfile
from pathlib import Path
from types import TracebackType
from typing import IO, Optional, Sequence, Type


class Command:
    """A running command, and its output."""

    def __init__(self, words: Sequence[str], folder: Path, group: int) -> None:
        self.words, self.folder = list(words), folder
        self.said: IO[str] = tempfile.TemporaryFile("w+", errors="replace")
        self.ran = subprocess.Popen(
            self.words, cwd=folder, stdin=subprocess.DEVNULL, stdout=self.said, stderr=subprocess.STDOUT,
            preexec_fn=lambda: os.setpgid(0, group),
        )

    def status(self) -> Optional[int]:
        """Its status, or none while it goes on."""
        return self.ran.poll()

    def text(self) -> str:
        """All that it said."""
        self.said.seek(0)
        return self.said.read()


class Commands:
    """Begins commands in one group, which is killed with the program: its guard waits for a pipe of ours to close."""

    def __enter__(self) -> "Commands":
        reads, self.held = os.pipe()
        self.guard = subprocess.Popen(
            ["sh", "-c", "read _; kill -9 0"], stdin=reads, stdout=subprocess.DEVNULL, stderr=subprocess.DEVNULL,
            preexec_fn=os.setpgrp,
        )
        os.close(reads)
        return self

    def __exit__(
        self, kind: Optional[Type[BaseException]], why: Optional[BaseException], trace: Optional[TracebackType]
    ) -> None:
        os.killpg(self.guard.pid, signal.SIGKILL)
        self.guard.wait()
        os.close(self.held)

    def begin(self, words: Sequence[str], folder: Path) -> Command:
        return Command(words, folder, self.guard.pid)
