"""The program dipq-live, which stays alive with a store, and answers each command when it gets it."""
from __future__ import annotations

import os
import resource
import signal
import subprocess
import weakref
from threading import Thread
from typing import Callable, Iterable, List, Optional

from ruzgalt import which
from ruzgalt.errors import Stopped

# The bytes that a pipe holds, and the most that are read and written at once; no write may have 2 GiB.
PIPE, READ, WRITTEN = 1 << 16, 1 << 20, 1 << 26
# Words that begin an answer of one record.
SINGLE = (b"ok,", b"error,", b"yes\n", b"no,", b"together,")
# Words that begin the last record of an answer.
LAST = (*SINGLE, b"end,", b"part,", b"dip,")


class Ended(Stopped):
    """The program was killed, or ran out of memory, before it had answered."""


def unreadable(reason: object) -> Stopped:
    return Stopped(f"the answers can't be read: {reason}; DIPQ and DIPQ_LIVE must name programs of this version")


class Live:
    """A program with a store. It starts with the first command, and ends with this object or with Python.

    A forked process ends its copy, which only closes pipes, and starts its own.

    where   returns a text after the program's name in messages: the worker of Dask on which it runs
    memory  returns the most bytes that it may take, or None
    """

    def __init__(self, workers: int, where: Callable[[], str], memory: Callable[[], Optional[int]]) -> None:
        self.workers, self.where, self.memory = workers, where, memory
        self.process: Optional["subprocess.Popen[bytes]"] = None

    def answers(self, accepted: Iterable[bytes], data: bytes, count: Callable[[], int]) -> List[bytes]:
        """Returns the answers to commands. A new program does the accepted ones first.

        count: returns the number of answers, while the program works. Raises Stopped; Ended if another program may
        answer.
        """
        if self.process is None:
            self.start()
            done = list(accepted)
            for number, line in enumerate(self.exchange(b"".join(done), lambda: len(done)), 1):
                if not line.startswith(b"ok,"):
                    self.end()
                    refused = line.decode(errors="replace").strip()
                    raise unreadable(f"commit {number} was accepted, and is refused now: {refused}")
        return self.exchange(data, count)

    def start(self) -> None:
        command, pipe = which.live(), subprocess.PIPE
        crate, named = which.crate_of(command), f"{command}{self.where()}"
        if crate and not which.is_built(crate):
            # A clone's command would build it first, in silence.
            why = "the program isn't built from these sources"
            raise Stopped(f"{named}: {why}; `{command} </dev/null` builds it, in many minutes")
        words = [*which.words_of(command), "--workers", str(self.workers)]
        try:
            # In a session of its own a terminal's Ctrl-C doesn't end it.
            self.process = subprocess.Popen(
                words, stdin=pipe, stdout=pipe, stderr=pipe, bufsize=0, start_new_session=True,
            )
        except OSError as error:
            remedy = "`make install` installs it, or name one by the variable DIPQ_LIVE"
            raise Stopped(f"{named}: {error.strerror}; {remedy}") from None
        self.finalizer = weakref.finalize(self, end, self.process, os.getpid())
        memory, (soft, hard) = self.memory(), resource.getrlimit(resource.RLIMIT_AS)
        if memory is not None and (soft == resource.RLIM_INFINITY or memory < soft):
            resource.prlimit(self.process.pid, resource.RLIMIT_AS, (memory, hard))

    def end(self) -> None:
        """Ends the program, if there is one."""
        if self.process is not None:
            self.finalizer()
        self.process = None

    def exchange(self, data: bytes, count: Callable[[], int]) -> List[bytes]:
        """Sends commands, and returns their answers. Raises Stopped if the program ends before; it is ended then."""
        assert self.process is not None and self.process.stdin is not None and self.process.stdout is not None
        writer = None
        try:
            if len(data) > PIPE:
                # The program may wait until its answers are read.
                writer = Thread(target=send, args=(self.process.stdin.fileno(), data), daemon=True)
                writer.start()
            else:
                send(self.process.stdin.fileno(), data)
            return received(self.process.stdout.fileno(), count())
        except BaseException as error:
            # Also if somebody interrupts it: the next answer would be this one.
            if not isinstance(error, EOFError):
                self.process.kill()
            if writer is not None:
                # Before its pipe is closed.
                writer.join()
            ended = self.ended() if isinstance(error, EOFError) else error
            self.end()
            raise ended from None

    def ended(self) -> Stopped:
        """Returns why the program ended."""
        assert self.process is not None and self.process.stdin is not None and self.process.stderr is not None
        self.process.stdin.close()
        said = self.process.stderr.read().decode(errors="replace").strip()
        status = self.process.wait()
        if status in (0, 1):
            return unreadable("the program ended before it answered")
        name = signal.Signals(-status).name if status < 0 else f"status {status}"
        return Ended(": ".join(filter(None, (which.live() + self.where(), name, said))))


def send(file: int, data: bytes) -> None:
    """Writes to the program. If it has ended, its answers end too, and that is reported where they are read."""
    left = memoryview(data)
    try:
        while len(left):
            left = left[os.write(file, left[:WRITTEN]):]
    except OSError:
        # It has ended, or it was ended here meanwhile.
        pass


def received(file: int, count: int) -> List[bytes]:
    """Returns that many answers. Raises EOFError if there are fewer."""
    data, place = bytearray(), 0
    found: List[bytes] = []
    while len(found) < count:
        portion = os.read(file, READ)
        if not portion:
            raise EOFError
        data += portion
        last = data.rfind(b"\n", 0, len(data) - 1) + 1
        # A long answer isn't read from its beginning before its last record may have come.
        while len(found) < count and data.endswith(b"\n") and data.startswith(LAST, last):
            end = end_of_answer(data, place)
            if end is None:
                break
            found.append(bytes(memoryview(data)[place:end]))
            place = end
    return found


def end_of_answer(data: bytearray, start: int) -> Optional[int]:
    """Returns the end of the answer that starts there, if all of it has come."""
    first = data.find(b"\n", start) + 1
    if not first or data.startswith((*SINGLE, b"end,"), start):
        return first or None
    if data.startswith(b"dip,", start):
        for _ in range(int(data[start:first].split(b",")[2])):
            first = first and data.find(b"\n", first) + 1
        return first or None
    found = data.find(b"\nend,", start)
    # A text may have a line that begins so, between quotes.
    while found >= 0 and data.count(b'"', start, found) % 2:
        found = data.find(b"\nend,", found + 1)
    return data.find(b"\n", found + 1) + 1 if found >= 0 else None


def end(process: "subprocess.Popen[bytes]", owner: int) -> None:
    """Closes the program's pipes and ends it; a forked child only closes its copies of the pipes."""
    for pipe in (process.stdin, process.stdout, process.stderr):
        if pipe is not None:
            pipe.close()
    if os.getpid() == owner:
        process.kill()
        process.wait()
    else:
        # The parent waits for it.
        process.returncode = 0
