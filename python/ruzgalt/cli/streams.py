"""Standard input, output and error, as a shell may leave them; and texts as a terminal shows them."""
import csv
import gc
import os
import shlex
import signal
import sys
from typing import Callable, Iterable, Iterator, Optional

from ruzgalt import progress
from ruzgalt.errors import Misfit
from ruzgalt.script import records
from ruzgalt.script.records import LONGEST_FIELD, code_of, encode, is_seen


def visible(text: str, keeps: str = "") -> str:
    """Returns the text with codes for characters that can't be seen, except those in `keeps`."""
    if text.isascii() and text.isprintable():
        return text
    return "".join(one if is_seen(one) or one in keeps else code_of(one) for one in text)


def visible_records(pieces: Iterable[bytes]) -> Iterator[bytes]:
    """Pieces of CSV, each record in one line: a line end within quotes is shown by its code too."""
    is_within = False
    for piece in pieces:
        shown = []
        for place, part in enumerate(piece.decode("utf-8", "surrogateescape").split('"')):
            is_within = is_within != (place > 0)
            shown.append(visible(part, "" if is_within else "\n"))
        yield '"'.join(shown).encode()


def quoted(word: str) -> str:
    """Returns the word, in quotes if it needs them, with codes for the bytes that can't be seen."""
    if all(map(is_seen, word)):
        return shlex.quote(word)
    codes = {"\\": "\\\\", "'": "\\'"}
    shown = (codes.get(one, one) if is_seen(one) else "".join(f"\\x{byte:02x}" for byte in encode(one)) for one in word)
    return f"$'{''.join(shown)}'"


def run(name: str, tool: Callable[[], Optional[int]]) -> int:
    """Runs a tool and returns its status: 1, with a message, if a file can't be read or written.

    The tool ends as other programs do if its output isn't read to the end, or by Ctrl-C. Without standard error its
    messages are lost; without standard output it doesn't begin.
    """
    csv.field_size_limit(LONGEST_FIELD)
    # The tools keep most of their objects, so a search for garbage would find nothing.
    gc.disable()
    signal.signal(signal.SIGPIPE, signal.SIG_DFL)
    signal.signal(signal.SIGINT, signal.SIG_DFL)
    if sys.stderr is None:
        sys.stderr = open(os.devnull, "w")
    if sys.stdout is None:
        sys.exit(f"{name}: standard output is closed")
    try:
        return tool() or 0
    except OSError as error:
        report(f"{name}: {reason(error)}")
        return 1


def reason(error: OSError) -> str:
    """Returns the message of an error of the system, with its file if it has one."""
    why = error.strerror or str(error)
    return f"{error.filename}: {why}" if error.filename else why


def given() -> bytes:
    if sys.stdin is None:
        raise Misfit("standard input is closed")
    return sys.stdin.buffer.read()


def show_records(pieces: Iterable[bytes]) -> None:
    """Prints records of CSV by pieces: their bytes, or what a terminal is shown of them."""
    write(visible_records(pieces) if sys.stdout.isatty() else pieces)


def show_lines(lines: Iterable[str]) -> None:
    """Prints texts, each on a line: as they are, or what a terminal is shown of them."""
    shown = map(visible, lines) if sys.stdout.isatty() else lines
    write(records.encode(f"{line}\n") for line in shown)


def show_text(text: str) -> None:
    show_lines(text[:-1].split("\n"))


def write(pieces: Iterable[bytes]) -> None:
    """Writes all bytes of the pieces to standard output, or raises OSError.

    Without a buffer, as PYTHONUNBUFFERED sets it, one write takes only the bytes for which a full disk has space.
    """
    if sys.stdout.isatty():
        progress.end()
    output = sys.stdout.buffer
    try:
        for piece in pieces:
            left = memoryview(piece)
            while left:
                left = left[output.write(left):]
        output.flush()
    except OSError:
        # At its end Python would write its buffer once more, and report a second error.
        os.dup2(os.open(os.devnull, os.O_WRONLY), sys.stdout.fileno())
        raise


def report(line: str) -> None:
    """Prints a line on standard error. Bytes that aren't UTF-8 are shown by question marks."""
    shown = visible(line) if sys.stderr.isatty() else line
    with progress.Progress.LOCK:
        progress.take_away()
        sys.stderr.write(f"{shown}\n".encode("utf-8", "replace").decode())
