"""Writes files that are complete or not there: each is made in a folder of its own, and then moved."""
import os
import shutil
import stat
from contextlib import ExitStack, contextmanager
from pathlib import Path
from tempfile import TemporaryDirectory
from typing import Iterator, List, Sequence

from ruzgalt.errors import Misfit


@contextmanager
def whole(targets: Sequence[Path], is_replacing: bool = True) -> Iterator[List[Path]]:
    """Yields a path for each file, where the caller writes it. At the end each one is moved to where it belongs.

    If anything fails before that, no file is changed. Symbolic links are followed, and a file that is replaced keeps
    its mode. A device, a pipe, and a file with a second hard link can't be replaced, and are written into. Raises
    Misfit for the file that standard output goes to: what is printed there would be lost.
    """
    with ExitStack() as folders:
        paths = [Path(folders.enter_context(folder_for(target)), "made") for target in targets]
        yield paths
        for path, target in zip(paths, targets):
            put(path, target, is_replacing)


def folder_for(target: Path) -> "TemporaryDirectory[str]":
    """Returns a new folder for a file, on the same file system if the file will be moved."""
    folder = None if is_written_into(target) else os.path.dirname(os.path.realpath(target))
    try:
        return TemporaryDirectory(prefix=f".{target.name[:40]}.", dir=folder)
    except OSError as error:
        raise type(error)(error.errno, error.strerror, str(target)) from None


def is_written_into(target: Path) -> bool:
    """Raises OSError for a link that leads to itself, and Misfit for the file that standard output goes to."""
    try:
        found = target.stat()
    except FileNotFoundError:
        return False
    for name, stream in (("output", 1), ("error", 2)):
        if stat.S_ISREG(found.st_mode) and is_open_as(found, stream):
            raise Misfit(f"{target}: standard {name} goes to this file, so it can't be replaced: give another file")
    return not stat.S_ISREG(found.st_mode) or found.st_nlink > 1


def is_open_as(file: os.stat_result, stream: int) -> bool:
    try:
        return os.path.samestat(file, os.fstat(stream))
    except OSError:
        # It is closed.
        return False


def put(path: Path, target: Path, is_replacing: bool) -> None:
    if target.exists() and not is_replacing:
        raise Misfit(f"{target} was made by another program meanwhile, so it wasn't replaced")
    if is_written_into(target):
        with path.open("rb") as made, target.open("wb") as written:
            shutil.copyfileobj(made, written)
        return
    if target.exists():
        shutil.copymode(target, path)
    os.replace(path, os.path.realpath(target))
