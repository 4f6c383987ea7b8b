"""Libraries that were proved before. They are in out/ of their crates, and a later build uses them.

A library is kept under a checksum of all that its proof read: the toolchain, its files, its line of crates.txt, and
each library below it. So none becomes stale: the library under a checksum was proved from the same files.
"""
import contextlib
import hashlib
import importlib.machinery
import importlib.util
import io
import os
import shutil
import sys
from pathlib import Path
from types import ModuleType
from typing import Any, Dict, List

from building.crates import Crate, Crates
from building.toolchain import Toolchain


def sum_of_files(folder: Path, files: List[Path]) -> str:
    """Returns a checksum of the files: their paths in the folder, and their bytes."""
    found = hashlib.sha256()
    for file in files:
        held = hashlib.sha256(file.read_bytes()).hexdigest()
        found.update(f"{held} {file.relative_to(folder)}\n".encode())
    return found.hexdigest()


class NothingKept(Exception):
    """The toolchain's gate keeps no libraries that a build can take. The message says why."""


class Kept:
    """The libraries that builds of this repository keep, and the path of each one of this build."""

    def __init__(self, top: Path, crates: Crates, toolchain: Toolchain) -> None:
        self.top, self.crates, self.toolchain = top, crates, toolchain
        self.at: Dict[str, Path] = {}
        self.sums: Dict[str, str] = {}

    def folder(self, crate: Crate) -> Path:
        return self.top / "crates" / crate.name / "out" / "proved"

    def key(self, crate: Crate) -> str:
        """The sum that its library is kept under. Those below it are there."""
        below = [self.sums[it.name] for it in self.crates.below(crate)]
        parts = [self.toolchain.identity(), *crate.libraries, sum_of_files(crate.folder, crate.files()), *below]
        return hashlib.sha256("\n".join(parts).encode()).hexdigest()

    def note(self, crate: Crate, library: Path) -> None:
        """Notes the path of the crate's library."""
        self.at[crate.name] = library
        files = sorted(file for file in library.rglob("*") if file.is_file())
        self.sums[crate.name] = sum_of_files(library, files)

    def find(self, crate: Crate) -> bool:
        """Whether the crate's library is kept, and notes where."""
        library = self.folder(crate) / self.key(crate) / f"{crate.name}.rlib"
        if library.is_dir():
            self.note(crate, library)
        return library.is_dir()

    def take_of_gate(self, copy: Path) -> None:
        """Takes the libraries that the toolchain's gate has proved of these files, or reports why it has none."""
        try:
            given = give_of_gate(copy, self.toolchain)
        except NothingKept as why:
            print(f"dipq: {why}; what an earlier build kept is taken", file=sys.stderr)
            return
        for name in given.keys() & self.crates.by_name.keys():
            self.note(self.crates[name], given[name])

    def place(self, crate: Crate) -> Path:
        """Returns the path for a new library, which `add` keeps."""
        return self.folder(crate) / f"new-{os.getpid()}" / f"{crate.name}.rlib"

    def add(self, crate: Crate) -> None:
        """Keeps the library that was made there, and drops libraries of other checksums."""
        made, at = self.place(crate).parent, self.folder(crate) / self.key(crate)
        with contextlib.suppress(OSError):
            # Another build may have kept the same meanwhile.
            made.rename(at)
        for other in self.folder(crate).iterdir():
            if other != at and not other.name.startswith("new-"):
                shutil.rmtree(other, ignore_errors=True)
        self.drop_unmade(crate)
        self.note(crate, at / f"{crate.name}.rlib")

    def drop_unmade(self, crate: Crate) -> None:
        """Drops files that an interrupted build left for the crate."""
        shutil.rmtree(self.place(crate).parent, ignore_errors=True)


def module_of(program: Path) -> ModuleType:
    """A program of Python as a module."""
    loader = importlib.machinery.SourceFileLoader("rt_program", str(program))
    spec = importlib.util.spec_from_loader("rt_program", loader)
    assert spec is not None
    module = importlib.util.module_from_spec(spec)
    sys.modules["rt_program"] = module
    loader.exec_module(module)
    return module


def give_of_gate(copy: Path, toolchain: Toolchain) -> Dict[str, Path]:
    """Puts the libraries that the toolchain's gate proved into a copy of the repository, and returns where they are.

    The gate keeps libraries under sums of its own, so its program is asked. Nothing that a build proves goes there.

    Raises `NothingKept` if this toolchain's gate keeps no libraries, or keeps them in another way.
    """
    try:
        # The gate's program prints its own messages and ends if a crate is faulty. The compiler reports that fault.
        with contextlib.redirect_stderr(io.StringIO()):
            return given_by(module_of(toolchain.folder / "bin" / "rt"), copy)
    except (Exception, SystemExit) as why:
        raise NothingKept(f"this toolchain's rt hands on nothing that its gate proved: {why!r}") from why


def given_by(rt: Any, copy: Path) -> Dict[str, Path]:
    """The libraries that the gate's program puts into the copy. A crate gets one if all crates below it have theirs."""
    given: Dict[str, Path] = {}
    rt.Crate.allowed, rt.Crate.cuts_libraries = rt.handles_of(str(copy)), True
    listed = rt.crates_of(str(copy))
    kept = rt.Kept(listed)
    for crate in listed:
        if not all(library.name in given for library in crate.below()):
            continue
        if crate.makes_rlib() and kept.give(crate, False, kept.key(crate)):
            kept.is_built(crate)
            given[crate.name] = Path(crate.rlib)
    return given
