"""Rattle's toolchain: where it is, and the words that its programs are called with."""
import re
import shutil
from dataclasses import dataclass
from pathlib import Path
from typing import Iterable, List, Mapping

from building.crates import Crate, Crates

# The kits that proved and built the repository. Their logic is the same.
TRIED = ("rattle-kit-13b", "rattle-kit-13f")
# C's part of the library, which programs are linked with.
OF_C = ("libos_c.a", "liblibc_c.a")
Words = List[str]


class NoToolchain(Exception):
    """No rt of a toolchain is on the PATH."""


@dataclass(frozen=True)
class Toolchain:
    """The toolchain in a folder."""

    folder: Path

    @classmethod
    def found(cls) -> "Toolchain":
        """That of the rt on the PATH."""
        rt = shutil.which("rt")
        if rt is None:
            raise NoToolchain("rt isn't on the PATH")
        found = cls(Path(rt).resolve().parent.parent)
        if not Path(found.program("rattle")).is_file():
            raise NoToolchain("the rt on the PATH has no compiler next to it")
        return found

    def program(self, name: str) -> str:
        return str(self.folder / "bin" / name)

    def identity(self) -> str:
        """Returns the identity under which its proofs are kept."""
        compiler = (self.folder / "bin" / "rattle").stat()
        named = self.folder / "KIT-ID"
        return f"{named.read_text() if named.is_file() else ''} {compiler.st_size} {compiler.st_mtime_ns}"

    def doubt(self) -> str:
        """What a message about a failed build adds if this kit wasn't tried. Empty for a kit that was."""
        named = self.folder / "KIT-ID"
        kit = named.read_text().strip() if named.is_file() else "a kit without a name"
        return "" if kit.split(" ")[0] in TRIED else f"this toolchain is {kit}; {' and '.join(TRIED)} were tried\n"

    def of_crate(self, crate: Crate, crates: Crates, at: Mapping[str, Path]) -> Words:
        """Returns the words for a crate and its libraries, with their paths in the repository."""
        words = ["--crate-name", crate.name, crate.root]
        for name in ("std", *(it for it in crate.libraries if it not in crates.by_name)):
            words += ["--extern", f"{name}={self.folder}/rlibs/{name}.rlib"]
        words += ["-L", f"dependency={self.folder}/rlibs"]
        for library in crates.own(crate):
            words += ["--extern", f"{library.name}={at[library.name]}"]
        for library in crates.below(crate):
            words += ["-L", f"dependency={at[library.name].parent}"]
        words += ["--antt-project", f"{self.folder}/rattle/logic/antt-project.json"]
        return [*words, "--logic-built", f"{self.folder}/logic_built", "--links", f"{crate.name}="]

    def check(self, of_crate: Words) -> Words:
        """Proves a crate by one job, and makes nothing."""
        return [self.program("rattle"), "check", *of_crate, "--jobs", "1"]

    def build(self, of_crate: Words, jobs: int, to: Path) -> Words:
        """Proves a library, and writes its statements, over which those above it are proved."""
        return [self.program("rattle"), "build", *of_crate, "--jobs", str(jobs), "--statements", "-o", str(to)]

    def build_program(self, of_crate: Words, jobs: int, to: Path) -> Words:
        """Proves a program, and has Rattle's own compiler make an object file of it: half as long as by LLVM."""
        words = [self.program("rattle"), "build", *of_crate, "--jobs", str(jobs), "-o", str(to)]
        return [*words, "--toolchain", f"{self.folder}/toolchain", "--backend", "rattle"]

    def build_archive(self, of_crate: Words, jobs: int, to: Path) -> Words:
        """Proves a library, and has LLVM make a static library for C of it."""
        words = [self.program("rattle"), "build", *of_crate, "--crate-type", "staticlib", "--jobs", str(jobs)]
        return [*words, "-o", str(to), "--toolchain", f"{self.folder}/toolchain"]

    def add_c_part(self, archive: Path) -> Words:
        """Adds C's part of Rattle's library to a static library, which then needs only the system's C library."""
        return [f"{self.folder}/toolchain/bin/llvm-ar", "qcsL", str(archive), f"{self.folder}/c/liblibc_c.a"]

    def link(self, made: Path, to: Path) -> Words:
        """Makes a program of an object file."""
        words = [self.program("rattle-link"), "--target", "x86_64-unknown-linux-gnu"]
        words += ["--toolchain", f"{self.folder}/toolchain", "-o", str(to), str(made)]
        return [*words, *(f"{self.folder}/c/{name}" for name in OF_C)]

    def of_sources(self, crate: Crate, crates: Crates) -> Words:
        """The words that name a crate and all that it stands on by their sources, for a run before any proof."""
        below = crates.below(crate)
        words = ["--crate-name", crate.name, str(crate.folder / crate.root)]
        for library in below:
            uses = dict.fromkeys(["core", "std", *library.libraries])
            words += ["--lib", f"{library.name}:{','.join(uses)}={library.folder}/src/lib.rt"]
        named = (name for it in [*below, crate] for name in it.libraries if name not in crates.by_name)
        return [*words, *self.library_sources(["std", *named])]

    def library_sources(self, names: Iterable[str]) -> Words:
        """Returns the same for libraries of the toolchain and the libraries that they use."""
        words, found = [], list(dict.fromkeys(names))
        for name in found:
            uses = re.findall(r"^dep (\w+)$", (self.folder / "rlibs" / f"{name}.rlib" / "format").read_text(), re.M)
            found += [it for it in uses if it not in found]
            words += ["--lib", f"{name}:{','.join(uses)}={self.folder}/rattle/{name}/src/lib.rt"]
        return words
