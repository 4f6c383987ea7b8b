"""The crates of a repository, as its crates.txt lists them, and the files that a proof reads."""
from dataclasses import dataclass
from pathlib import Path
from typing import Dict, Iterator, List, Tuple

# The folders of a crate that the toolchain reads.
PARTS = ("src", "specs", "proofs")


@dataclass(frozen=True)
class Crate:
    """A crate, and the libraries that its line names: crates of the repository, and others of the toolchain."""

    name: str
    folder: Path
    libraries: Tuple[str, ...]

    @property
    def is_program(self) -> bool:
        return (self.folder / "src" / "main.rt").is_file()

    @property
    def root(self) -> str:
        """The file that the compiler is given, in the crate's folder."""
        return "src/main.rt" if self.is_program else "src/lib.rt"

    def files(self) -> List[Path]:
        """What a proof of the crate reads of it, in an order of its own."""
        found = (file for part in PARTS for file in (self.folder / part).rglob("*"))
        return sorted(file for file in found if file.is_file())

    def lines(self) -> int:
        """How many lines of code it has: the time of its proof grows with them."""
        return sum(file.read_bytes().count(b"\n") for file in self.files() if file.suffix == ".rt")


class Crates:
    """Crates by name. Any other name is a library of the toolchain."""

    def __init__(self, crates: Dict[str, Crate]) -> None:
        self.by_name = crates

    @classmethod
    def read(cls, top: Path) -> "Crates":
        """Those of the repository at this folder."""
        found = {}
        for line in (top / "crates.txt").read_text().splitlines():
            words, _, libraries = line.partition("#")[0].partition(":")
            if words.strip():
                name = words.split()[0]  # A word after the name, such as staticlib, says how the crate is built.
                found[name] = Crate(name, top / "crates" / name, tuple(libraries.split()))
        return cls(found)

    def __iter__(self) -> Iterator[Crate]:
        return iter(self.by_name.values())

    def __len__(self) -> int:
        return len(self.by_name)

    def __getitem__(self, name: str) -> Crate:
        return self.by_name[name]

    def own(self, crate: Crate) -> List[Crate]:
        """The crates of the repository that its line names."""
        return [self.by_name[name] for name in crate.libraries if name in self.by_name]

    def below(self, crate: Crate) -> List[Crate]:
        """All that it stands on in the repository, each after what that stands on."""
        found: Dict[str, Crate] = {}
        for library in self.own(crate):
            found.update((it.name, it) for it in [*self.below(library), library] if it.name not in found)
        return list(found.values())

    def of(self, name: str) -> "Crates":
        """The crate of this name and all that it stands on, lowest first."""
        return Crates({it.name: it for it in [*self.below(self[name]), self[name]]})
