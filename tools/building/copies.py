"""Private copies of crates, so that sources may be edited while a build goes on."""
import contextlib
import shutil
import tempfile
from pathlib import Path
from typing import Iterator

from building.crates import PARTS, Crates


@contextlib.contextmanager
def copied(top: Path, name: str) -> Iterator[Path]:
    """A copy of the files that the toolchain reads for the crate of this name and the crates below it."""
    crates = Crates.read(top).of(name)
    with tempfile.TemporaryDirectory(prefix="dipq-build-") as folder:
        copy = Path(folder)
        for crate in crates:
            to = copy / "crates" / crate.name
            to.mkdir(parents=True)
            for part in filter(lambda part: (crate.folder / part).is_dir(), PARTS):
                shutil.copytree(crate.folder / part, to / part)
        lines = (top / "crates.txt").read_text().splitlines()
        wanted = [line for line in lines if line.split(":")[0].split()[:1] in [[name] for name in crates.by_name]]
        (copy / "crates.txt").write_text("\n".join(wanted) + "\n")
        shutil.copy(top / "HANDLES", copy)
        yield copy
