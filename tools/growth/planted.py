"""Wrong bodies of the program: they answer right, but cost more. Each must break the promise that it names."""
from concurrent.futures import Future
from dataclasses import dataclass
from pathlib import Path
from typing import Iterator, List, Mapping, Sequence, Tuple

from building.copies import copied
from growth.children import Children, NotOver
from growth.counting import Counting
from growth.judging import Verdict, verdicts
from growth.promises import Promise
from growth.unproved import PROGRAM, NotCompiled, compile_unproved

TOP = Path(__file__).resolve().parent.parent.parent
FOLDER = Path(__file__).resolve().parent / "planted"


class NotPlanted(Exception):
    """An edit can't be made; the text says why."""


@dataclass(frozen=True)
class Planted:
    """A wrong body: edits of a file, an old and a new text each, and the promise that they must break."""

    name: str
    breaks: str
    edits: Tuple[Tuple[str, str, str], ...]

    @classmethod
    def read(cls, file: Path) -> "Planted":
        """Reads a file with a line `breaks: ` and, for each edit, lines `file: `, `old: ` and `new: `."""
        lines = [line.partition(": ") for line in file.read_text().splitlines()]
        if [word for word, _, _ in lines] != ["breaks", *["file", "old", "new"] * (len(lines) // 3)]:
            raise NotPlanted(f"{file.name} has other lines than breaks, and file, old and new")
        texts = [text for _, _, text in lines]
        return cls(file.stem, texts[0], tuple(zip(texts[1::3], texts[2::3], texts[3::3])))

    def edited(self, top: Path) -> List[Tuple[Path, str]]:
        """Returns the sources at the top that it changes, with their new texts. Raises NotPlanted."""
        found = []
        for name, old, new in self.edits:
            text = (top / name).read_text()
            if text.count(old) != 1:
                raise NotPlanted(f"{self.name}: {name} has this text {text.count(old)} times: {old}")
            found.append((top / name, text.replace(old, new)))
        return found

    def plant(self, top: Path) -> None:
        """Makes its edits in a copy of the sources."""
        for file, text in self.edited(top):
            file.write_text(text)


# No wrong body: the program as it is.
RIGHT = Planted("nothing", "", ())


def wrong_bodies() -> List[Path]:
    return sorted(FOLDER.glob("*.edit"))


def misfit(file: Path, promises: Sequence[Promise]) -> str:
    """Returns why a wrong body can't be tried, or an empty text."""
    try:
        planted = Planted.read(file)
        planted.edited(TOP)
    except (NotPlanted, OSError) as why:
        return str(why)
    is_promised = any(promise.what == planted.breaks for promise in promises)
    return "" if is_promised else f"{planted.name}: no promise is named {planted.breaks}"


@dataclass(frozen=True)
class Trial:
    """The counts of a program with a wrong body. Without one, the program must keep all promises."""

    planted: Planted
    verdicts: Sequence[Verdict]
    fault: str = ""

    def passed(self) -> bool:
        if self.fault or any(verdict.fault for verdict in self.verdicts):
            return False
        return all(verdict.is_kept() == (self.planted is RIGHT) for verdict in self.verdicts)

    def line(self) -> str:
        """Returns the wrong body's name and the counts for its promise."""
        mark = "" if self.passed() else "NOT KEPT " if self.planted is RIGHT else "NOT SEEN "
        shown = [verdict.line() for verdict in self.verdicts if self.planted is not RIGHT or not verdict.is_kept()]
        return ": ".join([f"{mark}planted {self.planted.name}", *shown, *filter(None, [self.fault])])


def compiled(children: Children, planted: Planted, to: Path) -> Path:
    """Compiles the program with a wrong body; returns the path, `to`."""
    with copied(TOP, PROGRAM) as top:
        planted.plant(top)
        compile_unproved(children, top, to)
    return to


def tried(counting: Counting, planted: Planted, program: "Future[Path]", wanted: Sequence[Promise]) -> Trial:
    """Waits for the program, and counts its costs for the promises."""
    try:
        return Trial(planted, list(verdicts(counting, program.result(), wanted)))
    except (NotPlanted, NotCompiled, NotOver) as why:
        return Trial(planted, [], str(why))


def trials(counting: Counting, promises: Sequence[Promise], folder: Path) -> Iterator[Trial]:
    """Yields a trial without a wrong body, for all broken promises, and one of each wrong body with its promise.

    Their programs are compiled in the folder.
    """
    by_name: Mapping[str, Promise] = {promise.what: promise for promise in promises}
    wrong = [Planted.read(file) for file in wrong_bodies()]
    broken = [by_name[name] for name in dict.fromkeys(it.breaks for it in wrong)]
    cases = [(RIGHT, broken), *((it, [by_name[it.breaks]]) for it in wrong)]
    begun = [counting.pool.submit(compiled, counting.children, it, folder / it.name) for it, _ in cases]
    return (tried(counting, it, program, wanted) for (it, wanted), program in zip(cases, begun))
