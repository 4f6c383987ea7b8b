"""docs/DEFINITIONS.md: definitions.md of this folder, with the comments of the specs' own definitions.

A line `@ CRATE MODULE NAME..` of it becomes lines of a list, one for each name: the definition, with a link to its
file, and its comment.
"""
import re
from dataclasses import dataclass
from pathlib import Path
from typing import Dict, Iterator, List

TOP = Path(__file__).resolve().parents[2]
FRAME = Path(__file__).with_suffix(".md")
OPENING = re.compile(r"\s*(?:(?:abbrev|unfoldable) pub|pub (?:record|data)) (\w+)(.*)")


@dataclass(frozen=True)
class Definition:
    """A definition of a spec: its name, the names of its arguments if it has one equation, and its comment."""

    name: str
    arguments: List[str]
    comment: str

    def shown(self) -> str:
        """Returns the name, with the arguments if the comment mentions one of them: in ticks, or a letter."""
        is_named = any(re.search(rf"`{one}`|\b{one}\b" if len(one) == 1 else f"`{one}`", self.comment)
                       for one in self.arguments)
        return " ".join([self.name, *self.arguments] if is_named else [self.name])

    def meaning(self) -> str:
        begins_with_name = re.match(r"[b-z]\b", self.comment)
        text = self.comment if begins_with_name else self.comment[:1].upper() + self.comment[1:]
        return text if text.endswith(".") else f"{text}."


def definitions(text: str) -> Iterator[Definition]:
    """Yields the public definitions of a spec."""
    lines = text.splitlines()
    comment: List[str] = []
    for index, line in enumerate(lines):
        opened = OPENING.match(line)
        if line.lstrip().startswith("--"):
            comment.append(line.strip(" -"))
            continue
        if opened:
            yield Definition(opened[1], arguments(opened[1], opened[2], lines[index + 1:]), " ".join(comment))
        comment = []


def arguments(name: str, rest: str, following: List[str]) -> List[str]:
    """Returns the arguments of a record, or of a function's only equation."""
    fields = [word for names in re.findall(r"\(([\w ]+) :", rest) for word in names.split()]
    equations = [line for line in following if re.match(rf"\s*{name}\b.* =", line)]
    words = equations[0].partition(" =")[0].split()[1:] if len(equations) == 1 else []
    return fields or [word for word in words if re.fullmatch(r"\w+", word)]


def page() -> Iterator[str]:
    """Yields the lines of the page. A name that the specs don't have raises KeyError."""
    for line in FRAME.read_text(encoding="utf-8").splitlines():
        yield from items(*line.split()[1:]) if line.startswith("@ ") else [line]


def items(crate: str, module: str, *names: str) -> Iterator[str]:
    """Yields a line for each name."""
    file = f"crates/{crate}/specs/{module}.antt"
    found: Dict[str, Definition] = {one.name: one for one in definitions((TOP / file).read_text(encoding="utf-8"))}
    for name in names:
        if name not in found:
            raise KeyError(f"{file} has no {name}")
        yield f"- [`{found[name].shown()}`](../{file}): {found[name].meaning()}"
