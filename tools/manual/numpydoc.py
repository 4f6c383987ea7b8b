"""Takes a docstring by numpydoc apart: its summary, and the entries of its sections."""
import inspect
import re
from dataclasses import dataclass
from typing import Any, Dict, List

RULE = re.compile("-{3,}$")


@dataclass(frozen=True)
class Entry:
    """A parameter, an attribute, a value or an error: its names, if it has some, its type, and its text."""

    names: List[str]
    kind: str
    text: str


class Docstring:
    """The docstring of a function, method, property or class."""

    def __init__(self, subject: Any) -> None:
        lines = (inspect.getdoc(subject) or "").splitlines()
        starts = [place for place in range(len(lines) - 1) if lines[place] and RULE.match(lines[place + 1])]
        parts = [lines[begin:end] for begin, end in zip([0, *starts], [*starts, len(lines)])]
        self.summary = paragraphs(parts[0])
        self.sections: Dict[str, List[str]] = {part[0]: part[2:] for part in parts[1:]}

    def entries(self, section: str) -> List[Entry]:
        """Each begins at the margin, and its text is indented."""
        found: List[Entry] = []
        for line in self.sections.get(section, []):
            if line.startswith(" "):
                last = found.pop()
                found.append(Entry(last.names, last.kind, f"{last.text} {line.strip()}".strip()))
            elif line:
                names, _, kind = line.rpartition(" : ")
                found.append(Entry(names.split(", ") if names else [], kind, ""))
        return found

    def names(self, section: str) -> List[str]:
        return [name for entry in self.entries(section) for name in entry.names]


def paragraphs(lines: List[str]) -> List[str]:
    """Each in one line."""
    return [" ".join(part.split()) for part in "\n".join(lines).strip().split("\n\n")]
