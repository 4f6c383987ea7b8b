"""Makes docstrings of numpydoc. A parameter of several calls is described once, in a table."""
from __future__ import annotations

import inspect
import re
import textwrap
from itertools import groupby
from typing import Any, Iterator, Mapping, Tuple

# A section of one entry as the code has it.
SHORT = re.compile(r"(?<=\n\n)(Returns|Raises) ([^:\n]+): (.+?)(?=\n\n|\Z)", re.DOTALL)
# The type and the text of each parameter. If a call gives it another meaning, the call's name is in front.
Texts = Mapping[str, Tuple[str, str]]


def made(name: str, call: Any, texts: Texts, returned: str = "") -> str:
    """Returns the docstring of a call by numpydoc.

    Its own has a summary, the sections Returns (otherwise `returned`) and Raises in a paragraph each, and an example.
    """
    summary, _, text = inspect.cleandoc(call.__doc__).partition("\n\n")
    begin = re.search(r"^(Returns|Raises|>>>)", text, re.MULTILINE)
    place = begin.start() if begin else len(text)
    returned = "" if text.startswith("Returns", place) else returned
    text = "".join([summary, "\n\n", text[:place], *parameters(name, call, texts), returned, text[place:]])
    text = SHORT.sub(lambda found: section(found[1], found[2], " ".join(found[3].split())), text)
    return text if inspect.isclass(call) else text.replace("\n\n>>> ", "\n\nExamples\n--------\n>>> ", 1)


def parameters(name: str, call: Any, texts: Texts) -> Iterator[str]:
    """Yields the lines of the section Parameters. Parameters of one text that follow one another are one entry."""
    given = inspect.signature(call).parameters.values()
    names = [one.name for one in given if one.kind is not one.VAR_POSITIONAL and one.name not in ("self", "cls")]
    entries = groupby(names, lambda one: texts.get(f"{name}.{one}") or texts[one])
    for place, ((kind, text), some) in enumerate(entries):
        yield "" if place else "Parameters\n----------\n"
        yield f"{', '.join(some)} : {kind}\n{indented(text)}\n"
    yield "\n" if names else ""


def section(heading: str, kind: str, text: str) -> str:
    return f"{heading}\n{'-' * len(heading)}\n{kind}\n{indented(text)}"


def indented(text: str) -> str:
    return textwrap.indent(textwrap.fill(text, 111), "    ")
