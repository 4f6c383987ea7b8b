"""docs/API.md, made of the docstrings of what the package `ruzgalt` offers."""
import doctest
import inspect
import re
from collections import defaultdict
from typing import Any, Dict, Iterator, List, Mapping, Tuple

import ruzgalt
from manual.numpydoc import Docstring, Entry

NO_CALLS = ("frames", "__version__")
# A line of most examples, which the page's first lines name.
DAY = "day = pd.to_datetime"
# Texts that the page's first lines have too.
SAID = ("The table.", "The file.")
# Types of parameters that the page's first lines name.
KINDS = {
    "int, str, date, datetime, Timestamp or Period": "commit", "str, date, datetime, Timestamp or Period": "point",
    "name or list of names": "names",
}
# Sections whose equal entries, if at least this number of calls has them, are shown once, or by the classes that they
# name.
SHARED = {"Parameters": 2, "Returns": 3, "Raises": 2, "Warns": 2}
HEAD = [
    "# API", "",
    "The calls of `ruzgalt` from Python. [FRAMES](FRAMES.md) explains them. `tools/make-api` "
    "makes this page of the docstrings; `help(ruzgalt.join)` shows a whole one. Tests run the examples, after "
    f"`import pandas as pd`, `import ruzgalt`, `{DAY}` and the examples before.",
]
OF_SEVERAL = [
    "", "## Parameters of several calls", "",
    "*Points* and *commits* are given as [Store](#store) says, *names* as a name or a list. A store's `name`, `left` "
    "and `right` are tables, a `path` a file. After its parameters a section describes the answer. Calls raise "
    "[Refused](#refused) or [Stopped](#stopped), and warn by [Doubt](#doubt).", "",
]

Subjects = List[Tuple[str, Any]]
Key = Tuple[str, Tuple[str, ...], str]


def page() -> Iterator[str]:
    """Returns the lines of the page."""
    found = list(subjects())
    shared, made = Shared(found), {"day": f"{DAY}\n"}
    yield from [*HEAD, "", f"On frames, and answers: {links(found, False)}.", ""]
    yield from [f"On stores: {links(found, True)}.", *OF_SEVERAL, *shared.lines()]
    for name, one in found:
        yield from ["", f"{'###' if '.' in name else '##'} {name}", *section(name, one, shared, made)]


def links(found: Subjects, of_store: bool) -> str:
    names = [name for name, _ in found if (name.partition(".")[0] == "Store") == of_store]
    return ", ".join(f"[{name.rpartition('.')[2]}](#{anchor(name)})" for name in names)


def subjects() -> Iterator[Tuple[str, Any]]:
    """Yields the public calls and classes by their names, and after each class its methods."""
    for name in ruzgalt.__all__:
        if name not in NO_CALLS:
            subject = getattr(ruzgalt, name)
            yield name, subject
            if inspect.isclass(subject):
                yield from methods(name, subject)


def methods(name: str, subject: type) -> Iterator[Tuple[str, Any]]:
    """Yields the public methods of a class of the package, and then of its bases."""
    bases = [base for base in inspect.getmro(subject) if base.__module__.startswith("ruzgalt.")]
    for word, one in (pair for base in bases for pair in vars(base).items()):
        is_method = inspect.isfunction(one) or isinstance(one, (classmethod, property))
        if is_method and not word.startswith("_"):
            yield f"{name}.{word}", one if isinstance(one, property) else getattr(subject, word)


def anchor(name: str) -> str:
    """Returns the name of a heading in links."""
    return re.sub(r"[^\w-]", "", name.lower())


class Shared:
    """The entries of docstrings that several calls have, word for word."""

    def __init__(self, found: Subjects) -> None:
        self.calls: Dict[Key, List[Entry]] = defaultdict(list)
        for _, one in found:
            docstring = Docstring(one)
            for heading in SHARED:
                for entry in docstring.entries(heading):
                    self.calls[key(heading, entry)].append(entry)
        # If a name has several meanings, the one of most calls.
        self.usual = {(heading, names): text for (heading, names, text), _ in sorted(
            self.calls.items(), key=lambda pair: len(pair[1]))}

    def has(self, heading: str, entry: Entry) -> bool:
        found = self.calls.get(key(heading, entry), [])
        is_usual = heading != "Parameters" or self.usual[heading, tuple(entry.names)] == entry.text
        return heading in SHARED and len(found) >= SHARED[heading] and is_usual

    def lines(self) -> List[str]:
        """Returns the shared parameters by name, each with the type that its first call has."""
        firsts = [(heading, found[0]) for (heading, *_), found in self.calls.items()]
        shown = [entry for heading, entry in firsts if heading == "Parameters" and self.has(heading, entry)]
        return [item(entry) for entry in sorted(shown, key=lambda entry: entry.names) if entry.text not in SAID]


def key(heading: str, entry: Entry) -> Key:
    return heading, tuple(entry.names), entry.text


def section(name: str, subject: Any, shared: Shared, made: Dict[str, str]) -> Iterator[str]:
    docstring = Docstring(subject)
    returned = docstring.entries("Returns")
    if "Parameters" in docstring.sections or not inspect.isclass(subject):
        yield from ["", f"`{call(name, subject, returned)}`"]
    for paragraph in docstring.summary:
        yield from ["", paragraph]
    found = [(heading, entry) for heading in docstring.sections if heading != "Examples"
             for entry in docstring.entries(heading) if not shared.has(heading, entry)]
    own = [item(entry) for heading, entry in found if heading != "Returns"]
    yield from ["", *own] if own else []
    yield from (line for heading, entry in found if heading == "Returns" for line in ("", entry.text))
    # Calls show answers and refusals. The methods of a store continue the store's whole example.
    if not inspect.isclass(subject) or name == "Store":
        yield from example(name, docstring.sections["Examples"], made)


def call(name: str, subject: Any, returned: List[Entry]) -> str:
    """Returns the call with its parameters and their defaults, without their types, and the type of the answer."""
    is_method = name.startswith("Store.") and name != "Store.from_script"
    begin = name.replace("Store.", "store.") if is_method else f"ruzgalt.{name}"
    words = "" if isinstance(subject, property) else f"({', '.join(parameters(subject))})"
    return "".join([begin, words, *(f" -> {entry.kind}" for entry in returned)])


def parameters(subject: Any) -> Iterator[str]:
    was_named = False
    for one in inspect.signature(subject).parameters.values():
        if one.name == "self" or one.kind is one.VAR_POSITIONAL:
            continue
        if one.kind is one.KEYWORD_ONLY and not was_named:
            was_named = True
            yield "*"
        yield one.name if one.default is one.empty else f"{one.name}={default(one.default)}"


def default(value: Any) -> str:
    return repr(dict(value) if isinstance(value, Mapping) else value)


def item(entry: Entry) -> str:
    """Returns a line of a list. The call above it shows which options have defaults."""
    names = ", ".join(f"`{name}`" for name in entry.names)
    kind = re.sub(", (optional|default .*)$", "", entry.kind)
    return f"- {names + ' (' + KINDS.get(kind, kind) + ')' if names else kind}: {entry.text}"


def example(name: str, lines: List[str], made: Dict[str, str]) -> Iterator[str]:
    """Yields the text before the first prompt, and the statements up to the first answer of the call itself, if any.

    A statement that makes what an earlier example made is left out.
    """
    first = next(index for index, line in enumerate(lines) if line.startswith(">>> "))
    text = " ".join(lines[:first]).strip()
    if text:
        yield from ["", text]
    yield from ["", "```pycon"]
    word, was_called = name.rpartition(".")[2], False
    for one in doctest.DocTestParser().get_examples("\n".join(lines[first:])):
        assigned = re.match(r"(\w+) = ", one.source)
        if not assigned or made.get(assigned[1]) != one.source:
            yield from (f"{'...' if number else '>>>'} {line}" for number, line in enumerate(one.source.splitlines()))
            yield from one.want.splitlines()
        if assigned:
            made[assigned[1]] = one.source
        was_called = was_called or f".{word}(" in one.source and word != "Store"
        if was_called and one.want:
            break
    yield "```"
