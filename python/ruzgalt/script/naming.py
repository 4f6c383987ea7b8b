"""Names of columns: of an answer, each with a name of its own, and of a store.

An answer's own words, such as `row_id`, stay as they are. In an answer of one table a column whose name is taken has
`_` after it. In an answer of two tables a name that both have gets its side's suffix; the caller refuses names that
still are equal. In a store a column has a name of the language that is like its own.
"""
import re
import unicodedata
from collections import Counter
from itertools import chain, count
from typing import Any, List, Optional, Sequence, Set

from ruzgalt.script.forms import LONGEST_NAME, is_name


def apart(names: Sequence[Any]) -> List[Any]:
    """Returns the names; a repeated one has `_` after it, until it is unique."""
    given, taken = set(names), set()  # type: Set[Any], Set[Any]
    made = []
    for name in names:
        free_name = name if name not in taken else marked(name, given | taken)
        taken.add(free_name)
        made.append(free_name)
    return made


def marked(name: Any, taken: Set[Any]) -> str:
    made = f"{name}_"
    while made in taken:
        made += "_"
    return made


def with_suffixes(names: Sequence[Any], suffixes: Sequence[Optional[str]]) -> List[Any]:
    """Returns the names; each repeated one has its suffix after it, if it has one."""
    counts = Counter(names)
    return [f"{name}{suffix}" if suffix and counts[name] > 1 else name for name, suffix in zip(names, suffixes)]


def of_store(names: Sequence[Any]) -> List[str]:
    """Names of the language for columns, each another one: their own where they are such, or else names like them."""
    taken = {name for name in names if isinstance(name, str) and is_name(name)}
    made = []
    for name in names:
        free_name = name if isinstance(name, str) and is_name(name) else free(like(name), taken)
        taken.add(free_name)
        made.append(free_name)
    return made


def like(name: Any) -> str:
    """The letters and digits of ASCII in it, without accents and in small letters, a letter first."""
    plain = unicodedata.normalize("NFKD", str(name)).casefold()
    parts = re.split("[^a-z0-9]+", "".join(one for one in plain if not unicodedata.combining(one)))
    made = "_".join(filter(None, parts))
    return made if made[:1].isalpha() else f"c{made}"


def free(beginning: str, taken: Set[str]) -> str:
    """A name of the language that begins so, and that no column has."""
    endings = chain(["", "_"], map("_{}".format, count(2)))
    made = (beginning[:LONGEST_NAME - len(ending)] + ending for ending in endings)
    return next(name for name in made if is_name(name) and name not in taken)


def twice(names: Sequence[Any]) -> List[Any]:
    return [name for name, count in Counter(names).items() if count > 1]
