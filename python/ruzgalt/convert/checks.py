"""Tests of arguments by their type. Each returns the argument in the type that the calls work with.

A wrong value is refused as BadCommand, with the option's name, the value, and the types that it may have.
"""
from __future__ import annotations

import sys
from typing import Any, Hashable, Iterable, List, Mapping, Optional, Sequence, Tuple

import numpy as np
import pandas as pd

from ruzgalt.convert.errors import Refused
from ruzgalt.convert.named import same
from ruzgalt.script import naming

Pair = Tuple[Any, Any]
Suffixes = Tuple[Optional[str], Optional[str]]
# Values of these types are shown, up to LONGEST characters, in a list too; of others their type.
SHOWN, LONGEST = (str, bytes, int, float, np.generic, type(None)), 60
MOST_DIGITS = 18


def wrong(option: str, given: Any, wanted: str) -> Refused:
    return Refused("BadCommand", f"{option}={shown(given)}: {wanted}")


def shown(given: Any) -> str:
    text = " ".join(repr(given).split()) if is_plain(given) else f"<{type(given).__name__}>"
    return text if len(text) <= LONGEST else f"{text[:LONGEST]}.."


def is_plain(given: Any) -> bool:
    if isinstance(given, dict):
        return all(map(is_plain, [*given, *given.values()]))
    return all(map(is_plain, given)) if isinstance(given, (list, tuple, set)) else isinstance(given, SHOWN)


def is_flag(given: Any) -> bool:
    return isinstance(given, (bool, np.bool_))


def flag(option: str, given: Any) -> bool:
    if not is_flag(given):
        raise wrong(option, given, "must be True or False")
    return bool(given)


def is_whole(given: Any) -> bool:
    return isinstance(given, (int, np.integer)) and not isinstance(given, bool)


def whole(option: str, given: Any, least: int, most: Optional[int] = None) -> int:
    if not is_whole(given) or given < least or (most is not None and given > most):
        bounds = f"from {least} to {most}" if most is not None else f"of at least {least}"
        raise wrong(option, given, f"must be a whole number {bounds}")
    return int(given)


def one_of(option: str, given: Any, among: Sequence[str]) -> str:
    if not isinstance(given, str) or given not in among:
        raise wrong(option, given, f"must be one of {', '.join(among)}")
    return given


def is_name(given: Any) -> bool:
    """Returns whether it can be the name of a column: a text, a tuple of names, or another value without items."""
    if isinstance(given, tuple):
        return all(map(is_name, given))
    has_others = isinstance(given, Iterable) and not isinstance(given, (str, bytes))
    return isinstance(given, Hashable) and not has_others and not isinstance(given, (bool, np.bool_))


def name(option: str, given: Any) -> Any:
    if given is None or not is_name(given):
        raise wrong(option, given, "must be a column's name")
    return same(given)


def names(option: str, given: Any) -> Optional[Tuple[Any, ...]]:
    """Returns a tuple of a name, or of a list or tuple of names. Returns None for None."""
    if given is None:
        return None
    several = tuple(given) if isinstance(given, (list, tuple)) else (given,)
    if not all(map(is_name, several)):
        raise wrong(option, given, "must be a column's name or a list of names; list(..) makes one")
    return tuple(map(same, several))


def period(option: str, given: Any) -> Tuple[Any, ...]:
    """Returns two different names, or one name."""
    if is_name(given) and given is not None and not isinstance(given, tuple):
        return (same(given),)
    both = tuple(map(same, given)) if isinstance(given, (list, tuple)) else ()
    if len(both) != 2 or not all(map(is_name, both)) or naming.twice(both):
        wanted = "must be two different names, of the columns of starts and of ends, or one of a column of intervals"
        raise wrong(option, given, wanted)
    return both


def text(option: str, given: Any) -> str:
    if not isinstance(given, str):
        raise wrong(option, given, "must be a text")
    return given


def texts(option: str, given: Any) -> List[str]:
    if not isinstance(given, (list, tuple)) or not all(isinstance(one, str) for one in given):
        raise wrong(option, given, "must be a list of texts")
    return list(given)


def span(option: str, given: Any) -> Pair:
    """Returns a start and an end, which aren't tested yet."""
    if not isinstance(given, (list, tuple)) or len(given) != 2:
        raise wrong(option, given, "must be a start and an end, such as ('2024-01-01', '2025-01-01')")
    return given[0], given[1]


def suffixes(option: str, given: Any) -> Suffixes:
    both = tuple(given) if isinstance(given, (list, tuple)) else ()
    if len(both) != 2 or not all(one is None or isinstance(one, str) for one in both):
        raise wrong(option, given, "must be two texts, added to the left names and the right ones; None for none")
    return both[0], both[1]


def digits(option: str, given: Any) -> Mapping[Any, int]:
    """Returns the numbers of decimals of columns."""
    if not isinstance(given, Mapping) or not all(map(is_name, given)):
        raise wrong(option, given, "must be a dict of columns with their numbers of decimals, such as {'pay': 2}")
    return {same(one): whole(f"{option}[{one!r}]", count, 0, MOST_DIGITS) for one, count in given.items()}


def records(option: str, given: Any) -> List[Tuple[Any, str]]:
    """Returns columns with the values of a script's records: True and False are 1 and 0."""
    values = given.values() if isinstance(given, Mapping) else [None]
    if not all(isinstance(one, str) or is_whole(one) or is_flag(one) for one in values):
        wanted = "must be a dict of columns with texts or whole numbers like the script's"
        raise wrong(option, given, f"{wanted}, such as {{'person': 'Ada'}}")
    return [(one, str.__str__(value) if isinstance(value, str) else str(int(value))) for one, value in given.items()]


def stand_ins(option: str, given: Any) -> Mapping[Any, Any]:
    """Returns the values for missing cells of columns; whether a column can have its value isn't tested yet."""
    if not isinstance(given, Mapping) or not all(map(is_name, given)) or any(one is None for one in given.values()):
        raise wrong(option, given, "must be a dict of columns with the values for missing cells, such as {'note': '?'}")
    return {same(one): value for one, value in given.items()}


def frame(option: str, given: Any) -> Any:
    """Returns a frame of pandas. Raises Refused if it isn't one, or has columns that can't be kept."""
    if not isinstance(given, pd.DataFrame):
        raise wrong(option, given, f"must be a frame of pandas; {remedy_of(given)}")
    refuse_odd(given)
    return given


def refuse_odd(columns: Any) -> None:
    """Raises Refused if a frame of pandas or Dask has sparse columns, or some that are named NaN or NA."""
    for name, dtype in zip(columns.columns, columns.dtypes):
        if isinstance(dtype, pd.SparseDtype):
            raise Refused("WrongKind", f"it is sparse ({dtype}); .sparse.to_dense() makes a usual column", name)
        if name is pd.NA or isinstance(name, float) and name != name:
            raise Refused("BadName", "a column can't be named NaN or NA; .rename(columns=..) gives it a name", name)


def are_spread(**frames: Any) -> bool:
    """Returns whether one is a frame of Dask, which isn't imported for that. Raises Refused if one isn't a frame."""
    dask = sys.modules.get("dask.dataframe")
    of_dask = (dask.DataFrame,) if dask is not None else ()
    for name, one in frames.items():
        frame(name, one._meta if isinstance(one, of_dask) else one)
    return any(isinstance(one, of_dask) for one in frames.values())


def remedy_of(given: Any) -> str:
    """Frames of Dask have compute, frames of other libraries to_pandas, a Series has to_frame."""
    methods = [f".{method}()" for method in ("compute", "to_pandas", "to_frame") if hasattr(given, method)]
    return f"{methods[0]} makes one" if methods else "pandas.DataFrame(..) makes one, pandas.read_csv(..) reads one"
