"""Facts that hold for a time: a script of dipq with its answers, and frames of pandas and Dask.

    import ruzgalt
    ruzgalt.join(pay, rates, on="person")      frames, which need pandas

    from ruzgalt import answers
    for answer in answers.of("examples/pay.csv", "examples/pay.csv.stdout"):
        print(answer.number, answer.line, answer.command.text, answer.table.names)

Frames need pandas, and everything else Python 3.9 and its library. Importing it changes nothing of the process.
Each folder is about one subject, and its modules import only from folders and modules above it:

    errors              the exceptions with which tools and calls end early
    which               which program and which library answer, and which version this is
    kernel              the library over arrays of numpy, and the program that a store keeps
    files, progress     files that are written whole; a line that shows how far a call is
    periods             pieces of the calendar, and rules of rounding
    script              a script and its answers: records, commands, tables, refusals, versions and changes
    lint                possible mistakes
    load                a CSV file with a header becomes a load
    report              answers as CSV, JSON, tables of SQLite, pictures and one page for a browser
    cli                 the command lines
    convert             columns of pandas as numbers, texts and seconds, and back
    frames              joins and divisions of frames
    store               stores: tables with a past
"""
from importlib import import_module
from importlib.util import find_spec
from typing import TYPE_CHECKING, Any, List

__all__ = [
    "join", "anti", "agg", "dip", "at", "during", "coalesce", "gaps", "overlaps", "spread", "check",
    "Store", "Script", "Picture", "Division", "Checked", "Changed", "Refused", "Stopped", "Doubt",
    "frames", "__version__",
]
OF_STORES = ("Store", "Script", "Picture", "Changed")

if TYPE_CHECKING:
    from ruzgalt import frames
    from ruzgalt.frames import (
        Checked, Division, Doubt, Refused, Stopped, agg, anti, at, check, coalesce, dip, during, gaps, join, overlaps,
        spread,
    )
    from ruzgalt.store import Changed, Picture, Script, Store
    from ruzgalt.script import answers  # noqa: F401

    __version__: str
else:
    # Type checkers would take any name for one that is there.
    def __getattr__(name: str) -> Any:
        """Returns the version, the answers of scripts, or a call of frames, which needs pandas and imports it now."""
        if name == "__version__":
            return import_module("ruzgalt.which").version()
        if name == "answers":
            return import_module("ruzgalt.script.answers")
        if name not in __all__:
            raise AttributeError(f"module 'ruzgalt' has no attribute {name!r}")
        try:
            frames = import_module("ruzgalt.store" if name in OF_STORES else "ruzgalt.frames")
            return frames if name == "frames" else getattr(frames, name)
        except ModuleNotFoundError as missing:
            if missing.name not in ("numpy", "pandas"):
                raise
            raise ImportError(f"ruzgalt.{name} needs {missing.name}: apt-get install python3-pandas") from None


def __dir__() -> List[str]:
    """Returns the names that can be imported: a program that lists names also asks for each."""
    return sorted(__all__) if find_spec("pandas") else ["__version__"]


def load_tests(_: Any, found: Any, __: Any) -> Any:
    """The package has no tests, so unittest needn't import its modules to find some."""
    return found
