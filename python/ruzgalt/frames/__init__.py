"""Frames of pandas and of Dask, joined, counted and divided by the time for which their rows hold: docs/FRAMES.md.

Modules. Each imports modules above it, and modules of ruzgalt.convert:

    sides                   period rows on their way to the library, with key codes
    worker, progress        the worker of a task of Dask; how long a call has taken
    split                   calls of the library; rows past its limit in parts
    options, answer         the table of options; the columns of an answer
    doubts                  possible mistakes
    measures, groups        functions of an aggregate; agg, coalesce, gaps, at and during
    pairs, division         join, anti and overlaps; dip and check
    amounts                 spread
    partitions              frames of Dask
    calls                   the calls with their docstrings
"""
from ruzgalt.convert.errors import Doubt, Refused
from ruzgalt.errors import Stopped
from ruzgalt.frames.calls import agg, anti, at, check, coalesce, dip, during, gaps, join, overlaps, spread
from ruzgalt.frames.division import Checked, Division

__all__ = [
    "join", "anti", "agg", "dip", "at", "during", "coalesce", "gaps", "overlaps", "spread",
    "check", "Checked", "Division", "Refused", "Stopped", "Doubt",
]
