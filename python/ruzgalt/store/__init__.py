"""Stores: tables with a past, which a program holds: docs/FRAMES.md.

    Store                   changes, commits, questions
    Script                  a store's changes as a script, with the names of its columns
    Picture                 a picture of an answer
    Changed                 a change that was done

Each module imports only from modules above it:

    parameters              the parameters of calls, for their docstrings
    tables                  a table's columns, their names and cells; commands
    lists                   answers of the program as columns
    labels                  labels and days of commits
    changes                 the commands of a change, and possible mistakes in it
    state                   tables, commands and program together
    queries                 the questions of a store
    opening                 a script as a store
    store                   the store: its changes, its files
"""
from ruzgalt.store.changes import Changed
from ruzgalt.store.store import Picture, Store
from ruzgalt.store.tables import Script

__all__ = ["Store", "Script", "Picture", "Changed"]
