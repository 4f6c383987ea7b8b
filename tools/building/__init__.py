"""Builds crates by Rattle's compiler itself, for the programs of tools/. Needs only Python 3.9.

A module uses only the ones above it:

    crates      the crates of a repository, and which ones each uses
    copies      private copies of them
    toolchain   the toolchain on the PATH, and the words that its programs are called with
    kept        libraries that were proved before, and are kept
    commands    commands that run side by side, and end with the program that began them
    schedule    which crate is next, with how many jobs
    progress    how far a build is, on standard error
"""
