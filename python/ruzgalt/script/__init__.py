"""A script and its answers: records, commands, tables, refusals, runs of the program, versions and changes.

`language` has the table of the language's commands.
"""
