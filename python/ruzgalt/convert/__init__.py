"""Columns of pandas as numbers, texts and seconds, and back. Frames and stores import these modules:

    arrays, errors          arrays of numpy; the exceptions
    kinds                   the kinds of points, types of pyarrow, days in a time zone
    named, checks           a frame's columns by name, and its period; the type of each argument
    points, instants        columns of points as seconds, and back; single points
    values                  columns as numbers and texts, and back; rows by index, missing ones too
"""
