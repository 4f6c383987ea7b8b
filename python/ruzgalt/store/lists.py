"""Answers of the program that are lists of records, as columns: by numpy, exactly for each text.

A text may have quotes, line ends and zero bytes.
"""
from __future__ import annotations

from contextlib import contextmanager
from typing import Callable, Dict, Iterator, List

import numpy as np

from ruzgalt.convert import points
from ruzgalt.convert.arrays import NO_INTS, Bytes, Cells, Ints, joined, narrowed, of_objects
from ruzgalt.convert.kinds import DAY
from ruzgalt.kernel.live import unreadable

COMMA, LINE, QUOTE, DASH, ZERO = b',\n"-0'
# That many records are read at a time: a processor's own memory holds them.
RECORDS = 20_000
# How many bytes YYYY-MM-DDThh:mm:ss has, and a date.
WIDTH, DATE = 19, 10
PADDING = bytes(WIDTH)


@contextmanager
def reading() -> Iterator[None]:
    """Raises Stopped for errors of numpy and Python in bytes that aren't answers."""
    try:
        yield
    except (IndexError, ValueError, OverflowError) as error:
        raise unreadable(error) from None


def columns_of(answer: bytes, kinds: str) -> List[Cells]:
    """Returns the columns of a list, which its `end` counts, by kinds of READERS, from field 2 on. Raises Stopped."""
    # A number is read with the bytes around it, also in the first record and in the last.
    data = np.frombuffer(b"".join([PADDING, answer, PADDING]), np.uint8)
    marks = ends_of_fields(data)
    # For each record the index of its last mark. The last record is the `end`.
    last = np.flatnonzero(data[marks] == LINE)
    count = len(last) - 1
    if answer[answer.rfind(b"\n", 0, -1) + 1:] != b"end,%d\n" % count:
        raise unreadable("a list has the wrong end")

    def part(begin: int) -> List[Cells]:
        first = last[begin - 1] + 1 if begin else 0
        end = min(begin + RECORDS, count)
        return part_of(data, marks[first:last[end - 1] + 1], end - begin, kinds)

    parts = list(map(part, range(0, count, RECORDS)))
    return [joined(list(column)) for column in zip(*parts)] or [EMPTY[one] for one in kinds if one in EMPTY]


def ends_of_fields(data: Bytes) -> Ints:
    """Returns the indices of commas and line ends. A field that has a quote is quoted, so quotes come in pairs."""
    is_end, quotes = (data == COMMA) | (data == LINE), data == QUOTE
    if quotes.any():
        is_end &= (np.cumsum(quotes, dtype=np.uint8) & 1) == 0
    return np.flatnonzero(is_end)


def part_of(data: Bytes, marks: Ints, count: int, kinds: str) -> List[Cells]:
    """Returns columns of `count` records with these ends of fields. All must have the same number of fields."""
    if len(marks) % count or (data[marks.reshape(count, -1)[:, -1]] != LINE).any():
        raise unreadable("records of a list have different numbers of fields")
    marks = marks.reshape(count, -1)
    if marks.shape[1] <= len(kinds):
        raise unreadable("records of a list have too few fields")
    with reading():
        return [
            READERS[kind](data, marks[:, place] + 1, marks[:, place + 1])
            for place, kind in enumerate(kinds) if kind in READERS
        ]


def digits_of(data: Bytes, start: Ints, width: int) -> Bytes:
    """Returns `width` bytes from each index on as digits, a row for each index in them; other bytes aren't digits."""
    windows: Bytes = np.ndarray((len(data) - width + 1, width), np.uint8, data, strides=(1, 1))
    digits: Bytes = windows[start] - np.uint8(ZERO)
    return np.ascontiguousarray(digits.T)


def number_of(digits: Bytes) -> Ints:
    """Returns the numbers with these digits."""
    numbers: Ints = digits[0].astype(np.int64)
    for row in digits[1:]:
        numbers = 10 * numbers + row
    return numbers


def ints(data: Bytes, start: Ints, stop: Ints) -> Cells:
    """Returns int64, or Python's numbers if one has more than 64 bits. A dash without digits is 0."""
    is_negative = data[start] == DASH
    count = stop - start - is_negative
    width = int(count.max())
    if width >= WIDTH:
        return narrowed(of_objects([int(text) for text in texts(data, start, stop)]))
    digits = digits_of(data, stop - width, width)
    digits[np.arange(width, 0, -1)[:, None] > count] = 0
    numbers = number_of(digits) if width else np.zeros(len(start), np.int64)
    return np.where(is_negative, -numbers, numbers)


def instants(data: Bytes, start: Ints, stop: Ints) -> Cells:
    """Returns seconds from 1970 on."""
    has_time = stop - start == WIDTH
    if (stop - start != DATE)[~has_time].any():
        raise ValueError("a point has another form")
    digits = digits_of(data, start, DATE)
    seconds = points.day_of(number_of(digits[:4]), number_of(digits[5:7]), number_of(digits[8:])) * DAY
    if has_time.any():
        hours, minutes, rest = (number_of(digits_of(data, start[has_time] + place, 2)) for place in (11, 14, 17))
        seconds[has_time] += 3_600 * hours + 60 * minutes + rest
    return seconds


def texts(data: Bytes, start: Ints, stop: Ints) -> Cells:
    low = int(start[0])
    part = data[low:int(stop[-1])]
    whole = part.tobytes()
    bounds = zip((start - low).tolist(), (stop - low).tolist())
    if (part < 128).all():
        text = whole.decode("ascii")
        cells = of_objects([text[first:end] for first, end in bounds])
    else:
        cells = of_objects([whole[first:end].decode() for first, end in bounds])
    for place in np.flatnonzero((data[start] == QUOTE) & (stop > start)):
        cells[place] = cells[place][1:-1].replace('""', '"')
    return cells


# p a point, i a number, t a text; any other letter leaves its field out.
READERS: Dict[str, Callable[[Bytes, Ints, Ints], Cells]] = {"p": instants, "i": ints, "t": texts}
EMPTY: Dict[str, Cells] = {"p": NO_INTS, "i": NO_INTS, "t": np.empty(0, object)}
