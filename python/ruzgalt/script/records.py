"""Records of CSV as dipq reads and prints them: read from a text one after another, and printed.

Bytes that aren't UTF-8 are kept in texts (`surrogateescape`), so printing gives the same bytes again. Long
lists are kept as positions. A process limits how long a field may be (csv.field_size_limit): a tool sets the limit
once, and other callers set it for a while.
"""
import csv
import io
import re
import unicodedata
from array import array
from contextlib import contextmanager
from functools import cached_property
from itertools import chain, islice
from threading import RLock
from types import SimpleNamespace
from typing import Any, Callable, Iterable, Iterator, List, NamedTuple, Optional, Sequence, Tuple, TypeVar

from ruzgalt.errors import Misfit

# The most characters of a record in a message.
LONGEST = 120
# More characters than any script has.
LONGEST_FIELD = 1 << 27
LIMITING = RLock()
END = ["end"]
# How many records of one form are processed at once.
PIECE = 1 << 13
# How many lines apart the bytes are that are kept to find a line.
STRIDE = 1 << 8
# The most rows that are searched for possible mistakes row by row.
LOOKED_AT = 100_000
LIST_END = re.compile(rb"\nend,(\d{1,9})\n")
BYTE_ORDER_MARK = b"\xef\xbb\xbf"
# Python 3.9's csv takes no zero byte, so a character replaces it that no decoded text has.
ZERO, STAND_IN = "\0", "\ud800"
# Letters, marks and a sign that have no ink, though Python counts them as printable.
BLANK = re.compile(
    "[\u034f\u115f\u1160\u17b4\u17b5\u180b-\u180f\u2800\u3164\ufe00-\ufe0f\uffa0\U000e0100-\U000e01ef]"
)


class Record(NamedTuple):
    """A record: its number from 1 on, the line on which it begins, its fields, and whether --ask asks it."""

    number: int
    line: int
    fields: Sequence[str]
    is_asked: bool = False

    @property
    def where(self) -> str:
        """Returns its line, for a person; a question of --ask isn't in a file."""
        return "--ask" if self.is_asked else f"line {self.line}"

    @property
    def word(self) -> str:
        return self.fields[0]

    @property
    def text(self) -> str:
        return to_record(self.fields)

    def is_end(self) -> bool:
        return list(self.fields) == END


# Printing.

def encode(text: str) -> bytes:
    return text.encode("utf-8", "surrogateescape")


def short(text: str) -> str:
    """Returns the text in one line; of a long one the beginning."""
    line = " ".join(text.splitlines())
    return line if len(line) <= LONGEST else line[:LONGEST - 2] + ".."


def visible(text: str) -> str:
    """Returns the text in one line, with codes for characters that can't be seen or look like ASCII."""
    return short("".join(one if is_plain(one) else code_of(one) for one in text))


def is_plain(character: str) -> bool:
    return character.isascii() and character.isprintable() or unicodedata.category(character)[0] in "LM"


def is_seen(character: str) -> bool:
    return character.isprintable() and not BLANK.match(character)


def code_of(character: str) -> str:
    """Returns the code of a character. A byte that isn't UTF-8 is a surrogate here."""
    if 0xdc80 <= ord(character) <= 0xdcff:
        return f"\\x{ord(character) - 0xdc00:02x}"
    return character.encode("unicode_escape").decode()


def to_text(records: Iterable[Sequence[str]]) -> str:
    """Returns the records, each with a line end.

    The lines of Python's writer end with CR and LF, so it quotes a field with either; the ends are replaced.
    """
    lines: List[str] = []
    csv.writer(SimpleNamespace(write=lines.append), lineterminator="\r\n").writerows(records)
    return "".join([line[:-2] + "\n" for line in lines])


def to_record(fields: Sequence[str]) -> str:
    return to_text([fields])[:-1]


# Reading.

@contextmanager
def long_fields() -> Iterator[None]:
    """Lets fields be as long as any are, and then as long as before. Threads wait for one another."""
    with LIMITING:
        before = csv.field_size_limit(LONGEST_FIELD)
        try:
            yield
        finally:
            csv.field_size_limit(before)


class Place(NamedTuple):
    """The position of a record, or of empty lines before it: its line and its number."""

    line: int
    number: int


class Source:
    """The bytes of a script or of answers. Records after the first `own_lines` lines are questions of --ask."""

    def __init__(self, data: bytes, own_lines: Optional[int] = None) -> None:
        self.data, self.own_lines, self.has_zero = data, own_lines, b"\0" in data
        # Lines end with LF, or with CR and LF, unless some end with only CR.
        self.line_end = re.compile(b"\n" if data.count(b"\r") == data.count(b"\r\n") else b"\r\n?|\n")

    def starts_from(self, byte: int) -> Iterator[int]:
        """Yields where lines begin, from this byte on, with which one begins."""
        return chain([byte], (found.end() for found in self.line_end.finditer(self.data, byte)))

    @cached_property
    def starts(self) -> Sequence[int]:
        """The starts of a few lines, each STRIDE lines after the one before it."""
        return array("q", islice(self.starts_from(0), 0, None, STRIDE))

    def byte_of(self, line: int) -> int:
        if line == 1:
            return len(BYTE_ORDER_MARK) if self.data.startswith(BYTE_ORDER_MARK) else 0
        place, rest = divmod(line - 1, STRIDE)
        near = self.starts[place] if place < len(self.starts) else len(self.data)
        return next(islice(self.starts_from(near), rest, None), len(self.data))


class Reader:
    """The records of a source from a position on. Empty lines aren't records."""

    def __init__(self, source: Source, place: Place = Place(1, 1)) -> None:
        self.source = source
        self.begin(place)

    def begin(self, place: Place) -> None:
        self.line, self.number = place
        self.first_line, buffer = self.line, io.BytesIO(self.source.data)
        buffer.seek(self.source.byte_of(self.line))
        lines = io.TextIOWrapper(buffer, "utf-8", "surrogateescape", newline="")
        has_zero = self.source.has_zero
        self.csv = csv.reader((line.replace(ZERO, STAND_IN) for line in lines) if has_zero else lines)
        found = self.records()
        self.fields = ([one.replace(STAND_IN, ZERO) for one in fields] for fields in found) if has_zero else found

    def records(self) -> Iterator[List[str]]:
        """Yields the fields of each record. Raises Misfit if a field is too long for the process."""
        try:
            yield from self.csv
        except csv.Error as error:
            remedy = "is a quote missing? csv.field_size_limit(..) takes longer fields"
            raise Misfit(f"line {self.first_line + self.csv.line_num - 1}: {error}; {remedy}") from None

    @property
    def place(self) -> Place:
        """The position of the next record."""
        return Place(self.line, self.number)

    def __iter__(self) -> Iterator[Record]:
        return iter(self.next, None)

    def next(self) -> Optional[Record]:
        for line, fields in self.numbered():
            return self.made(line, fields)
        return None

    def numbered(self) -> Iterator[Tuple[int, List[str]]]:
        """Yields the fields of each record, with the line on which it begins."""
        for fields in self.fields:
            begun, self.line = self.line, self.first_line + self.csv.line_num
            if fields:
                yield begun, fields

    def made(self, line: int, fields: List[str]) -> Record:
        own_lines = self.source.own_lines
        self.number += 1
        return Record(self.number - 1, line, fields, own_lines is not None and line > own_lines)

    def block(self) -> "Block":
        """Passes over the records up to the one that is just `end`, or to the last, and returns them."""
        place, count, is_ended = self.place, 0, False
        for fields in self.fields:
            if fields:
                count += 1
                if fields == END:
                    is_ended = True
                    break
        self.line = self.first_line + self.csv.line_num
        self.number += count
        return Block(self.source, place, count, self.line, is_ended)

    def after_list(self, word: str) -> Optional[Record]:
        """Returns the record after a list of dipq's, whose first record was read.

        In a long list only the `end,N` is searched: it isn't in a field if the number of quotes before it is even.
        """
        number = self.number
        for line, fields in islice(self.numbered(), PIECE):
            if fields[0] != word:
                return self.made(line, fields)
            self.number += 1
        data, begun = self.source.data, self.source.byte_of(self.line)
        for found in LIST_END.finditer(data, begun - 1):
            end = found.start() + 1
            if data.count(b'"', begun, end) % 2 == 0:
                self.begin(Place(self.line + count_lines(data[begun:end]), number - 1 + int(found[1])))
                break
        return self.next()


def count_lines(text: bytes) -> int:
    """Returns the number of line ends: LF, CR, or both of them."""
    return text.count(b"\n") + text.count(b"\r") - text.count(b"\r\n")


T = TypeVar("T")
Row = Sequence[Optional[str]]


class Rows(Sequence[T]):
    """A sequence of known length, which is made again each time that it is read."""

    def __init__(self, size: int, read: Callable[[], Iterator[T]]) -> None:
        self.size, self.read = size, read

    def __len__(self) -> int:
        return self.size

    def __iter__(self) -> Iterator[T]:
        return self.read()

    def __getitem__(self, place: Any) -> Any:
        return list(self)[place]

    def __eq__(self, other: object) -> bool:
        return isinstance(other, Sequence) and list(self) == list(other)


class Block(Rows[Record]):
    """The records of a block with its `end`, if it has one."""

    def __init__(self, source: Source, place: Place, size: int, end: int, is_ended: bool) -> None:
        super().__init__(size, lambda: islice(Reader(source, place), size))
        self.source, self.place, self.end, self.is_ended = source, place, end, is_ended

    def bytes(self) -> bytes:
        """Returns the lines of its records, and its `end`."""
        return self.source.data[self.source.byte_of(self.place.line):self.source.byte_of(self.end)]

    @property
    def rows(self) -> Rows[Record]:
        return Rows(self.size - self.is_ended, lambda: islice(iter(self), self.size - self.is_ended))

    def numbered(self) -> Iterator[Tuple[int, List[str]]]:
        """Yields the fields of each record without the `end`, with its line."""
        return islice(Reader(self.source, self.place).numbered(), self.size - self.is_ended)
