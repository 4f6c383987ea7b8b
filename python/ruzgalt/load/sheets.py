"""A CSV file with a header, as spreadsheets and databases write it: its bytes, its parting character, its records.

Raises Misfit, with the line, if it isn't such a file.
"""
import csv
import io
import re
import unicodedata
from itertools import islice
from typing import Callable, Dict, Iterable, Iterator, List, NamedTuple, Optional, Sequence

from ruzgalt.errors import Misfit
from ruzgalt.script.records import visible

# How many records are converted at once, column by column.
PIECE = 1 << 9
# In how many records after the first one a header is searched.
SEARCHED = 20
# Encodings that files have, the commonest first, and the edges of a word in bytes.
ENCODINGS = ("cp1252", "cp850", "mac_roman", "latin_1")
WORD_START, WORD_END = re.compile(rb"(?s).*[,;\t\r\n\"]"), re.compile(rb"[,;\t\r\n\"]")
# A quote can't be a separator, since it encloses fields.
SEPARATOR = re.compile(r'"?sep=([^"])"?')


class Piece(NamedTuple):
    """Records, each with the line on which it begins."""

    lines: Sequence[int]
    records: List[List[str]]

    def where(self, is_kept: Callable[[int, List[str]], bool]) -> "Piece":
        """Returns the records that are kept."""
        kept = [pair for pair in zip(*self) if is_kept(*pair)]
        return Piece([line for line, _ in kept], [record for _, record in kept])


def is_filled(_: int, record: Sequence[str]) -> bool:
    return any(map(str.strip, record))


class Records:
    """A file's header, and its other records by pieces."""

    header: List[str]

    def take(self, count: int) -> Optional[Piece]:
        """Returns at most `count` of the next records, without empty ones; None after the last."""
        raise NotImplementedError

    def faults(self, values: Sequence[int]) -> Iterable[str]:
        """Returns what is wrong with the columns of values at these indices, after all was read."""
        return ()

    def notes(self, points: Sequence[int], values: Sequence[int]) -> Iterable[str]:
        """Returns notes on the columns of points and of values, after all was read."""
        return ()


def pieces_of(sheet: Records) -> Iterator[Piece]:
    """Yields the records after the header by pieces."""
    piece = sheet.take(PIECE)
    while piece is not None:
        yield piece
        piece = sheet.take(PIECE)


def line_with(sheet: Records, names: Sequence[str]) -> int:
    """Returns the line of one of the next records that has all of these names, or 0."""
    piece = sheet.take(SEARCHED) or Piece([], [])
    return next((line for line, record in zip(*piece) if set(names) <= set(map(composed, record))), 0)


def composed(name: str) -> str:
    """The name of a column, with one character for a letter and its accent: two programs write it otherwise."""
    return unicodedata.normalize("NFC", name)


def refuse_strange(data: bytes) -> None:
    """Refuses bytes that aren't text."""
    if data.startswith(b"\xd0\xcf\x11\xe0"):
        what = "this is an old spreadsheet workbook, or one with a password"
        raise Misfit(f"{what}: save it as .xlsx without a password, or as CSV UTF-8")
    if data.startswith(b"\x1f\x8b"):
        raise Misfit("this is a compressed file: `gunzip -c FILE` unpacks it")
    if data.count(0) * 3 > len(data) and not data.startswith((b"\xff\xfe", b"\xfe\xff")):
        form = "utf-16-le" if data[1:2] == b"\0" else "utf-16-be"
        raise Misfit(f"a third of its bytes are zero, so it isn't UTF-8; use --encoding {form}")
    if b"\0" in data and not data.startswith((b"\xff\xfe", b"\xfe\xff")):
        line = data.count(b"\n", 0, data.index(b"\0")) + 1
        raise Misfit(f"line {line}: a zero byte, of {data.count(0)} in the file: `tr -d '\\000'` removes them")


def decoded(data: bytes, encoding: Optional[str]) -> str:
    """Returns the file as a text. Raises Misfit if it isn't one in this encoding, by default UTF-8."""
    if encoding is None:
        refuse_strange(data)
    try:
        return data.decode(encoding or "utf-8-sig")
    except UnicodeError as error:
        # Errors of a few encodings don't name the byte.
        start = getattr(error, "start", 0)
        wrong = f"byte {start + 1} isn't {encoding or 'UTF-8'}"
        raise Misfit(wrong + ("" if encoding else f"; use {offered(data, start)}")) from None


def offered(data: bytes, index: int) -> str:
    """Returns the encodings that the file may have, each with its reading of the word with this byte."""
    if data.startswith((b"\xff\xfe", b"\xfe\xff")):
        return "--encoding utf-16"
    start, end = WORD_START.search(data, 0, index), WORD_END.search(data, index)
    word = data[start.end() if start else 0:end.start() if end else len(data)]
    readings: Dict[str, str] = {}
    for encoding in ENCODINGS:
        try:
            data.decode(encoding)
            readings.setdefault(word.decode(encoding), encoding)
        except UnicodeDecodeError:
            continue
    return ", or ".join(f"--encoding {one} for '{visible(text)}'" for text, one in readings.items())


class Sheet(Records):
    """The file's header, and its other records by pieces.

    A reader that takes any quotes takes several rows for one, and they are lost: so it does for two stray quotes, each
    at the edge of a field. So a field with a line break is refused.
    """

    def __init__(self, data: bytes, encoding: Optional[str] = None, skipped: int = 0) -> None:
        whole = decoded(data, encoding)
        lines = io.TextIOWrapper(io.BytesIO(data), encoding or "utf-8-sig", newline="")
        begun = sum(len(lines.readline()) for _ in range(skipped))
        first = re.compile(r"[^\r\n]*\S[^\r\n]*|$").search(whole, begun)
        text = first[0] if first else ""
        said = SEPARATOR.fullmatch(text)
        mark = said[1] if said else max(",;\t", key=re.sub(r'"[^"]*"?', "", text).count)
        self.reader = csv.reader(lines, delimiter=mark, strict=True)
        self.skipped, self.line = skipped, skipped + 1
        if said:
            self.next_record()
        self.header = list(map(composed, self.next_record()))

    def next_record(self) -> List[str]:
        """The next record that isn't empty; after the last an empty one."""
        return next((record for piece in iter(lambda: self.take(1), None) if piece for record in piece.records), [])

    def take(self, count: int) -> Optional[Piece]:
        records: List[List[str]] = []
        wrong = None
        try:
            records.extend(islice(self.reader, count))
        except csv.Error as error:
            wanted = "a field that begins with a quote must end with one, and quotes inside it are doubled"
            wrong = f"{error}: {wanted}"
        lines = self.lines_of(records)
        if wrong:
            raise Misfit(f"line {self.line}: {wrong}")
        # A spreadsheet may have lines of empty fields before the header, and after the last row.
        firsts = [record[0] for record in records if record]
        if len(firsts) == len(records) and all(map(str.strip, firsts)):
            return Piece(lines, records) if records else None
        return Piece(lines, records).where(is_filled)

    def lines_of(self, records: List[List[str]]) -> Sequence[int]:
        """The lines on which the records begin that were read."""
        first = self.line
        if self.skipped + self.reader.line_num - first + 1 == len(records):
            self.line += len(records)
            return range(first, self.line)
        lines = []
        for record in records:
            more = sum(field.count("\n") + field.count("\r") - field.count("\r\n") for field in record)
            if more:
                what = f"a field in quotes continues to line {self.line + more}"
                remedy = "is a quote missing or too many? if not, replace the line break by a space"
                raise Misfit(f"line {self.line}: {what}: {remedy}")
            lines.append(self.line)
            self.line += 1
        return lines
