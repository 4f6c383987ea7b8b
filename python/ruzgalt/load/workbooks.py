"""A sheet of an Excel workbook (.xlsx) is read from its XML: the values of its cells as the texts of a CSV file.

A date is a date there, and a number a number, so neither is read by its looks. A cell with a formula has the value that
was last computed.
"""
import io
import posixpath
import re
from datetime import timedelta
from decimal import Decimal
from functools import lru_cache
from itertools import islice
from typing import Dict, Iterator, List, NamedTuple, Optional, Sequence, Tuple
from xml.etree.ElementTree import Element, ParseError, fromstring, iterparse
from zipfile import BadZipFile, ZipFile

from ruzgalt.errors import Misfit
from ruzgalt.lint.rows import Doubt, Notes
from ruzgalt.load.dates import EXCEL_BEGINNING
from ruzgalt.load.numbers import CURRENCY, Figure
from ruzgalt.load.sheets import Piece, Records, composed, is_filled
from ruzgalt.script.forms import print_point
from ruzgalt.script.records import visible

BEGINNING = b"PK\x03\x04"
# A control character in a workbook's text, such as the CR of a line end: XML has no other way.
ESCAPED = re.compile("_x00((?!00)[01][0-9A-Fa-f])_")
# The codes of formats that are known by their number alone. Excel shows those of dates by the country.
CODES = {9: "0%", 10: "0.00%", **dict.fromkeys([*range(14, 23), *range(27, 37), *range(45, 48), *range(50, 59)], "d")}
# In a format's code texts, signs that only take space, and what is in brackets; what may be shown of them.
LITERAL = re.compile(r'"([^"]*)"|\\(.)|[_*].|\[(?:\$([^\]-]*))?[^\]]*\]')
ELAPSED, SCALED = re.compile(r"\[[hms]+\]", re.IGNORECASE), re.compile(r"[0#?],+(?![0#?,])")
# A spreadsheet keeps so many digits of a number. Days until 2 March 1900 are counted with a 29 February that wasn't.
DIGITS, LEAP, SINCE_1904 = 15, 60, 1462
FORMULA = Doubt("formula", "a formula's last computed value")
DAY = Doubt("day", "a spreadsheet turns 1-2 into a date, and the typed text is lost")
ROUNDED = Doubt("rounded", f"a spreadsheet keeps {DIGITS} digits, so the last ones are lost; save the column as text")


def is_workbook(data: bytes) -> bool:
    return data.startswith(BEGINNING)


class Style(NamedTuple):
    """How cells are shown: as points, in a currency, struck out, or by a code that says another number."""

    is_point: bool
    currency: str
    other: str
    is_struck: bool


class Workbook(Records):
    """The header of a sheet, and its other rows by pieces.

    Numbers have the decimal mark that is given, and never three decimals, which could be thousands as well.
    """

    def __init__(self, data: bytes, name: Optional[str], mark: str, skipped: int = 0) -> None:
        self.mark = mark
        self.header: List[str] = []
        self.found = Notes()
        self.merged: List[str] = []
        # The numbers of rows with a value that a reader of the sheet doesn't see, or sees struck out.
        self.unseen: List[int] = []
        self.struck: List[int] = []
        # The currencies of each column's formats.
        self.currencies: Dict[str, List[str]] = {}
        self.rows = self.read(data, name)
        for number, record in self.rows:
            if number > skipped and is_filled(number, record):
                self.header = list(map(composed, record))
                break

    def read(self, data: bytes, name: Optional[str]) -> Iterator[Tuple[int, List[str]]]:
        """Yields the number of each row with its texts, as many as the header has at least."""
        number = 0
        try:
            with ZipFile(io.BytesIO(data)) as file:
                book = Book(file, name)
                for _, element in iterparse(io.BytesIO(book.sheet)):
                    if element.tag.endswith("}row"):
                        number = int(element.get("r", number + 1))
                        record = self.record_of(element, number, book)
                        yield number, record + [""] * (len(self.header) - len(record))
                        element.clear()
                    elif element.tag.endswith("}mergeCell"):
                        self.merged.append(element.get("ref", ""))
        except (BadZipFile, ParseError, EOFError, IndexError, KeyError, NotImplementedError, ValueError) as error:
            why = visible(f"{type(error).__name__}: {error}")
            raise Misfit(f"it can't be read as an Excel workbook: {why}") from None

    def record_of(self, row: Element, number: int, book: "Book") -> List[str]:
        """Returns the texts of a row up to the last one that isn't empty, and notes what a reader may not see."""
        record: List[str] = []
        is_struck, place = False, -1
        for cell in row:
            reference = cell.get("r")
            place = place_of(reference.rstrip("0123456789")) if reference else place + 1
            style = book.styles[int(cell.get("s", 0))] if len(cell) else None
            text = self.text_of(cell, style, book, place, number) if style else ""
            if text:
                record.extend([""] * (place - len(record)))
                record.append(text)
                is_struck = is_struck or style is not None and style.is_struck
        while record and not record[-1].strip():
            record.pop()
        if self.header and record and row.get("hidden") in ("1", "true"):
            self.unseen.append(number)
        if self.header and is_struck:
            self.struck.append(number)
        return record

    def text_of(self, cell: Element, style: Style, book: "Book", place: int, number: int) -> str:
        """Returns a cell's value as a text, and notes what isn't what it seems."""
        parts = {part.tag.rpartition("}")[2]: part for part in cell}
        kind, value = cell.get("t", "n"), "v" in parts and parts["v"].text or ""
        doubts = []
        if "f" in parts:
            # An empty text is a value too, and only its kind is saved.
            if not value and kind != "str":
                what = "a formula without a saved value: open and save the file in a spreadsheet"
                raise Misfit(f"cell {cell.get('r')} has {what}")
            doubts.append(FORMULA)
        if kind == "inlineStr" and "is" in parts:
            text = unescaped(text_in(parts["is"]))
        elif not value or kind in ("str", "e", "d"):
            text = unescaped(value).replace("T00:00:00", "") if kind == "d" else unescaped(value)
        elif kind in ("s", "b"):
            # As English spreadsheets show it, and write it to CSV.
            text = book.strings[int(value)] if kind == "s" else ("FALSE", "TRUE")[int(value)]
        else:
            text = book.point(float(value)) if style.is_point else ""
            doubts.extend([DAY] if text else doubts_of_number(float(value), style))
            text = text or text_of_number(value, self.mark)
        if place < len(self.header):
            name = self.header[place]
            for doubt in doubts:
                self.found.add(name, doubt, number, text)
            if style.currency and kind == "n" and style.currency not in self.currencies.setdefault(name, []):
                self.currencies[name].append(style.currency)
        return text

    def take(self, count: int) -> Optional[Piece]:
        found = list(islice(self.rows, count))
        piece = Piece([number for number, _ in found], [record for _, record in found])
        return piece.where(is_filled) if found else None

    def faults(self, values: Sequence[int]) -> Iterator[str]:
        for name in (self.header[place] for place in values):
            units = self.currencies.get(name, [])
            if len(units) > 1:
                yield f"{visible(name)} has formats of {' and '.join(units)}: give each currency a column of its own"

    def notes(self, points: Sequence[int], values: Sequence[int]) -> Iterator[str]:
        """Reports rows that a reader of the sheet misses, and oddities of the columns of the period and of values."""
        for rows, what in ((self.unseen, "hidden or filtered out there"), (self.struck, "struck out")):
            if rows:
                count = f"{len(rows):,} rows are {what}, the first" if len(rows) > 1 else f"1 row is {what},"
                yield f"the sheet: {count} at line {rows[0]}, and all rows are loaded"
        if self.merged:
            more = f" and {len(self.merged) - 1:,} more ranges" if len(self.merged) > 1 else ""
            why = "and only the first has the value; the others are empty"
            yield f"the sheet: merged cells at {self.merged[0]}{more}, {why}"
        starts, others = ([self.header[place] for place in places] for places in (points, values))
        yield from self.found.notes(
            key for key in self.found.found if key[0] in others or key[0] in starts and key[1] == FORMULA.kind
        )


class Book:
    """The parts of a workbook's file: the XML of one sheet, the texts that cells share, and their styles."""

    def __init__(self, file: ZipFile, name: Optional[str]) -> None:
        book = fromstring(file.read("xl/workbook.xml"))
        parts = list(fromstring(file.read("xl/_rels/workbook.xml.rels")))
        targets = {one.get("Id"): posixpath.join("/xl", one.attrib["Target"])[1:] for one in parts}
        named = {one.get("Type", "").rpartition("/")[2]: targets[one.get("Id")] for one in parts}
        sheets = {
            one.attrib["name"]: next(targets[value] for key, value in one.items() if key.endswith("}id"))
            for one in book.iterfind(".//{*}sheet")
        }
        self.sheet = file.read(sheets[chosen(list(sheets), name)])
        is_there = named.get("sharedStrings") in file.namelist()
        shared = list(fromstring(file.read(named["sharedStrings"]))) if is_there else []
        self.strings = [unescaped(text_in(one)) for one in shared]
        self.styles = styles_of(fromstring(file.read(named["styles"]))) if "styles" in named else [style_of("", False)]
        properties = book.find(".//{*}workbookPr")
        has_1904 = properties is not None and properties.get("date1904") in ("1", "true")
        self.shift = SINCE_1904 if has_1904 else 0

    def point(self, number: float) -> str:
        """Returns the point of a number of days, to the second; nothing if there is no such day."""
        seconds = round((number + self.shift) * 86_400)
        days = seconds // 86_400
        try:
            found = EXCEL_BEGINNING + timedelta(days=days + (0 < days < LEAP), seconds=seconds % 86_400)
        except OverflowError:
            return ""
        return print_point(found) if days > 0 else str(found.time()) if days == 0 else ""


def chosen(names: Sequence[str], name: Optional[str]) -> str:
    """Returns the name of the sheet that is read."""
    there = ", ".join(map(visible, names))
    if name is None and len(names) != 1:
        raise Misfit(f"the workbook has the sheets {there}: choose one by --sheet")
    if name is not None and name not in names:
        raise Misfit(f"--sheet {visible(name)}: no such sheet; the workbook has {there}")
    return names[0] if name is None else name


def styles_of(sheet: Element) -> List[Style]:
    """Returns the styles that cells name by their numbers."""
    codes = {int(one.attrib["numFmtId"]): one.attrib["formatCode"] for one in sheet.iterfind(".//{*}numFmt")}
    codes = {**CODES, **codes}
    struck = [one.find("{*}strike") for one in sheet.iterfind("{*}fonts/{*}font")]
    are_struck = [one is not None and one.get("val", "1") not in ("0", "false") for one in struck]
    cells = ((int(one.get("numFmtId", 0)), int(one.get("fontId", 0))) for one in sheet.iterfind("{*}cellXfs/{*}xf"))
    return [style_of(codes.get(number, ""), are_struck[font]) for number, font in cells]


def style_of(code: str, is_struck: bool) -> Style:
    """Returns the style of a format's code, such as `#,##0.00 [$€-407]`. Its part for positive numbers counts."""
    bare = LITERAL.sub("", code).partition(";")[0]
    shown = "".join(map("".join, LITERAL.findall(code.partition(";")[0])))
    unit = (shown + "".join(re.findall("[$\u00a3\u00a5\u20ac%]", bare))).strip(" \u00a0()-")
    is_currency, is_long = bool(re.fullmatch(CURRENCY, unit)), bool(ELAPSED.search(code))
    is_other = is_long or "%" in bare or SCALED.search(bare) or any(map(str.isalpha, unit)) and not is_currency
    is_point = not is_long and re.search("[dmyhs]", bare.replace("General", ""), re.IGNORECASE) is not None
    return Style(is_point, unit * is_currency, code if is_other and not is_point else "", is_struck)


def doubts_of_number(number: float, style: Style) -> Iterator[Doubt]:
    if abs(number) >= 10 ** DIGITS:
        yield ROUNDED
    if style.other:
        yield Doubt(style.other, f"its format, {visible(style.other)}, shows it otherwise")


def text_of_number(value: str, mark: str) -> str:
    """Returns a number with the digits that a spreadsheet keeps."""
    number = Decimal(value) if value.lstrip("-").isdecimal() else Decimal(format(float(value), f".{DIGITS}g"))
    whole, _, decimals = format(number, "f").partition(".")
    decimals = decimals.rstrip("0")
    more = "0" if len(decimals) == 3 else ""
    return Figure(f"{whole}{mark}{decimals}{more}" if decimals else whole)


def text_in(element: Element) -> str:
    """Returns the text of an element, of its parts with styles too, but without a guide to its pronunciation."""
    parts = (part for part in element if not part.tag.endswith("}rPh"))
    return "".join(one.text or "" for part in parts for one in part.iter() if one.tag.endswith("}t"))


def unescaped(text: str) -> str:
    return ESCAPED.sub(lambda found: chr(int(found[1], 16)), text)


@lru_cache(1 << 14)
def place_of(letters: str) -> int:
    """Returns the index of a column: that of A is 0, and of AB 27."""
    number = 0
    for letter in letters:
        number = number * 26 + ord(letter) - ord("A") + 1
    return number - 1
