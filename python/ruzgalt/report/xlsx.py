"""Answers as a workbook of Excel, by openpyxl: a sheet for each, in which points are dates and numbers are numbers."""
import io
import re
from datetime import datetime, time
from importlib import import_module
from pathlib import Path
from typing import Any, Optional, Sequence

from ruzgalt import files
from ruzgalt.errors import Misfit
from ruzgalt.report.export import refuse_present
from ruzgalt.report.picks import Pick
from ruzgalt.report.shown import Look
from ruzgalt.script.forms import read_point
from ruzgalt.script.records import visible
from ruzgalt.script.schemas import Column, Kind, Table

NEEDED = "openpyxl, which writes workbooks, isn't installed: `apt-get install python3-openpyxl`"
NAME = re.compile(r"(?!')[^\[\]:*?/\\]{1,31}(?<!')")
# Excel has no dates before this one that it counts rightly, 15 digits of a number, and this number of rows.
FIRST, DIGITS, ROWS = datetime(1900, 3, 1), 15, 1_048_576


def write(picks: Sequence[Pick], file: Path, look: Look, is_replacing: bool) -> None:
    """Writes the workbook, whole or not at all."""
    try:
        openpyxl = import_module("openpyxl")
    except ModuleNotFoundError:
        raise Misfit(NEEDED) from None
    refuse_present(file, is_replacing, "no workbook")
    for pick in picks:
        if not NAME.fullmatch(pick.name):
            remedy = f"give one of at most 31 characters, without []:*?/\\, such as {pick.answer.number}=answer"
            raise Misfit(f"{visible(pick.name)} can't be a sheet's name: {remedy}")
        if len(pick.answer.table.records) >= ROWS:
            raise Misfit(f"{pick.name} has {len(pick.answer.table.records):,} records, more than a sheet has rows")
    look.refuse_strangers(*(pick.answer.table for pick in picks))
    book = openpyxl.Workbook(write_only=True)
    for pick in picks:
        fill(book.create_sheet(pick.name), look.of(pick.answer.table), openpyxl)
    # On a full disk openpyxl would report a second error when its file is closed.
    made = io.BytesIO()
    book.save(made)
    with files.whole([file], is_replacing) as [path]:
        path.write_bytes(made.getvalue())


def fill(sheet: Any, table: Table, openpyxl: Any) -> None:
    """Fills a sheet with the table's header and records."""
    sheet.append(table.names)
    for record in table.records:
        sheet.append([cell_of(sheet, column, text, openpyxl) for column, text in zip(table.columns, record)])


def cell_of(sheet: Any, column: Column, text: Optional[str], openpyxl: Any) -> Any:
    """Returns the cell of a field. A text stays one, also if it begins like a formula."""
    if not text:
        return None
    try:
        cell = openpyxl.cell.WriteOnlyCell(sheet, value_of(column, text))
    except openpyxl.utils.exceptions.IllegalCharacterError:
        raise Misfit(f"{column.name}: {visible(text)} has a character that no workbook can have") from None
    if isinstance(cell.value, str):
        cell.data_type = "s"
    elif isinstance(cell.value, datetime):
        cell.number_format = "yyyy-mm-dd" if cell.value.time() == time() else "yyyy-mm-dd hh:mm:ss"
    elif "." in text:
        cell.number_format = f"0.{'0' * len(text.partition('.')[2])}"
    return cell


def value_of(column: Column, text: str) -> Any:
    """Returns a date or a number, or the text if Excel can't have it exactly."""
    if column.kind is Kind.POINT:
        point = read_point(text)
        return point if point and point >= FIRST else text
    if column.kind is Kind.TEXT or sum(map(str.isdigit, text)) > DIGITS:
        return text
    return float(text) if "." in text else int(text)
