"""Workbooks of Excel that tools/csv-to-load reads, compared with the values that were put into them."""
import csv
import importlib.util
import io
import tempfile
import unittest
import zipfile
from datetime import date, datetime, timedelta
from pathlib import Path
from typing import Any, Callable, Dict, List, NamedTuple, Optional, Sequence
from unittest import mock

from ruzgalt.load import workbooks
from tests.by_hypothesis import drawn, given, st
from tests.support import ToolCase, run
from tests.test_answers_hostile import PIECES

DRAWN = drawn(60)
# XML has no other control characters, and one line end.
TEXTS = st.lists(
    st.sampled_from([one for one in PIECES if one.isprintable() or one in ("\n", "\t")]), max_size=4,
).map("".join)
POINTS = st.datetimes(datetime(1900, 3, 1), datetime(2098, 12, 31)).map(lambda point: point.replace(microsecond=0))
LOADS = ["tools/csv-to-load", "t", "From", "To"]


class Row(NamedTuple):
    start: datetime
    end: date
    text: str
    whole: int
    cents: int

    @property
    def values(self) -> List[Any]:
        """Returns the cells' values: a day is a date, and cents are a number with decimals."""
        return [self.start, self.end, self.text, self.whole, self.cents / 100]

    @property
    def fields(self) -> List[str]:
        start = self.start.isoformat()
        return ["row", start.replace("T00:00:00", ""), str(self.end), self.text, str(self.whole), str(self.cents)]


ROWS = st.lists(st.builds(
    lambda start, days, *others: Row(start, start.date() + timedelta(days), *others),
    st.one_of(POINTS, POINTS.map(lambda point: datetime(*point.timetuple()[:3]))), st.integers(1, 400), TEXTS,
    st.integers(-10**14, 10**14), st.integers(-10**12, 10**12),
), max_size=5)


# The codes of formats that a workbook has by their number alone.
CODES = {10: "0.00%"}
OPENPYXL: Any = importlib.import_module("openpyxl") if importlib.util.find_spec("openpyxl") else None


def workbook(sheets: Dict[str, Sequence[Sequence[Any]]], change: Optional[Callable[[Any], Any]] = None) -> bytes:
    """Returns a workbook of these sheets, which `change` may alter."""
    book = OPENPYXL.Workbook()
    book.remove(book.active)
    for name, rows in sheets.items():
        sheet = book.create_sheet(name)
        for number, row in enumerate(rows, 1):
            for place, one in enumerate(row, 1):
                value, code = one if isinstance(one, Styled) else (one, None)
                cell = sheet.cell(number, place, value)
                if code is not None:
                    cell.number_format = CODES[code] if code in CODES else code
                # A text is one, whatever it begins with.
                cell.data_type = "s" if isinstance(value, str) and not value.startswith("=SUM") else cell.data_type
        if change is not None:
            change(sheet)
    data = io.BytesIO()
    book.save(data)
    return data.getvalue()


def of_values(*values: Any) -> bytes:
    """Returns a workbook with a row for each value."""
    return workbook({"A": [["From", "To", "N"], *([*PERIOD, value] for value in values)]})


def computed(data: bytes, value: str, kind: str = "n") -> bytes:
    """Returns the workbook with a saved value after each formula, which openpyxl doesn't write."""
    made = io.BytesIO()
    with zipfile.ZipFile(io.BytesIO(data)) as old, zipfile.ZipFile(made, "w") as new:
        for name in old.namelist():
            text = old.read(name)
            for empty in (b"</f><v></v>", b"</f><v />", b"</f><v/>"):
                text = text.replace(empty, b"</f><v>%s</v>" % value.encode())
            text = text.replace(b"><f>", b' t="%s"><f>' % kind.encode())
            new.writestr(name, text)
    return made.getvalue()


def loaded(data: bytes, words: List[str]) -> Any:
    with tempfile.TemporaryDirectory() as folder:
        file = Path(folder, "file.xlsx")
        file.write_bytes(data)
        return run([*LOADS, *words, "--file", str(file)])


class Styled(NamedTuple):
    """A value with a format."""

    value: Any
    code: Any


PERIOD = [date(2024, 1, 1), date(2024, 2, 1)]
HEADER = ["From", "To", "Text", "Whole", "Cents"]


class Case(ToolCase):
    def made(self, data: bytes, words: Sequence[str], *fields: str, period: str = "2024-01-01,2024-02-01") -> str:
        """Tests that the load has a row for each of these fields, and returns the report."""
        status, text, said = loaded(data, list(words))
        rows = "".join(f"row,{period},{field}\n" for field in fields)
        self.assertEqual((status, text), (0, f"load,t\n{rows}end\n"), said)
        return str(said)

    def refused(self, data: bytes, words: Sequence[str], part: str) -> None:
        status, text, said = loaded(data, list(words))
        self.assertEqual((status, text), (1, "csv-to-load failed\n"))
        self.assertIn(part, said)


@unittest.skipUnless(OPENPYXL, "openpyxl, which writes workbooks")
class Workbooks(Case):
    @DRAWN
    @given(ROWS, st.sampled_from([[], ["--german"], ["--decimal-mark", ","]]), st.integers(0, 2))
    def test_cells_are_loaded_as_what_they_are(self, rows: List[Row], words: List[str], empty: int) -> None:
        data = workbook({"A": [*[[None]] * empty, HEADER, [], *(row.values for row in rows)]})
        status, text, said = loaded(data, ["Text", "Whole", "Cents", "--decimals", "Cents=2", *words])
        self.assertEqual(status, 0, said)
        wanted = [["load", "t"], *(row.fields for row in rows), ["end"]]
        self.assertEqual(list(csv.reader(io.StringIO(text, newline=""))), wanted)

    def test_control_characters_are_those_that_excel_has_put_in_other_words(self) -> None:
        """XML has none but tabs and line ends, so a workbook has their codes."""
        for written, field in [
            ("12 Main St_x000D_\nYork", '"12 Main St\r\nYork"'), ("a_x000d_b", '"a\rb"'), ("a_x001F_b", "a\x1fb"),
            ("a_x0041_b", "a_x0041_b"), ("x000D_", "x000D_"), ("_x0000_", "_x0000_"), ("a_x000D", "a_x000D"),
        ]:
            self.made(of_values(written), ["N"], field)

    @DRAWN
    @given(st.integers(-10**14, 10**14), st.integers(0, 6), st.booleans())
    def test_decimals_are_those_of_the_number(self, number: int, digits: int, is_german: bool) -> None:
        words = ["N", "--decimals", f"N={digits}", *["--german"] * is_german]
        self.made(of_values(float(f"{number}e-{digits}")), words, str(number))

    def test_the_number_of_a_cell_has_no_mark_that_shows_another_one_s(self) -> None:
        words = ["N", "--decimals", "N=2"]
        for numbers in ([12.5], [number + 0.25 for number in range(20)]):
            part = f"line {len(numbers) + 2}: N is '7,500': its mark may separate thousands or decimals"
            self.refused(of_values(*numbers, "7,500"), words, part)
            fields = [*(str(round(number * 100)) for number in numbers), "750000", "123450"]
            self.assertEqual(self.made(of_values(*numbers, "7,500", "1,234.50"), words, *fields), "")

    def test_a_formula_has_its_last_value(self) -> None:
        data = of_values("=SUM(1,2)")
        note = "csv-to-load: N is '3', and is loaded as that: a formula's last computed value (line 2)\n"
        self.assertIn(note, self.made(computed(data, "3"), ["N"], "3"))
        self.made(computed(data, "", "str"), ["N"], "")
        self.refused(data, ["N"], "cell C2 has a formula without a saved value")

    def test_truths_and_days_among_values_are_as_spreadsheets_show_them(self) -> None:
        said = self.made(of_values(True, False, "TRUE"), ["N"], "TRUE", "FALSE", "TRUE")
        self.assertNotIn("looks like", said)
        said = self.made(of_values(date(2024, 2, 1)), ["N"], "2024-02-01")
        self.assertIn("N is '2024-02-01', and is loaded as that: a spreadsheet turns 1-2 into a date", said)

    def test_what_a_reader_of_the_sheet_misses_is_reported(self) -> None:
        hidden, struck = {"A": [2, 3, 9], "Löhne & <so>": [4, 5]}, {"A": 3, "Löhne & <so>": 2}

        def change(sheet: Any) -> None:
            for number in hidden[sheet.title]:
                sheet.row_dimensions[number].hidden = True
            sheet.cell(struck[sheet.title], 3).font = importlib.import_module("openpyxl.styles").Font(strike=True)

        data = workbook({name: [["From", "To", "N"], *([*PERIOD, one] for one in "ABCDE")] for name in hidden}, change)
        for name in hidden:
            said = self.made(data, ["N", "--sheet", name], *"ABCDE")
            rows = [f"2 rows are hidden or filtered out there, the first at line {hidden[name][0]}"]
            rows.append(f"1 row is struck out, at line {struck[name]}")
            self.assertEqual(said, "".join(f"csv-to-load: the sheet: {row}, and all rows are loaded\n" for row in rows))
        merged = workbook({"A": [["From", "To", "N"], *[[*PERIOD, "A"]] * 2]}, lambda sheet: sheet.merge_cells("C2:C3"))
        said = self.made(merged, ["N"], "A", "")
        self.assertIn("the sheet: merged cells at C2:C3, and only the first has the value; the others are", said)

    def test_what_a_format_shows_otherwise_is_reported(self) -> None:
        for number, code, field, note in [
            (0.05, "0%", "0.05", "its format, 0%, shows it otherwise (line 2)"),
            (1234567, "#,##0,", "1234567", "#,##0,"), (1234, '#,##0 "TEUR"', "1234", "shows it otherwise"),
            (1.5, "[h]:mm", "1.5", "[h]:mm"), (0.25, 10, "0.25", "its format, 0.00%, shows"),
            (12345678901234567890, "0", "12345678901234600000", "15 digits"),
            (1e17, "0", "100000000000000000", "a spreadsheet keeps 15 digits, so the last ones are lost"),
            (5, '#,##0.00 "EUR"', "5", ""), (-5, "#,##0.00 [$\u20ac-407];[Red]-0.00 [$\u20ac-407]", "-5", ""),
            (5, "General", "5", ""), (5, "0.00E+00", "5", ""), (5, '_-* #,##0.00 "\u20ac"_-', "5", ""),
            (5, "[Red]0", "5", ""),
        ]:
            with self.subTest(code):
                said = self.made(of_values(Styled(number, code)), ["N"], field)
                self.assertEqual((note in said, bool(said)), (True, bool(note)), said)

    def test_two_currencies_of_a_column_are_refused(self) -> None:
        data = of_values(*(Styled(5, code) for code in ('0 "EUR"', "[$$-409]0", '0 "EUR"')))
        self.refused(data, ["N"], "N has formats of EUR and $: give each currency a column of its own")
        self.assertEqual(loaded(data, [])[0], 0)

    def test_cells_that_only_have_a_style_take_no_time(self) -> None:
        rows: List[List[Any]] = [HEADER[:3], *[[*PERIOD, "A", *[Styled(None, "0%")] * 16381]] * 2]
        text_of = workbooks.Workbook.text_of
        with mock.patch.object(workbooks.Workbook, "text_of", autospec=True, side_effect=text_of) as read:
            self.assertEqual(loaded(workbook({"A": rows}), ["Text"])[0], 0)
        self.assertEqual(read.call_count, 9)

    def test_of_several_sheets_one_is_named(self) -> None:
        data = workbook({"A": [["None"]], "Löhne": [["From", "To", "Name"], [*PERIOD, "x"]]})
        self.refused(data, ["Name"], "the workbook has the sheets A, Löhne: choose one by --sheet")
        self.refused(data, ["Name", "--sheet", "B"], "--sheet B: no such sheet; the workbook has A, L")
        self.assertEqual(self.made(data, ["Name", "--sheet", "Löhne"], "x"), "")

    def test_other_files_than_workbooks_of_rows_are_refused(self) -> None:
        for data in (b"PK\x03\x04", b"PK\x03\x04" + b"x" * 100, workbook({"A": [["From"]]})[:-40]):
            self.refused(data, ["Name"], "csv-to-load: it can't be read as an Excel workbook: ")
        self.refused(b"\xd0\xcf\x11\xe0", ["Name"], "an old spreadsheet workbook, or one with a password")
        self.refused(workbook({"A": []}), ["N"], "the file has no header, just empty lines")
        self.refused(workbook({"A": [["From", "To"]]}), ["N"], "not in the header: N")


def by_hand(rows: str, strings: str = "", book: str = "") -> bytes:
    """A workbook as other programs write it: prefixes, absolute targets, no places of cells, and no openpyxl."""
    main = "http://schemas.openxmlformats.org/spreadsheetml/2006/main"
    office = "http://schemas.openxmlformats.org/officeDocument/2006/relationships"
    formats = '<x:numFmts><x:numFmt numFmtId="164" formatCode="[$-407]d\\. mmm\\ yyyy;@"/></x:numFmts>'
    parts = {
        "xl/workbook.xml": f'<x:workbook xmlns:x="{main}" xmlns:r="{office}">{book}<x:sheets>'
        '<x:sheet name="A" r:id="a"/></x:sheets></x:workbook>',
        "xl/_rels/workbook.xml.rels": "<Relationships>" + "".join(
            f'<Relationship Id="{key}" Type="{office}/{kind}" Target="/xl/{name}"/>' for key, kind, name in (
                ("a", "worksheet", "one.xml"), ("b", "sharedStrings", "texts.xml"), ("c", "styles", "styles.xml"),
            )) + "</Relationships>",
        "xl/one.xml": f'<x:worksheet xmlns:x="{main}"><x:sheetData>{rows}</x:sheetData></x:worksheet>',
        "xl/texts.xml": f'<x:sst xmlns:x="{main}">{strings}</x:sst>',
        "xl/styles.xml": f'<x:styleSheet xmlns:x="{main}">{formats}<x:fonts><x:font/><x:font><x:strike/></x:font>'
        '</x:fonts><x:cellXfs><x:xf numFmtId="0" fontId="0"/><x:xf numFmtId="14" fontId="0"/>'
        '<x:xf numFmtId="164" fontId="1"/></x:cellXfs></x:styleSheet>',
    }
    data = io.BytesIO()
    with zipfile.ZipFile(data, "w") as file:
        for name, text in parts.items():
            file.writestr(name, text)
    return data.getvalue()


class ByHand(Case):
    HEAD = "".join(f'<x:c t="inlineStr"><x:is><x:t>{name}</x:t></x:is></x:c>' for name in ("From", "To", "Text"))

    def test_workbooks_of_other_programs_are_read(self) -> None:
        day = '<x:c s="1"><x:v>{}</x:v></x:c>'.format
        texts = "<x:si><x:r><x:t>Hi</x:t></x:r><x:r><x:t>ll_x000D_</x:t></x:r><x:rPh><x:t>no</x:t></x:rPh></x:si>"
        for cells, book, period, field, note in [
            (f'{day(45292)}{day(45323)}<x:c t="s"><x:v>0</x:v></x:c>', "", "2024-01-01,2024-02-01", '"Hill\r"', ""),
            (f'{day(43830)}{day(43861.25)}<x:c t="str"><x:f>A1</x:f><x:v>x</x:v></x:c>',
             '<x:workbookPr date1904="1"/>', "2024-01-01,2024-02-01T06:00:00", "x", "a formula's last computed value"),
            ('<x:c t="d"><x:v>2024-01-01T00:00:00</x:v></x:c><x:c s="2"><x:v>45323</x:v></x:c>'
             '<x:c t="e"><x:v>#REF!</x:v></x:c>', "", "2024-01-01,2024-02-01", "#REF!",
             "1 row is struck out, at line 2"),
            (f"{day(1)}{day(61)}{day(0.5)}", "", "1900-01-01,1900-03-01", "12:00:00", "turns 1-2 into a date"),
        ]:
            with self.subTest(cells):
                rows = f"<x:row>{self.HEAD}</x:row><x:row>{cells}</x:row>"
                self.assertIn(note, self.made(by_hand(rows, texts, book), ["Text"], field, period=period))


class Csv(ToolCase):
    def test_a_csv_has_no_sheets(self) -> None:
        self.check([*LOADS, "Name", "--sheet", "A"], "From,To,Name\n", 1, "--sheet A: the file isn't an Excel workbook")


if __name__ == "__main__":
    unittest.main()
