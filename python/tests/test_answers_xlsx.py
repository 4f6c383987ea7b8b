"""Workbooks of answers, read again by openpyxl."""
import tempfile
import unittest
from datetime import datetime
from pathlib import Path
from typing import Any, List

from tests.support import EXAMPLE, ToolCase, kept, run

try:
    import openpyxl  # type: ignore[import]
except ModuleNotFoundError as error:
    raise unittest.SkipTest("openpyxl, which reads workbooks") from error

SCRIPT = """table,t,a,text,n,int
load,t
row,2024-01-01,2024-02-01T08:30:00,=1+1,4800
row,1800-01-01,9999-12-31,007,123456789012345678
end
"""


def sheets(*words: str, script: str = SCRIPT) -> Any:
    """Returns the sheets of a workbook that the tool writes, by their names."""
    with tempfile.TemporaryDirectory() as folder, kept(script) as name:
        status, _, said = run(["tools/answers", "xlsx", name, f"{folder}/a.xlsx", *words])
        assert status == 0, said
        return openpyxl.load_workbook(f"{folder}/a.xlsx")


def records(sheet: Any) -> List[List[Any]]:
    return [[cell.value for cell in row] for row in sheet.iter_rows()]


class Workbooks(ToolCase):
    def test_points_are_dates_and_numbers_are_numbers(self) -> None:
        book = sheets("--ask", "all=rows,t", "--ask", "log=log")
        self.assertEqual(book.sheetnames, ["all", "log"])
        header, first, second = records(book["all"])
        self.assertEqual(header, ["row_id", "valid_from", "valid_to", "a", "n"])
        self.assertEqual(first, [1, datetime(2024, 1, 1), datetime(2024, 2, 1, 8, 30), "=1+1", 4800])
        self.assertEqual(second, [2, "1800-01-01", datetime(9999, 12, 31), "007", "123456789012345678"])
        self.assertEqual([cell.data_type for cell in book["all"][2]], ["n", "d", "d", "s", "n"])

    def test_amounts_have_decimals_and_ends_are_last_days(self) -> None:
        script = SCRIPT.replace("T08:30:00", "")
        sheet = sheets("--ask", "all=rows,t", "--decimals", "n=2", "--last-day", script=script)["all"]
        header, first, _ = records(sheet)
        self.assertEqual((header[2], first[2], first[4]), ("last_day", datetime(2024, 1, 31), 48))
        self.assertEqual((sheet["E2"].number_format, sheet["B2"].number_format), ("0.00", "yyyy-mm-dd"))

    def test_a_workbook_is_replaced_only_if_that_is_asked(self) -> None:
        with tempfile.TemporaryDirectory() as folder:
            file = Path(folder, "a.xlsx")
            words = ["tools/answers", "xlsx", EXAMPLE, str(file), "4=pay"]
            self.check(words, "", 0, "")
            before = file.read_bytes()
            self.check(words, "", 1, f"{file} already exists, so no workbook was written: --replace replaces it")
            self.assertEqual(file.read_bytes(), before)
            self.check([*words, "--replace"], "", 0, "")
            self.check([*words[:-1], "4=a/b", "--replace"], "", 1, "a/b can't be a sheet's name: give one of at most")


if __name__ == "__main__":
    unittest.main()
