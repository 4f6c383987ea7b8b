"""What pictures show, and the limits that they keep to."""
import re
import subprocess
import tempfile
import unittest
import xml.etree.ElementTree
from hashlib import sha256
from pathlib import Path
from typing import List, Tuple, Union

from tests.support import TOP, run

TABLE = "table,t,flat,text,cents,int\nload,t\n"


def picture(rows: Union[str, List[str]], *words: str, ask: str = "rows,t\n") -> str:
    """What the tool draws of the last answer after a load of these rows, or says where it draws nothing."""
    loaded = "".join(f"row,{row}\n" for row in ([rows] if isinstance(rows, str) else rows))
    _, printed, said = run(["tools/answers", "picture", "-", *words], f"{TABLE}{loaded}end\n{ask}")
    return printed + said


def size_of(drawn: str) -> Tuple[int, int]:
    root = xml.etree.ElementTree.fromstring(drawn)
    return int(root.attrib["width"]), int(root.attrib["height"])


def bars_of(drawn: str) -> List[str]:
    """The labels of bars, lane by lane."""
    found = re.findall(r'<text x="[0-9.]+" y="(\d+)" text-anchor="start" fill="#000">(.*)</text>', drawn)
    return [label for top, label in sorted(found[1:], key=lambda one: int(one[0]))]


class Titles(unittest.TestCase):
    def test_a_title_has_the_script_and_the_rows_that_are_wanted(self) -> None:
        words = ["tools/answers", "picture", "examples/pay.csv", "4", "--answers", "examples/pay.csv.stdout"]
        _, printed, _ = run([*words, "--where", "person=Hill, Grace"])
        self.assertIn(">pay.csv: at,pay,2024-08-15: 1 record by person, where person is Hill, Grace</text>", printed)

    def test_a_long_title_takes_several_lines_of_a_drawing(self) -> None:
        drawn = picture("2024-01-01,2024-02-01,A,5", "--where", f"flat={'word ' * 60}end")
        lines = re.findall(r'<text x="12" y="\d+" text-anchor="start" fill="#000">(.*)</text>', drawn)
        self.assertIn("rows,t: 0 records by flat, where flat is word word", lines[0])
        self.assertGreater(len(lines), 2)


class Ends(unittest.TestCase):
    def test_an_open_end_has_a_point_inside_of_the_frame(self) -> None:
        drawn = picture(["2024-01-01,9999-12-31,A,5", "2024-01-01,2024-02-01,B,5"])
        [points] = re.findall(r'<polygon points="([^"]*)"', drawn)
        width, _ = size_of(drawn)
        places = [float(point.split(",")[0]) for point in points.split()]
        self.assertEqual(sorted(places)[-3:], [width - 18, width - 18, width - 12])
        self.assertIn("A bar with a point goes on: without a known end", drawn)

        ended = picture("2024-01-01,2024-02-01,A,5")
        self.assertEqual(("polygon" in ended, "goes on" in ended), (False, False))
        self.assertIn("<polygon", picture("2024-01-01,9999-12-31,A,5", ask="agg,t,sum,cents\n"))


class Labels(unittest.TestCase):
    def test_versions_are_labelled_by_what_changed_or_by_their_values(self) -> None:
        for change, labels in (
            ("update,t,2024-01-01,2025-01-01,set,cents,6\nbetween,t,2,3\n", ["5", "6"]),
            ("delete,t,2024-10-01,2025-01-01\nbetween,t,2,3\n", ["to 2025-01-01", "to 2024-10-01"]),
            ("between,t,2,2\n", ["A 5"]),
        ):
            self.assertEqual(bars_of(picture("2024-01-01,2025-01-01,A,5", ask=change)), labels)

    def test_past_the_newest_commit_versions_are_those_that_it_shows(self) -> None:
        for command, lane in (
            ("between,t,3,3", "past commit 2"), ("between,t,7,900", "past commit 2"),
            ("fromto,t,3,900", "past commit 2"), ("between,t,2,9", "commit 2"),
        ):
            with self.subTest(command):
                drawn = picture("2024-01-01,2025-01-01,A,5", ask=f"{command}\n")
                self.assertIn("1 version, time across and commits down</text>", drawn)
                self.assertIn(f">{lane}</text>", drawn)
                self.assertEqual(bars_of(drawn), ["A 5"])

    def test_a_day_has_its_label_next_to_it(self) -> None:
        drawn = picture(["2024-01-01,2024-01-02,A,5", "2024-12-31,2025-01-01,A,6", "2024-01-01,2025-01-01,B,7"])
        [first, last] = re.findall(r'<text x="([0-9.]+)"[^>]*>[56]</text>', drawn)
        [left, right] = re.findall(r'<rect x="(\d+)" y="\d+" width="\d" height="16"', drawn)
        self.assertEqual((float(first) - int(left), float(last) - int(right)), (5, -10))
        self.assertNotIn("Labels that don't fit", drawn)

    def test_days_without_room_are_listed(self) -> None:
        days = [f"2024-01-{day:02},2024-01-{day + 1:02},A,{1000 + day}" for day in range(1, 6)]
        drawn = picture([*days, "2024-01-01,2029-01-01,B,7"])
        self.assertIn("Labels that don&#x27;t fit: A: 1001 2024-01-01 to 2024-01-02; 1002 2024-01-02 to", drawn)


class Sums(unittest.TestCase):
    ROWS = ["2024-01-01,2024-02-01,A,123450", "2024-01-01,2024-02-01,B,5000"]
    BY_FLAT = "agg,t,sum,cents,by,flat\n"

    def sums(self, *words: str) -> str:
        return picture(self.ROWS, *words, ask=self.BY_FLAT)

    def test_sums_by_a_column_are_steps_of_each_group(self) -> None:
        drawn = self.sums()
        self.assertIn("agg,t,sum,cents,by,flat: 2 periods by flat</text>", drawn)
        for text in ("A", "B", "100,000", "123,450", "5,000"):
            self.assertIn(f">{text}</text>", drawn)

    def test_a_group_s_name_is_in_one_line(self) -> None:
        drawn = picture('2024-01-01,2024-02-01,"A\n9 ####",5', ask=self.BY_FLAT)
        self.assertIn(">A\\n9 ####</text>", drawn)

    def test_values_that_differ_do_not_look_alike(self) -> None:
        flats = ["A9", '"A\n9"', "A\u00a09", "A\u200b9"]
        made = [f"2024-01-01,2024-06-01,{flat},5" for flat in flats]
        drawn = picture(made)
        for name in ("A9", "A\\n9", "A\\xa09", "A\\u200b9"):
            self.assertIn(f">{name}</text>", drawn)
            self.assertIn(f">{name}</text>", picture(made, "--by", "cents", "--label", "flat"))

    def test_one_group_is_drawn_where_it_is_given(self) -> None:
        self.assertNotIn(">B</text>", self.sums("--where", "flat=A"))

    def test_bars_are_drawn_of_them_where_labels_are_given(self) -> None:
        self.assertEqual(bars_of(self.sums("--label", "sum_cents")), ["123,450", "5,000"])

    def test_thousands_are_parted_and_cents_are_euros(self) -> None:
        drawn = self.sums("--decimals", "cents=2")
        self.assertIn('text-anchor="middle" fill="#000">1,234.50</text>', drawn)
        self.assertIn('text-anchor="end" fill="#000">1,000</text>', drawn)
        self.assertIn("; cents with 2 decimals</text>", drawn)
        self.assertIn(">1.234,50</text>", self.sums("--decimals", "cents=2", "--german"))
        # A bar or a step shows the record as the answer has it.
        self.assertIn("sum_cents: 123450</title>", drawn)

    def test_a_text_has_no_decimals_whatever_its_column_is_called(self) -> None:
        made = "table,{0},cents,{1}\nload,{0}\nrow,2024-01-01,2024-06-01,{2}\nend\n"
        for text in ("500", "\u00b2"):
            script = made.format("a", "int", "700") + made.format("b", "text", text) + "join,a,b\n"
            with self.subTest(text):
                drawn = run(["tools/answers", "picture", "-", "--decimals", "cents=2"], script)[1]
                self.assertIn(f"{text}</text>", drawn)

    def test_decimals_of_no_column_are_refused(self) -> None:
        reason = "answers: --decimals euros: not a column of numbers; those are sum_cents\n"
        self.assertIn(reason, self.sums("--decimals", "euros=2"))

    def test_a_table_s_numbers_are_parted_where_that_is_asked(self) -> None:
        self.assertIn(">123450</text>", picture(self.ROWS))
        self.assertIn(">123,450</text>", picture(self.ROWS, "--decimals", "cents=0"))


class Limits(unittest.TestCase):
    def test_a_picture_is_1600_pixels_wide_and_4000_tall_at_most(self) -> None:
        years = [(year, flat) for year in range(1900, 1962) for flat in range(210)]
        rows = [f"{year}-01-01,{year + 1}-01-01,flat {flat},{year}" for year, flat in years]
        drawn = picture(rows)
        width, height = size_of(drawn)
        self.assertEqual(width, 1600)
        self.assertLessEqual(height, 4000)
        self.assertIn("of 210 lanes: --height PIXELS has room for more", drawn)
        width, height = size_of(picture(rows, "--width", "2000", "--height", "8000"))
        self.assertEqual(width, 2000)
        self.assertGreater(height, 4200)

    def test_groups_keep_to_4000_pixels(self) -> None:
        names = [f"{number:03}" for number in range(90)]
        drawn = picture([f"2024-01-01,2024-02-01,{name},5" for name in names], ask="agg,t,sum,cents,by,flat\n")
        self.assertLessEqual(size_of(drawn)[1], 4000)
        self.assertIn("of 90 groups: --height PIXELS has room for more", drawn)

    def test_labels_have_stripes_from_the_ninth_on_and_no_colours_from_the_25th(self) -> None:
        for count, stripes, note in [(8, 0, False), (9, 1, False), (24, 16, False), (25, 0, True)]:
            with self.subTest(count):
                drawn = picture([f"2024-01-01,2024-02-01,A,{number}" for number in range(count)])
                self.assertEqual(drawn.count("<pattern "), stripes)
                self.assertEqual("No colours: more than 24 labels differ." in drawn, note)
                fills = set(re.findall(r'height="16" fill="([^"]*)"', drawn))
                self.assertEqual(len(fills), 1 if note else count)


class Documents(unittest.TestCase):
    def test_the_pictures_of_docs_are_drawn_from_the_answers(self) -> None:
        with tempfile.TemporaryDirectory() as folder:
            subprocess.run([str(TOP / "tools" / "draw-pictures"), folder], check=True)
            drawn = {file.name: file.read_bytes() for file in Path(folder).iterdir()}
        page = drawn.pop("audit-page.html")
        self.assertEqual(drawn, {file.name: file.read_bytes() for file in (TOP / "docs").glob("*.svg")})
        # The photograph carries the checksum of the page that it was taken of, whichever program answered.
        marked = sha256(re.sub(rb'"files":\[.*?\],', b"", page)).hexdigest().encode()
        self.assertTrue(marked in (TOP / "docs" / "audit-page.png").read_bytes(), "tools/draw-pictures docs makes it")


if __name__ == "__main__":
    unittest.main()
