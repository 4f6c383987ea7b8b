"""The page of `tools/answers page` in a browser: by click and by key, light and dark, and on paper.

If PICTURES names a folder in the environment, screenshots of the pages are put there.
"""
import json
import os
import re
import tempfile
import unittest
from pathlib import Path
from typing import Any, Dict, List, Tuple
from unittest import mock

from ruzgalt.report import contents
from tests.browser import MISSING, PROGRAM, Browser
from tests.support import TOP, kept, run
from tests.test_answers_page import HOSTILE, TIME, data_of, example, hostile, page_of
from tests.test_answers_scripts import past_of

# A division, an audit and a payroll.
EXAMPLES = ("posts", "audit", "payroll")
# Runs before the page's own script, to keep the saved texts of blobs.
CATCH = """globalThis.saved = []; URL.createObjectURL = (blob) => { saved.push(blob.text()); return "blob:none"; };
HTMLAnchorElement.prototype.click = function () { saved.push(this.download); }; true"""
CELLS = "[...{}.querySelectorAll('tbody tr')].map((row) => [...row.cells].map((cell) => cell.textContent))"
GRID = "document.querySelectorAll('{} .table')[{}]"
# The first question's table, and the button that saves it.
FIRST = GRID.format("#questions", 0)
SAVE = f"{FIRST}.querySelector('.tools button:last-child').click()"


@unittest.skipUnless(PROGRAM, MISSING)
class BrowserCase(unittest.TestCase):
    browser: Browser
    folder: "tempfile.TemporaryDirectory[str]"

    @classmethod
    def setUpClass(cls) -> None:
        cls.folder = tempfile.TemporaryDirectory()
        cls.browser = Browser().__enter__()
        cls.browser.show(1280, "light")

    @classmethod
    def tearDownClass(cls) -> None:
        cls.browser.__exit__(None, None, None)
        cls.folder.cleanup()

    def open(self, page: str) -> None:
        """Opens the page, on which nothing may go wrong."""
        file = Path(self.folder.name, "page.html")
        file.write_text(page, encoding="ascii")
        self.browser.open(file)
        self.assertEqual(self.browser.faults(), [])

    def value(self, code: str) -> Any:
        return self.browser.value(code)

    def cells(self, section: str, place: int = 0) -> List[List[str]]:
        found: List[List[str]] = self.value(CELLS.format(GRID.format(section, place)))
        return found

    def texts(self, css: str) -> List[str]:
        all_of = f"[...document.querySelectorAll({json.dumps(css)})]"
        found: List[str] = self.value(f"{all_of}.map((one) => one.textContent)")
        return found

    def choose(self, css: str, option: int, place: int = 0) -> None:
        """Changes a select."""
        select = f"document.querySelectorAll({json.dumps(css)})[{place}]"
        self.value(f"{select}.selectedIndex = {option}, {select}.dispatchEvent(new Event('change'))")


class Texts(BrowserCase):
    def test_no_text_of_the_script_is_read_as_html(self) -> None:
        self.open(hostile())
        wanted = [re.sub("[\u2028-\u202e]", lambda one: f"\\u{ord(one[0]):04x}", text) for text in HOSTILE]
        self.assertEqual([row[3] for row in self.cells("#questions")], wanted)
        self.assertEqual(self.texts("img, b, script:not([type]):not(:last-of-type)"), [])
        [first] = self.texts("#first")
        self.assertTrue(HOSTILE[1] in first and HOSTILE[0] * 2 in first, first)

    def test_the_policy_is_kept_by_the_browser(self) -> None:
        self.open(example("pay"))
        tried = "try { document.body.innerHTML = '<b>x</b>'; 'let through' } catch (error) { error.name }"
        self.assertEqual(self.value(tried), "TypeError")
        self.assertEqual(self.value("fetch('https://example.org/').then(() => 'asked', () => 'refused')"), "refused")

    def test_names_of_files_are_no_html_and_are_quoted_and_what_has_no_ink_is_shown(self) -> None:
        name = "<img src=x>a\u202e\u3164\u00a0;$(id).csv"
        script = Path(self.folder.name, name)
        script.write_text("table,t,a,text\nload,t\n" + f"row,{TIME},x\n" * 1001 + "end\nrows,t,asof,1\nrows,t\n")
        with mock.patch.object(contents, "ROOM", 50):
            self.open(run(["tools/answers", "page", str(script)])[1])
        title = "Answers to <img src=x>a\\u202e\\u3164\\u00a0;$(id).csv"
        self.assertEqual((self.value("document.title"), self.texts("h1"), self.texts("img")), (title, [title], []))
        word = "$'<img src=x>a\\xe2\\x80\\xae\\xe3\\x85\\xa4\\xc2\\xa0;$(id).csv'"
        found = [one for one in self.texts("main code") if "$(id)" in one]
        wanted = [f"tools/answers changed {word} 3 4", f"tools/answers csv {word} --ask at,t,DAY,asof,N"]
        self.assertEqual(found[:2], wanted)
        self.assertTrue(found[2].startswith(f"sha256sum {word}\ntools/answers page {word} >"), found)
        self.assertIn("made by tools/answers of a clone", self.texts("#about")[0])

    def test_each_example_is_shown_without_a_fault(self) -> None:
        for script in sorted(TOP.glob("examples/*.csv")):
            with self.subTest(script.name):
                self.open(example(script.stem))
                self.assertIn(script.name, self.value("document.title"))

    def test_a_page_without_answers_columns_or_rows_is_shown(self) -> None:
        self.open(page_of(""))
        self.assertIn("The script asks nothing.", self.texts("body")[0])
        self.open(page_of(f"table,t\ntable,u\nload,t\nrow,{TIME}\nend\nrows,t\n"))
        self.assertEqual(self.cells("#tables"), [["1", *TIME.split(",")]])
        self.assertIn("No row was ever in it.", self.texts("body")[0])


class Grids(BrowserCase):
    def numbers(self, count: int) -> str:
        rows = [f"{TIME},{number * 7919 % count},{10 ** 18 + number}" for number in range(count)]
        return page_of("table,t,a,int,b,int\nload,t\n" + "".join(f"row,{row}\n" for row in rows) + "end\nrows,t\n")

    def test_a_click_on_a_name_sorts_up_then_down_then_not(self) -> None:
        self.open(self.numbers(12))
        head = f"{FIRST}.querySelectorAll('th')[3]"
        before = [row[3] for row in self.cells("#questions")]
        rising = sorted(before, key=int)
        for sort, wanted in (("ascending", rising), ("descending", rising[::-1]), ("none", before)):
            self.value(f"{head}.querySelector('button').click()")
            self.assertEqual(self.value(f"{head}.getAttribute('aria-sort')"), sort)
            self.assertEqual([row[3] for row in self.cells("#questions")], wanted)
        # By a key too, and long numbers to their last digit.
        self.value(f"{FIRST}.querySelectorAll('th button')[3].focus()")
        self.browser.press("Enter", 13, "\r")
        self.assertEqual([row[3] for row in self.cells("#questions")], rising)
        button = f"{FIRST}.querySelectorAll('th button')[4]"
        self.value(f"{button}.click(), {button}.click()")
        self.assertEqual([int(row[4]) - 10 ** 18 for row in self.cells("#questions")], list(range(11, -1, -1)))

    def test_empty_fields_come_before_numbers(self) -> None:
        page = example("pay")
        self.open(page)
        numbers = [question["number"] for question in data_of(page)["data"]["questions"]]
        grid = GRID.format("#questions", numbers.index(6))
        for wanted in (["", "", "", "3"], ["3", "", "", ""]):
            self.value(f"{grid}.querySelectorAll('th button')[4].click()")
            self.assertEqual([row[4] for row in self.cells("#questions", numbers.index(6))], wanted)

    def test_typed_text_filters(self) -> None:
        self.open(example("payroll"))
        self.value(f"{FIRST}.querySelector('input').focus()")
        for letter in "gupta":
            self.browser.press(letter, ord(letter.upper()), letter)
        self.assertEqual([row[3] for row in self.cells("#questions")], ["Gupta, Rohan"])
        self.assertEqual(self.value(f"{FIRST}.querySelector('output').textContent"), "1 record found")

    def test_a_click_on_a_field_finds_what_has_it_and_another_shows_all_again(self) -> None:
        self.open(example("payroll"))
        self.value(f"{FIRST}.querySelectorAll('th button')[4].click()")
        self.value(f"{FIRST}.querySelectorAll('tbody tr')[0].cells[4].click()")
        self.assertEqual({row[4] for row in self.cells("#questions")}, {"bindery"})
        button = f"{FIRST}.querySelector('.tools button')"
        self.assertEqual(self.value(f"{button}.textContent"), "dept: bindery \u00d7")
        self.value(f"{button}.click()")
        self.assertEqual((len(self.cells("#questions")), self.value(f"{button}.offsetParent")), (13, None))

    def test_the_first_thousand_are_shown_and_all_are_saved(self) -> None:
        self.open(self.numbers(1500))
        self.assertEqual(len(self.cells("#questions")), 1000)
        found = self.value(f"{FIRST}.querySelector('output').textContent")
        self.assertEqual(found, "first 1,000 of 1,500 records; on paper the first 100")
        self.value(CATCH)
        self.value(SAVE)
        text, name = self.value("Promise.all(saved)")
        self.assertEqual((text.count("\n"), name), (1501, "3-rows.csv"))

    def test_saved_files_equal_the_tool_s_output(self) -> None:
        for name in (*EXAMPLES, "insurance"):
            script = f"examples/{name}.csv"
            page = example(name)
            self.open(page)
            self.value(CATCH)
            self.value("document.querySelectorAll('#questions .tools button:last-child').forEach((one) => one.click())")
            saved = self.value("Promise.all(saved)")
            for question, text in zip(data_of(page)["data"]["questions"], saved[::2]):
                with self.subTest(script, number=question["number"]):
                    words = [script, str(question["number"]), "--answers", f"{script}.stdout", "--go-on"]
                    self.assertEqual(text, run(["tools/answers", "csv", *words])[1])

    def test_files_saved_for_a_spreadsheet_equal_the_tool_s_output(self) -> None:
        texts = ["=1+1", "-5", "-5.5", "-5-1", "+49", "@x;y", "a;b", "\ty", "\uff1d1", "Jos\u00e9"]
        rows = "".join(f"row,{TIME},{text},-5\n" for text in texts)
        choices: List[List[str]] = [[], ["--for-spreadsheet"], ["--for-spreadsheet", "--german"]]
        with kept(f"table,t,a,text,b,int\nload,t\n{rows}end\nrows,t\n") as name:
            self.open(run(["tools/answers", "page", name])[1])
            for choice, words in enumerate(choices):
                self.value(CATCH)
                self.choose("header select", choice)
                self.value(SAVE)
                _, printed, said = run(["tools/answers", "csv", name, *words])
                # A text that is read of a blob has no mark of its byte order any more.
                self.assertEqual(self.value("saved[0]"), printed.lstrip("\ufeff"))
                heard = self.value(f"{FIRST}.querySelector('.tools output:nth-last-child(2)').textContent")
                for one in (said, heard):
                    self.assertEqual("would run 6 fields" in one, not choice)

    def test_odd_texts_are_saved_as_the_tool_prints_them(self) -> None:
        rows = [f'{TIME},"say ""a"", b"', f'{TIME},"two\nlines"', f"{TIME},", f"{TIME}, c "]
        script = "table,t,a,text\nload,t\n" + "".join(f"row,{row}\n" for row in rows) + "end\nagg,t,count,by,a\n"
        self.open(page_of(script))
        self.value(CATCH)
        self.value(SAVE)
        wanted = [f',{TIME},1', f' c ,{TIME},1', f'"say ""a"", b",{TIME},1', f'"two\nlines",{TIME},1']
        self.assertEqual(self.value("saved[0]"), "a,valid_from,valid_to,count\n" + "\n".join(wanted) + "\n")


class Times(BrowserCase):
    def test_the_sliders_show_what_held_as_each_commit_knew_it(self) -> None:
        """At each point of a change, and at each commit, the page shows the program's answer to `at`."""
        for name in ("payroll", "pay", "ward", "joins"):
            past = past_of(TOP / f"examples/{name}.csv")
            self.open(example(name))
            for place, table in enumerate(past.tables):
                moments = self.moments(place)
                asked = past.ask(*(f"at,{table},{point},asof,{commit}" for point, commit in moments))
                for answer, shown in zip(asked, moments.values()):
                    with self.subTest(name, at=answer.command.text):
                        self.assertEqual(shown, [row_id for row_id, *_ in answer.table.texts()])

    def moments(self, place: int) -> Dict[Tuple[str, int], List[str]]:
        """Returns the ids of the rows that a table shows at each position of its sliders."""
        code = f"""(() => {{
          const fields = document.querySelectorAll('#tables article')[{place}].querySelector('fieldset');
          const [day, commit] = fields.querySelectorAll('input[type=range]');
          const exact = fields.querySelector('input[type=text]'), found = [];
          const move = (input, value) => {{ input.value = value; input.dispatchEvent(new Event('input')); }};
          for (let d = 0; d <= Number(day.max); d += 1) for (let c = 0; c <= Number(commit.max); c += 1) {{
            move(day, d); move(commit, c);
            const rows = [...fields.querySelectorAll('tbody tr')];
            found.push([exact.value, c, rows.map((row) => row.cells[0].textContent)]);
          }}
          return found;
        }})()"""
        return {(point, commit): ids for point, commit, ids in self.value(code)}

    def test_a_slider_is_moved_by_keys(self) -> None:
        self.open(example("pay"))
        self.value("document.querySelectorAll('#tables input[type=range]')[1].focus()")
        self.browser.press("ArrowLeft", 37)
        self.assertEqual([row[-1] for row in self.cells("#tables")], ["5000", "4800"])
        self.assertEqual(self.texts("#tables .slider span")[1], "commit 2: load,pay (2 rows)")

    def test_another_day_is_typed(self) -> None:
        self.open(example("pay"))
        field = "document.querySelector('#tables input[type=text]')"
        for text, is_wrong, count in [
            ("2024-08-15", "false", 2), ("2024-08-15T12:00:00", "false", 2), ("2024-02-30", "true", 2),
            ("15.8.2024", "true", 2), ("2023-12-31", "false", 0), ("2024-01-01T00:00:00", "false", 1),
        ]:
            with self.subTest(text):
                self.value(f"{field}.value = '{text}', {field}.dispatchEvent(new Event('input'))")
                self.assertEqual(self.value(f"{field}.getAttribute('aria-invalid')"), is_wrong)
                self.assertEqual(len(self.cells("#tables")), count)

    def test_the_history_of_a_fact_has_its_versions_and_what_made_them(self) -> None:
        self.open(example("pay"))
        rows = self.cells("#tables", 1)
        self.assertEqual([row[:6] for row in rows], [
            ["2024-01-01", "2025-01-01", "2", "3", "Byron, Ada", "5000"],
            ["2024-01-01", "2024-07-01", "3", "", "Byron, Ada", "5000"],
            ["2024-07-01", "2025-01-01", "3", "", "Byron, Ada", "5400"],
        ])
        self.assertTrue(rows[1][7].startswith("line 6: update,pay,"))
        self.choose("#tables select", 1, 1)
        self.assertEqual([row[4] for row in self.cells("#tables", 1)], ["Hill, Grace"])

    def test_a_key_is_found_by_its_place_whatever_it_is_called(self) -> None:
        script = f"table,t,a,text,row_id,text,key,row_id\nload,t\nrow,{TIME},x,1\nrow,{TIME},x,2\nend\n"
        self.open(page_of(script))
        self.assertEqual({row[5] for row in self.cells("#tables", 1)}, {"1"})
        self.assertIn("Its key is row_id_.", self.texts("#tables")[0])

    def test_a_fact_is_named_by_the_key_or_another_column(self) -> None:
        self.open(example("audit"))
        self.assertEqual({row[4] for row in self.cells("#tables", 1)}, {"D05"})
        self.choose("#tables select", 1)
        self.assertEqual({row[5] for row in self.cells("#tables", 1)}, {"Nowak, Marta"})
        self.open(example("payroll"))
        kinds = self.value("[...document.querySelector('#tables select').options].map((one) => one.textContent)")
        self.assertEqual(kinds, ["person", "dept", "grade", "euros"])

    def test_then_and_now_are_marked_in_words(self) -> None:
        self.open(example("payroll"))
        for place, only in enumerate(("only then", "only now")):
            rows = self.cells("#pairs", place)
            self.assertEqual([row[0] for row in rows], [only] * 4)
        self.assertEqual(self.texts("#pairs article p")[0], "9 records said both times, 4 only then, 4 only now.")
        self.value("document.querySelector('#pairs input[type=checkbox]').click()")
        self.assertEqual([[row[0] for row in self.cells("#pairs", place)].count("") for place in (0, 1)], [9, 9])

    def test_then_and_now_are_headed_by_a_name(self) -> None:
        script = f"table,t\nload,t\nrow,{TIME}\nend\nrows,t,asof,1\nrows,t\n"
        then, now = "Then: commit 1 ({}line 5)", "Now: commit 2 ({}line 6)"
        cases: List[Tuple[List[str], List[str]]] = [
            ([], ["rows,t", then.format(""), now.format("")]),
            (["4=what it is"], ["what it is", "rows,t", then.format(""), now.format("what it is, ")]),
            (["3=as it was"], ["as it was", "rows,t", then.format("as it was, "), now.format("")]),
        ]
        for words, wanted in cases:
            self.open(page_of(script, *words))
            found = self.texts("#pairs h3, #pairs h4, #pairs article > p")
            self.assertEqual([one for one in found if "said both" not in one], wanted)

    def test_rows_that_are_only_cut_are_no_differences(self) -> None:
        rows = "table,t,n,int\nload,t\nrow,2024-01-01,2024-05-01,1\nend\nupdate,t,2024-02-01,2024-03-01,set,n,2\n"
        self.open(page_of(f"{rows}rows,t,asof,2\nrows,t\n"))
        self.value("document.querySelector('#pairs input[type=checkbox]')?.click()")
        self.assertEqual([row[0] for row in self.cells("#pairs", 0)], ["only then"])
        self.assertEqual([row[0] for row in self.cells("#pairs", 1)], ["", "only now", ""])

    def test_of_two_equal_rows_one_may_be_new(self) -> None:
        rows = f"table,t\nload,t\nrow,{TIME}\nend\nload,t\nrow,{TIME}\nend\nrows,t,asof,2\nrows,t\n"
        self.open(page_of(rows))
        self.assertEqual([row[0] for row in self.cells("#pairs", 1)], ["only now"])


class Shown(BrowserCase):
    """Amounts with decimals, and ends as last days."""

    def of(self, *words: str) -> None:
        rows = "row,2024-01-01,2024-03-01,1234567\nrow,2024-03-01,9999-12-31,-5\n"
        script = f"table,t,cents,int\nload,t\n{rows}end\nrows,t\n"
        self.open(page_of(script, "--decimals", "cents=2", "--last-day", *words))

    def test_amounts_and_last_days_are_in_all_tables(self) -> None:
        self.of()
        wanted = [["1", "2024-01-01", "2024-02-29", "12,345.67"], ["2", "2024-03-01", "9999-12-31", "-0.05"]]
        self.assertEqual(self.cells("#questions"), wanted)
        self.assertEqual(self.texts("#questions th button"), ["row_id", "valid_from", "last_day", "cents"])
        self.assertEqual(self.cells("#tables", 1)[0][:5], ["2024-03-01", "9999-12-31", "2", "", "-0.05"])
        # A bar of a picture shows the same as the table next to it.
        self.choose("#tables select[aria-label^=Fact]", 1)
        over = "row_id: 1, valid_from: 2024-01-01, last_day: 2024-02-29, sys_from: 2, sys_to: , cents: 12,345.67"
        self.assertEqual(self.texts("#tables .square title")[0], over)
        self.of("--german")
        self.assertEqual([row[3] for row in self.cells("#questions")], ["12.345,67", "-0,05"])

    def test_saved_files_are_exact_or_for_a_spreadsheet(self) -> None:
        self.of("--german")
        grid = "blockOf('records-3'), data.questions[0].columns"
        saved = "((records, columns) => FORMS.map((form) => csvOf(columns, records, form)))"
        made = self.value(f"{saved}({grid})")
        first, second = "1,2024-01-01", "2,2024-03-01"
        exact = f"row_id,valid_from,valid_to,cents\n{first},2024-03-01,1234567\n{second},9999-12-31,-5\n"
        self.assertEqual(made[0], exact)
        head = "\ufeffrow_id,valid_from,last_day,cents\r\n"
        self.assertEqual(made[1], f"{head}{first},2024-02-29,12345.67\r\n{second},9999-12-31,-0.05\r\n")
        german = made[1].replace(",", ";").replace(".", ",")
        self.assertEqual(made[2], german)

    def test_a_title_and_a_note_come_first(self) -> None:
        self.of("--title", "<i>May</i>", "--note", "One\n\nTwo", "3=all")
        self.assertEqual([self.value("document.title"), *self.texts("h1")], ["<i>May</i>"] * 2)
        self.assertEqual(self.texts("header p.note"), ["One", "Two"])
        self.assertEqual(self.texts("#questions h3")[0], "all: rows,t")


class Looks(BrowserCase):
    def keep(self, name: str, data: bytes) -> None:
        if "PICTURES" in os.environ:
            Path(os.environ["PICTURES"], name).write_bytes(data)

    def test_nothing_passes_the_edge_wide_or_narrow_light_or_dark(self) -> None:
        for name in EXAMPLES:
            self.open(example(name))
            for width in (1280, 400):
                for scheme, paper in (("light", "rgb(255, 255, 255)"), ("dark", "rgb(20, 24, 29)")):
                    with self.subTest(name, width=width, scheme=scheme):
                        self.browser.show(width, scheme)
                        self.assertEqual(self.value("document.documentElement.scrollWidth"), width)
                        self.assertEqual(self.value("getComputedStyle(document.body).backgroundColor"), paper)
                        self.keep(f"{name}-{width}-{scheme}.png", self.browser.picture())
            self.browser.show(1280, "light")

    def test_it_is_printed_on_a4_without_buttons(self) -> None:
        for name in EXAMPLES:
            with self.subTest(name):
                self.open(example(name))
                self.browser.show(1280, "dark")
                paper = self.browser.paper()
                self.keep(f"{name}.pdf", paper)
                boxes = re.findall(rb"/MediaBox ?\[0 0 (\d+)\.?\d* (\d+)\.?\d*\]", paper)
                self.assertEqual(set(boxes), {(b"594", b"841")} if boxes[0][0] == b"594" else {(b"595", b"842")})
                self.browser.ask("Emulation.setEmulatedMedia", media="print")
                shown = "[...document.querySelectorAll('button, input, select, nav')].filter((one) => one.offsetParent)"
                self.assertEqual(self.value(f"{shown}.length"), 0)
                self.assertEqual(self.value("getComputedStyle(document.body).backgroundColor"), "rgb(255, 255, 255)")
                self.browser.show(1280, "light")

    def test_each_part_has_a_name_for_who_hears_the_page_and_each_drawn_question_a_picture(self) -> None:
        nameless = """[...document.querySelectorAll('button, input, select, svg, [role=region]')].filter((one) =>
          !(one.getAttribute('aria-label') || one.textContent.trim() || (one.labels && one.labels.length))).length"""
        for name in EXAMPLES:
            with self.subTest(name):
                page = example(name)
                self.open(page)
                self.assertEqual(self.value(nameless), 0)
                heads = "[...document.querySelectorAll('h1, h2, h3, h4')]"
                levels = self.value(f"{heads}.map((one) => Number(one.tagName[1]))")
                self.assertEqual(levels.count(1), 1)
                self.assertLessEqual(max(after - before for before, after in zip(levels, levels[1:])), 1)
                ids = self.value("[...document.querySelectorAll('[id]')].map((one) => one.id)")
                self.assertEqual((len(ids), self.texts("th:not([scope])")), (len(set(ids)), []))
                drawn = [one["number"] for one in data_of(page)["data"]["questions"] if one["picture"]]
                self.assertEqual(len(self.texts("#questions figure svg")), len(drawn))
                self.assertGreater(len(self.texts("#questions figure svg rect title")), len(drawn))


if __name__ == "__main__":
    unittest.main()
