"""The page of `tools/answers page`: its data, the document around them, and omissions. No browser is needed."""
import json
import math
import os
import re
import subprocess
import tempfile
import unittest
from base64 import b64encode
from hashlib import sha256
from pathlib import Path
from typing import Any, Dict, Iterator, List
from unittest import mock

from ruzgalt.script.answers import Answer
from ruzgalt.cli import answers as answers_tool
from ruzgalt.errors import Misfit
from ruzgalt.cli import given as sources
from ruzgalt.report import contents, document
from tests.support import PROGRAM, TOP, ToolCase, kept, run
from tests.test_answers_scripts import SCRIPTS, found_in

BLOCK = re.compile(r'<script type="application/json" id="([a-z]+(?:-\d+)?)">([^<]*)</script>\n')
HOSTILE = [
    "<script>alert(1)</script>", "</script><img src=x onerror=alert(1)>", "&quot;&lt;b&gt;", "<!--", "]]>", "{{data}}",
    "a\u2028b\u2029c", "\u202eevil", "\\u003cb\\u003e", "' onmouseover='alert(1)", '"quoted"', "\U0001f600",
]
TIME = "2024-01-01,2024-02-01"


def page_of(script: str, *words: str) -> str:
    """Returns the page of a script. Raises Misfit if no page is made."""
    status, printed, said = run(["tools/answers", "page", "-", "--go-on", *words], script)
    if status:
        raise Misfit(said)
    return printed


def example(name: str, *words: str) -> str:
    file = f"examples/{name}.csv"
    _, printed, _ = run(["tools/answers", "page", file, "--answers", f"{file}.stdout", "--go-on", *words])
    return printed


def data_of(page: str) -> Dict[str, Any]:
    return {name: json.loads(text) for name, text in BLOCK.findall(page)}


def quoted(value: str) -> str:
    return '"' + value.replace('"', '""') + '"'


def hostile() -> str:
    """A page of a table with each of these names."""
    rows = [f"{TIME},{quoted(value)}" for value in HOSTILE]
    script = "table,t,name,text\nload,t\n" + "".join(f"row,{row}\n" for row in rows) + "end\nrows,t\n"
    script += f"{quoted(HOSTILE[1])},x\ndelete,t,{TIME},where,name,{quoted(HOSTILE[0] * 2)}\n"
    return page_of(script)


class Documents(unittest.TestCase):
    def test_the_page_around_the_data_is_the_same_for_each_script(self) -> None:
        round_data = {BLOCK.sub("", page) for page in (hostile(), example("pay"), example("payroll"))}
        self.assertEqual(len(round_data), 1)

    def test_data_are_ascii_without_a_character_of_html(self) -> None:
        page = hostile()
        blocks = BLOCK.findall(page)
        self.assertEqual(len(blocks), page.count("<script") - 1)
        for name, text in blocks:
            with self.subTest(name):
                self.assertTrue(text.isascii())
                self.assertFalse(set("<>&") & set(text))
        self.assertEqual([row[3] for row in data_of(page)["records-3"]], HOSTILE)

    def test_the_policy_lets_one_script_and_one_style_run_and_asks_no_network(self) -> None:
        page = example("pay")
        [policy] = re.findall('<meta http-equiv="Content-Security-Policy" content="([^"]*)">', page)
        rules = dict(rule.strip().split(" ", 1) for rule in policy.split(";"))
        for name in ("script", "style"):
            [text] = re.findall(f"<{name}>(.*?)</{name}>", page, re.DOTALL)
            hashed = b64encode(sha256(text.encode()).digest()).decode()
            self.assertEqual(rules[f"{name}-src"], f"'sha256-{hashed}'")
        self.assertEqual((rules["default-src"], rules["form-action"]), ("'none'", "'none'"))
        self.assertEqual(rules["require-trusted-types-for"], "'script'")
        self.assertNotRegex(page, r"https?://(?!www\.w3\.org/2000/svg)")

    def test_its_own_files_have_no_end_of_themselves_in_them(self) -> None:
        for name in ("page.css", *document.SCRIPTS):
            with self.subTest(name):
                self.assertNotRegex(document.read(name), r"(?i)</(script|style)|<!--|innerHTML|\{\{")

    def test_the_same_script_gives_the_same_page_in_each_folder(self) -> None:
        script, found = (Path(TOP, "examples", name).read_bytes() for name in ("pay.csv", "pay.csv.stdout"))
        pages = set()
        for _ in range(2):
            with tempfile.TemporaryDirectory() as folder:
                for name, text in (("pay.csv", script), ("pay.csv.stdout", found)):
                    Path(folder, name).write_bytes(text)
                words = ["tools/answers", "page", f"{folder}/pay.csv", "--answers", f"{folder}/pay.csv.stdout"]
                pages.add(run(words)[1])
        self.assertEqual(pages, {example("pay")})

    def test_colours_are_told_apart_as_accessible_pages_ask(self) -> None:
        style = document.read("page.css")
        light, dark = (dict(re.findall(r"--(\w+): (#\w{6})", part)) for part in style.split("@media screen", 1))
        for colours in (light, dark):
            for ink in ("ink", "soft", "accent", "bad"):
                for paper in ("paper", "head", "then", "now", "notice"):
                    # The text of marked rows has the page's own colour.
                    if ink == "ink" or paper in ("paper", "head"):
                        with self.subTest(f"{ink} on {paper}"):
                            self.assertGreaterEqual(contrast(colours[ink], colours[paper]), 4.5)
            self.assertGreaterEqual(contrast(colours["edge"], colours["paper"]), 3)


def is_opened(answer: Answer) -> bool:
    return answer.command.word == "together" and not answer.refusal


def contrast(one: str, other: str) -> float:
    """How many times as light the one colour is as the other, as WCAG defines it."""
    lights = sorted(luminance(colour) + 0.05 for colour in (one, other))
    return lights[1] / lights[0]


def luminance(colour: str) -> float:
    parts = [int(colour[place:place + 2], 16) / 255 for place in (1, 3, 5)]
    lights = [part / 12.92 if part <= 0.04045 else math.pow((part + 0.055) / 1.055, 2.4) for part in parts]
    return sum(share * light for share, light in zip((0.2126, 0.7152, 0.0722), lights))


class Contents(ToolCase):
    def test_each_script_of_the_repository_gives_a_page(self) -> None:
        for script in SCRIPTS:
            with self.subTest(script.name):
                words = [str(script), "--answers", f"{script}.stdout", "--go-on"]
                status, page, said = run(["tools/answers", "page", *words])
                empty = "answers: the script is empty: it has no command\n"
                self.assertEqual((status, said), (0, "" if script.read_bytes() else empty))
                data = data_of(page)["data"]
                found = len(data["commits"]) + len(data["questions"]) + len(data["refused"])
                blocks = sum(map(is_opened, found_in(script)))
                self.assertEqual(found + blocks, data["answers"])

    def test_the_head_has_the_script_and_who_answered(self) -> None:
        data = data_of(example("pay"))["data"]
        script = Path(TOP, "examples/pay.csv").read_bytes()
        found = {"name": "pay.csv", "size": len(script), "sha256": sha256(script).hexdigest()}
        self.assertEqual(data["script"], found)
        self.assertEqual([file["name"] for file in data["files"]], [PROGRAM.name])
        self.assertEqual((data["kept"]["name"], data["version"]), ("pay.csv.stdout", ""))

    def test_the_words_that_make_it_are_shown(self) -> None:
        page = page_of("table,t,newest,int\n", "--ask", "a=rows,t", "--diary", "t")
        self.assertEqual(data_of(page)["data"]["command"], "tools/answers page - --diary t --ask a=rows,t")
        found = data_of(example("pay"))["data"]["command"]
        self.assertEqual(found, "tools/answers page pay.csv --answers pay.csv.stdout")

    def test_its_words_make_it_again_in_a_shell_whatever_its_files_are_called(self) -> None:
        for name in ("a b", "-x", "$(touch made)", "it's; echo \\n", "`id`", "\x1b[2J\n\u202e\u3164\udcffz"):
            with self.subTest(name), tempfile.TemporaryDirectory() as folder:
                script = Path(folder, name)
                script.write_bytes(b"table,t\n")
                script.with_name(name + ".out").write_bytes(b"ok,1\n")
                page = run(["tools/answers", "page", str(script), "--answers", f"{script}.out"])[1]
                data = data_of(page)["data"]
                self.assertTrue((data["command"] + data["scriptWord"]).isprintable())
                command = f"sha256sum {data['scriptWord']}; {data['command'].replace('tools', str(TOP / 'tools'), 1)}"
                ran = subprocess.run(["bash", "-c", command], cwd=folder, capture_output=True)
                mark, _, again = ran.stdout.partition(b"\n")
                self.assertEqual((mark.lstrip(b"\\")[:64].decode(), again.decode()), (data["script"]["sha256"], page))
                self.assertEqual(len(list(Path(folder).iterdir())), 2)

    def test_it_says_which_tool_made_it(self) -> None:
        for is_installed in (False, True):
            with mock.patch("ruzgalt.which.IS_INSTALLED", is_installed):
                self.assertEqual(data_of(example("pay"))["data"]["isInstalled"], is_installed)

    def test_refusals_have_their_reasons_and_of_a_key_the_rows(self) -> None:
        data = data_of(example("payroll"))["data"]
        [refused] = data["refused"]
        found = [refused[name] for name in ("place", "command", "name")]
        self.assertEqual(found, ["line 38", "load,pay", "KeyOverlap"])
        self.assertIn('person "Adeyemi, Folake": both hold from 2024-09-01 to 9999-12-31', refused["more"])

    def test_commits_have_their_counts_and_the_days_of_a_diary(self) -> None:
        script = Path(TOP, "examples/pay.csv").read_text() + "table,diary,newest,int\nload,diary\n"
        script += "row,2024-01-02,2024-08-20,2\nrow,2024-08-20,9999-12-31,3\nend\n"
        commits = data_of(page_of(script, "--diary", "diary"))["data"]["commits"]
        self.assertEqual(commits[1], ["2", "2024-01-02", "line 2", "load,pay (2 rows)", "2", "0"])
        self.assertEqual([commit[1] for commit in commits], ["2024-01-02", "2024-01-02", "2024-08-20", "", ""])
        self.assertEqual(commits[2][4:], ["2", "1"])
        self.ends(1, {"page PAY --diary x": "answers: x: no such table; "})

    def test_then_and_now_are_the_questions_that_are_asked_twice(self) -> None:
        data = data_of(example("payroll"))["data"]
        commands = {one["number"]: one["command"] for one in data["questions"]}
        pairs = [[commands[number] for number in pair] for pair in data["pairs"]]
        self.assertEqual(pairs, [[f"{command},asof,{commit}", command] for command, commit in [
            ("at,pay,2024-06-28", 4), ("at,pay,2024-07-31", 5), ("agg,pay,sum,euros", 5),
        ]])

    def test_answers_of_one_commit_and_checks_of_other_parts_are_no_pair(self) -> None:
        rows = f"table,t\nload,t\nrow,{TIME}\nend\nload,t\nrow,{TIME}\nend\n"
        check = "check,t,1,2024-01-01{}\npart,{}\nend\n"
        for script, questions, pairs in [
            ("table,t\nrows,t,asof,1\nrows,t\n", 2, []),
            (rows + check.format(",asof,2", 1) + check.format("", 1), 2, [[4, 5]]),
            (rows + check.format(",asof,2", 1) + check.format("", 2), 2, []),
        ]:
            data = data_of(page_of(script))["data"]
            self.assertEqual((len(data["questions"]), data["pairs"]), (questions, pairs))

    def test_a_check_has_its_parts(self) -> None:
        checks = [one for one in data_of(example("audit"))["data"]["questions"] if one["word"] == "check"]
        self.assertEqual(checks[0]["parts"][:2], [["0", "1, 10, 17"], ["1", "2, 9, 11, 14"]])
        self.assertEqual(checks[0]["sentence"], "No: rows 11 and 14 are in one part, and overlap.")

    def test_a_question_has_the_name_that_it_was_asked_by(self) -> None:
        questions = data_of(page_of("table,t\n", "--ask", "all=rows,t"))["data"]["questions"]
        found = [(one["name"], one["place"], one["command"]) for one in questions]
        self.assertEqual(found, [("all", "--ask", "rows,t")])

    def test_a_question_of_the_script_gets_a_name(self) -> None:
        data = data_of(example("pay", "@7=august", "--title", "<b>Löhne</b>", "--note", "First\nSecond"))["data"]
        self.assertEqual([one["name"] for one in data["questions"]], ["august", "", "", ""])
        self.assertEqual((data["title"], data["note"]), ("<b>Löhne</b>", "First\nSecond"))
        self.assertIn("@7=august --answers pay.csv.stdout --title '<b>Löhne</b>' --note", data["command"])
        self.ends(1, {
            "page PAY @7": "answers: @7: the page has all answers; @7=NAME gives one a name",
            "page PAY @99=x": "answers: @99: no such answer",
            "page PAY 1=x": "answers: 1=x: line 1: table,pay,person,text,euros,int: only questions have names",
            "page PAY @7=august 4=x": "answers: 4=x: line 7: at,pay,2024-08-15 has the name august already",
        })

    def test_columns_say_how_their_fields_are_shown(self) -> None:
        data = data_of(example("pay", "--decimals", "euros=2", "--last-day", "--german"))["data"]
        shown = [["valid_from", "point"], ["last_day", "point", {"end": "valid_to"}]]
        values = [["person", "text"], ["euros", "int", {"digits": 2}]]
        self.assertEqual(data["questions"][0]["columns"], [["row_id", "int"], *shown, *values])
        commits = [["sys_from", "int"], ["sys_to", "int"]]
        self.assertEqual(data["tables"][0]["columns"], [["row_id", "int"], *shown, *commits, *values])
        self.assertTrue(data["command"].endswith("--decimals euros=2 --german --last-day"))
        self.ends(1, {"page PAY --decimals cents=2": "cents: not a column of numbers; those are row_id"})

    def test_changes_that_touched_nothing_have_a_reason(self) -> None:
        pay = f'table,pay,person,text,euros,int\nload,pay\nrow,{TIME},"Byron, Ada",5\nrow,{TIME},"Hill, Grace",6\nend\n'
        for change, reason in [
            ("load,pay\nend", "the load has no rows"),
            (f"delete,pay,{TIME},where,person,\"byron, ada\"",
             'no row has "byron, ada" as person then, but "Byron, Ada", which looks alike'),
            (f"delete,pay,{TIME},where,person,\"Byron, Ada\",euros,6", "no row has all of these values"),
            ('update,pay,2024-03-01,2024-04-01,set,euros,7,where,euros,5',
             "the rows that it matches hold at other times: 2024-01-01 to 2024-02-01"),
            ("delete,pay,2024-03-01,2024-04-01",
             "the rows that it matches hold at other times: 2024-01-01 to 2024-02-01, 2024-01-01 to 2024-02-01"),
        ]:
            with self.subTest(change):
                [idle] = data_of(page_of(f"{pay}{change}\n"))["data"]["idle"]
                self.assertEqual((idle["place"], idle["reason"]), ("line 6", reason))

    def test_the_rows_of_its_own_commit_tell_why_a_change_touched_nothing(self) -> None:
        script = f"table,t,a,int\nload,t\nrow,{TIME},1\nend\ndelete,t,{TIME}\ndelete,t,{TIME},where,a,1\n"
        [idle] = data_of(page_of(script))["data"]["idle"]
        self.assertEqual((idle["place"], idle["reason"]), ("line 6", "no row has 1 as a then"))

    def test_answers_that_the_program_does_not_print_make_no_page(self) -> None:
        answered = Path(TOP, "examples/pay.csv.stdout").read_text().replace(",5400", ",5401")
        wanted = 'line 5: it has row,4,2024-07-01,2025-01-01,"Byron, Ada",5401, and the program prints row,'
        self.ends(1, {"page examples/pay.csv --answers -": f"answers: standard input, {wanted}"}, answered)

    def test_the_status_is_that_of_a_list(self) -> None:
        for words, status in (("page examples/payroll.csv", 1), ("page examples/payroll.csv --go-on", 0)):
            self.assertEqual(run(["tools/answers", *words.split()])[0], status)


class Limits(unittest.TestCase):
    def test_what_has_no_room_is_left_out_and_reported(self) -> None:
        rows = [f"{TIME},{number}" for number in range(1500)]
        script = "table,t,a,int\nload,t\n" + "".join(f"row,{row}\n" for row in rows) + "end\nrows,t\n"
        whole = data_of(page_of(script))
        self.assertEqual((len(whole["records-3"]), whole["data"]["leftOut"]), (1500, []))
        with mock.patch.object(contents, "ROOM", 50_000):
            cut = data_of(page_of(script))
        self.assertEqual((len(cut["records-3"]), "versions-0" in cut), (1000, False))
        self.assertEqual(cut["data"]["leftOut"], [
            "of line 1504, rows,t: 500 of 1,500 records", "the 1,500 versions of t, and so what held on each day",
        ])

    def test_many_questions_share_the_records_shown_at_once(self) -> None:
        script = "table,t\n" + "rows,t\n" * 1200
        data = data_of(page_of(script))["data"]
        self.assertEqual((len(data["questions"]), data["questions"][0]["shown"]), (1000, 1000))
        self.assertEqual(data["leftOut"], ["200 questions after the first 1,000"])
        self.assertEqual(data["counts"]["questions"], 1200)
        for most, shown in ((22, 1000), (10, 2)):
            with mock.patch.object(contents, "AT_ONCE", most):
                self.assertEqual(data_of(example("pay"))["data"]["questions"][0]["shown"], shown)

    def test_all_findings_are_counted(self) -> None:
        script = "rows,t\n" * 3 + "table,t,a,int\n" + f"delete,t,{TIME}\n" * 3 + "load,t\nend\n"
        with mock.patch.object(contents, "LISTED", 1):
            data = data_of(page_of(script))["data"]
        self.assertEqual([len(data[what]) for what in ("refused", "idle", "doubtful")], [1, 1, 0])
        self.assertEqual(data["counts"], {"refused": 3, "idle": 4, "doubtful": 0, "questions": 0})

    def test_the_page_says_what_it_has_no_room_for(self) -> None:
        no_versions = ["the 4 versions of pay, and so what held on each day"]
        for limit, most, script, left_out, why in [
            ("ROOM", 0, "pay", no_versions, None), ("COMMITS", 2, "pay", ["1 commits after the first 2"], None),
            ("PICTURES", 1, "audit", [], "the page has"), ("MOST", 1, "pay", [], "records are more than 1"),
        ]:
            with self.subTest(limit), mock.patch.object(contents, limit, most):
                data = data_of(example(script))["data"]
                self.assertEqual(data["leftOut"], left_out)
                self.assertEqual(any(why in one["noPicture"] for one in data["questions"]) if why else True, True)
        with mock.patch.object(contents, "ROOM", 0):
            self.assertEqual(len(data_of(example("pay"))["records-6"]), 4)

    def test_a_picture_has_only_shapes_and_texts(self) -> None:
        kinds = {"svg", "g", "defs", "pattern", "title", "text", "line", "rect", "polygon"}
        for page in (hostile(), example("audit"), example("payroll")):
            trees = [one["picture"] for one in data_of(page)["data"]["questions"] if one["picture"]]
            elements = [one for tree in trees for one in elements_of(tree)]
            self.assertEqual({name for name, *_ in elements} - kinds, set())
            words = {f"{key}={value}" for _, attributes, *_ in elements for key, value in attributes.items()}
            self.assertEqual([one for one in words if re.search(r"^(on|style|href)|:|url\((?!#p\d+-)", one)], [])
        ids = [one[1]["id"] for one in elements if "id" in one[1]]
        self.assertTrue(all(re.fullmatch(r"p\d+-stripes\d+", one) for one in ids))


def elements_of(tree: List[Any]) -> Iterator[List[Any]]:
    yield tree
    for one in tree[2:]:
        yield from elements_of(one) if isinstance(one, list) else ()


class Programs(unittest.TestCase):
    def sources(self, script: str, *ask: str) -> contents.Sources:
        with kept(script) as name:
            return sources.sources(answers_tool.options_of("page", [name, "--go-on", *(f"--ask={one}" for one in ask)]))

    def versions(self, script: str, *ask: str) -> Dict[str, List[str]]:
        """The versions that a page has of each table, as records."""
        found = self.sources(script, *ask).versions
        return {name: [",".join(record) for record in table.texts()] for name, table in found.items()}

    def test_versions_are_those_after_the_script(self) -> None:
        load = f"table,t,a,int\nload,t\nrow,{TIME},5\nend\n"
        first, later = f"1,{TIME},2,,5", f"1,{TIME},2,3,5"
        for script, records in [
            (f"{load}rows,t\n", [first]), (f"{load}delete,t,{TIME}", [later]),
            # Those after the complete statements.
            (f"{load}load,t\nrow,{TIME},6\n", [first]), (f"{load}delete,t,{TIME}\ntogether\nrows,t\n", [later]),
            (f"{load}check,t,1,-\npart,\"1\n", [first]), (f"{load}together\nload,t\nend\nend", [first]),
            # An open quote ends with the script.
            (f'{load}delete,t,{TIME},where,a,"5', [later]), (f'{load}rows,t,"asof","2', [first]),
        ]:
            with self.subTest(script):
                self.assertEqual(self.versions(script), {"t": records})

    def test_a_program_that_prints_other_bytes_again_makes_no_page(self) -> None:
        with tempfile.TemporaryDirectory() as folder, kept("table,t\n") as name:
            program = Path(folder, "dipq")
            # Its second run sees the file that the first one has made.
            program.write_text(f"#!/bin/sh\ncat >/dev/null\nmkdir {folder}/ran 2>/dev/null && echo ok,1 || echo ok,2\n")
            program.chmod(0o700)
            with mock.patch.dict(os.environ, DIPQ=str(program)):
                status, printed, said = run(["tools/answers", "page", name])
        self.assertEqual((status, printed), (1, ""))
        self.assertIn("it was run again on the same script, and printed other answers: name it by DIPQ", said)

    def test_the_program_that_a_command_runs_is_shown_next_to_it(self) -> None:
        with tempfile.TemporaryDirectory() as folder:
            files = [Path(folder, "dipq"), Path(folder, sources.PROGRAMS[0])]
            for file in files:
                file.parent.mkdir(parents=True, exist_ok=True)
                file.write_text(file.name * len(file.parts))
            marks = [sources.marked(str(file), file.read_bytes()) for file in files]
            self.assertEqual(sources.files_of(str(files[0])), marks)
            self.assertEqual(sources.files_of(str(files[1])), marks[1:])

    def test_a_table_that_is_refused_has_no_versions(self) -> None:
        self.assertEqual(self.versions("table,t,a,x\n"), {})

    def test_a_table_that_a_question_makes_has_versions_too(self) -> None:
        self.assertEqual(self.versions("table,t\n", "table,u"), {"t": [], "u": []})


if __name__ == "__main__":
    unittest.main()
