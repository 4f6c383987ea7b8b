"""The tools as a shell runs them: with closed streams, on a full disk, and ended by Ctrl-C."""
import errno
import os
import pty
import re
import signal
import subprocess
import sys
import tempfile
import time
import tty
import unittest
from concurrent.futures import ThreadPoolExecutor
from pathlib import Path
from typing import List, Tuple
from unittest import mock

from ruzgalt import which
from ruzgalt.errors import Stopped
from tests.support import PROGRAM, TOP

LOADS = f"{sys.executable} tools/csv-to-load pay Start End Name"
ANSWERS = f"{sys.executable} tools/answers"
CSV = "Name,Start,End\n Hill,2024-01-01,2024-03-05\n"
LOADED = "load,pay\nrow,2024-01-01,2024-03-05, Hill\nend\n"


def run(command: str, given: str = CSV) -> Tuple[int, str, str]:
    """Returns the status of a shell's command, and its standard output and error."""
    ran = subprocess.run(["bash", "-c", command], cwd=TOP, input=given, capture_output=True, text=True)
    return ran.returncode, ran.stdout, ran.stderr


class ClosedStreams(unittest.TestCase):
    def test_a_closed_input_is_reported(self) -> None:
        found = (1, "csv-to-load failed\n", "csv-to-load: standard input is closed\n")
        self.assertEqual(run(f"{LOADS} <&-"), found)
        self.assertEqual(run(f"{ANSWERS} list - <&-"), (1, "", "answers: standard input is closed\n"))

    def test_a_closed_output_is_reported(self) -> None:
        self.assertEqual(run(f"{LOADS} >&-"), (1, "", "csv-to-load: standard output is closed\n"))
        self.assertEqual(run(f"{ANSWERS} list - >&-"), (1, "", "answers: standard output is closed\n"))

    def test_where_nothing_can_be_reported_the_load_is_printed(self) -> None:
        self.assertEqual(run(f"{LOADS} 2>&-"), (0, LOADED, ""))

    def test_a_full_device_is_reported(self) -> None:
        status, _, said = run(f"{LOADS} >/dev/full")
        self.assertEqual((status, said.splitlines()[-1]), (1, "csv-to-load: No space left on device"))
        script = "examples/pay.csv"
        status, _, said = run(f"{ANSWERS} list {script} --answers {script}.stdout >/dev/full")
        self.assertEqual((status, said), (1, "answers: No space left on device\n"))

    def test_each_tool_writes_all_or_fails(self) -> None:
        """A full disk takes a part of a write. By PYTHONUNBUFFERED, Python doesn't try to write the rest."""
        rows = [f"2024-01-{1 + number % 28:02},2024-02-01,Name {number},{number}\n" for number in range(100)]
        script = f"table,t,a,text,n,int\nload,t\n{''.join(f'row,{row}' for row in rows)}end\nrows,t\n"
        # The program itself may write all of its answers.
        program = f"#!/bin/sh\nulimit -S -f unlimited\nexec {PROGRAM}\n"
        more = "".join(f"rows,none{number}\n" for number in range(20))
        with tempfile.TemporaryDirectory() as folder:
            for name, text in (
                ("s", script), ("p", program), ("r", script + more), ("c", f"Start,End,Name,n\n{''.join(rows)}"),
                ("u", script.replace(",Name", ",").replace("rows,t\n", "delete,t,2024-01-01,2025-01-01\nrows,t\n")),
            ):
                Path(folder, name).write_text(text)
            Path(folder, "p").chmod(0o700)
            commands = [
                *(f"{ANSWERS} {words}" for words in (
                    f"list {folder}/r", f"csv {folder}/s", f"coalesce {folder}/s a", f"history {folder}/s t",
                    f"json {folder}/s",
                    f"sqlite {folder}/s :memory: 3=t --query 'select * from t'", f"next {folder}/s --table t",
                    f"page {folder}/s", f"picture {folder}/s", f"changed {folder}/u --ask rows,t,asof,2 --ask rows,t",
                    f"months {folder}/s --sum n --per month --by a", f"refusals {folder}/r",
                    f"raise {folder}/s t n --percent 50 --from 2024-01-01 --round up",
                    f"xlsx {folder}/s {folder}/w.xlsx",
                )),
                f"{ANSWERS} --help", f"{ANSWERS} csv --help", f"{LOADS} --help", f"{LOADS} --file {folder}/c",
                "tools/man-page dipq-answers",
            ]
            small = f"ulimit -S -f 1; DIPQ={folder}/p PYTHONUNBUFFERED=1"
            with ThreadPoolExecutor() as pool:
                lines = [f"{small} {command} > {folder}/o{index}" for index, command in enumerate(commands)]
                ended = list(pool.map(run, lines))
            for command, (status, _, said) in zip(commands, ended):
                with self.subTest(command):
                    self.assertEqual((status, said.partition(": ")[2].splitlines()), (1, ["File too large"]))
            self.assertFalse(Path(folder, "w.xlsx").exists())

    def test_a_process_without_free_descriptors_reports_that(self) -> None:
        with mock.patch("subprocess.run", side_effect=OSError(errno.EMFILE, "Too many open files")):
            which.is_built_at.cache_clear()
            with self.assertRaisesRegex(Stopped, "couldn't look whether dipq is built: Too many open files"):
                which.is_built_at(TOP, "dipq", 0)


# Characters that act on a terminal, can't be seen, or turn the text after them.
ACTING = 'A\x1b[2J\x07\r\x9b1m\u202e\u3164\n3,2024-01-01,B'
CODES = r"A\x1b[2J\x07\r\x9b1m\u202e\u3164\n3,2024-01-01,B"
ROW = f'2024-01-01,2024-02-01,"{ACTING}"'
HOSTILE = (
    f'table,t,a,text,key,a\nload,t\nrow,{ROW}\nend\nrows,t\nload,t\nrow,{ROW}\nend\n"{ACTING}\udcff",t\n'
    f'delete,t,2024-03-01,2024-03-02,where,a,"{ACTING}"\n'
)


class Terminals(unittest.TestCase):
    """What stands on a terminal is a table's own, and no character of a script acts on it."""

    def setUp(self) -> None:
        folder = tempfile.TemporaryDirectory()
        self.addCleanup(folder.cleanup)
        self.script = Path(folder.name, "s")
        self.script.write_bytes(HOSTILE.encode("utf-8", "surrogateescape"))

    def words(self, tool: str, more: str) -> str:
        return f"{ANSWERS} {tool} {self.script} {more}"

    def test_no_tool_writes_what_acts_on_it(self) -> None:
        for tool, more in [
            ("list", ""), ("refusals", ""), ("csv", "--go-on"), ("csv", ""), ("json", "--go-on"),
            ("sqlite", ":memory: 3=t --go-on --query 'select substr(a, 1, 1) || char(27) as c from t'"),
            ("picture", "--go-on"), ("history", "t --go-on"),
            ("changed", "3 3 --go-on"), ("overlaps", "a --of 3 --go-on"), ("csv", "$'\\e[2J'"),
            ("csv", "--go-on --ask $'rows,\\e[2J'"), ("history", "t --where $'\\e[2J'"), ("csv", "--go-on $'\\e'=1"),
        ]:
            with self.subTest(f"{tool} {more}"):
                # A slow machine shows for a moment how far the tool is.
                shown = re.sub(rb"\r[^\r\n]*\x1b\[K", b"", on_terminal(self.words(tool, more)))
                for line in shown.replace(b"\r\x1b[K", b"").split(b"\n"):
                    self.assertTrue(line.decode().isprintable(), line)

    def test_such_characters_are_shown_by_codes(self) -> None:
        wanted = f'row_id,valid_from,valid_to,a\n1,2024-01-01,2024-02-01,"{CODES}"\n'
        self.assertEqual(on_terminal(f"{self.words('csv', '--go-on')} 2>/dev/null").decode(), wanted)

    def test_in_a_pipe_bytes_stay_as_they_are(self) -> None:
        ran = subprocess.run(["bash", "-c", self.words("csv", "--go-on")], cwd=TOP, capture_output=True)
        wanted = f"row_id,valid_from,valid_to,a\n1,{ROW}\n"
        self.assertEqual(ran.stdout, wanted.encode("utf-8", "surrogateescape"))


def on_terminal(command: str) -> bytes:
    """What a command of a shell writes to a terminal, by its standard output and error."""
    ours, theirs = pty.openpty()
    # So that line ends stay as they are written.
    tty.setraw(theirs)
    # From 3.14 on Python colours how a tool is used.
    plain = {**os.environ, "NO_COLOR": "1"}
    with subprocess.Popen(
        ["bash", "-c", command], cwd=TOP, env=plain, stdin=subprocess.DEVNULL, stdout=theirs, stderr=theirs,
    ):
        os.close(theirs)
        read = b""
        with open(ours, "rb", buffering=0) as terminal:
            try:
                for piece in iter(lambda: terminal.read(1 << 16), b""):
                    read += piece
            except OSError:
                # Nobody writes to it any more.
                pass
    return read


class Files(unittest.TestCase):
    """Files that the tools write, or only read."""

    def test_where_there_is_no_more_room_no_file_is_left(self) -> None:
        """A short script has a long answer, and the program itself may write all of it."""
        script = "table,t,a,text\nload,t\n" + "row,2024-01-01,2024-02-01,x\n" * 100
        script += f"end\nupdate,t,2024-01-01,2024-02-01,set,a,{'x' * 4000}\nrows,t\n"
        with tempfile.TemporaryDirectory() as folder:
            Path(folder, "s").write_text(script)
            Path(folder, "a").write_text(f"#!/bin/sh\nulimit -S -f unlimited\nexec {PROGRAM}\n")
            Path(folder, "a").chmod(0o700)
            for words in (f"csv {folder}/s --folder {folder}/out", f"sqlite {folder}/s {folder}/z.db"):
                status, _, said = run(f"ulimit -S -f 64; DIPQ={folder}/a {ANSWERS} {words}")
                self.assertEqual((status, said.count("\n"), said[:9]), (1, 1, "answers: "), said)
            left = sorted(str(file.relative_to(folder)) for file in Path(folder).rglob("*"))
            self.assertEqual(left, ["a", "out", "s"])

    def test_all_that_is_opened_is_closed(self) -> None:
        strict = f"{sys.executable} -X dev -W error::ResourceWarning tools/answers"
        script = "examples/pay.csv"
        with tempfile.TemporaryDirectory() as folder:
            for words in [
                *[f"sqlite {script} {folder}/z.db 4=a"] * 2, f"sqlite {script} : --day x",
                f"csv {script} --folder {folder}", f"list {script}",
                f"csv {script} --ask '\"'", f"sqlite {script} {folder} 4=a",
                f"page {script}", f"csv {script} 99", f"sqlite {script} {folder}/y.db --query 'select x'",
            ]:
                with self.subTest(words):
                    answered = "" if "--ask" in words else f" --answers {script}.stdout"
                    _, _, said = run(f"{strict} {words}{answered}")
                    self.assertNotRegex(said, "ResourceWarning|Traceback|DeprecationWarning")
            for program in ("/none", "/etc", "/bin/false"):
                with self.subTest(program):
                    _, _, said = run(f"DIPQ={program} {strict} list {script}")
                    self.assertNotRegex(said, "ResourceWarning|Traceback|DeprecationWarning")


class CtrlC(unittest.TestCase):
    def setUp(self) -> None:
        """A shell's background job ignores the signal, and so would the tools that it begins."""
        self.addCleanup(signal.signal, signal.SIGINT, signal.signal(signal.SIGINT, signal.default_int_handler))

    def ended(self, words: List[str], status: int, said: str) -> None:
        """A tool that waits for its input ends so by the signal."""
        with subprocess.Popen(
            words, bufsize=0, cwd=TOP, stdin=subprocess.PIPE, stdout=subprocess.PIPE, stderr=subprocess.PIPE,
        ) as tool:
            # More than a pipe holds, so it has begun to read, and waits for more.
            assert tool.stdin is not None
            tool.stdin.write(b"\n" * 200_000)
            time.sleep(0.5)
            tool.send_signal(signal.SIGINT)
            self.assertEqual((tool.wait(10), *tool.communicate()), (status, b"", said.encode()))

    def test_the_tools_end_by_it(self) -> None:
        self.ended(LOADS.split(" "), -signal.SIGINT, "")
        self.ended([*ANSWERS.split(" "), "list", "-"], -signal.SIGINT, "")
        about = "nothing is proved yet: the program is compiled from its sources, in about two minutes"
        self.ended([sys.executable, "try"], 128 + signal.SIGINT, f"try: {about}; ./dipq proves it\n")

    def test_growth_is_broken_off(self) -> None:
        """Neither a file nor a program is left, whichever signal comes."""
        for number, said in ((signal.SIGINT, "interrupted"), (signal.SIGTERM, "stopped")):
            with self.subTest(said), tempfile.TemporaryDirectory() as name:
                folder = Path(name)
                (folder / "files").mkdir()
                valgrind = folder / "valgrind"
                valgrind.write_text(f"#!/bin/sh\necho $$ >>{folder}/begun\nexec sleep 1000\n")
                valgrind.chmod(0o755)
                paths = {"PATH": f"{folder}:{os.environ['PATH']}", "TMPDIR": str(folder / "files")}
                with subprocess.Popen(
                    [sys.executable, "tools/check-growth", "/bin/true"], cwd=TOP, env={**os.environ, **paths},
                    stderr=subprocess.PIPE, text=True,
                ) as tool:
                    while not (folder / "begun").exists():
                        time.sleep(0.1)
                    tool.send_signal(number)
                    found = tool.communicate(timeout=30)[1]
                self.assertEqual((tool.returncode, found), (1, f"check-growth: it was {said}\n"))
                self.assertEqual(list((folder / "files").iterdir()), [])
                for begun in (folder / "begun").read_text().split():
                    self.assertRaises(ProcessLookupError, os.kill, int(begun), 0)


class WrongWords(unittest.TestCase):
    def test_each_tool_tells_its_words(self) -> None:
        for words in (
            "tools/check-random none", "tools/check-random . 5", "tools/check-random tools/answers x",
            "tools/check-large none", "tools/check-large tools/answers 1 x", "tools/check-growth none",
            "bench/time-tools x", "bench/time-tools 1 2 3", "try x", "tools/answers show x", "tools/csv-to-load",
        ):
            with self.subTest(words):
                status, _, said = run(f"{sys.executable} {words}", "")
                self.assertEqual((status, said.split(":")[0]), (2, "usage"))

    def test_a_measure_without_a_program_is_none(self) -> None:
        status, _, said = run(f"DIPQ=/none {sys.executable} bench/time-tools 10", "")
        self.assertEqual((status, "/none: no such program" in said), (1, True))


if __name__ == "__main__":
    unittest.main()
