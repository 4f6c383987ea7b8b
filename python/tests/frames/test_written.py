"""Files of a store: its script, a page of it, and pictures."""
import copy
import os
import pickle
import subprocess
import sys
import tempfile
import unittest
from concurrent.futures import ThreadPoolExecutor
from pathlib import Path

import pandas as pd

import ruzgalt
from store_case import Case

DAY = pd.to_datetime
QUESTIONS = ["rows,pay", "dip,pay", "agg,pay,sum,cents", "agg,pay,count,by,person", "join,pay,pay"]
NO_QUESTIONS = ["", "delete,pay,2024-01-01,2024-02-01", "rows,pay\nrows,pay", 'rows,"pay', "rows", "rows,none", "log"]


class Written(Case):
    def setUp(self):
        pay = pd.DataFrame({"from": DAY(["2024-01-01", "2024-03-01"]), "to": DAY(["2024-07-01", "2024-10-01"]),
                            "person": ["Ada <b>", "Grace"], "cents": [5000, 4800]})
        self.store = ruzgalt.Store()
        self.store.table("pay", pay, key="person")
        folder = tempfile.TemporaryDirectory()
        self.addCleanup(folder.cleanup)
        self.folder = Path(folder.name)

    def test_a_script_is_in_its_file(self):
        file = self.folder / "pay.csv"
        file.write_text("older")
        self.assertIsNone(self.store.save(file))
        self.assertEqual(file.read_bytes(), bytes(self.store.script()))
        pd.testing.assert_frame_equal(
            ruzgalt.Store.from_script(file).rows("pay").astype({"from": str, "to": str}),
            self.store.rows("pay").astype({"from": str, "to": str}),
        )
        with self.assertRaisesRegex(FileNotFoundError, "none/pay.csv'"):
            self.store.save(self.folder / "none" / "pay.csv")
        with self.assertRaises(IsADirectoryError):
            self.store.save(self.folder)
        for path in (5, None, "", b"pay.csv", "/"):
            for call in (self.store.save, self.store.page):
                with self.subTest(path), self.assertRaisesRegex(ruzgalt.Refused, "path="):
                    call(path)
        self.assertEqual(os.listdir(self.folder), ["pay.csv"])

    def test_a_file_keeps_its_mode_and_its_links(self):
        script, other = bytes(self.store.script()), self.folder / "other.csv"
        other.write_text("older")
        other.chmod(0o600)
        link, hard = self.folder / "link.csv", self.folder / "hard.csv"
        link.symlink_to("other.csv")
        for file in (link, hard):
            with self.subTest(file.name):
                other.write_text("older")
                self.store.save(file)
                self.assertEqual((file.read_bytes(), other.read_bytes()), (script, script))
                self.assertEqual((other.stat().st_mode & 0o777, link.is_symlink()), (0o600, True))
            if not hard.exists():
                hard.hardlink_to(other)
        self.store.save(self.folder / "new.csv")
        (self.folder / "plain").touch()
        self.assertEqual((self.folder / "new.csv").stat().st_mode, (self.folder / "plain").stat().st_mode)

    def test_a_link_to_itself_and_the_file_of_standard_output_are_refused(self):
        loop, printed = self.folder / "loop.csv", self.folder / "printed.txt"
        loop.symlink_to("loop.csv")
        for call in (self.store.save, self.store.page):
            with self.assertRaisesRegex(OSError, "loop.csv"):
                call(loop)
        self.assertTrue(loop.is_symlink())
        lines = "import ruzgalt\nprint('before', flush=True)\n" \
                "try:\n    ruzgalt.Store().save('/dev/stdout')\nexcept ruzgalt.Refused as refused:\n    print(refused)"
        with printed.open("wb") as file:
            subprocess.run([sys.executable, "-c", lines], stdout=file, check=True)
        self.assertRegex(printed.read_text(), "before\nBadCommand: .*standard output goes to this file")
        self.assertEqual(sorted(os.listdir(self.folder)), ["loop.csv", "printed.txt"])

    def test_a_pipe_and_a_device_are_written_into(self):
        pipe = self.folder / "pipe"
        os.mkfifo(pipe)
        with ThreadPoolExecutor() as threads:
            read = threads.submit(pipe.read_bytes)
            self.store.save(pipe)
            self.assertEqual(read.result(), bytes(self.store.script()))
        self.store.save("/dev/null")
        self.assertTrue(pipe.is_fifo() and Path("/dev/null").is_char_device())

    def test_threads_save_to_one_file(self):
        """Processes of one number may share a folder too, each in a container of its own."""
        small, file = ruzgalt.Store(), self.folder / "pay.csv"
        small.table("pay", self.store.rows("pay").iloc[:0])
        self.store.save(file)
        stores = [self.store, small] * 200
        scripts = {bytes(store.script()) for store in stores[:2]}
        with ThreadPoolExecutor(5) as threads:
            saved = [threads.submit(store.save, file) for store in stores]
            while not all(one.done() for one in saved):
                self.assertTrue(file.read_bytes() in scripts, "the file is mixed or empty")
        self.assertEqual([one.exception() for one in saved if one.exception()], [])
        self.assertEqual(os.listdir(self.folder), ["pay.csv"])

    def test_a_page_has_tables_and_answers(self):
        asked = [*QUESTIONS[:2], f"cost={QUESTIONS[2]}"]
        self.store.page(str(self.folder / "pay.html"), asked, title="Wages", note="-x")
        page = (self.folder / "pay.html").read_text()
        for answered in ("<!DOCTYPE html>", "rows,pay", "agg,pay,sum,cents", "Grace", "pay.csv", "Wages", "cost"):
            self.assertIn(answered.lower(), page.lower())
        self.assertNotIn("Ada <b>", page)
        other = self.folder / "other.html"
        for given, words in ((["rows,none"], {}), (["rows,pay", NO_QUESTIONS[1]], {}), ("rows,pay", {}),
                             ([], {"title": None}), ([], {"title": 5}), ([], {"note": ["x"]}),
                             ([], {"diary": 5}), ([], {"diary": "none"}), ([], {"diary": "pay"})):
            with self.subTest(given, **words), self.assertRaises(ruzgalt.Refused):
                self.store.page(other, given, **words)
        self.refuses(lambda: ruzgalt.Store().page(other), "NoTable", "empty")
        self.assertEqual(os.listdir(self.folder), ["pay.html"])

    def test_pictures_are_of_each_answer_that_has_one(self):
        for question in QUESTIONS:
            with self.subTest(question):
                picture = self.store.picture(question)
                self.assertTrue(picture._repr_svg_().startswith("<svg"))
                self.assertNotIn("<b>", picture.svg)
        where = {"where": {"person": "Grace"}}
        self.assertIn("<svg", self.store.picture("between,pay,0,9", **where).svg)
        words = {"by": "person", "label": "cents", "start": DAY("2024-04-01"), "width": 300}
        shown = self.store.picture("rows,pay", **words, **where).svg
        self.assertTrue('width="300"' in shown and "4800" in shown and "5000" not in shown, shown)
        flags = ruzgalt.Store()
        flags.table("t", self.store.rows("pay").assign(cents=[True, False]).drop(columns="row_id"))
        self.assertEqual(*(flags.picture("rows,t", where={"cents": one}).svg for one in (True, 1)))
        self.assertNotEqual(*(flags.picture("rows,t", where={"cents": one}).svg for one in (True, False)))

    def test_a_picture_in_a_batch_is_of_its_changes(self):
        with self.store.batch():
            self.store.update("pay", "2024-01-01", None, {"cents": 77777}, {"person": "Grace"})
            words = {"label": "cents", "where": {"person": "Grace"}}
            self.assertIn("77777", self.store.picture("rows,pay", **words).svg)
        with self.assertRaisesRegex(ruzgalt.Refused, "both hold at"), self.store.batch():
            self.store.load("pay", self.store.rows("pay").drop(columns="row_id"))

    def test_in_a_batch_no_file_is_written(self):
        """Files would have another state than questions, or changes that are refused later."""
        page, file = self.folder / "pay.html", self.folder / "pay.csv"
        with self.store.batch():
            self.store.update("pay", "2024-01-01", None, {"cents": 77777}, {"person": "Grace"})
            for call in (lambda: self.store.save(file), lambda: self.store.page(page), self.store.script,
                         lambda: self.store.page(page, ["rows,pay"]), lambda: copy.copy(self.store),
                         lambda: pickle.dumps(self.store)):
                self.refuses(call, "BadCommand", "after its end")
            self.assertEqual(repr(self.store), "<Store of 3 commits, tables: pay>")
        self.store.save(file)
        self.store.page(page, ["rows,pay"])
        for one in (file, page):
            self.assertIn("77777", one.read_text())

    def test_wrong_questions_and_options_of_pictures_are_refused(self):
        for question in (*NO_QUESTIONS, 5):
            with self.subTest(question), self.assertRaises(ruzgalt.Refused):
                self.store.picture(question)
        self.refuses(lambda: self.store.picture("between,pay,0,9"), "BadCommand", "where=")
        for words in ({"by": "none"}, {"width": 5}, {"start": "x"}, {"where": {"none": 1}}, {"where": "cents"},
                      {"where": {"cents": 4800.5}}, {"where": {"person": None}}):
            with self.subTest(words), self.assertRaises(ruzgalt.Refused):
                self.store.picture("rows,pay", **words)
        self.assertEqual(len(self.store.log()), 2)


if __name__ == "__main__":
    unittest.main()
