"""Progress of calls: where a line is shown, its text, and that nothing of it remains."""
import contextlib
import importlib.util
import io
import os
import re
import sys
import time
import unittest
import warnings
from importlib import import_module
from unittest import mock

import pandas as pd

import ruzgalt
from refusing import refused
from ruzgalt.frames import progress
from ruzgalt.kernel import library, live
from ruzgalt.progress import Progress

DAYS = pd.date_range("2024-01-02", periods=40)
FRAME = pd.DataFrame({"from": DAYS, "to": DAYS + pd.Timedelta(days=9), "k": list("abcd") * 10, "x": range(40)})
SLOW = [(library, "call"), (live.Live, "exchange")]


class Watched(unittest.TestCase):
    def setUp(self):
        self.said = io.StringIO()
        stack = contextlib.ExitStack()
        self.addCleanup(stack.close)
        stack.enter_context(contextlib.redirect_stderr(self.said))
        stack.enter_context(mock.patch.multiple(Progress, PATIENCE=0.001, PAUSE=0.001))
        self.is_terminal = stack.enter_context(mock.patch.object(progress, "is_terminal", return_value=True))
        self.show_tqdm(False)
        self.addCleanup(self.show_tqdm)

    def show_tqdm(self, is_there=True):
        """Sets whether tqdm can be imported. patch.dict would forget other modules that are imported meanwhile."""
        for name in ("tqdm", "tqdm.auto"):
            sys.modules.pop(name, None)
            if not is_there:
                sys.modules[name] = None

    @contextlib.contextmanager
    def slow(self, is_shown=True):
        """Answers that take until a line is shown, or some time if none must be."""
        def slowed(function):
            def run(*given):
                begun = time.monotonic()
                while time.monotonic() < begun + (20 if is_shown else 0.05) and not (is_shown and self.said.getvalue()):
                    time.sleep(0.001)
                return function(*given)
            return run

        with contextlib.ExitStack() as stack:
            for owner, name in SLOW:
                stack.enter_context(mock.patch.object(owner, name, slowed(getattr(owner, name))))
            yield

    def forget(self):
        self.said.seek(0)
        self.said.truncate()

    def is_gone(self, form):
        """That lines of this form were shown, and that nothing of them is left."""
        *shown, last = [one.replace("\033[K", "").strip() for one in re.findall("[^\r]+", self.said.getvalue())]
        lines = [one for one in shown if one]
        self.assertTrue(lines and all(re.fullmatch(form, one) for one in lines), lines)
        self.assertEqual(last, "")


class Calls(Watched):
    def test_each_call_shows_its_seconds_where_it_is_asked_for(self):
        calls = {
            **dict.fromkeys(("join", "anti"), (FRAME, FRAME, "k")), "agg": (FRAME, "count"), "spread": (FRAME, "x"),
            **dict.fromkeys(("dip", "gaps", "coalesce", "overlaps"), (FRAME,)),
        }
        for name, given in calls.items():
            with self.subTest(name), self.slow():
                self.forget()
                words = {"amount": "per month"} if name == "spread" else {}
                getattr(ruzgalt, name)(*given, progress=True, **words)
                self.is_gone(rf"ruzgalt\.{name}: \d+ s")

    def test_a_store_shows_its_runs(self):
        store = ruzgalt.Store(progress=True)
        store.table("t", FRAME)
        opened = lambda: ruzgalt.Store.from_script(store.script(), progress=True)  # noqa: E731
        for asked in (lambda: store.dip("t"), lambda: opened().dip("t")):
            self.forget()
            with self.slow():
                asked()
            self.is_gone(r"ruzgalt\.Store: \d+ s")
        with refused(name="BadCommand"):
            ruzgalt.Store(progress="yes")

    def test_nothing_is_shown_unasked_but_on_a_terminal(self):
        with self.slow(is_shown=False):
            ruzgalt.agg(FRAME, "count", progress=False)
            self.is_terminal.return_value = False
            for is_wanted in (None, True):
                ruzgalt.agg(FRAME, "count", progress=is_wanted)
        self.assertEqual(self.said.getvalue(), "")
        self.is_terminal.return_value = True
        with self.slow():
            ruzgalt.agg(FRAME, "count")
        self.assertRegex(self.said.getvalue(), "^(\rruzgalt.agg: \\d+ s\033\\[K)+\r\033\\[K$")

    def test_a_refused_call_leaves_nothing(self):
        with self.assertRaises(ruzgalt.Refused):
            ruzgalt.agg(FRAME.assign(to=None), "count")
        self.assertEqual((self.said.getvalue()[-4:], Progress.begun), ("\r\033[K" * bool(self.said.getvalue()), []))

    def test_a_doubt_has_a_line_of_its_own(self):
        others = FRAME.assign(k=FRAME["k"].str.upper())
        with warnings.catch_warnings():
            warnings.simplefilter("always", ruzgalt.Doubt)
            with mock.patch.object(warnings, "warn", lambda *_, **__: self.said.write("a doubt")):
                ruzgalt.join(FRAME, others, "k")
        self.assertRegex(self.said.getvalue(), "(^|\033\\[K)a doubt")

    def test_a_stream_that_nobody_reads_any_more_stops_no_call(self):
        self.said.close()
        call = library.call
        with mock.patch.object(library, "call", lambda *given: time.sleep(0.05) or call(*given)):
            self.assertEqual(len(ruzgalt.coalesce(FRAME, progress=True)), 1)

    @unittest.skipUnless(importlib.util.find_spec("tqdm"), "tqdm isn't here: apt-get install python3-tqdm")
    def test_tqdm_shows_it_where_it_is(self):
        self.show_tqdm()
        with self.slow():
            ruzgalt.agg(FRAME, "count", progress=True)
        self.is_gone(r"ruzgalt\.agg(: \d+ s)?")


class Terminals(unittest.TestCase):
    def test_one_is_known_by_its_number_too(self):
        """IDLE's stream says that it is a terminal but has no number; a closed or missing stream isn't a terminal."""
        said, closed = io.StringIO(), io.StringIO()
        closed.close()
        ours, theirs = os.openpty()
        with mock.patch.object(said, "isatty", return_value=True, create=True), open(theirs, "w") as terminal:
            for stream, wanted in ((said, False), (closed, False), (None, False), (terminal, True)):
                with mock.patch.object(sys, "stderr", stream):
                    self.assertEqual(progress.is_terminal(), wanted, stream)
        os.close(ours)


@unittest.skipUnless(importlib.util.find_spec("dask"), "Dask isn't here: apt-get install python3-dask")
class Partitions(Watched):
    @classmethod
    def setUpClass(cls):
        # Newer versions warn on standard error when they are imported.
        import_module("dask.dataframe")

    def test_calls_of_dask_show_nothing(self):
        import dask.dataframe as dd
        with self.slow(is_shown=False):
            ruzgalt.coalesce(dd.from_pandas(FRAME, npartitions=4), "k", progress=True).compute(scheduler="sync")
        self.assertEqual(self.said.getvalue(), "")


if __name__ == "__main__":
    unittest.main()
