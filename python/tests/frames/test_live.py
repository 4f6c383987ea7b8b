"""The program that a store keeps: when it starts and ends, the store after it is killed, and where answers end."""
import copy
import gc
import os
import pickle
import resource
import signal
import subprocess
import sys
import tempfile
import threading
import unittest
import warnings
from concurrent.futures import ThreadPoolExecutor
from pathlib import Path
from unittest import mock

import pandas as pd

import ruzgalt
from processes import children, is_running, wait_for
from ruzgalt import which
from ruzgalt.frames import worker
from ruzgalt.kernel import live
from ruzgalt.store import store as stores
from store_case import frame, quietly, store

DAYS = pd.to_datetime(["2024-01-01"]), pd.to_datetime(["2024-02-01"])


def programs():
    """The numbers of the programs that this process runs."""
    return [pid for pid in children(os.getpid()) if is_running(pid)]


def update(made, cents, key="a"):
    return made.update("t", "2024-01-05", "2024-01-10", {"cents": cents}, {"k": key})


class Lives(unittest.TestCase):
    def setUp(self):
        self.before = programs()
        self.made = store(frame(cents=[1, 2]), key="k")

    def own(self):
        return [pid for pid in programs() if pid not in self.before]

    def test_one_program_does_all_changes_and_questions(self):
        [program] = self.own()
        for cents in range(9):
            update(self.made, cents)
        self.assertEqual((len(self.made.rows("t")), len(self.made.log())), (4, 11))
        self.assertEqual(self.own(), [program])

    def test_it_ends_with_its_store(self):
        """Also if a store isn't used, which has none."""
        other = copy.copy(self.made)
        self.assertEqual(len(self.own()), 1)
        other.rows("t")
        self.assertEqual(len(self.own()), 2)
        del other
        gc.collect()
        self.assertTrue(wait_for(lambda: len(self.own()) == 1, 5))
        self.assertEqual(len(self.made.rows("t")), 2)

    def test_a_killed_program_is_replaced_once(self):
        update(self.made, 5)
        rows = self.made.rows("t")
        os.kill(self.own()[0], signal.SIGKILL)
        with warnings.catch_warnings(record=True) as caught:
            warnings.simplefilter("always")
            pd.testing.assert_frame_equal(self.made.rows("t"), rows)
        self.assertEqual([one.category for one in caught], [ruzgalt.Doubt])
        self.assertIn("SIGKILL", str(caught[0].message))
        for error in (EOFError, KeyboardInterrupt):
            with mock.patch.object(live, "received", side_effect=error):
                self.assertRaises((ruzgalt.Stopped, error), lambda: self.made.rows("t"))
        pd.testing.assert_frame_equal(self.made.rows("t"), rows)

    def test_copies_and_forks_have_programs_of_their_own(self):
        update(self.made, 5)
        others = copy.copy(self.made), copy.deepcopy(self.made), pickle.loads(pickle.dumps(self.made))
        self.assertEqual({bytes(one.script()) for one in others}, {bytes(self.made.script())})
        for other in others:
            for one in (self.made, other):
                update(one, 6, "b")
            self.assertEqual(other.delete("t", "2024-01-01", None, {"k": "a"}).closed, 3)
            self.assertEqual((len(other.rows("t")), self.made.rows("t")["cents"].tolist().count(6)), (3, 1))
        self.is_right_in_a_child(lambda: update(self.made, 7).commit == self.made.log()["commit"].iloc[-1])
        self.assertEqual(self.made.rows("t")["cents"].tolist().count(7), 0)

    def is_right_in_a_child(self, call):
        """That the call is true in a forked process, which ends then."""
        child = os.fork()
        if not child:
            is_right = False
            try:
                is_right = call()
            finally:
                os._exit(0 if is_right else 1)
        if not wait_for(lambda: not is_running(child), 30):
            os.kill(child, signal.SIGKILL)
        self.assertEqual(os.waitpid(child, 0)[1], 0)

    def test_a_fork_while_another_thread_is_in_a_batch_has_the_store_as_it_was(self):
        before, begun, is_forked = self.made.script(), threading.Event(), threading.Event()

        def change():
            with self.made.batch(label="whole"):
                update(self.made, 5)
                begun.set()
                is_forked.wait(30)

        thread = threading.Thread(target=change)
        thread.start()
        begun.wait(30)
        self.is_right_in_a_child(lambda: (
            self.made.script() == before and len(self.made.rows("t")) == 2 and update(self.made, 6).commit == 3))
        is_forked.set()
        thread.join()
        self.assertEqual(self.made.rows("t", as_of="whole")["cents"].tolist().count(5), 1)

    def test_a_fork_within_a_batch_has_the_store_as_it_was_and_ends_the_batch(self):
        before, child = self.made.script(), None
        try:
            with self.made.batch(label="whole"):
                update(self.made, 5)
                child = os.fork()
                if not child:
                    refused = self.assertRaisesRegex(ruzgalt.Refused, "forked within a batch", update, self.made, 6)
                    is_right = refused is None and len(self.made.rows("t")) == 2 and self.made.script() == before
        except BaseException as error:
            if child:
                raise
            is_right = is_right and "forked within a batch" in str(error) and update(self.made, 6).commit == 3
            os._exit(0 if is_right else 1)
        self.assertEqual(os.waitpid(child, 0)[1], 0)
        self.assertEqual(self.made.rows("t", as_of="whole")["cents"].tolist().count(5), 1)

    def test_a_refused_batch_leaves_no_trace(self):
        before, rows = self.made.script(), self.made.rows("t")
        for wrong in (lambda: self.made.load("t", frame(cents=[3, 4])), lambda: self.made.rows("t", as_of=99)):
            with self.assertRaises(ruzgalt.Refused), self.made.batch():
                update(self.made, 5)
                wrong()
                update(self.made, 6)
            self.assertEqual(self.made.script(), before)
            pd.testing.assert_frame_equal(self.made.rows("t"), rows)
        self.assertEqual((update(self.made, 7).commit, len(self.own())), (3, 1))

    def test_threads_share_it(self):
        with ThreadPoolExecutor(8) as threads:
            done = [threads.submit(update, self.made, cents) for cents in range(40)]
            asked = [threads.submit(self.made.rows, "t") for _ in range(40)]
            self.assertEqual(sorted(one.result().commit for one in done), list(range(3, 43)))
            self.assertLessEqual({len(one.result()) for one in asked}, {2, 4})
        self.assertEqual(len(self.own()), 1)

    def test_answers_longer_than_a_pipe_and_texts_like_their_ends(self):
        texts = [f'{number}\nend,1\n"' for number in range(9_000)]
        many = pd.DataFrame({"from": [DAYS[0][0]] * 9_000, "to": DAYS[1][0], "k": texts})
        self.made.table("u", many)
        self.assertEqual(self.made.rows("u")["k"].tolist(), texts)
        with self.made.batch():
            for cents in range(4_000):
                update(self.made, cents)
        self.assertEqual(len(self.made.log()), 4_004)
        self.assertEqual(self.made.dip("u").count, 9_000)

    def test_a_worker_s_memory_is_the_program_s_limit(self):
        with mock.patch.object(worker, "memory", return_value=1 << 33):
            other = copy.copy(self.made)
            other.rows("t")
        [program] = [pid for pid in self.own() if resource.prlimit(pid, resource.RLIMIT_AS)[0] == 1 << 33]
        self.assertTrue(is_running(program))

    def test_it_ends_if_python_is_killed(self):
        lines = f"import sys, time; sys.path.append({os.path.dirname(__file__)!r}); import test_live as one\n" \
                "made = one.store(one.frame(), key='k'); print(one.programs()[0], flush=True); time.sleep(60)"
        with subprocess.Popen([sys.executable, "-c", lines], stdout=subprocess.PIPE) as caller:
            program = int(caller.stdout.readline())
            self.assertTrue(is_running(program))
            caller.kill()
        self.assertTrue(wait_for(lambda: not is_running(program), 5))


class Counts(unittest.TestCase):
    def test_past_some_commits_counts_are_asked_for_when_they_are_read(self):
        made = store(frame(cents=[1, 2]), key="k")
        with mock.patch.object(stores, "COUNTED", 2), mock.patch.object(live.Live, "exchange", autospec=True,
                                                                        side_effect=live.Live.exchange) as exchange:
            (one, other), doubts = quietly(lambda: (update(made, 5), update(made, 6, "no one")))
            self.assertEqual((exchange.call_count, doubts), (2, []))
            self.assertEqual((other.added, other.closed, repr(one)), (0, 0, "commit 3: 3 added, 1 closed"))
            self.assertEqual(exchange.call_count, 3)
            _, doubts = quietly(lambda: in_a_batch(made))
            self.assertEqual(len(doubts), 1)


def in_a_batch(made):
    with made.batch():
        update(made, 7, "no one")


class Faults(unittest.TestCase):
    """Messages if the program is missing or ends badly."""

    def setUp(self):
        folder = tempfile.TemporaryDirectory(prefix="frames-")
        self.addCleanup(folder.cleanup)
        self.folder = Path(folder.name)

    def says(self, wanted, text="", **variables):
        """That a store says this with a program of this text."""
        path = self.folder / "dipq-live"
        path.write_text(f"#!/bin/sh\n{text}\n")
        path.chmod(0o755)
        with mock.patch.dict(os.environ, {"DIPQ_LIVE": str(path), **variables}):
            with self.assertRaises(ruzgalt.Stopped) as caught:
                ruzgalt.Store.from_script(b"table,t\n")
        self.assertIn(wanted, str(caught.exception))

    def test_how_it_ended_is_reported(self):
        for wanted, text in (("SIGKILL", "kill -9 $$"), ("SIGSEGV", "kill -11 $$"),
                             ("status 3: dipq-live: out of memory", "echo 'dipq-live: out of memory' >&2; exit 3")):
            with self.subTest(text), self.assertWarnsRegex(ruzgalt.Doubt, f"{wanted}: it was started again"):
                self.says(wanted, text)

    def test_another_program_is_reported(self):
        for text in ("echo ok", "echo ok,1", "exit 1"):
            with self.subTest(text):
                self.says("DIPQ_LIVE must name", text)

    def test_a_program_that_answers_nothing_is_reported_by_each_call(self):
        empty, whole = ruzgalt.Store(), store(frame())
        script = whole.script()
        calls = [
            empty.log, lambda: empty.table("t", frame()), lambda: copy.copy(whole).log(),
            lambda: copy.copy(whole).picture("rows,t"), lambda: ruzgalt.Store.from_script(script),
            lambda: whole.page(self.folder / "t.html", ["rows,t"]),
            lambda: copy.copy(whole).page(self.folder / "t.html"),
        ]
        for program in ("/bin/true", "/bin/echo", "/bin/false"):
            named = mock.patch.dict(os.environ, DIPQ=program, DIPQ_LIVE=program)
            for place, call in enumerate(calls):
                with self.subTest(program=program, call=place), named:
                    with self.assertRaisesRegex(ruzgalt.Stopped, "DIPQ_LIVE must name"):
                        call()

    def test_a_program_that_is_not_there_is_reported(self):
        self.says("/nowhere/dipq-live: No such file", DIPQ_LIVE="/nowhere/dipq-live")
        with mock.patch.dict(os.environ, DIPQ="/nowhere/dipq"):
            del os.environ["DIPQ_LIVE"]
            self.assertEqual(which.live(), "/nowhere/dipq-live")

    def test_a_clone_that_is_not_built_is_reported(self):
        (self.folder / "crates").mkdir()
        with mock.patch.object(which, "TOP", self.folder):
            self.says("isn't built from", "exit 3")


if __name__ == "__main__":
    unittest.main()
