"""Random stores with names that answers also have, and wrong calls, compared with plain_store.

Each call gives exactly the same answer or raises Refused. hypothesis draws the calls, and shortens failing
ones; FRAMES_HOSTILE is how many examples a test of frames has, and a tenth of it are stores.
"""
import copy
import importlib.util
import os
import unittest
from collections import Counter
from decimal import Decimal

import pandas as pd

import plain_store
import ruzgalt
from plain_store import REFUSED

if not importlib.util.find_spec("hypothesis"):
    raise unittest.SkipTest("hypothesis isn't here: apt-get install python3-hypothesis")
from hypothesis import HealthCheck, settings, strategies as st  # noqa: E402
from hypothesis import stateful  # noqa: E402
from hypothesis.stateful import invariant, precondition, rule  # noqa: E402

import hostile_stores as hostile  # noqa: E402

EXAMPLES = int(os.environ.get("FRAMES_HOSTILE", "50"))
MANY = settings(
    max_examples=max(EXAMPLES // 10, 40), stateful_step_count=15, deadline=None, database=None,
    derandomize=EXAMPLES < 1000, suppress_health_check=list(HealthCheck),
)
TABLES = st.sampled_from(["t", "u"])
DATA = st.data()


def outcome(call):
    """What a call answers, or REFUSED; nothing else may be raised."""
    try:
        return call()
    except ruzgalt.Refused as refused:
        assert len(refused.reason) > 10, refused
        return REFUSED


def exact(cell):
    """A script has no floats: they come back as Decimals."""
    return Decimal(str(cell)) if isinstance(cell, float) else cell


class Stores(stateful.RuleBasedStateMachine):
    def __init__(self):
        super().__init__()
        self.store, self.plain, self.forms = ruzgalt.Store(workers=1), plain_store.PlainStore(), {}

    @stateful.initialize(first=st.sampled_from(hostile.FIRSTS), hours=st.sampled_from([24, 24, 8]))
    def begins(self, first, hours):
        hostile.begin(first, hours)

    # Changes.

    def same(self, done, wanted):
        """done: of the store; wanted: of plain_store."""
        if done is not REFUSED:
            done = (done.commit, done.added, done.closed)
        assert done == wanted, (done, wanted)

    @rule(data=DATA, name=TABLES)
    def makes(self, data, name):
        form = data.draw(hostile.forms())
        rows = data.draw(hostile.rows_of(form))
        done = outcome(lambda: self.store.table(name, form.frame(rows), key=form.plain.key, **form.options))
        if name not in self.forms and done is not REFUSED:
            self.forms[name] = form
        self.same(done, self.plain.make(name, form.plain, rows))

    @precondition(lambda self: self.forms)
    @rule(data=DATA)
    def loads(self, data):
        name, form = self.some_table(data)
        rows = data.draw(hostile.rows_of(form))
        frame = form.frame(rows)
        frame = frame.iloc[:, data.draw(st.permutations(list(range(len(frame.columns)))))]
        self.same(outcome(lambda: self.store.load(name, frame)), self.plain.load(name, rows))

    @precondition(lambda self: self.forms)
    @rule(data=DATA, word=st.sampled_from(["update", "delete"]))
    def changes(self, data, word):
        name, form = self.some_table(data)
        start, end, _ = hostile.row(data.draw, form, most=14)
        where = hostile.values_of(data.draw, form, hostile.some(data.draw, form.names))
        to = hostile.values_of(data.draw, form, hostile.some(data.draw, form.names, 1)) if word == "update" else None
        found = data.draw(hostile.texts_of_points(form, start)), data.draw(hostile.texts_of_points(
            form, end if end == hostile.OPEN else end - int(form.is_last_day)))
        words = [to] if word == "update" else []
        done = outcome(lambda: getattr(self.store, word)(name, *found, *words, where or None))
        self.same(done, self.plain.change(word, name, [(start, end, where, to)]))

    @precondition(lambda self: any(len(form.names) > 1 for form in self.forms.values()))
    @rule(data=DATA)
    def updates_rows(self, data):
        name, form = self.some_table(data, lambda form: len(form.names) > 1)
        names = data.draw(st.permutations(form.names))
        cut = data.draw(st.integers(1, len(names) - 1))
        answered = data.draw(hostile.rows_of(form, 1))
        steps = [(start, end, {one: values[one] for one in names[:cut]}, {one: values[one] for one in names[cut:]})
                 for start, end, values in answered]
        done = outcome(lambda: self.store.update_rows(name, form.frame(answered), list(names[:cut])))
        self.same(done, self.plain.change("update", name, steps))

    @precondition(lambda self: self.forms)
    @rule(data=DATA, count=st.integers(0, 3))
    def batches(self, data, count):
        plain, done = copy.deepcopy(self.plain), []
        try:
            with self.store.batch() as changed:
                for _ in range(count):
                    name, form = self.some_table(data)
                    rows = data.draw(hostile.rows_of(form))
                    done.append(plain.load(name, rows))
                    assert self.store.load(name, form.frame(rows)) is None
                    wanted = plain_store.rows(form.plain, plain.tables[name].shown(plain.newest))
                    self.is_as(form, lambda: self.store.rows(name), wanted)
        except ruzgalt.Refused:
            assert REFUSED in done, done
        else:
            assert [(one.commit, one.added, one.closed) for one in changed] == done, (changed, done)
            self.plain = plain

    # Questions.

    def some_table(self, data, fits=lambda form: True):
        name = data.draw(st.sampled_from(sorted(one for one, form in self.forms.items() if fits(form))))
        return name, self.forms[name]

    def as_of(self, data):
        return data.draw(st.none() | st.integers(0, self.plain.newest))

    def shown(self, name, as_of):
        return self.plain.tables[name].shown(self.plain.newest if as_of is None else as_of)

    def is_as(self, form, call, wanted, start=1):
        """Tests that the frame is as wanted; start is the index of its starts, and the ends follow them."""
        got = outcome(call)
        if wanted is REFUSED or got is REFUSED:
            assert wanted is got, (wanted, got)
            return
        names, rows = wanted
        assert list(map(repr, got.columns)) == list(map(repr, names)), (list(got.columns), names)
        readers = {start: hostile.day, start + 1: form.end}
        columns = [got.iloc[:, place].tolist() for place in range(len(names))]
        found = [[readers.get(place, self.cell)(cell) for place, cell in enumerate(row)] for row in zip(*columns)]
        assert found == rows, (found, rows)

    @staticmethod
    def cell(cell):
        """A missing cell is None. Whole numbers in its column are floats, which are equal to them."""
        return None if cell is pd.NA or cell != cell else cell

    @precondition(lambda self: self.forms)
    @rule(data=DATA, has_day=st.booleans())
    def lists(self, data, has_day):
        name, form = self.some_table(data)
        as_of, day = self.as_of(data), data.draw(st.integers(0, 14))
        shown = self.shown(name, as_of)
        if has_day:
            point = data.draw(hostile.texts_of_points(form, day))
            shown = [row for row in shown if row["start"] <= day < row["end"]]
            self.is_as(form, lambda: self.store.at(name, point, as_of), plain_store.rows(form.plain, shown))
        else:
            self.is_as(form, lambda: self.store.rows(name, as_of), plain_store.rows(form.plain, shown))
            dtypes = [pd.Series([], dtype=form.dtypes[one]).dtype for one in form.names]
            assert self.store.rows(name, as_of).dtypes.tolist()[3:] == dtypes, (self.store.rows(name).dtypes, dtypes)

    @precondition(lambda self: self.forms)
    @rule(data=DATA, first=st.integers(0, 9), more=st.integers(0, 5))
    def lists_versions(self, data, first, more):
        name, form = self.some_table(data)
        table = self.plain.tables[name]
        self.is_as(form, lambda: self.store.between(name, first, first + more),
                   plain_store.versions(table, first, first + more))

    def days_of(self, form, got, names):
        """How often a frame of changes, with these names, has each day of a change."""
        assert list(map(repr, got)) == list(map(repr, plain_store.apart(names))), list(got)
        place, found = names.index("change"), Counter()
        for row in got.itertuples(index=False, name=None):
            for day in range(hostile.day(row[place + 1]), form.end(row[place + 2])):
                found[(row[place], day, *row[place + 3:])] += 1
        return found

    @precondition(lambda self: self.forms)
    @rule(data=DATA)
    def lists_changes(self, data):
        name, form = self.some_table(data)
        before, after = (data.draw(st.integers(0, self.plain.newest)) for _ in "ab")
        names, table = ["change", *form.plain.period, *form.names], self.plain.tables[name]
        got = self.store.changed(name, before, after)
        assert self.days_of(form, got, names) == plain_store.changed(table, before, after), got
        got = self.store.history(name)
        for commit in range(1, self.plain.newest + 1):
            mine = self.days_of(form, got[got.iloc[:, 0] == commit], ["commit", *names])
            assert mine == plain_store.changed(table, commit - 1, commit), (commit, got)
        assert got.iloc[:, 0].is_monotonic_increasing

    @precondition(lambda self: self.forms)
    @rule(data=DATA, suffixes=st.sampled_from(hostile.SUFFIXES), how=st.sampled_from(hostile.HOWS))
    def joins(self, data, suffixes, how):
        (left, one), (right, other) = self.some_table(data), self.some_table(data)
        as_of = self.as_of(data)
        alike = [(a, b) for a in one.names for b in other.names if one.kinds[a] == other.kinds[b]]
        pairs = data.draw(st.lists(st.sampled_from(alike), max_size=2)) if alike else []
        is_on = all(a == b for a, b in pairs)
        words = {"on": [a for a, _ in pairs]} if is_on else {"left_on": [a for a, _ in pairs],
                                                             "right_on": [b for _, b in pairs]}
        sides = [(form.plain, self.shown(name, as_of)) for name, form in ((left, one), (right, other))]
        wanted = plain_store.join(sides, pairs, [a for a, b in pairs if a == b], suffixes, how)
        self.is_as(one, lambda: self.store.join(left, right, suffixes=suffixes, as_of=as_of, how=how, **words), wanted,
                   0)
        self.is_as(one, lambda: self.store.anti(left, right, as_of=as_of, **words), plain_store.anti(sides, pairs))

    @precondition(lambda self: self.forms)
    @rule(data=DATA, function=st.sampled_from(["count", "sum", "min", "max"]))
    def counts(self, data, function):
        name, form = self.some_table(data)
        numbers = [one for one in form.names if form.kinds[one] in ("int", "exact") and one is not None]
        column = data.draw(st.sampled_from(numbers)) if numbers and function != "count" else None
        function = function if column is not None else "count"
        by, as_of = hostile.some(data.draw, form.names), self.as_of(data)
        found = by[0] if len(by) == 1 and isinstance(by[0], str) else by or None
        self.is_as(form, lambda: self.store.agg(name, function, column, by=found, as_of=as_of),
                   plain_store.agg(form.plain, self.shown(name, as_of), function, column, by), len(by))

    @precondition(lambda self: self.forms)
    @rule(data=DATA)
    def divides(self, data):
        name, _ = self.some_table(data)
        as_of = self.as_of(data)
        got = self.store.dip(name, as_of)
        parts, count = plain_store.dip(self.shown(name, as_of))
        assert (got.parts.values.tolist(), got.count) == (parts, count)

    # Wrong calls.

    def refuses(self, call):
        before = self.store.script()
        answer = outcome(call)
        assert answer is REFUSED, answer
        assert self.store.script() == before

    @precondition(lambda self: self.forms)
    @rule(data=DATA)
    def wrong_questions(self, data):
        store, (name, form) = self.store, self.some_table(data)
        given = {
            "as_of": hostile.NO_COMMITS, "on": hostile.NO_NAMES, "by": hostile.NO_NAMES,
            "suffixes": hostile.NO_SUFFIXES, "point": hostile.NO_POINTS, "first": hostile.NO_COMMITS[:4],
            "left": ["T", "no_such", 5, None, ["t"]], "function": ["summ", None, 5, ["sum"]],
            "how": ["Left", "cross", None, 1, ["left"]],
        }
        option = data.draw(st.sampled_from(sorted(given)))
        found = data.draw(st.sampled_from(given[option]))
        ask = {
            "as_of": lambda: store.rows(name, found), "on": lambda: store.join(name, name, on=found),
            "by": lambda: store.agg(name, "count", by=found),
            "suffixes": lambda: store.join(name, name, suffixes=found), "point": lambda: store.at(name, found),
            "first": lambda: store.between(name, found, 9), "left": lambda: store.anti(found, name),
            "function": lambda: store.agg(name, found, form.names[0]), "how": lambda: store.join(name, name, how=found),
        }
        self.refuses(ask[option])

    @precondition(lambda self: self.forms)
    @rule(data=DATA)
    def wrong_changes(self, data):
        store, (name, form) = self.store, self.some_table(data)
        to = hostile.values_of(data.draw, form, form.names[:1])
        no_dict, point = data.draw(st.sampled_from(hostile.NO_DICTS)), data.draw(st.sampled_from(hostile.NO_POINTS))
        bad, no_frame = (data.draw(st.sampled_from(given)) for given in (hostile.BAD_NAMES, hostile.NO_FRAMES))
        rows = data.draw(hostile.rows_of(form))
        spoiled = data.draw(hostile.spoiled(form, form.frame(rows)))
        others = data.draw(hostile.spoiled(form, form.frame(rows), ["more", "twice", "levels", "other"]))
        wrong = {
            "set": lambda: store.update(name, "2024-01-01", None, no_dict),
            "where": lambda: store.delete(name, "2024-01-01", None, no_dict),
            "start": lambda: store.update(name, point, None, to),
            "end": lambda: store.delete(name, "2024-01-01", point if point is not None else "2024-01-01 "),
            "value": lambda: store.update(name, "2024-01-01", None, {form.names[0]: [1]}),
            "load": lambda: store.load(name, spoiled), "there": lambda: store.table(name, form.frame(rows)),
            "name": lambda: store.table(bad, hostile.A_FRAME),
            "key": lambda: store.table("v", hostile.A_FRAME, key="T" if bad is None else bad),
            "frame": lambda: store.load(name, no_frame),
            "columns": lambda: store.update_rows(name, others, form.names[:1]),
        }
        self.refuses(wrong[data.draw(st.sampled_from(sorted(wrong)))])

    # These hold after each step.

    @invariant()
    def log_is_the_same(self):
        assert list(self.store.log().itertuples(index=False, name=None)) == self.plain.log

    def teardown(self):
        options = {name: {"decimals": form.options["decimals"]} for name, form in self.forms.items()}
        again = ruzgalt.Store.from_script(self.store.script(), workers=1, options=options)
        assert again.script() == self.store.script()
        for name, form in self.forms.items():
            assert list(map(repr, again.tables[name].columns)) == list(map(repr, form.names))
            got = again.rows(name).iloc[:, [0, *range(3, 3 + len(form.names))]].values.tolist()
            wanted = [[row["id"], *map(exact, form.plain.cells(row))] for row in self.plain.tables[name].open()]
            assert got == wanted, (got, wanted)


class Hostile(unittest.TestCase):
    def test_stores_are_as_they_are_plainly(self):
        stateful.run_state_machine_as_test(Stores, settings=MANY)


if __name__ == "__main__":
    unittest.main()
