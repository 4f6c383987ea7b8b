"""docs/FRAMES.md and README.md: each block of Python prints what the next block says; rows of the tables are tried."""
import contextlib
import datetime
import decimal
import importlib.util
import io
import re
import unittest
import warnings
from pathlib import Path

import numpy as np
import pandas as pd

import ruzgalt

TOP = Path(__file__).resolve().parents[3]
PAGE = TOP / "docs" / "FRAMES.md"
FIRST, LAST = datetime.date(2024, 1, 1), datetime.date(9999, 12, 31)
# A diary that ends.
DIARY = b"table,d,newest,int\nload,d\nrow,2024-01-01,2024-02-01,1\nend\n"
# Whether an end is taken, comes back as missing, or is refused: by itself, with open_end, with last_day, with both.
ENDS = {None: "refused, no end, refused, no end", LAST: "taken, no end, refused, no end",
        LAST - datetime.timedelta(days=1): "taken, taken, taken, refused"}
FORMS = [{}, {"open_end": True}, {"last_day": True}, {"open_end": True, "last_day": True}]


def frame(**cells):
    """Two rows of January 2024, one after the other."""
    days = pd.to_datetime(["2024-01-01", "2024-01-15", "2024-02-01"])
    return pd.DataFrame({"from": days[:2], "to": days[1:], **cells})


def becomes(end, words):
    """How a call reads an end."""
    one = pd.DataFrame({"from": [FIRST], "to": pd.Series([end], dtype=object)})
    try:
        [found] = ruzgalt.agg(one, "count", **words)["to"]
    except ruzgalt.Refused:
        return "refused"
    return "no end" if found is None else "taken" if found == end else found


def compared(*columns, **words):
    """Whether each column is compared with itself, and comes back as it was."""
    for column in columns:
        one = frame(k=column)
        got = ruzgalt.join(one, one, on="k", **words)
        pd.testing.assert_series_equal(got["k"], one["k"])


def at(*columns):
    """Whether starts and ends of these kinds come back."""
    for column in columns:
        one = pd.DataFrame({"from": column, "to": column.shift(-1)}).iloc[:1]
        pd.testing.assert_frame_equal(ruzgalt.agg(one, "count")[["from", "to"]], one)


def warns(asked):
    with warnings.catch_warnings(record=True) as found:
        warnings.simplefilter("always")
        asked()
    return [one.category for one in found] == [ruzgalt.Doubt]


class Page(unittest.TestCase):
    def rows(self, heading):
        """The first cells of the rows of tables below a heading."""
        text = PAGE.read_text(encoding="utf-8").split(f"\n## {heading}\n")[1].split("\n## ")[0]
        tables = re.findall(r"^\|---.*\n((?:\|.*\n)+)", text, re.MULTILINE)
        return [row.split(" | ")[0].strip("| ") for table in tables for row in table.splitlines()]

    def tries(self, heading, examples):
        """examples: by the first words of each row."""
        rows = self.rows(heading)
        self.assertEqual(len(rows), len(examples), rows)
        for row, (start, example) in zip(rows, examples.items()):
            with self.subTest(row):
                self.assertTrue(row.startswith(start), row)
                self.assertIsNot(example(), False)

    def test_calls(self):
        left, right = frame(k=["a", "b"]), frame(k=["b", "b"])
        self.tries("The calls", {
            "`join(left, right, on=..)`": lambda: ruzgalt.join(left, right, on="k")["k"].tolist() == ["b"],
            '`join(.., how="left")`': lambda: [
                len(ruzgalt.join(left, right, on="k", how=how)) for how in ("left", "right", "outer")
            ] == [2, 2, 3],
            "`anti(left, right, on=..)`": lambda: ruzgalt.anti(left, right, on="k").index.tolist() == [0],
            '`agg(frame, "sum", COLUMN, by=..)`': lambda: [
                ruzgalt.agg(frame(x=[3, 4]), name, *column).iloc[:, -1].tolist()
                for name, column in (("count", ()), ("sum", "x"), ("min", "x"), ("max", "x"))
            ] == [[1], [3, 4], [3, 4], [3, 4]],
            '`agg(frame, {"cents": ["sum", "max"], "hours": "mean"}, by=..)`': lambda: list(
                ruzgalt.agg(frame(x=[3, 4], y=[1, 2]), {"x": ["sum", "max"], "y": "mean"})
            ) == ["from", "to", "sum_x", "max_x", "mean_y"],
            "`at(frame, POINT)`, `during(frame, START, END)`": lambda: (
                ruzgalt.at(left, "2024-01-01").index.tolist(), len(ruzgalt.during(left, "2024-01-01", None)),
            ) == ([0], 2),
            "`coalesce(frame, by=..)`": lambda: [len(ruzgalt.coalesce(left, by)) for by in (None, "k")] == [1, 2],
            "`gaps(frame, by=.., within=..)`": lambda: [
                len(ruzgalt.gaps(left, "k", within=within)) for within in (None, (FIRST, "2025-01-01"))
            ] == [0, 3],
            "`overlaps(frame, by=..)`": lambda: [
                len(ruzgalt.overlaps(pd.concat([left, left]), by)) for by in (None, "k")
            ] == [2, 2],
            '`spread(frame, COLUMN, amount="per month", each="M", by=..)`': lambda: (
                ruzgalt.spread(frame(x=[31, 62]), "x", amount="per month")["x"].tolist()
            ) == [14 + 2 * 17],
            '`check(frame, part="bed")`': lambda: [
                bool(ruzgalt.check(left.assign(bed=beds), part="bed")) for beds in ([1, 1], [1, 2])
            ] == [True, True],
            "`dip(frame, by=..)`": lambda: (lambda division: (
                division.parts.tolist(), division.count, str(division.instant),
            ))(ruzgalt.dip(left)) == ([0, 0], 1, "2024-01-01 00:00:00"),
        })

    def test_kinds_and_points(self):
        decimals = pd.Series([decimal.Decimal("1.25"), decimal.Decimal("-0.10")], dtype=object)
        days = pd.Series([FIRST, FIRST.replace(day=2)], dtype=object)
        noon = pd.Series([datetime.datetime(2024, 1, 1, 12), datetime.datetime(2024, 1, 2)], dtype=object)
        self.tries("Kinds and points", {
            "integers": lambda: compared(np.array([1, 2], "i1"), pd.array([1, 2], "Int64"), pd.Categorical([1, 2])),
            "bool, `boolean`": lambda: compared([True, False], pd.array([True, False], "boolean")),
            "objects of `str`": lambda: compared(
                ["a", "é" * 2048], pd.array(["a", "b"], "string"), pd.Categorical(["b", "a"]),
            ),
            "floats, objects of Decimal": lambda: compared([1.25, -0.1], decimals, decimals={"k": 2}),
            "datetime64": lambda: at(
                pd.Series(pd.to_datetime(days)), pd.Series(pd.PeriodIndex(days, freq="D")),
                pd.Series(pd.PeriodIndex(noon, freq=pd.offsets.Second())), days, noon,
            ),
            "`period[W]`": lambda: at(*(pd.Series(pd.PeriodIndex(days, freq=freq)) for freq in ("W", "M", "Q", "Y"))),
            **{str(end or "missing"): lambda end=end, wanted=wanted: (
                [becomes(end, words) for words in FORMS] == wanted.split(", ")
            ) for end, wanted in ENDS.items()},
        })

    def test_doubts(self):
        one, other = frame(k=["Hill ", "a"]), frame(k=["HILL", "a"])
        late = frame().assign(to=pd.Timestamp("2024-01-15T23:59"))
        none = frame(k=pd.Series(["a", np.nan], dtype=object).astype(str))
        store = ruzgalt.Store()
        store.table("t", other.assign(x=1), key="k")
        store.table("u", other)
        raises = pd.concat([frame(k="a", x=2).iloc[1:], frame(k="a", x=3).iloc[1:]])
        months = frame(k=["a", "b"]).assign(to=pd.to_datetime(["2024-01-31", "2024-02-29"]))
        self.tries("Doubts", {
            "keys that": lambda: warns(lambda: ruzgalt.join(one, other, on="k")),
            "keys of both": lambda: warns(lambda: ruzgalt.join(none, none, on="k")),
            "ends that": lambda: warns(lambda: ruzgalt.join(months, other, on="k")),
            "ends at 23:59": lambda: warns(lambda: ruzgalt.dip(late)),
            "ends from 2099": lambda: warns(lambda: ruzgalt.dip(frame().assign(to=pd.Timestamp("2199-12-31")))),
            "no `on=`": lambda: warns(lambda: ruzgalt.join(one, one)),
            "`decimals=`": lambda: warns(lambda: ruzgalt.agg(one, "count", decimals={"eur": 2})),
            "a store's rows": lambda: warns(lambda: store.load("u", other)),
            "a store's change": lambda: warns(lambda: store.update("t", FIRST, None, {"k": "b"}, {"k": "hill"})),
            "rows of `update_rows`": lambda: warns(lambda: store.update_rows("t", raises)),
            "a change's end": lambda: warns(lambda: store.delete("t", FIRST, "2024-01-31", {"k": "a"})),
            "refused changes": lambda: warns(lambda: ruzgalt.Store.from_script(b"load,t\nend\n")),
            "a time that a diary": lambda: warns(lambda: ruzgalt.Store.from_script(DIARY, diary="d")),
        })

    def test_blocks_print_what_the_page_says(self):
        self.assertGreater(self.blocks(PAGE), 2)
        self.assertEqual(self.blocks(TOP / "README.md"), 1)

    def blocks(self, page):
        """Runs the page's blocks of Python, and compares. Returns how many there are."""
        blocks = re.findall(r"^```(\w*)\n(.*?)^```$", page.read_text(encoding="utf-8"), re.MULTILINE | re.DOTALL)
        names, found, count = {}, None, 0
        for kind, text in blocks:
            if kind != "python":
                self.assertIn(found, (text, None))
                found = None
                continue
            count += 1
            if "dask" in text and not importlib.util.find_spec("dask"):
                continue
            printed = io.StringIO()
            with contextlib.redirect_stdout(printed):
                exec(compile(text, str(page), "exec"), names)
            found = printed.getvalue()
        return count


if __name__ == "__main__":
    unittest.main()
