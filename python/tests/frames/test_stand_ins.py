"""Missing cells in a store. A stand-in, which no other cell has, is stored; or the refusal names both remedies."""
import decimal
import pickle
import unittest

import numpy as np
import pandas as pd

import ruzgalt

DAYS = pd.to_datetime
# For each kind: a column with missing cells, and the stand-in for these.
COLUMNS = {
    "whole": (pd.array([7, None, -1], "Int64"), -9),
    "small": (pd.array([None, 2, 3], "UInt8"), 0),
    "is_paid": (pd.array([True, None, False], "boolean"), 2),
    "note": (pd.array(["a", pd.NA, ""], "string"), "?"),
    "text": (pd.Series(["", "b", None], dtype=object), "none"),
    "desk": (pd.Categorical(["x", None, "y"]), "z"),
    "hours": (np.array([1.5, np.nan, 2.0]), -1),
    "euros": (pd.Series([decimal.Decimal("1.25"), None, decimal.Decimal("2.50")], dtype=object), decimal.Decimal(-1)),
    "Größe €": (pd.array([None, None, None], "Int64"), 0),
}
DECIMALS = {"hours": 1, "euros": 2}
WORDS = {name: word for name, (_, word) in COLUMNS.items()}


def frame():
    start, end = DAYS(["2024-01-01", "2024-01-02", "2024-01-03"]), DAYS(["2024-02-01", "2024-02-02", "2024-02-03"])
    cells = {name: answered for name, (answered, _) in COLUMNS.items()}
    return pd.DataFrame({"from": start, "to": end, "k": [1, 2, 3], **cells})


def made(**words):
    store = ruzgalt.Store()
    store.table("t", frame(), **{"decimals": DECIMALS, "missing": WORDS, "key": "k", **words})
    return store


class StandIns(unittest.TestCase):
    def refuses(self, name, column, word, call):
        with self.assertRaises(ruzgalt.Refused) as caught:
            call()
        self.assertEqual((caught.exception.name, caught.exception.column), (name, column), str(caught.exception))
        self.assertIn(word, str(caught.exception))
        return caught.exception

    def test_missing_cells_come_back_as_missing(self):
        for store in (made(), pickle.loads(pickle.dumps(made()))):
            pd.testing.assert_frame_equal(store.rows("t").iloc[:, 1:], frame())
            for asked in (store.at("t", "2024-01-20"), store.between("t", 0, 2), store.join("t", "t", on="k")):
                kept = asked[[name for name in asked if name in COLUMNS]]
                wanted = frame()[list(kept)]
                pd.testing.assert_frame_equal(kept, wanted, check_column_type=False)

    def test_the_script_has_the_stand_ins(self):
        script = made().script()
        self.assertIn(b"row,2024-01-02,2024-02-02,2,-9,2,2,?,b,z,-10,-100,0\n", script)
        options = {"t": {"missing": {"note": "?", "whole": -9}}}
        rows = ruzgalt.Store.from_script(script, options=options).rows("t")
        self.assertEqual(list(map(str, rows["whole"])), ["7", "<NA>", "-1"])
        self.assertEqual(rows["note"].tolist(), ["a", None, ""])

    def test_a_zero_byte_at_its_end_counts(self):
        store, cells = ruzgalt.Store(), ["a", "a\0", None]
        store.table("t", frame()[["from", "to"]].assign(note=cells), missing={"note": "a\0\0"})
        self.assertEqual(store.rows("t")["note"].tolist(), cells)

    def test_changes_take_missing_values(self):
        store = made()
        store.update("t", "2024-01-10", "2024-01-11", {"whole": pd.NA, "note": None, "hours": float("nan")}, {"k": 1})
        row = store.at("t", "2024-01-10").sort_values("k").iloc[0]
        self.assertTrue(row[["whole", "note", "hours"]].isna().all())
        self.assertEqual(store.delete("t", "2024-01-20", None, {"note": pd.NA}).closed, 1)
        more = frame().iloc[:2][["from", "to", "k", "note"]].assign(note=pd.array([pd.NA, "c"], "string"))
        store.update_rows("t", more)
        self.assertEqual(store.at("t", "2024-01-05").sort_values("k")["note"].tolist(), [pd.NA, "c", ""])
        self.refuses("BadCommand", "note", "give None", lambda: store.update("t", "2024-01-10", None, {"note": "?"}))

    def test_a_numpy_column_gets_a_dtype_that_has_missing_cells(self):
        store = ruzgalt.Store()
        found = frame()[["from", "to"]].assign(n=np.array([1, 2, 3], "i2"), b=[True, False, True])
        store.table("t", found, missing={"n": 0, "b": 2})
        self.assertEqual(store.rows("t").dtypes.tolist()[3:], [np.dtype("int16"), np.dtype(bool)])
        store.update("t", "2024-01-10", "2024-01-11", {"n": None, "b": None}, {"n": 1})
        rows = store.rows("t")
        self.assertEqual(list(map(str, rows.dtypes))[3:], ["Int16", "boolean"])
        self.assertEqual((rows["n"].isna().sum(), rows["b"].isna().sum()), (1, 1))

    def test_groups_of_missing_cells_are_missing(self):
        got = made().agg("t", "count", by="note")
        self.assertEqual(got["note"].isna().tolist(), [False, True, False])

    def test_calls_that_would_use_the_stand_ins_are_refused(self):
        store = made()
        for call in (
            lambda: store.join("t", "t", on="whole"), lambda: store.anti("t", "t", left_on="whole", right_on="k"),
            lambda: store.agg("t", "sum", "whole"), lambda: store.agg("t", {"whole": ["count"]}),
            lambda: store.raise_by("t", "whole", 100, "2024-01-10"),
        ):
            self.refuses("WrongKind", "whole", ".dropna()", call)
        self.refuses("BadCommand", "whole", "key", lambda: made(key=["k", "whole"]))

    def test_missing_cells_without_it_are_refused_with_both_remedies(self):
        for name, (cells, _) in COLUMNS.items():
            others = {other: word for other, word in WORDS.items() if other != name}
            said = self.refuses_any(lambda: made(missing=others))
            self.assertEqual(said.column, name)
            self.assertIn(".dropna(subset=", said.reason)
            self.assertIn(f"missing={{{name!r}: ..}}", said.reason)
            self.assertEqual(said.label, int(pd.Series(cells).isna().to_numpy().argmax()))

    def refuses_any(self, call):
        with self.assertRaises(ruzgalt.Refused) as caught:
            call()
        return caught.exception

    def test_it_is_a_value_of_the_column_that_no_cell_has(self):
        for name, word, refusal in (
            ("note", 1, "WrongKind"), ("whole", "?", "WrongKind"), ("whole", 2**63, "BadNumber"),
            ("is_paid", True, "WrongKind"), ("is_paid", 1, "WrongKind"), ("hours", 0.15, "BadNumber"),
            ("note", "x" * 4097, "TooLong"), ("whole", 7, "BadCommand"), ("note", "", "BadCommand"),
            ("desk", "y", "BadCommand"), ("hours", 2, "BadCommand"),
        ):
            with self.subTest((name, word)):
                self.assertEqual(self.refuses_any(lambda: made(missing={**WORDS, name: word})).name, refusal)
        self.assertEqual(self.refuses_any(lambda: made(missing={**WORDS, "whole": 7})).label, 0)
        store = made()
        more = frame().assign(note="?", k=[4, 5, 6])
        self.refuses("BadCommand", "note", "another one", lambda: store.load("t", more))
        self.refuses("NoColumn", "no", "'no'", lambda: made(missing={**WORDS, "no": 1}))
        for given in ([], "?", {"note": None}, {("a", True): 1}):
            self.refuses("BadCommand", None, "missing=", lambda: made(missing=given))


if __name__ == "__main__":
    unittest.main()
