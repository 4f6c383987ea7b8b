"""Raises of a store, compared with the amount of each row."""
import unittest
from decimal import ROUND_HALF_UP, Decimal
from random import Random

import pandas as pd

import ruzgalt

DAY = pd.to_datetime


def store_of(**cells):
    made = ruzgalt.Store()
    frame = pd.DataFrame(cells).assign(**{"from": DAY("2024-01-01"), "to": DAY("2025-01-01")})
    made.table("pay", frame, decimals={"hours": 2} if "hours" in cells else {})
    return made


class Raises(unittest.TestCase):
    def test_each_row_is_raised_once(self):
        """Also if the new amount of one row is the old amount of another."""
        random = Random(1)
        for percent in ("2.5", "100", "-50", "-3.25"):
            amounts = [random.choice([-200, -100, -50, 0, 25, 50, 100, 200, 400, 401]) for _ in range(20)]
            store = store_of(cents=amounts, n=range(20))
            with self.subTest(percent):
                store.raise_by("pay", "cents", percent, "2024-07-01", round="half-up")
                factor = 1 + Decimal(percent) / 100
                wanted = [int((one * factor).quantize(Decimal(1), ROUND_HALF_UP)) for one in amounts]
                later = store.at("pay", "2024-07-01").sort_values("n")["cents"].tolist()
                before = store.at("pay", "2024-06-30").sort_values("n")["cents"].tolist()
                self.assertEqual((later, before), (wanted, amounts))

    def test_of_some_rows_for_some_time(self):
        store = store_of(cents=[100, 200], k=["a", "b"])
        listed = store.raise_by("pay", "cents", 10, "2024-03-01", "2024-04-01", where={"k": "b"})
        self.assertEqual((listed.added, listed.closed), (3, 1))
        days = ("2024-02-29", "2024-03-01", "2024-04-01")
        found = [store.at("pay", day).set_index("k")["cents"].to_dict() for day in days]
        self.assertEqual(found, [{"a": 100, "b": 200}, {"a": 100, "b": 220}, {"a": 100, "b": 200}])

    def test_names_and_decimals_are_those_of_frames(self):
        store = store_of(**{"Löhne €": [100], "hours": [1.25], "exact": [7]})
        dry = {name: list(store.raise_by("pay", name, 2, "2024-03-01", round="up", dry_run=True))
               for name in ("Löhne €", "exact")}
        self.assertEqual(dry["Löhne €"], ["rows", "Löhne €", "exact", "raised"])
        self.assertEqual(dry["exact"], ["rows", "exact_", "exact", "raised"])
        store.raise_by("pay", "Löhne €", Decimal("2"), "2024-03-01")
        store.raise_by("pay", "hours", 20, "2024-03-01")
        self.assertEqual(store.at("pay", "2024-03-01")[["Löhne €", "hours"]].values.tolist(), [[102, 1.5]])

    def test_refused_raises_change_nothing(self):
        store = store_of(cents=[101], k=["a"])
        for words in (
            {"percent": "2.5"}, {"percent": "much"}, {"percent": 0}, {"round": "nearest"}, {"column": "k"},
            {"column": "none"}, {"where": {"none": 1}}, {"dry_run": 1}, {"end": "2024-01-01"}, {"start": "soon"},
        ):
            found = {"name": "pay", "column": "cents", "percent": 100, "start": "2024-07-01", **words}
            with self.subTest(words), self.assertRaises(ruzgalt.Refused):
                store.raise_by(**found)
        self.assertEqual(len(store.log()), 2)
        with self.assertWarns(ruzgalt.Doubt):
            self.assertIsNone(store.raise_by("pay", "cents", 1, "2030-01-01"))

    def test_a_number_that_floats_do_not_hold_is_refused(self):
        """Before it is kept: no question of the table could have it again."""
        store = store_of(hours=[1e8])
        for is_dry in (True, False):
            with self.subTest(is_dry), self.assertRaisesRegex(ruzgalt.Refused, "column 'hours': a raised amount is"):
                store.raise_by("pay", "hours", 999999999, "2024-07-01", dry_run=is_dry)
        self.assertEqual(store.rows("pay")["hours"].tolist(), [1e8])

    def test_a_second_raise_from_one_day_on_is_refused_unless_it_is_meant(self):
        store = store_of(cents=[100, 200], k=["a", "b"])
        store.raise_by("pay", "cents", 10, "2024-07-01", label="July")
        said = "cents was raised from 2024-07-01 on already, by 2 updates, the first from 200 to 220 .commit 3"
        for words in ({}, {"dry_run": True}, {"label": "again"}):
            with self.subTest(words), self.assertRaisesRegex(ruzgalt.Refused, said):
                store.raise_by("pay", "cents", 10, "2024-07-01", **words)
        self.assertEqual(store.at("pay", "2024-07-01").sort_values("k")["cents"].tolist(), [110, 220])
        store.raise_by("pay", "cents", 50, "2024-08-01")
        store.raise_by("pay", "cents", 50, "2024-07-01", "2024-08-01", again=True)
        self.assertEqual(store.at("pay", "2024-07-01").sort_values("k")["cents"].tolist(), [165, 330])

    def test_a_small_percentage_is_doubted_and_a_batch_has_raises_too(self):
        with self.assertWarnsRegex(ruzgalt.Doubt, "percent=0.025 .* 2.5 raises 1000 to 1025"):
            store_of(cents=[1000]).raise_by("pay", "cents", 0.025, "2024-07-01", round="up")
        store = store_of(cents=[100])
        with store.batch() as changed:
            store.raise_by("pay", "cents", 10, "2024-07-01")
            store.raise_by("pay", "cents", 10, "2024-07-01", again=True)
        self.assertEqual((len(changed), store.at("pay", "2024-07-01")["cents"].tolist()), (2, [121]))


if __name__ == "__main__":
    unittest.main()
