"""Possible mistakes are warned of, with the line of the call; correct calls aren't."""
import datetime
import unittest
import warnings
from unittest import mock

import numpy as np
import pandas as pd

import ruzgalt
from ruzgalt.convert import errors
from ruzgalt.frames import doubts

DAYS = pd.to_datetime
HALVES = ["2024-01-01", "2024-07-01"]


def pay(persons=("Hill", "Byron"), **cells):
    """A row of the first half of 2024 for each, and columns of others."""
    count = len(persons)
    usual = {"from": DAYS(HALVES[:1] * count), "to": DAYS(HALVES[1:] * count), "person": list(persons), "cents": 1}
    return pd.DataFrame({**usual, **cells})


def years(last):
    """Two years of one person's rows, which end on a last day or on the day after it."""
    ends = ["2023-12-31", "2024-12-31"] if last else ["2024-01-01", "2025-01-01"]
    return pay(["Hill", "Hill"], **{"from": DAYS(["2023-01-01", "2024-01-01"]), "to": DAYS(ends)})


class Doubts(unittest.TestCase):
    def reported(self, asked):
        """The texts of all warnings, which are of a line in this file."""
        with warnings.catch_warnings(record=True) as found:
            warnings.simplefilter("always")
            asked()
        for one in found:
            self.assertEqual((one.category, one.filename), (ruzgalt.Doubt, __file__))
        return [str(one.message) for one in found]

    def warns(self, asked, *parts):
        found = self.reported(asked)
        self.assertEqual(len(found), 1, found)
        for part in parts:
            self.assertIn(part, found[0])

    def test_a_doubt_is_a_warning(self):
        self.assertTrue(issubclass(ruzgalt.Doubt, UserWarning))

    def test_keys_that_look_like_others(self):
        pairs = [("Hill ", "HILL"), ("Hill", "hill"), ("001", "1"), (" Hill", "Hill"), ("Gro\u0308ße", "Größe")]
        for one, other in pairs:
            left, right = pay([one, "Byron"]), pay([other, "Byron"])
            self.warns(lambda: ruzgalt.join(left, right, on="person"), repr(one), repr(other), "'person'", "don't meet")
            self.warns(lambda: ruzgalt.anti(left, right, on="person"), repr(one), repr(other))
            both = pd.concat([left, right])
            self.warns(lambda: ruzgalt.agg(both, "count", by="person"), repr(one), repr(other), "two groups")

    def test_keys_without_a_common_value(self):
        left, right = pay(["Ada", "Hill", "Byron"]), pay(["11", "12", "13"])
        self.warns(lambda: ruzgalt.join(left, right, on="person"), "'person'", "'Ada' and '11'", "columns to compare")
        one, other = (pay(numbers) for numbers in ([1, 2, 3], [4, 5, 6]))
        self.warns(lambda: ruzgalt.anti(one, other, on="person"), "1 and 4")
        self.warns(lambda: ruzgalt.join(left.iloc[:2], right.iloc[:2], on="person"), "'Ada' and '11'")
        self.assertEqual(self.reported(lambda: ruzgalt.join(left, right.iloc[:1], on="person")), [])
        left, right = left.assign(year=[1, 1, 2]), left.assign(year=[2, 2, 1])
        on = ["person", "year"]
        self.warns(lambda: ruzgalt.join(left, right, on=on), "('Ada', 1) and ('Ada', 2)", "in this order")
        self.assertEqual(self.reported(lambda: ruzgalt.join(left, left.iloc[1:], on=on)), [])
        self.assertEqual(self.reported(lambda: ruzgalt.join(left, left.iloc[2:], on="person")), [])

    def test_blank_keys_that_match(self):
        for blank in ("", "  "):
            rows = pay(["Ada", blank])
            self.warns(lambda: ruzgalt.join(rows, rows, on="person"), repr(blank), "are equal", "str.strip() != ''")
            self.assertEqual(self.reported(lambda: ruzgalt.agg(rows, "count", by="person")), [])

    def test_the_line_is_the_caller_s_also_if_its_path_begins_as_the_package_s(self):
        file = f"{errors.PACKAGE.rstrip('/')}_scripts.py"
        rows = pay(["Ada", ""])
        with warnings.catch_warnings(record=True) as found:
            warnings.simplefilter("always")
            exec(compile("ruzgalt.join(rows, rows, on='person')", file, "exec"), {"ruzgalt": ruzgalt, "rows": rows})
        self.assertEqual([(one.filename, one.lineno) for one in found], [(file, 1)])

    def test_texts_of_floats_that_look_like_those_of_whole_numbers(self):
        floats, whole = (pay(pd.Series([1, 20], dtype=dtype).astype(str)) for dtype in ("float64", "int64"))
        self.warns(lambda: ruzgalt.anti(floats, whole, on="person"), "'1.0' and '1'", ".str.removesuffix('.0')")
        self.warns(lambda: ruzgalt.join(whole, floats, on="person"), "'1' and '1.0'")
        self.warns(lambda: ruzgalt.join(pay(["Jose\u0301"]), pay(["Jos\u00e9"]), on="person"), ".str.normalize('NFKC')")
        halves = pay(["1.5", "2.50", "20"])
        self.assertEqual(self.reported(lambda: ruzgalt.join(halves, whole, on="person")), [])

    def test_texts_that_stand_for_no_value_elsewhere(self):
        """.astype(str) makes them of missing cells, and then these are equal."""
        for missing in (None, np.nan, pd.NA, pd.NaT):
            rows = pay(pd.Series(["Hill", missing], dtype=object).astype(str))
            word = rows["person"].iloc[1]
            self.warns(lambda: ruzgalt.join(rows, rows, on="person"), repr(word), "'person'", "no value", "are equal")
            self.warns(lambda: ruzgalt.agg(rows, "count", by="person"), repr(word), ".dropna(subset=['person'])")
            self.assertEqual(self.reported(lambda: ruzgalt.join(rows, rows.iloc[:1], on="person")), [])
            store = ruzgalt.Store()
            store.table("t", rows)
            self.warns(lambda: store.anti("t", "t", on="person"), repr(word), "are equal")
            self.warns(lambda: store.agg("t", "count", by="person"), repr(word))

    def test_keys_that_meet_are_not_reported_though_they_look_like_others(self):
        both = pay(["Hill", "HILL"])
        self.assertEqual(self.reported(lambda: ruzgalt.join(both, both, on="person")), [])
        categories = pay(pd.Categorical(["Hill", "Byron"]))
        self.warns(lambda: ruzgalt.join(categories, pay(["hill"]), on="person"), "'Hill'", "'hill'")

    def test_how_many_keys_are_alike(self):
        left, right = pay(["a", "b", "c"]), pay(["A", "B", "c"])
        self.warns(lambda: ruzgalt.join(left, right, on="person"), "nor do 1 more")

    def test_ends_that_look_like_last_days(self):
        wrong, right = years(last=True), years(last=False)
        on = {"on": "person"}
        self.warns(lambda: ruzgalt.join(wrong, right, **on), "to: ", "row 1 after row 0", "last_day=True reads it")
        self.warns(lambda: ruzgalt.anti(right, wrong, **on), "to: ", "start on the day after it")
        two = pd.concat([wrong, wrong])
        for asked in (lambda: ruzgalt.agg(two, "count"), lambda: ruzgalt.dip(two)):
            self.warns(asked, "to is 2023-12-31", "last days of a month", "last_day=True reads it")
        self.assertEqual(self.reported(lambda: ruzgalt.join(wrong, wrong, last_day=True, **on)), [])
        self.assertEqual(self.reported(lambda: ruzgalt.join(right, right, **on)), [])

    def test_last_days_within_months_without_a_key(self):
        """Rows that share no point are checked like rows of one key; grouped rows are checked group by group."""
        starts = DAYS(["2024-01-01", "2024-01-16", "2024-02-11"])
        ends = DAYS(["2024-01-15", "2024-02-10", "2024-03-20"])
        wrong = pay(["Hill"] * 3, **{"from": starts, "to": ends})
        right = wrong.assign(to=ends + pd.Timedelta(days=1))
        made = lambda rows: ruzgalt.Store().table("t", rows)  # noqa: E731
        for call in (lambda rows: ruzgalt.agg(rows, "count"), ruzgalt.dip, made):
            self.warns(lambda: call(wrong), "follow another one, 2 start on the day after it", "row 1 after row 0")
            self.assertEqual(self.reported(lambda: call(right)), [])
        two = pd.concat([wrong, wrong.assign(person="Byron")])
        self.warns(lambda: ruzgalt.agg(two, "count", by="person"), "one of the same person, 4 start on the day after")
        self.assertEqual(self.reported(lambda: ruzgalt.agg(two, "count")), [])

    def test_ends_that_are_the_last_second_of_a_day(self):
        late = pay(to=pd.to_datetime(["2024-06-30T23:59:59", "2024-07-01T00:00:00"]))
        store = ruzgalt.Store()
        store.table("t", pay())
        for call in (ruzgalt.dip, lambda rows: ruzgalt.agg(rows, "count"), lambda rows: store.load("t", rows)):
            self.warns(lambda: call(late), "to is 2024-06-30T23:59:59", "doesn't hold at its end", ".dt.ceil('D')")
        minute = pay(to=pd.to_datetime(["2024-06-30T23:59", "2024-06-30T23:58"]))
        self.warns(lambda: ruzgalt.anti(pay(), minute, on="person"), "to is 2024-06-30T23:59:00")
        last = pay(to=np.array([datetime.datetime(9999, 12, 31, 23, 59, 59)] * 2, object))
        self.assertEqual(self.reported(lambda: ruzgalt.dip(last)), [])

    def test_ends_that_are_far_off(self):
        """Databases write such days for no end; 9999-12-31 is read as no end."""
        far = pay(to=DAYS(["2024-07-01", "2199-12-31"]))
        made = lambda rows: ruzgalt.Store().table("t", rows)  # noqa: E731
        for call in (ruzgalt.dip, lambda rows: ruzgalt.anti(pay(), rows, on="person"), made):
            self.warns(lambda: call(far), "to is 2199-12-31", "a row ends there", "open_end=True")
        last = pay(to=np.array([datetime.date(9999, 12, 31), datetime.date(2098, 12, 30)], object))
        self.assertEqual(self.reported(lambda: ruzgalt.dip(last)), [])

    def test_last_days_that_look_like_ends(self):
        wrong = years(last=False)
        self.warns(lambda: ruzgalt.anti(wrong, pay(["x"], to=DAYS(["2024-06-30"])), on="person", last_day=True), "to: ",
                   "without it, the day before is the last")

    def test_rows_that_share_days_follow_none(self):
        count = 50
        starts = DAYS("2024-01-01") + pd.to_timedelta(np.arange(count), unit="D")
        rows = pay(["Hill"] * count, **{"from": starts, "to": starts + pd.Timedelta(days=3)})
        self.assertEqual(self.reported(lambda: ruzgalt.join(rows, rows, on="person")), [])

    def test_a_change_of_no_row_says_which_it_is(self):
        """In a batch, the warning has the line of the batch."""
        store = ruzgalt.Store()
        store.table("t", pay())

        def changes():
            with store.batch():
                for person in ("Hill", "Byron\u00a0"):
                    store.update("t", "2024-03-01", "2024-04-01", {"cents": 2}, {"person": person, "cents": 1})

        self.warns(changes, "update of t where person is 'Byron\\xa0' and cents is '1': no row of that time matches")

    def test_rows_of_a_day_each_day_by_day(self):
        """A diary's entry holds until the next one begins: an end on which another row starts isn't a last day."""
        starts = DAYS("2024-01-29") + pd.to_timedelta(np.arange(5), unit="D")
        rows = pay(["Hill"] * 5, **{"from": starts, "to": starts + pd.Timedelta(days=1)})
        for call in (lambda rows: ruzgalt.agg(rows, "count", by="person"), ruzgalt.dip):
            self.assertEqual(self.reported(lambda: call(rows)), [])
            self.warns(lambda: call(rows.drop(2)), "1 start on the day after it (row 3 after row 1) and 2 start on it")
        store = ruzgalt.Store()
        for day, cents in zip(starts, range(5)):
            store.table(f"t{cents}", rows, key=["person"], day=day, label=f"entry {cents}")
        self.assertEqual(self.reported(lambda: store.table("diary", store.diary())), [])

    def test_many_rows_are_checked_by_some_of_their_keys(self):
        count = 20_000
        wrong = pd.concat([years(last=True).assign(person=f"p{place}") for place in range(2)] * (count // 4))
        wrong["person"] = [f"p{number // 2}" for number in range(count)]
        self.warns(lambda: ruzgalt.join(wrong, wrong.iloc[:0], on="person"), "start on the day after it")

    def test_decimals_of_no_column(self):
        asked = lambda: ruzgalt.agg(pay(), "sum", "cents", decimals={"eur": 2})  # noqa: E731
        self.warns(asked, "'eur', which isn't a column", "'cents'")
        other = pay(eur=[0.5, 1.5])
        words = {"on": "person", "decimals": {"eur": 2}}
        self.assertEqual(self.reported(lambda: ruzgalt.join(pay(), other, **words)), [])
        self.warns(lambda: ruzgalt.anti(pay(), pay(), **words), "'eur'")
        self.warns(lambda: ruzgalt.dip(pay(), decimals={"eur": 2}), "'eur'")

    def test_frames_that_are_not_compared_in_their_only_common_column(self):
        left, right = pay(), pay().drop(columns="cents")
        for call in (ruzgalt.join, ruzgalt.anti):
            self.warns(lambda: call(left, right), "both frames have 'person'", "on='person'", "on=[] for none")
            self.assertEqual(self.reported(lambda: call(left, right, on=[])), [])
            self.warns(lambda: call(left, pay()), "'person', 'cents', which aren't", "on=['person', 'cents']")
            self.assertEqual(self.reported(lambda: call(left, right.rename(columns={"person": "who"}))), [])

    def test_a_time_whose_end_looks_like_a_last_day(self):
        rows, words = pay(), {"amount": "per month", "within": ("2024-01-01", "2024-06-30")}
        for asked in (lambda: ruzgalt.during(rows, "2024-06-01", "2024-06-30"),
                      lambda: ruzgalt.spread(rows, "cents", **words),
                      lambda: ruzgalt.gaps(rows, within=("2024-01-01", "2024-12-31"))):
            self.warns(asked, "a month's last day", "the day after it")
        for start, end in (("2024-01-01", "2024-07-01"), ("2024-01-05", "2024-06-30"), ("2024-06-01", None)):
            self.assertEqual(self.reported(lambda: ruzgalt.during(rows, start, end)), [])

    def test_a_common_column_of_a_name_that_on_takes_in_a_list(self):
        for name in (None, ("person", "name")):
            left, right = (pay().rename(columns={"person": name, "cents": other}) for other in ("cents", "euros"))
            self.warns(lambda: ruzgalt.anti(left, right), f"on=[{name!r}] to compare")
            self.assertEqual(len(ruzgalt.join(left, right, on=[name])), 2)

    def test_a_million_keys_are_checked_no_longer_than_a_run_takes(self):
        """The test counts the keys that are compared, since times depend on the machine."""
        count = doubts.MOST_TEXTS + 10
        left, right = (pay([f"{mark}{place}" for place in range(count)]) for mark in "pq")
        with mock.patch.object(doubts, "folds", side_effect=doubts.folds) as folded:
            self.warns(lambda: ruzgalt.join(left, right, on="person"), "'p0' and 'q0'")
        self.assertLessEqual(sum(len(call.args[0]) for call in folded.call_args_list), 4 * doubts.MOST_TEXTS)


if __name__ == "__main__":
    unittest.main()
