"""The frame and the store that tests of stores begin with, and what a call refuses or warns of."""
import unittest
import warnings

import pandas as pd

import ruzgalt

DAYS = pd.to_datetime


def frame(**cells):
    """Two rows with the labels x and y; `cells` replaces or adds columns."""
    usual = {"from": DAYS(["2024-01-01", "2024-01-02"]), "to": DAYS(["2024-02-01", "2024-02-02"]), "k": ["a", "b"]}
    return pd.DataFrame({**usual, **cells}, index=["x", "y"])


def store(table, name="t", **words):
    made = ruzgalt.Store()
    made.table(name, table, **words)
    return made


def quietly(call):
    """The call's answer, and the texts of its doubts."""
    with warnings.catch_warnings(record=True) as caught:
        warnings.simplefilter("always", ruzgalt.Doubt)
        answer = call()
    return answer, [str(one.message) for one in caught if issubclass(one.category, ruzgalt.Doubt)]


class Case(unittest.TestCase):
    def refuses(self, call, name, *words):
        """That the call is refused by this name, in words which have all of these."""
        with self.assertRaises(ruzgalt.Refused) as caught:
            call()
        said = str(caught.exception)
        self.assertEqual(caught.exception.name, name, said)
        for word in words:
            self.assertIn(word, said)
        return caught.exception
