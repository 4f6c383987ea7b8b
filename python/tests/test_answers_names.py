"""What the columns of an answer are called, whose names the table may have too."""
import unittest
from itertools import product
from typing import Any, List, Tuple

from ruzgalt.script import naming
from ruzgalt.script.forms import is_name
from tests.support import ToolCase

SCRIPT = "table,t,row_id,int,row_id_,int,valid_to,text\nload,t\nrow,2024-01-01,2024-02-01,4711,77,x\nend\nrows,t\n"


class Names(ToolCase):
    def test_a_repeated_name_gets_a_mark_and_stays_unique(self) -> None:
        wanted = "row_id,valid_from,valid_to,row_id__,row_id_,valid_to_\n1,2024-01-01,2024-02-01,4711,77,x\n"
        self.ends(0, {"csv - 3": wanted}, SCRIPT)

    def test_names_of_any_kind(self) -> None:
        self.assertEqual(naming.apart(["a", "a", 1, None, None, "a_"]), ["a", "a__", 1, None, "None_", "a_"])
        self.assertEqual(naming.with_suffixes(["a", "a", "b"], [None, "_x", "_x"]), ["a", "a_x", "b"])
        self.assertEqual(naming.twice(["a", "b", "a"]), ["a"])

    def test_a_store_has_names_like_those_of_its_columns(self) -> None:
        cases: List[Tuple[List[Any], List[str]]] = [
            (["person", "Person", "PERSON"], ["person", "person_", "person_2"]),
            (["Löhne €", "loehne", "Straße"], ["lohne", "loehne", "strasse"]),
            (["by", "where_", "where", ""], ["by_", "where_", "where_2", "c"]),
            ([7, 1.5, None, ("a", 1), "a_1"], ["c7", "c1_5", "none", "a_1_", "a_1"]),
            (["x" * 33, "x" * 32, "x" * 4096], ["x" * 31 + "_", "x" * 32, "x" * 30 + "_2"]),
            (['a"b', "a\nb", "a,b", "\ud800"], ["a_b", "a_b_", "a_b_2", "c"]),
        ]
        for given, wanted in cases:
            with self.subTest(given):
                self.assertEqual(naming.of_store(given), wanted)

    def test_each_has_one_of_the_language(self) -> None:
        characters = ["a", "A", "ä", "a\u0308", "İ", "ß", "ℋ", "1", "_", " ", "€", "\0", "б"]
        names = ["".join(pair) for pair in product(characters, repeat=2)]
        made = naming.of_store(names)
        self.assertEqual([name for name in made if not is_name(name)], [])
        self.assertEqual(len(set(made)), len(names))
        self.assertEqual([(name, one) for name, one in zip(names, made) if is_name(name) and name != one], [])


if __name__ == "__main__":
    unittest.main()
