"""The loads, refusals and notes of tools/csv-to-load: tables of cases, each a file, words, and what comes of them."""
import csv
import io
import re
import shlex
import sys
import tempfile
import unicodedata
import unittest
from datetime import date
from decimal import Decimal
from pathlib import Path
from typing import List, Sequence, Tuple, Union
from unittest import mock

from ruzgalt.cli import load as load_tool
from ruzgalt.errors import Misfit
from ruzgalt.load import making
from ruzgalt.script.records import visible
from tests.support import Stream, kept, run

HEADER = "Name,Pay,Start,End\n"
WORDS = ["pay", "Start", "End", "Name", "Pay"]
P = "2024-01-01,2024-03-05"
Text = Union[str, bytes]
# What comes of a file: "refused" with a part of the only fault, "noted" with a part of the only note, or "loaded" as
# this load without a note. Lines are rows below HEADER; more words follow WORDS, or replace them.
Cases = Sequence[Tuple[str, str, Union[Text, List[str]], Union[str, List[str]]]]


def load(text: Text, *words: str) -> Tuple[str, List[str]]:
    """Returns the output, and the report: faults, or otherwise notes. A fault leaves no output."""
    with tempfile.TemporaryDirectory() as folder:
        file = Path(folder, "pay.txt")
        file.write_bytes(text.encode() if isinstance(text, str) else text)
        options = load_tool.words().parse_intermixed_args([*words, "--file", str(file)])
        try:
            pieces, faults, notes, _ = load_tool.made(options)
        except Misfit as error:
            return "", [str(error)]
    return "" if faults else b"".join(pieces).decode(), faults or notes


def rows(*lines: str) -> str:
    return HEADER + "".join(line + "\n" for line in lines)


def load_of(*records: str) -> str:
    return "load,pay\n" + "".join(f"row,{record}\n" for record in records) + "end\n"


class Case(unittest.TestCase):
    def noted(self, part: str, text: Text, *words: str) -> None:
        """One thing is reported, and it has this part; the file is loaded or not."""
        _, notes = load(text, *(words or WORDS))
        self.assertEqual(len(notes), 1, notes)
        self.assertIn(part, notes[0])

    def refused(self, part: str, text: Text, *words: str) -> None:
        printed, _ = load(text, *(words or WORDS))
        self.assertEqual(printed, "")
        self.noted(part, text, *words)

    def loaded(self, wanted: str, text: Text, *words: str) -> None:
        """The load is this, and nothing is reported."""
        self.assertEqual(load(text, *(words or WORDS)), (wanted, []))

    def try_all(self, cases: Cases) -> None:
        for how, wanted, lines, more in cases:
            with self.subTest(lines, more=more):
                text = rows(*lines) if isinstance(lines, list) else lines
                getattr(self, how)(wanted, text, *(more if isinstance(more, list) else [*WORDS, *shlex.split(more)]))


def last_day(number: int) -> str:
    return str(date(2024, number + 1, 1).replace(day=1).fromordinal(date(2024, number + 1, 1).toordinal() - 1))


DAY_BY_DAY = ["A,1,2024-01-01,2024-01-02", "A,2,2024-01-02,2024-01-03", "A,4,2024-01-03,2024-01-04"]
TOUCHING = ["A,1,2024-01-01,2024-03-15", "A,2,2024-03-15,2024-06-02"]
MONTHS = [last_day(month) for month in range(1, 7)]
BY_MONTHS = [f"{start},1,{start},{end}" for start, end in zip(MONTHS, MONTHS[1:])]
BOTH = [*TOUCHING[:1], "A,2,2024-03-15,2024-05-20", "B,1,2024-01-01,2024-03-15", "B,2,2024-03-15,2024-05-20",
        "B,3,2024-05-21,2024-06-20"]
NEVER, BEFORE_NEVER = load_of("2024-01-01,9999-12-31,A,1"), ["A,1,2024-01-01,30.12.9999"]
LAST_DAYS: Cases = [
    ("noted", "1 start on the day after it (line 3 after line 2): a row no longer holds on that day; ",
     [TOUCHING[0], "A,2,2024-03-16,2024-06-01"], ""),
    ("noted", "5 ends are last days of a month, 1 are first days",
     [f"{one},1,2024-01-01,{day}" for one, day in zip("ABCDEF", [*MONTHS[:5], "2024-07-01"])], ""),
    ("noted", "1 start on it (line 3 after line 2): --last-day reads it", TOUCHING, "--last-day"),
    ("loaded", load_of("2024-01-01,2024-03-15,A,1", "2024-03-15,2024-06-02,A,2"), TOUCHING, ""),
    # A row of one day doesn't follow itself.
    ("loaded", load_of("2024-01-05,2024-01-06,A,1", "2024-02-07,2024-02-08,B,2"),
     ["A,1,2024-01-05,2024-01-05", "B,2,2024-02-07,2024-02-07"], "--last-day"),
    ("loaded", load_of("2024-01-05,2024-01-06,A,1"), ["A,1,2024-01-05,x"],
     ["pay", "Start", "Start", "Name", "Pay", "--last-day"]),
    ("noted", "1 start on the day after it (line 6 after line 5) and 2 start on it (line 3 after line 2): is it",
     BOTH, ""),
    # The third row starts on the day after the first one's end, when the second starts.
    ("loaded", load_of(*(f"{line[4:]},A,{line[2]}" for line in DAY_BY_DAY)), DAY_BY_DAY, ""),
    ("noted", "2 start on it (line 3 after line 2)", DAY_BY_DAY, "--last-day"),
    ("noted", "1 start on the day after it (line 4 after line 3) and 1 start on it (line 3 after line 2): a row",
     [*DAY_BY_DAY[:2], "A,4,2024-01-04,2024-01-05"], ""),
    # Rows start on last days of months too; the start of a single row may be anywhere.
    ("loaded", load_of(*(f"{line[13:]},{line[:10]},1" for line in BY_MONTHS)), BY_MONTHS, ""),
    ("noted", "6 ends are last days of a month, 0 are first days",
     ["A,1,2024-01-31,2024-02-29", *(f"{end},1,2024-01-01,{end}" for end in MONTHS[1:])], ""),
    # The day before the one that stands for no known end.
    ("loaded", NEVER, BEFORE_NEVER, "--german --last-day"),
    ("loaded", NEVER, BEFORE_NEVER, "--german --last-day --no-end 30.12.9999"),
    ("refused", "stands for no known end; --no-end '30.12.9999' reads it as that", BEFORE_NEVER,
     "--german --last-day --open"),
    ("refused", "--no-end '30.12.9999' reads it as that", BEFORE_NEVER, "--german --last-day --no-end NULL"),
    ("noted", "the row doesn't hold at its end", ["A,1,2024-01-01,2024-03-15 23:59:59"],
     "--dates '2024-12-31 00:00:00'"),
]


AFTER = ["pay", "Letzter Tag", "9999-12-31", "name=Name", "--delete"]
LAST, GONE = "Name,Letzter Tag\nA,2024-02-29\nB,31.12.2024\n", "delete,pay,{},9999-12-31,where,name,{}\n".format
HEADED = "Name,Pay,Start,{}\nA,1,2024-01-01,2024-03-15\n".format
HEADERS: Cases = [
    *[("refused", f"{end}: its name says that it is the last day of a row; use --last-day", HEADED(end),
       ["pay", "Start", end, "Name", "Pay"])
      for end in ("Letzter Tag", "last day", "LAST_DAY", "last_day", "Bis (einschließlich)", "To (inclusive)")],
    ("loaded", load_of("2024-01-01,2024-03-16,A,1"), HEADED("last day"),
     ["pay", "Start", "last day", "Name", "Pay", "--last-day"]),
    ("refused", "valid_to: tools/answers prints the day after a row's last day there; leave out --last-day",
     HEADED("valid_to"), ["pay", "Start", "valid_to", "Name", "Pay", "--last-day"]),
    ("loaded", load_of("2024-01-01,2024-03-15,A,1"), HEADED("valid_to"), ["pay", "Start", "valid_to", "Name", "Pay"]),
    # Rows that start on the day after a last one.
    ("loaded", GONE("2024-03-01", "A") + GONE("2025-01-01", "B"), LAST, [*AFTER, "--german", "--day-after"]),
    ("refused", "Letzter Tag: its name says that it is a last day, and here it is where rows start; use --day-after if",
     LAST, [*AFTER, "--german"]),
    ("refused", "not in the header: End", LAST, [*AFTER[:2], "End", *AFTER[3:], "--day-after"]),
    ("refused", "a last day has no time", LAST.replace("29", "29T08:00:00"), [*AFTER, "--german", "--day-after"]),
    ("refused", "line 2: Last, 2024-03-01, the day after the last one there, isn't before End, 2024-03-01",
     "Name,Last,End\nA,2024-02-29,2024-03-01\n", ["pay", "Last", "End", "Name", "--day-after"]),
]


class LastDays(Case):
    def test_ends_of_another_form_are_reported(self) -> None:
        self.try_all([*LAST_DAYS, *HEADERS])
        for start, end, word, note in [
            ("2024-01-01", "2024-12-31", "--open", "End is 2024-12-31: a row no longer holds on that day; "),
            ("1.1.2024", "31.12.2024", "--german", "End is 2024-12-31: a row no longer holds on that day; "),
            ("2024-01-01", "2025-01-01", "--last-day", "End is 2025-01-01: --last-day reads it as the last day "),
        ]:
            self.assertIn(note, load(rows(f"A,5,{start},{end}"), *WORDS, word)[1][0])


CENTS, GERMAN, INT = "--decimals Pay=2", "--decimals Pay=2 --german", "--table table,pay,name,text,pay,int"
EITHER = HEADER + f'A,"7,500",{P}\n'
NUMBERS: Cases = [
    ("refused", "line 2: Pay is '7,500': its mark may separate", EITHER, "--decimals Pay=3"),
    ("refused", "--decimal-mark '.' makes it 7.500", [f"A,7.500,{P}"], "--decimals Pay=3 --german"),
    # Another number of the file settles it, or a word.
    ("loaded", load_of(f"{P},A,75000", f"{P},B,25"), EITHER + f"B,2.5,{P}\n", "--decimals Pay=1"),
    ("loaded", load_of(f"{P},A,7500"), EITHER, "--decimals Pay=3 --decimal-mark ,"),
    ("loaded", load_of(f"{P},A,50", f"{P},B,490", f"{P},C,1250"),
     [f"A,0.500,{P}", f"B,4.900,{P}", f"C,12.5000,{P}"], f"{CENTS} --decimal-mark ."),
    ("loaded", load_of(f"{P},A,123450", f"{P},B,-123456750"), [f"A,1'234.50,{P}", f"B,-1’234’567.5,{P}"], CENTS),
    *[("refused", "not a number such as", [f'A,"{number}",{P}'], CENTS)
      for number in ("1'23.50", "12'34'567", "1'234,567.50", "0'500")],
    *[("refused", f"line 2: Pay is '{number}': not a number such as", [f"A,{number},{P}"], GERMAN)
      for number in ("0.500", "00.500", "012.345", "-0.500")],
    *[("refused", "a number below zero has a minus before it, such as", [f"A,{number},{P}"], CENTS)
      for number in ("(500.00)", "500.00-", "−500")],
    *[("refused", "not a number such as 1,234.50; leave out the text around it, so that the cell has only 5",
       [f"A,{number},{P}"], CENTS) for number in ("5 k", "5 H", "5 TSD", "5 MIO", "5 h", "5 %", "€5 €")],
    ("refused", "line 3: Pay is '5 USD': it has USD, and other numbers of the column have €",
     [f"A,5 €,{P}", f"B,5 USD,{P}"], CENTS),
    ("refused", "1,234.50; use --german", [f'A,"0,500",{P}'], CENTS),
    ("refused", "Pay is '1.234,567': ", [f'A,"1.234,567",{P}'], GERMAN),
    ("loaded", load_of(f"{P},A,-7"), [f'A,"-0,07",{P}'], GERMAN),
    ("noted", "--decimals Pay=2 takes them as they are", [f"A,7.25,{P}"], "--decimals Pay=3"),
    ("refused", "--bare whole makes it 510050.00, --bare decimals makes it 5100.50",
     [f"A,510050,{P}", f'B,"5,100.50",{P}'], CENTS),
    ("refused", "--bare needs --decimals", [f"A,5,{P}"], "--bare whole"),
    ("refused", "--decimals Pay: given twice", [f"A,5,{P}"], f"{CENTS} --decimals Pay=0"),
    *[("loaded", load_of(f"{P},A,{made}", f"{P},B,{other}"), [f'A,"{number}",{P}', f'B,"{more}",{P}'], GERMAN)
      for number, more, made, other in (
          ("4.900", "5.100,50", 490000, 510050), ("4900", "5100", 490000, 510000), ("0", "5100,50", 0, 510050),
      )],
    *[("refused", "the store's numbers are from -92233", [f"A,{number},{P}"], CENTS)
      # Python itself makes no number with 5,000 digits.
      for number in ("92233720368547758.08", "9" * 5000)],
    ("loaded", load_of(f"{P},A,-9223372036854775808"), [f"A,-92233720368547758.08,{P}"], CENTS),
    *[("refused", part, [f"A,{number},{P}"], CENTS) for number, part in [
        ("5 Mio.", "has only 5"), ("5 CR", "has only 5"), ("1.2E3", "its digits are rounded off"),
        ("+5", "leave out the +"), ("1/2", "not a number"), ("٥", "not a number"), ("５", "not a number"),
        ("--5", "not a number"), ("4800.5000000001", "more than 2 decimals"), ("TRUE", "not a number"),
        ("5O", "not a number"), ("-", "not a number"), ("", "Pay is '': no number is given; write 0 if it is 0"),
    ]],
    ("refused", "Pay is '': no number is given; write 0 if it is 0", [f"A,,{P}"], INT),
    # No decimals are offered for leading zeros, or for a number that is too great.
    *[("refused", f"such as 5000; --decimals Pay={digits} makes", [f'A,"{number}",{P}'], INT)
      for number, digits in (("05", 0), ("00", 0), ("5,5", 2))],
    ("loaded", load_of(f"{P},A,5"), [f"A,05,{P}"], f"{INT} --decimals Pay=0"),
    *[("refused", f"Pay is '{number}': the store's numbers are from -9223372036854775808 to 9223372036854775807",
       [f"A,{number},{P}"], f"{INT} {more}")
      for number in (1 << 63, -(1 << 63) - 1, 10 ** 30) for more in ("", "--decimals Pay=0")],
    *[("loaded", load_of(f"{P},A,{number}"), [f"A,{number},{P}"], INT) for number in ((1 << 63) - 1, -(1 << 63))],
    ("refused", "--decimal-mark needs --decimals", [f"A,5,{P}"], "--decimal-mark ,"),
    # An option that is given isn't advised.
    *[("refused", f"and --decimal-mark says '{mark}': use one in the file", [f"A,{number},{P}"],
       f"{CENTS} --decimal-mark {mark}") for number, mark in (('"4.500,50"', "."), ("4500.50", ","))],
    # A currency that one number lacks, and a unit in a column's name.
    *[("noted", f"Pay: the currency EUR was left out of its numbers, but '{other}' has none",
       [f"A,5.50 EUR,{P}", f"B,{other},{P}"], f"{CENTS} --bare whole --decimal-mark .")
      for other in ("7", "7.50", "0.500")],
    *[("noted", "and its numbers are loaded as they are", f'Name,"{name}",Start,End\nA,5,{P}\n',
       [*WORDS[:4], f"pay={name}"])
      for name in ("Pay (TEUR)", "Pay in T€", "Pay in Tsd.", "Raise %", "Pay, thousands of EUR")],
]


class Numbers(Case):
    def test_numbers_are_read_in_one_way_or_refused(self) -> None:
        self.try_all(NUMBERS)

    def test_three_digits_after_a_mark_are_refused_where_fewer_may_be(self) -> None:
        for number, words, part in [
            ("0.500", "", "is '0.500': three digits follow its mark, as after one of thousands, and it can have 2 "),
            ("0.500", "", "decimals at most: --decimal-mark '.' makes it 0.500"),
            ("4.900", "", "--decimal-mark '.' makes it 4.900, --decimal-mark ',' makes it 4900"),
            ("-4.900", "", "--decimal-mark ',' makes it -4900"), ("1234.500", "", "three digits follow"),
            ('"1,234.500"', "", "three digits follow"), ('"0,500"', "--german", "mark ',' makes it 0.500"),
            ("4.905", "", "Pay is '4.905': more than 2 decimals: --decimal-mark ',' makes it 4905"),
        ]:
            for other in ("7", "12,50" if words else "12.50"):
                text = [f'B,"{other}",{P}', f"A,{number},{P}"]
                self.try_all([("refused", part, text, f"{CENTS} {words}")])

    def test_one_currency_of_a_column_is_left_out_and_reported(self) -> None:
        for number, made in [
            ("500 €", 50000), ("€500", 50000), ("EUR 500.5", 50050), ("-$5", -500), ("$-5", -500),
            ("CHF 1'234.50", 123450), ("$ 1 234", 123400),
        ]:
            with self.subTest(number):
                printed, [note] = load(rows(f"A,{number},{P}"), *WORDS, *CENTS.split())
                self.assertEqual(printed, load_of(f"{P},A,{made}"))
                self.assertIn("was left out of its numbers, which are all of it", note)

    def test_numbers_with_and_without_a_decimal_mark_are_refused(self) -> None:
        for number, marked, words, both in [
            ("510050", '"5.100,50"', GERMAN, ("51005000", "510050")), ("5", "4.50", CENTS, ("500", "5")),
            ("-7 €", "4.5 €", CENTS, ("-700", "-7")), ("0050", "4.50", CENTS, ("5000", "50")),
        ]:
            for count in (1, 20):
                lines = [f"B,{marked},{P}", f"C,0,{P}"] * count + [f"A,{number},{P}"]
                part = f"line {1 + len(lines)}: Pay is '{visible(number)}', without a decimal mark, and others of"
                self.try_all([("refused", part, lines, words)])
                for bare, made in zip(("whole", "decimals"), both):
                    found = load(rows(*lines), *WORDS, *words.split(), "--bare", bare)[0]
                    self.assertTrue(f",A,{made}\n" in found and ",C,0\n" in found)


class Texts(Case):
    def test_texts_that_look_alike_are_reported_once_with_a_count_and_a_line(self) -> None:
        for one, other in [("1", "001"), ("Müller", "MÜLLER"), ("José", "Jose\u0301"), ("A B", "A  B")]:
            seconds = [f"{other},1,2024-03-03,2024-04-05", f"{other},3,2024-05-03,2024-06-05"]
            self.try_all([("noted", "(line 3, and 1 more rows)", [f"{one},1,2024-01-01,2024-02-05", *seconds], "")])

    def test_what_no_name_has_is_reported(self) -> None:
        for value, part in [
            ("M\ufffdller", "has lost one of its"), ("A\x07B", "can't be seen"), ("A\tB", "can't be seen"),
            ("A\u2028B", "can't be seen"), ("A\u200bB", "a character that can't "), ("NULL", "write it for no value"),
            ("# B", "or a comment"), ("#REF!", "or a comment"), ("'001", "sign for"), ('="001"', "formula"),
            ("1001.0", "a number such as 1,234.50"), ("4800.50", "--decimals COLUMN=DIGITS makes it whole"),
            ("1.23E+05", "digits are rounded off"), ("", "it is empty"), ("A\u00a0B", "a no-break space "),
            *((name, "these quotes are part of the text") for name in ("'A'", "„A“", "“A”", "«A»")),
            ("A ", "a space at an end "), ("Jose\u0301", "a letter and its accent "),
        ]:
            for count in (0, 100):
                others = [f"N{number},1,{P}" for number in range(count)]
                text = [*others, '"{}",1,2024-01-01,2024-02-05'.format(value.replace('"', '""'))]
                part = f"Name is '{visible(value)}', and is loaded as that: " if count else part
                self.try_all([("noted", part, text, "")])
        self.noted("a number such as 1.234,50; --decimals ", rows(f'A,"4,5",{P}'), *WORDS, "--german")
        self.loaded(load_of(f"{P},A B,5"), rows(f"A\u00a0B,5,{P}"), *WORDS, "--plain-spaces")

    def made(self, names: Sequence[str], *words: str) -> List[List[str]]:
        """The values of the rows, each with another number."""
        text = io.StringIO(newline="")
        csv.writer(text).writerows([name, number, *P.split(",")] for number, name in enumerate(names))
        printed, notes = load(HEADER + text.getvalue(), *WORDS, *words)
        self.assertEqual(notes, [])
        return [row[3:] for row in csv.reader(io.StringIO(printed, newline="")) if row[0] == "row"]

    def test_each_of_many_rows_keeps_its_value(self) -> None:
        """New values of a simple form are converted at once."""
        forms = ["Person {}, A", "Özgür {} Şahin", "K-{}", "{}", "{} Müller", "e{}", 'Łódź "{}"', "Ω {}"]
        for form in [*forms, "Νίκος {} ω", "名前 {} 様"]:
            names = [form.format(number) for number in range(1, 300)]
            names.extend(reversed(names))
            with self.subTest(form):
                self.assertEqual(self.made(names), [[name, str(number)] for number, name in enumerate(names)])
        for form, other in [("Person {}", "PERSON 250"), ("Öz {} Straße", "öz 250 STRASSE"), ("{}", "0250")]:
            lines = [f"{name},1,{P}" for name in [*map(form.format, range(1, 300)), other]]
            part = f"Name is '{other}', and is loaded as that: it looks like '{form.format(250)}'"
            self.try_all([("noted", part, lines, "")])
        names = [*(f"Person {number}" for number in range(20)), 1365 * "漢" + "A"]
        self.assertEqual(len(self.made(names)), 21)
        lines = [f"{name},1,{P}" for name in [*names[:-1], 1366 * "漢"]]
        self.try_all([("refused", "a text can have at most 4,096 bytes", lines, "")])

    def test_numbers_of_many_forms_become_whole(self) -> None:
        for form in ("{}.25", "0.{:02}", "{}", "-{}.5", "1,{:03}.00"):
            texts = [*(form.format(number) for number in range(10, 100)), "0.1"]
            text = rows(*(f'{place},"{one}",{P}' for place, one in enumerate(texts)))
            with self.subTest(form):
                printed, notes = load(text, *WORDS, "--decimals", "Pay=2", "--bare", "whole")
                wanted = [str(int(Decimal(one.replace(",", "")) * 100)) for one in texts]
                found = [row[4] for row in csv.reader(io.StringIO(printed)) if row[0] == "row"]
                self.assertEqual((found, notes), (wanted, []))


SUMS, TOUCH = [f"A,5,{P}", f"B,7,{P}"], [f"A,1,{P}", "A,1,2024-03-05,2024-04-02"]
TWICE = [f"A,1,{P}", f"B,1,{P}", "A,1,2024-02-01,2024-04-02", f"C,1,{P}"]
COUNTED = [f"A,1,2024-01-01,2024-03-{day}" for day in range(10, 20)]
TOGETHER: Cases = [
    ("noted", "line 2: Pay 12 is the sum of the 2 rows below; if it is a total, leave the line out",
     [f"Total,12,{P}", *SUMS], ""),
    # Amounts that aren't sums; rows that touch; rows such as bookings.
    *[("loaded", load_of(*(f"{P},{line[:line.index(P) - 1]}" for line in lines)), lines, "") for lines in (
        [f"A,5,{P}", f"B,5,{P}"], [f"A,0,{P}", f"B,0,{P}", f"C,0,{P}"],
        [f"A,x,{P}", f"B,5,{P}", f"Total,5,{P}"], [f"Total,5,{P}"],
    )],
    *[("loaded", load_of(*(f"{line[4:]},A,1" for line in lines)), lines, "") for lines in (TOUCH, COUNTED)],
    ("noted", "line 4 has the values of line 2, and both hold at one time: is one of them too many?", TWICE, ""),
    ("noted", "line 3: '500' is left out: its column, 3, has no name",
     f"Name,Pay,,Start,End\nA,4,,{P}\nB,4,500,{P}\n", ""),
]


class Together(Case):
    def test_rows_that_may_be_one_too_many_are_reported(self) -> None:
        self.try_all(TOGETHER)
        for more in ("", "--update Name"):
            notes = load(rows(*TWICE), *WORDS, *more.split(), "--table", "table,pay,name,text,pay,int,key,name")[1]
            self.assertFalse([one for one in notes if "too many" in one])

    def test_a_last_row_with_the_sums_of_all_others_is_reported(self) -> None:
        amounts = [(510050, 3), (-2000, 4), (480000, 5)] * 200
        names = ["Name,Pay,Hours,Start,End"]
        names.extend(f"N{place},{pay},{hours},{P}" for place, (pay, hours) in enumerate(amounts))
        sums = [sum(column) for column in zip(*amounts)]
        words, table = [*WORDS, "Hours"], ["--table", "table,pay,name,text,pay,int,hours,int,key,name"]
        note = f"line 602: Pay {sums[0]} and Hours {sums[1]} are the sums of the 600 rows above; if it is a total"
        for last in ("Total", "Summe 2024:", "ACME Group", "999", ""):
            for more in (table[:0], table, ["--decimals", "Pay=0"]):
                text = "\n".join([*names, f"{last},{sums[0]},{sums[1]},{P}", ""])
                printed, notes = load(text, *words, *more)
                self.assertIn(note, "".join(notes))
                self.assertEqual(printed.count("\nrow,"), 601)
        for last in (f"Total,{sums[0]},{sums[1] + 1},{P}", f"Total,0,{sums[1]},{P}"):
            self.assertEqual(load("\n".join([*names, last, ""]), *words)[1], [])


RECORD = ["--table", "table,pay,person,text,euros,int,key,person"]
PERIOD = ["pay", "Start", "End"]
ONE, OTHER_ORDER = [f"A,1,{P}"], f"Alt,Neu,Ab,Bis\nA,5,{P}\n"
NEW = ["pay", "Ab", "Bis", "euros=Neu", "person=Alt", *RECORD]
WIDE = ",".join(f"c{number},text" for number in range(17))
TABLES: Cases = [
    ("refused", "Euros is given as column 1, which is person in the table", f"Person,Euros,Start,End\nA,1,{P}\n",
     [*PERIOD, "Euros", "Person", *RECORD]),
    # Changes have the columns in any order.
    ("loaded", f"delete,pay,{P},where,euros,5,person,A\n", OTHER_ORDER, [*NEW, "--delete"]),
    ("loaded", f"update,pay,{P},set,euros,5,where,person,A\n", OTHER_ORDER, [*NEW, "--update", "person"]),
    ("refused", "line 2: Alt is 'A': not a whole number", OTHER_ORDER, [*NEW[:3], "euros=Alt", "person=Neu", *RECORD]),
    ("refused", "Name is given twice", ONE, [*PERIOD, "Name", "Name"]),
    ("refused", "1 columns are given, but pay has 2: person, euros", ONE, [*PERIOD, "Name", *RECORD]),
    ("refused", "line 2: Pay is '4.5': not a whole number", [f"A,4.5,{P}"], " ".join(RECORD)),
    ("loaded", f"{RECORD[1]}\n{load_of(f'{P},A,1')}", f"Euros,Person,Start,End\n1,A,{P}\n",
     [*PERIOD, *RECORD, "--print-table"]),
    *[("refused", f"--print-table can't be given with {more.split()[0]}: a table that is only made there", ONE,
       f"{' '.join(RECORD)} --print-table {more}") for more in ("--update Name", "--delete")],
    *[("refused", "not of the form table,T,COLUMN,KIND..[,key,COLUMN..]", "Name,Start,End\n",
       [*PERIOD, "--table", f"table,pay,{columns}", "--print-table"]) for columns in (
           WIDE, "name", "name,point", "name,text,key", "name,text,name,text", "name,text,key,name,name",
       )],
    ("refused", "; a KIND is int or text, and a name has 1 to 32 of a to z", ONE,
     [*PERIOD, "--table", "table,pay,Name,text"]),
    ("refused", "name is in the header as 'Name' and 'NAME': give the one that is meant as a COLUMN",
     f"Name,NAME,Start,End\nA,B,{P}\n", [*PERIOD, "--table", "table,pay,name,text"]),
]
MAY, LOHN = "2024-01-01,2024-02-01", "Name;Lohn;Start;End\nA;5,5;2024-01-01;2024-02-01\n"
NEU = "Name;Neu;Alt;Start;End\n" + 2 * "A;S2;S1;2024-01-01;2024-02-01\n"
GRADED, KEYED_BY = ["--table", "table,pay,name,text,grade,text"], "table,pay,name,text,grade,text,key,name"
RENAMED: Cases = [
    *[("refused", note, NEU, [*PERIOD, *words]) for words, note in [
        (["Grade=Neu"], "Grade=Neu: Grade can't be the name of a table's column"),
        (["grade=Neu", "grade=Alt"], "grade=Alt: the table's column grade is given twice"),
        (["grade=Neu", "note=Neu"], "Neu is given twice"), (["grade=New"], "not in the header: New"),
        (["note=Neu", *GRADED], "Neu: pay has no column note; its columns are name, grade"),
        (["Name", "Neu", "--update", "Name"], "give the table's by NAME=Name or --table"),
        (["name=Alt", "Name", *GRADED], "Name: the table's column name is given twice"),
        (["name=Alt", "Name", "--delete", GRADED[0], f"{GRADED[1]},n,int"], "Name: the table's column name is"),
    ]],
    ("refused", "old: the table's column old is given twice", NEU.replace("Alt", "old"),
     [*PERIOD, "old=Neu", "old", "--delete"]),
    # A load takes its other columns by their names, and rows are equal in all of the file's.
    ("noted", "--drop-equal: 1 row was left out, equal to an earlier one in all of the file's fields (line 3)", NEU,
     [*PERIOD, "grade=Neu", "--table", KEYED_BY, "--drop-equal"]),
    ("loaded", load_of(f"{MAY},A,S2"), NEU[:NEU.rindex("A;")], [*PERIOD, "grade=Neu", "--table", KEYED_BY]),
    *[("loaded", f"update,pay,{MAY},set,cents,550,where,person,A\n", LOHN,
       [*PERIOD, "person=Name", "cents=Lohn", "--decimals", f"{name}=2", "--german", "--update", "person"])
      for name in ("cents", "Lohn")],
]
SOME = [*PERIOD, "--table", "table,pay,pid,int,name,text,grade,text,euros,int,key,pid"]
OF_SOME, SET = f"PID,Euros,Start,End\n7,500,{P}\n", f"update,pay,{P},set,euros,500,where,pid,7\n"
UPDATE = [*PERIOD, "person", "euros", "--update", "person"]
EURO, LATE = "person,euros,Start,End\n", "A,3,2024-09-01,2025-01-01\nB,1,2024-07-01,2025-01-01\n"
EMPTY, GRADE = f"person,grade,Start,End\nA,,{P}\nB,S2,{P}\n", [*PERIOD, "person", "grade", "--update", "person"]
UPDATES: Cases = [
    ("loaded", f'update,pay,{P},set,euros,1,where,person,"Hill, Grace"\n', f'{EURO}"Hill, Grace",1,{P}\n', UPDATE),
    ("noted", "line 3 updates the same person from the same point on as line 2, and the later one counts",
     f"{EURO}A,1,{P}\nA,2,2024-01-01,2024-04-05\n", UPDATE),
    ("noted", "line 4 updates the same person from an earlier point on than line 2, and past its start, so it",
     f"{EURO}{LATE}A,2,2024-07-01,2025-01-01\n", UPDATE),
    ("noted", "out of order?; 1 more do so",
     f"{EURO}{LATE}A,2,2024-07-01,2025-01-01\nA,4,2024-08-01,2025-01-01\n", UPDATE),
    ("loaded", SET, OF_SOME, [*SOME, "PID", "Euros", "--update", "PID"]),
    ("loaded", SET, OF_SOME, [*SOME, "Euros", "PID", "--update", "pid"]),
    ("noted", "the file has no column name, grade, so updates leave it as it is", OF_SOME, [*SOME, "--update", "pid"]),
    ("refused", "Start: pay has no such column, and only some of its columns are given; its columns are pid, name, ",
     OF_SOME, [*SOME, "PID", "Start", "--update", "PID"]),
    ("refused", "Euros is '5x': not a whole number", OF_SOME.replace("500", "5x"), [*SOME, "--update", "pid"]),
    ("refused", "--update pid: not one of the columns Euros", OF_SOME, [*SOME, "Euros", "--update", "pid"]),
    # An empty cell sets a column only by an option.
    ("refused", "line 2: grade is '': an update would set the empty text; if that is meant, use --empty grade; if the ",
     EMPTY, GRADE),
    ("loaded", f"update,pay,{P},set,grade,,where,person,A\nupdate,pay,{P},set,grade,S2,where,person,B\n", EMPTY,
     [*GRADE, "--empty", "grade"]),
    ("refused", "--empty person: not one of the columns that are set: grade", EMPTY, [*GRADE, "--empty", "person"]),
    ("refused", "--empty grade: given twice", EMPTY, [*GRADE, "--empty", "grade", "--empty", "grade"]),
    ("refused", "--empty needs --update: a load takes empty texts", EMPTY, [*GRADE[:5], "--empty", "grade"]),
    ("refused", "Name can't be the name of a table", ONE, "--update Name"),
]
HILL, KEYED = f'Person,euros,Start,End\n"Hill, Grace",500,{P}\n', [
    *PERIOD, "--table", "table,pay,person,text,grade,text,euros,int,key,person", "--delete",
]
DELETES: Cases = [
    ("loaded", f'delete,pay,{P},where,person,"Hill, Grace",euros,50000\n', HILL,
     [*PERIOD, "person=Person", "euros", "--decimals", "euros=2", "--delete"]),
    ("loaded", f'delete,pay,{P},where,person,"Hill, Grace",euros,500\n', HILL.replace("03-05", "03-04"),
     [*PERIOD, "person=Person", "euros", "--delete", "--last-day"]),
    # Without a column the key says which rows are deleted.
    ("loaded", f'delete,pay,{P},where,person,"Hill, Grace"\n', HILL, KEYED),
    ("loaded", f"delete,t,{P}\n", f"Start,End\n{P}\n", ["t", *PERIOD[1:], "--table", "table,t", "--delete"]),
    ("refused", "--delete: pay has no key", HILL, [*PERIOD, "--table", "table,pay,person,text", "--delete"]),
    ("refused", "--delete needs a COLUMN", HILL, [*PERIOD, "--delete"]),
    ("refused", "not in the header: person; it has 'Who', 'euros', 'Start', 'End'; person=COLUMN names the one for the",
     HILL.replace("Person", "Who"), KEYED),
    ("refused", "euros is '5x': not a whole number", HILL.replace("500", "5x"), [*KEYED, "euros"]),
    ("refused", "Start: pay has no such column", HILL, [*KEYED, "Start"]),
    ("refused", "--delete can't be given with --update", HILL, [*KEYED, "euros", "Person", "--update", "Person"]),
    ("noted", "line 3 deletes the same Person from the same point on as line 2, and the longer one is enough",
     f'{HILL}"Hill, Grace",500,2024-01-01,2024-05-05\n', KEYED),
    ("noted", "no row follows the header, so nothing is changed", HILL.partition("\n")[0], KEYED),
]
CHECK = ["posts", "Post", "Id", "--check", "2024-01-05"]
UNUSED = [
    "--update=P", "--delete", "--table=table,posts", "--print-table", "--dates=20241231", "--decimals=P=2",
    "--decimal-mark=,", "--no-end=NULL", "--german", "--last-day", "--open", "--plain-spaces", "--drop-equal",
    "--day=2024-01-01", "--day-after",
]
CHECKS: Cases = [
    ("loaded", "check,posts,2,2024-01-05\npart,1,3\npart,2\nend\n", "Post,Id\nA,1\nB,2\nA,3\n", CHECK),
    ("noted", "Post is '01': it looks like '1', but is another part", "Post,Id\n1,1\n01,2\n2,3\n", CHECK),
    ("noted", "Post is empty in 2 rows, which are one part: 2, 3", "Post,Id\nA,1\n,2\n ,3\n", CHECK),
    ("refused", "line 2: A,x: not a row with a part", "Post,Id\nA,x\n", CHECK),
    ("refused", "--check x: not a date or time", "Post,Id\nA,1\n", [*CHECK[:-1], "x"]),
    ("refused", "two columns of the header have the name Post", "Post,Post,Id\nA,B,1\n", CHECK),
    ("refused", "not in the header: Id; it has 'Post'", "Post\nA\n", CHECK),
    ("refused", "the file has no header, just empty lines", "\n", CHECK),
    *[("refused", f"--check can't be given with {word.partition('=')[0]}", "Post,Id\nA,1\n", [*CHECK, word])
      for word in UNUSED],
]


class Tables(Case):
    def test_loads_changes_and_checks_fit_their_table(self) -> None:
        for cases in (TABLES, RENAMED, UPDATES, DELETES, CHECKS):
            self.try_all(cases)
        notes = load(NEU.replace("S1", "S0", 1), *PERIOD, "Name", "Neu", "--drop-equal")[1]
        self.assertIn("line 3 makes the same row as line 2", "".join(notes))

    def test_changes_without_a_doubt_are_made_without_a_word(self) -> None:
        for line in ("A,2,2024-07-01,2024-09-01", "A,2,2024-10-01,2025-01-01"):
            self.assertEqual(load(f"{EURO}{LATE}{line}\n", *UPDATE)[1], [])
        table = ["--table", "table,pay,person,text,level,text,key,person"]
        for name in ("grade", "level"):
            named = [*PERIOD, "person", "level=grade", "--update", "person", *table, "--empty", name]
            self.assertIn("set,level,,where,person,A\n", load(EMPTY, *named)[0])
        twice = load(HILL + HILL.partition("\n")[2], *KEYED)[1]
        self.assertEqual(twice[0], "line 3 makes the same delete as line 2, and both are printed")

    def test_a_script_so_far_has_the_record(self) -> None:
        with kept(f"table,other\n{RECORD[1]}\n") as script:
            words = [*WORDS[1:], "--table", script]
            self.refused("no `table` record of due", rows(*ONE), "due", *words)
            self.loaded(load_of(f"{P},A,1"), rows(*ONE), "pay", *words)


TO_MARCH = load_of("2024-01-01,2024-03-25,A,1")
MONTHLY = [f"A{month},1,{month:02}/01/2024,{month + 1:02}/01/2024" for month in range(1, 12)]
US, YEAR = "--dates 12/31/2024", date.today().year
PART = "; a time is in whole seconds, so leave out the part of a second"
DATES: Cases = [
    *[("loaded", TO_MARCH, [f"A,1,2024-01-01,{text}"], f"--dates '{form}'") for form, text in [
        ("31/12/2024", "25/3/2024"), ("12/31/2024", "3/25/2024"), ("20241231", "20240325"), ("45657", "45376"),
        ("2024-12-31 00:00:00", "2024-03-25 00:00:00"), ("31.12.2024", "25.3.2024"), ("12.31.2024", "3.25.2024"),
    ]],
    *[("refused", part, [f"A,1,2024-01-01,{text}"], "") for text, part in [
        ("2024-03-05 00:00:00", "use --dates '2024-12-31 00:00:00'"), ("5/3/2024", "31/12/2024 or --dates 12"),
        ("20240305", "use --dates 20241231"), ("45356", "use --dates 45657"), ("5.3.24", "a year has four digits"),
        ("2024-03-05T08:00:00Z", "times have no zone here"), ("NULL", "--no-end 'NULL' reads it"),
        ("NaT", "--no-end 'NaT'"), ("unbefristet", "--no-end 'unbef"), ("", "End is '': no end is given; "),
        ("1.12.2024", "such as 2024-12-31; use --german"), ("2024/03/05", "use --dates 2024/12/31"),
        ("25-03-2024", "use --dates 31-12-2024"), ("05-03-2024", "use --dates 31-12-2024 or --dates 12-31-2024"),
        ("2024-03-05T24:00:00", "a day ends at the next one's midnight"), ("5/3/24", "a year has four digits"),
        ("24-03-05", "a year has four digits"), ("2024-3-5", "a month and a day have two digits"),
        *((text, "not a date such as") for text in (
            "5 Mar 2024", "2024-03", "2024W091", "1709600000", "\uff12024-03-05", "2024-02-30",
        )),
    ]],
    ("noted", "Start and End: '01/13/2024 06:30' has neither AM nor PM, which others have",
     ["A,1,01/13/2024 06:30,01/13/2024 02:30 PM", "B,1,01/13/2024,01/14/2024"], "--dates 12/31/2024"),
    *[("refused", "write all dates of the file in one form", [f"A,1,{text},9999-12-31"], f"--german --dates {other}")
      for text, other in (("31.12.2024", "12/31/2024"), ("12/31/2024", "31/12/2024"), ("2024/12/31", "20241231"))],
    ("loaded", NEVER, ["A,1,2024-01-01,NULL"], "--no-end NULL"),
    ("noted", "2204 is far off", ["A,1,2204-01-01,9999-12-31"], ""),
    ("noted", "0204 is far off", ["A,1,0204-01-01,2024-02-05"], ""),
    ("noted", "1900 is far off", ["A,1,1900-01-01,2024-02-05"], ""),
    ("noted", "--no-end '2099-12-31' makes it", ["A,1,2024-01-01,2099-12-31"], ""),
    ("noted", f"{YEAR + 11} is far off; is the year right?", [f"A,1,{YEAR + 11}-02-03,9999-12-31"], ""),
    ("loaded", load_of(f"{YEAR + 9}-02-03,9999-12-31,A,1"), [f"A,1,{YEAR + 9}-02-03,9999-12-31"], ""),
    ("noted", "--dates 12/31/2024 reads all dates too, then in 12 months, not in 1: which is meant?", MONTHLY,
     "--dates 31/12/2024"),
    ("noted", "('04/03/2024 08:00', of 2, is read as 2024-03-04T08:00:00, and would be 2024-04-03T08:00:00)",
     ["A,1,04/03/2024 08:00,06/05/2024 08:00"], "--dates 31/12/2024"),
    ("loaded", load_of("2024-02-01,2024-03-01,A,1", "2024-07-01,2024-11-01,B,1"),
     ["A,1,01/02/2024,01/03/2024", "B,1,01/07/2024,01/11/2024"], "--dates 31/12/2024"),
    *[("loaded", load_of(f"{made},2024-03-25,A,1"), [f"A,1,{text},03/25/2024"], US) for text, made in [
        ("12/31/2023 06:30 AM", "2023-12-31T06:30:00"), ("12/31/2023 12:00 am", "2023-12-31"),
        ("12/31/2023 12:05:09 p.m.", "2023-12-31T12:05:09"), ("12/31/2023 11:59PM", "2023-12-31T23:59:00"),
    ]],
    *[("refused", "not a date such as", [f"A,1,{text},03/25/2024"], "--dates 12/31/2024")
      for text in ("12/31/2023 13:30 AM", "12/31/2023 00:30 PM", "12/31/2023 AM")],
    *[("refused", PART, [f'A,1,"{text}",2024-03-05'], "--german")
      for text in ("2023-03-14T08:00:00.250", "2023-03-14 08:00:00.250", "14.03.2023 6:30:15,25")],
    ("noted", "--no-end 'none': no row's End is 'none'", ONE, "--no-end none"),
    ("noted", "--open: no row's End is empty", ONE, "--open"),
    ("noted", "--no-end 'none': no row's", ["A,1,2024-01-01,"], "--no-end none --open"),
    # Excel counts these days otherwise.
    ("refused", "Start is '00060': not a date such as", ["A,1,00060,45000"], "--dates 45657"),
    ("refused", "line 2: Start, 2024-03-05, isn't before End, 2024-01-01", ["A,1,2024-03-05,2024-01-01"], ""),
    ("refused", "2024-01-01; if that is the last day, use --last-day", ["A,1,2024-01-01,2024-01-01"], ""),
    ("refused", "line 2: Start, 2024-03-01, is after End, 2024-01-31", ["A,1,2024-03-01,2024-01-31"], "--last-day"),
    ("refused", "Start, 2024-03-01, is after End, 2024-02-29", ["A,1,2024-03-01,29.02.2024"], "--last-day --german"),
    ("refused", "line 2: Start is '31.2.2024': ", ["A,1,31.2.2024,2024-03-05"], "--german"),
]


class Dates(Case):
    def test_points_are_read_in_one_way_or_refused(self) -> None:
        self.try_all(DATES)
        for lines in (MONTHLY, [*MONTHLY, "B,1,01/13/2024,02/01/2024"]):
            self.assertEqual(load(rows(*lines), *WORDS, "--dates", "12/31/2024")[1], [])
        days = [f"{n % 12 + 1:02}/{n * 5 % 12 + 1:02}" for n in range(80)]
        lines = [f"A{n},1,{days[n]}/2024,{days[n + 40]}/2025" for n in range(40)]
        for form, other in [("31/12/2024", "12/31/2024"), ("12/31/2024", "31/12/2024")]:
            part = f"Start and End: --dates {other} reads all dates too, then in 12 months either way"
            self.try_all([("noted", part, lines, f"--dates {form}")])

    def test_the_words_of_a_refusal_make_a_point_of_it(self) -> None:
        """Each refusal has words that can be pasted, and with them the row is loaded."""
        for text, made in [
            ("03/14/2023 06:30 AM", "2023-03-14T06:30:00"), ("14/3/2023", "2023-03-14"), ("03.14.2023", "2023-03-14"),
            ("14.03.2023 6:30", "2023-03-14T06:30:00"), ("2023-03-14 08:00", "2023-03-14T08:00:00"),
        ]:
            with self.subTest(text):
                given = rows(f'A,1,"{text}",2024-03-05')
                _, [note] = load(given, *WORDS)
                self.assertIn("; use --", note)
                words = [re.sub(",.*", "", one) for one in re.split(" or | and ", note.partition("; use ")[2])]
                printed, _ = load(given, *WORDS, *shlex.split(" ".join(words)))
                self.assertEqual(printed, load_of(f"{made},2024-03-05,A,1"))


STRAY = f'Name;Pay;Start;End\n"Hill" G;5;{P}\n'.replace(P, P.replace(",", ";"))
TAKEN = f'{HEADER}"By,6,{P}\nBy",7,{P}\n'
PLAIN, PIPED, MÜLLER = rows(*ONE), rows(*ONE).replace(",", "|"), rows(f"Müller,1,{P}")
FILES: Cases = [
    ("refused", "the first line must have the columns' names, but it has a date", f"A,1,{P}\nB,1,{P}\n",
     ["pay", *P.split(","), "A", "1"]),
    *[("refused", "not a table's name", ONE, [name, *WORDS[1:]]) for name in ("Pay", "my pay", "a,b", "1a", "")],
    ("refused", "this is a compressed file", b"\x1f\x8b\x08\x00", ""),
    ("refused", "line 2: a zero byte, of 1 in the file", [f"A\0,1,{P}"], ""),
    # What spreadsheets write before the header, and after the last row.
    ("loaded", load_of(f"{P},A,5"), f"\n,,,\n{HEADER}A,5,{P}\n,,,\n", ""),
    ("loaded", load_of(f"{P},A,5"), "sep=;\n" + f"{HEADER}A,5,{P}\n".replace(",", ";"), ""),
    ("refused", "it has 'sep=\"'", 'sep="\nName"Pay"Start"End\nA"1"2024-01-01"2024-03-05\n', ""),
    ("loaded", load_of(f"{P},A,5"), f'Name,"a,b,c,d",Start,End\nA,5,{P}\n', [*WORDS[:4], "a,b,c,d"]),
    ("refused", "not in the header: Name; it has 'Name\\xa0', ", f"Name\u00a0,Pay,Start,End\nA,5,{P}\n", ""),
    ("refused", "not in the header: Hours", ONE, "Hours"),
    ("refused", "line 2: ';' expected after '\"'", STRAY, ""),
    ("refused", "line 2: unexpected end of data", STRAY.replace('" G', ""), ""),
    ("refused", "line 2: a field in quotes continues to line 3: is a quote ", TAKEN, ""),
    ("refused", "line 2: 5 fields, and the header has 4; ", [f"Hill, G,5,{P}"], ""),
    ("noted", "line 3 makes the same row as line 2, and both are loaded", ONE * 2, ""),
    ("noted", "no row follows the header, so the load has none", HEADER, ""),
    ("refused", "the file has no header, just empty lines", "\n", ""),
    ("refused", "it has 'Name|Pay|Start|End'; `(echo 'sep=|'; cat FILE)` makes '|' the", PIPED, ""),
    ("loaded", load_of(f"{P},A,1"), f"sep=|\n{PIPED}", ""),
    *[("refused", f"UTF-8; use --encoding {name}", PLAIN.encode(name), "")
      for name in ("utf-16-le", "utf-16-be", "utf-16")],
    ("refused", "--encoding cp1252 for 'Müller', or --encoding cp850", MÜLLER.encode("cp1252"), ""),
    *[("loaded", load_of(f"{P},Müller,1"), MÜLLER.encode(name), f"--encoding {name}")
      for name in ("cp1252", "cp850", "mac_roman", "utf-16", "utf-16-le")],
    ("refused", "byte 21 isn't ascii", MÜLLER, "--encoding ascii"),
    ("refused", "isn't punycode", f"-{ONE[0]}", "--encoding punycode"),
    ("refused", "not in the header: Name; it has '\\ufeffName'", f"\ufeff\ufeff{PLAIN}", ""),
    ("refused", "it has '# export'", f"# export\n{PLAIN}", ""), ("refused", "line 2: 1 fields", ["# half", *ONE], ""),
    ("refused", "line 2: 1 fields", PLAIN.replace(",", ";", 3), ""),
    ("refused", "unexpected end", ['"A,1,' + P, *ONE], ""), ("refused", "expected after", [f'"A\\"B",1,{P}'], ""),
    *[case for title in ("Pay of 2024\n\n", "Pay, of\nall\n") for text in [title + rows(*ONE, *ONE, f"C,3,{P},")]
      for case in (("refused", "; the header seems to be line 3: use --skip 2", text, ""),
                   ("refused", "line 6: 5 fields, and the header has 4", text, "--skip 2"))],
    ("refused", f"{__file__} is a file: give it as the last word", ONE, __file__),
    ("refused", "FROM and TO are columns too, and person=Name isn't: did you forget one?", ONE,
     ["pay", "Start", "person=Name", "cents=Pay"]),
]


DIARY = "table,pay,name,text,pay,int,key,name\ntable,diary,newest,int\n"


class Files(Case):
    def test_files_of_other_forms_are_refused(self) -> None:
        self.try_all(FILES)
        self.assertEqual([one[:7] for one in load(rows("A,1,2024-01-01", "B,1,x,y"), *WORDS)[1]],
                         ["line 2:", "line 3:", "line 3:"])

    def test_names_meet_by_whichever_form_of_unicode(self) -> None:
        composed, apart = (unicodedata.normalize(form, "Größe,Café,Start,End") for form in ("NFC", "NFD"))
        for header, words in [(composed, apart), (apart, composed)]:
            name, pay, start, end = words.split(",")
            text, scale = f"{header}\nA,1.5,{P}\n", ["--decimals", f"{pay}=1"]
            self.loaded(load_of(f"{P},A,15"), text, "pay", start, end, name, pay, *scale)
            self.loaded("check,pay,1,-\npart,7\nend\n", f"{header}\nA,7,,\n", "pay", name, pay, "--check", "-")
        self.refused("two columns of the header have the name", f"Größe,{apart}\n", *["pay", "Start", "End", "Größe"])

    def test_nine_tenths_of_a_limit_are_reported(self) -> None:
        with mock.patch.object(making, "MOST_ROWS", 10):
            lines = [f"{letter},1,{P}" for letter in "ABCDEFGHIJ"]
            self.noted("10 rows in 300 bytes leave little room for later changes", rows(*lines))

    def test_the_last_word_may_be_the_file(self) -> None:
        with kept(PLAIN) as name:
            self.assertEqual(run(["tools/csv-to-load", *WORDS, name]), (0, load_of(f"{P},A,1"), ""))

    def test_a_day_makes_the_diary_s_entry(self) -> None:
        update, entry = "--update Name".split(), "update,diary,2024-07-25,9999-12-31,set,newest,{}\n".format
        cases: List[Tuple[str, List[str], str]] = [
            ("", [], "load,diary\nrow,2024-07-25,9999-12-31,3\nend\n"),
            ("load,diary\nend\nrows,diary\nx\n", [], ",4\nend\n"),
            ("load,diary\nrow,2024-01-01,9999-12-31,2\nend\n", [], entry(4)),
            ("load,diary\nrow,2024-07-25,9999-12-31,2\nend\n", update, entry(5)),
            ("load,diary\nrow,2024-08-01,9999-12-31,2\nend\n", [], "a later entry already, from 2024-08-01 on"),
            (f"load,pay\nrow,{P},A,1\nend\n", [], "--day: after the script of --table, line "),
        ]
        for more, words, wanted in cases:
            with self.subTest(more=more, words=words), kept(DIARY + more) as file:
                made, said = load(rows(*ONE, f"B,2,{P}"), *WORDS, *words, "--table", file, "--day", "2024-07-25")
                self.assertTrue(made.endswith(wanted) or not made and wanted in said[0], (made, said))
        with kept(f"{DIARY}table,notes,newest,int,who,text\n") as file:
            self.try_all([("refused", part, ONE, f"--table {table} --day {day}") for part, table, day in [
                ("--day needs --table SCRIPT", INT[8:], "2024-07-25"),
                ("--day x: not a day such as 2024-07-25", INT[8:], "x"),
                ("notes isn't a diary of one column", file, "notes=2024-07-25"), ("NoTable", file, "none=2024-07-25"),
            ]])


class Terminal(Stream):
    def isatty(self) -> bool:
        return True


class Words(unittest.TestCase):
    def test_no_control_character_of_a_file_reaches_a_terminal(self) -> None:
        bell = "\x1b[2J\x07\u202e"
        files = [
            f"{HEADER}A{bell},x,2024-01-01,{bell}\n", f"Na{bell}me,Pay,Start,End\n", f"{HEADER}{bell},1,{P}\n",
            f"sep={bell[0]}\nName\x1bPay\n\"A\"B\x1b1\n", f"\x1cName,Pay,Start,End\nA,x,{P}\n",
        ]
        for text in files:
            for words in (WORDS, [*WORDS[:3], *INT.split()], [*WORDS, "--table", "table,pay,\x1b"]):
                with self.subTest(text, words=words):
                    given, printed, said = Stream(text.encode()), Terminal(), Terminal()
                    with mock.patch.multiple(sys, stdin=given, stdout=printed, stderr=said):
                        load_tool.main(words)
                    shown = (printed.bytes.getvalue() + said.bytes.getvalue()).decode()
                    self.assertTrue(all(one.isprintable() for one in shown.replace("\n", "")), repr(shown))

    def test_an_option_of_one_value_is_given_once_and_is_not_empty(self) -> None:
        tool = ["tools/csv-to-load", *WORDS]
        for option, value in [
            ("--file", "a.csv"), ("--sheet", "2024"), ("--table", "a"), ("--check", "-"),
            ("--dates", "31/12/2024"), ("--decimal-mark", ","),
        ]:
            status, printed, said = run([*tool, option, value, f"{option}={value}"])
            self.assertEqual((status, printed), (2, "csv-to-load failed\n"))
            self.assertIn(f"tools/csv-to-load: error: argument {option}: given twice\n", said)
        self.assertIn("argument --file: the word is empty\n", run([*tool, "--file", ""])[2])
        self.assertIn("--encoding: hex: not an encoding", run([*tool, "--encoding", "hex"])[2])
        self.assertIn("input is empty, and there is no file no.csv", run([*tool, "no.csv"])[2])
        self.assertEqual(run([*tool, "--none"])[:2], (2, "csv-to-load failed\n"))


if __name__ == "__main__":
    unittest.main()
