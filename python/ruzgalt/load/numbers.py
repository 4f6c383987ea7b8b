"""Numbers with decimals, made whole: with two of them, euros become cents."""
import re
from typing import List, NamedTuple, Optional, Sequence

from ruzgalt.errors import Misfit
from ruzgalt.script.forms import SPACES, Number, in_lines, is_integer, number_in
from ruzgalt.script.records import visible

# All numbers with fewer digits are some of the store's.
LONGEST_NUMBER = 18
NUMBERS = "the store's numbers are from -9223372036854775808 to 9223372036854775807"
EMPTY = "no number is given; write 0 if it is 0"
# The unit in the name of a column whose numbers may be of thousands or hundredths.
UNIT = re.compile(
    r"\b[TK] ?(?:EUR|\u20ac|USD|\$)|\b(?:Tsd|Mio)\b\.?|thousands?|millions?|per ?cent|prozent|%", re.IGNORECASE,
)
# One mark, with three digits after it, parts thousands as well as decimals.
EITHER = re.compile(r"-?[1-9]\d{0,2}[.,]\d{3}", re.ASCII)


OTHER = {".": ",", ",": "."}
# A currency before or after a number: its sign, or its code, which no multiple of numbers is.
CURRENCY = r"[$\u00a3\u00a5\u20ac]|(?!BIO|MIO|MRD|TSD)[A-Z]{3}"
WITH_CURRENCY = re.compile(
    rf"(?P<sign>-?)(?:(?P<before>{CURRENCY})[{SPACES}]?(?P<rest>-?\d.*)|"
    rf"(?P<number>\d.*?)[{SPACES}]?(?P<after>{CURRENCY}))"
)
# Forms that no number of the store has, each with the remedy.
REMEDIES = {
    r"\([^()]*\d[^()]*\)|[^-]*\d *[-\u2212]|[\u2212\u2013][^-]*\d.*":
        "a number below zero has a minus before it, such as -5",
    r"[^eE]*\d[eE][+-]?\d+": "its digits are rounded off: save the column as a number without an exponent",
    r"\+.*": "leave out the +",
}
# A number with something else before or after it.
WITH_UNIT = re.compile(r"[^\d.,\s]*\s?(-?\d[\d.,'\u2019\s]*?)\s?[^\d.,\s]*\.?")


class Figure(str):
    """The number of a workbook's cell as a text. Its mark is the one that is given, and shows nothing of others."""


class Marks:
    """Which mark parts decimals in a file: whether a word says so, or its numbers show it by themselves.

    `either` is the first number, with its column, that could be read both ways.
    """

    def __init__(self, mark: str, is_given: bool) -> None:
        self.mark, self.is_given, self.is_settled = mark, is_given, is_given
        self.either: Optional["Doubtful"] = None

    def look_at(self, name: str, text: str, bare: str, is_faulty: bool) -> None:
        if self.is_settled or isinstance(text, Figure) or not ("." in bare or "," in bare):
            return
        if not EITHER.fullmatch(bare):
            self.is_settled = True
        elif self.either is None and not is_faulty:
            self.either = Doubtful(name, text, bare)


class Doubtful(NamedTuple):
    """A number that could be read in two ways: its column, its text, and the text without its currency."""

    name: str
    text: str
    bare: str


class Scale:
    """A column of numbers with at most `digits` decimals, and the greatest count of decimals that they had.

    `bare` says what a number without any mark is: "whole", or "decimals" if its last digits are decimals.
    """

    def __init__(self, name: str, digits: int, marks: Marks, bare: str = "") -> None:
        self.name, self.digits, self.marks, self.how, self.longest = name, digits, marks, bare, 0
        # The first currency of the column, which all others must be, and the first number without one.
        self.currency = self.plain = ""
        # The first number with decimals, and the first one without any mark.
        self.marked = ""
        self.unmarked: Optional[Doubtful] = None

    def __call__(self, text: str) -> str:
        whole, mark, decimals = text.partition(self.marks.mark)
        count = len(decimals)
        # Most numbers are as simple as this, and can't be read in two ways.
        if count != 3 and count <= self.digits and (whole + decimals).isdigit() and whole and bool(mark) == bool(count):
            if text.isascii() and len(whole) + self.digits <= LONGEST_NUMBER:
                self.plain = self.plain or text
                self.marks.is_settled = self.marks.is_settled or bool(mark) and not isinstance(text, Figure)
                return self.scaled(text, whole, decimals, text) or "0"
        return self.read(text)

    def scaled(self, text: str, whole: str, decimals: str, bare: str) -> str:
        """Returns the digits of a number in the smallest unit, without zeros in front."""
        self.longest = max(self.longest, len(decimals))
        is_bare = not decimals and bare.lstrip("-").isdigit() and not isinstance(text, Figure)
        if decimals:
            self.marked = self.marked or text
        elif is_bare and self.unmarked is None and whole.strip("0"):
            self.unmarked = Doubtful(self.name, text, bare)
        if is_bare and self.how == "decimals":
            return whole.lstrip("0")
        return (whole + decimals[:self.digits].ljust(self.digits, "0")).lstrip("0")

    def mixed(self) -> str:
        """Returns why the column can't be read, if some of its numbers have a decimal mark and others have no mark."""
        if not (self.marked and self.unmarked and self.digits) or self.how:
            return ""
        what = f"without a decimal mark, and others of the column have one, such as '{visible(self.marked)}'"
        sign, number = "-" * self.unmarked.bare.startswith("-"), self.unmarked.bare.lstrip("-").lstrip("0")
        parts = number.zfill(self.digits + 1)
        parts = f"{sign}{parts[:-self.digits]}.{parts[-self.digits:]}"
        both = f"--bare whole makes it {sign}{number}.{'0' * self.digits}, --bare decimals makes it {parts}"
        return f"{self.name} is '{visible(self.unmarked.text)}', {what}: {both}"

    def at_once(self, texts: Sequence[str]) -> List[str]:
        """What numbers become that all have just these decimals, and can't be read in two ways; nothing of others."""
        form = rf"(?:\d{{1,12}}{re.escape(self.marks.mark)}\d{{{self.digits}}}\n)+"
        lines = in_lines(texts)
        if self.digits in (0, 3) or self.digits > 6 or not re.fullmatch(form, lines, re.ASCII):
            return []
        self.marks.is_settled = self.marks.is_settled or not all(isinstance(text, Figure) for text in texts)
        self.longest, self.marked = max(self.longest, self.digits), self.marked or texts[0]
        self.plain = self.plain or texts[0]
        digits = lines.replace(self.marks.mark, "")
        has_zeros = digits.startswith("0") or "\n0" in digits
        return list(map(str, map(int, digits.split()))) if has_zeros else digits.split()

    def read(self, text: str) -> str:
        if not text.strip(SPACES):
            raise Misfit(EMPTY)
        bare = self.bare(text)
        number = number_in(bare, self.marks.mark)
        if number is None:
            raise Misfit(f"not a number such as {self.example()}{self.remedy(bare)}")
        fault = self.fault_of_decimals(number, bare)
        self.marks.look_at(self.name, text, bare, bool(fault))
        if fault:
            raise Misfit(fault)
        whole = self.scaled(text, number.whole, number.decimals, bare)
        made = f"{number.sign}{whole}" if whole else "0"
        if not is_integer(made):
            raise Misfit(NUMBERS)
        return made

    def bare(self, text: str) -> str:
        """Returns the number without spaces around it, and without its currency."""
        found = WITH_CURRENCY.fullmatch(text.strip(SPACES))
        if found is None:
            self.plain = self.plain or text
            return text.strip(SPACES)
        currency = found["before"] or found["after"]
        self.currency = self.currency or currency
        if currency != self.currency:
            what = f"it has {currency}, and other numbers of the column have {self.currency}"
            raise Misfit(f"{what}: give each currency a column of its own")
        return f"{found['sign']}{found['rest'] or found['number']}"

    def fault_of_decimals(self, number: Number, bare: str) -> str:
        """Returns what is wrong with too many decimals, except zeros; and with three, if fewer are allowed.

        After a mark of thousands there are three digits, so these may be thousands of another country, whatever the
        other numbers of the file are: a table is often put together from several.
        """
        why, marks = "", ".,"
        if len(number.decimals.rstrip("0")) > self.digits:
            why, marks = f"more than {self.digits} decimals", OTHER[self.marks.mark]
        elif len(number.decimals) == 3 and self.digits < 3 and not self.marks.is_given:
            why = f"three digits follow its mark, as after one of thousands, and it can have {self.digits} decimals"
            why = f"{why} at most"
        read = readings(bare, marks) if why and not self.marks.is_given else ""
        return f"{why}: {read}" if read else why

    def example(self) -> str:
        return "1.234,50" if self.marks.mark == "," else "1,234.50"

    def remedy(self, bare: str) -> str:
        other = OTHER[self.marks.mark]
        if number_in(bare, other):
            if self.marks.is_given:
                both = f"its decimal mark is '{other}', and --decimal-mark says '{self.marks.mark}'"
                return f"; {both}: use one in the file"
            return "; use --german" if other == "," else f"; use --decimal-mark '{other}'"
        why = next((why for form, why in REMEDIES.items() if re.fullmatch(form, bare)), "")
        if why:
            return f"; {why}"
        found = WITH_UNIT.fullmatch(bare)
        if found and any(number_in(found[1], mark) for mark in ".,"):
            return f"; leave out the text around it, so that the cell has only {found[1].strip()}"
        return ""


def readings(bare: str, marks: str) -> str:
    """Returns the readings of an ambiguous number, each with the option that chooses it."""
    found = ((mark, number_in(bare, mark)) for mark in marks)
    return ", ".join(f"--decimal-mark '{mark}' makes it {number}" for mark, number in found if number)
