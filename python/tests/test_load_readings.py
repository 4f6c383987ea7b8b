"""Numbers and points that tools/csv-to-load reads, compared with a reading of their characters.

Texts and words are drawn at random by hypothesis; TOOLS_EXAMPLES is how many of each.
"""
import csv
import io
import re
import unittest
from datetime import datetime, timedelta
from fractions import Fraction
from typing import Dict, List, Optional, Sequence, Set, Tuple

from tests.by_hypothesis import drawn, given, st
from tests.test_load import load

DRAWN = drawn(200)
FIRST_DAY = datetime(1899, 12, 30)
SPACES, CURRENCIES = " \u00a0\u202f", ("€", "$", "EUR")
DIGITS = "0123456789"


# Numbers.


def words_of(words: Dict[str, str]) -> List[str]:
    """Returns the words of a command line; `yes` is a flag, and an empty text leaves it out."""
    return [one for name, value in words.items() if value for one in ([name] if value == "yes" else [name, value])]


def without_currency(text: str) -> Tuple[str, str]:
    """The number of a text that has a currency before or after it, and the currency."""
    sign, rest = ("-", text[1:]) if text[:1] == "-" else ("", text)
    for one in CURRENCIES:
        front, end = rest.startswith(one), rest.endswith(one)
        number = rest[len(one):] if front else rest[:len(rest) - len(one)] if end else ""
        if number[:1] in SPACES and front or number[-1:] in SPACES and end and not front:
            number = number[1:] if front else number[:-1]
        bare = number[1:] if front and number[:1] == "-" else number
        if bare[:1] and bare[0] in DIGITS:
            return sign + number, one
    return text, ""


def reading(text: str, mark: str) -> Optional[Tuple[str, str]]:
    """The digits before and after the mark of decimals, if the text is a spelling of them: thousands may be parted."""
    front, found, decimals = text.lstrip("-").partition(mark) if text.count("-") < 2 else ("", "", "")
    whole = "".join(one for one in front if one in DIGITS)
    grouped = f"{int(whole or 0):,}"
    spellings = {whole, *(grouped.replace(",", one) for one in ",.'\u2019" + SPACES if one != mark)}
    is_right = whole and front in spellings and text.find("-") < 1 and (decimals or not found)
    return (whole, decimals) if is_right and all(one in DIGITS for one in decimals) else None


def wanted_numbers(
    texts: Sequence[str], mark: str, is_given: bool, digits: int, bare_is: str = "",
) -> List[str]:
    """What the numbers become; nothing if one of them can't be read in one way only, or if they have two currencies."""
    found: Set[str] = set()
    made, marked, bares, has_decimals = [], [], [], False
    for text in texts:
        bare, currency = without_currency(text.strip(SPACES))
        bare, found = bare.strip(SPACES), found | {currency} - {""}
        read = reading(bare, mark)
        if read is None:
            return []
        whole, decimals = read
        is_bare = all(one in DIGITS for one in bare.lstrip("-"))
        number = Fraction(int(whole + decimals), 10 ** len(decimals)) * (-1 if bare[0] == "-" else 1)
        number *= 1 if is_bare and bare_is == "decimals" else 10 ** digits
        is_doubtful = len(decimals) == 3 and digits < 3 and not is_given
        if is_doubtful or number.denominator != 1 or not -2 ** 63 <= number < 2 ** 63:
            return []
        has_decimals = has_decimals or bool(decimals)
        # A single mark could separate thousands or decimals.
        marked.extend([all(reading(bare, one) for one in ".,")] * bool({*bare} & {*".,"}))
        bares.extend([int(whole)] * is_bare)
        made.append(str(number.numerator))
    is_mixed = has_decimals and any(bares) and digits and not bare_is
    return [] if not is_given and marked and all(marked) or len(found) > 1 or is_mixed else made


def spelled(number: int, mark: str, parting: str, decimals: str, around: str) -> str:
    """A number with its thousands parted, unless they have the mark of its decimals."""
    whole = f"{number:,}".replace(",", "" if parting == mark else parting)
    return around.format(whole + (mark + decimals if decimals else ""))


WHOLE = st.integers(0, 2_000_000) | st.integers(0, 2000)
PLAIN = st.builds(
    spelled, WHOLE, st.sampled_from(".,"), st.sampled_from([",", ".", "", "", "'", "\u2019", *SPACES]),
    st.sampled_from(["", "0", "5", "25", "50", "500", "505", "5000"]), st.sampled_from(["{}", "{}", "-{}"]),
)
ODD = st.builds(
    spelled, WHOLE, st.sampled_from(".,"), st.sampled_from(".,'"), st.sampled_from(["", "50", "500"]),
    st.sampled_from([
        "{} €", "€{}", "-€{}", "€-{}", "EUR {}", "{}%", "Fr.{}", "{} Fr.", " {}\u00a0", "({})", "{}-", "+{}", "€€{}",
        "€{}€", "- {}", "{}.", ",{}", "--{}", "{}e5", "0{}", "'{}", "\u2212{}", "{} $", "0{}.0",
    ]),
)
NUMBERS = st.lists(PLAIN, min_size=1, max_size=2) | st.lists(
    PLAIN | ODD | st.text("0125.,-+ '\u2019\u00a0€%()", min_size=1, max_size=8), min_size=1, max_size=3,
)
NUMBER_WORDS = st.builds(
    lambda german, mark, bare: {"--german": german, "--decimal-mark": mark, "--bare": bare},
    st.sampled_from(["", "yes"]), st.sampled_from(["", "", ".", ","]), st.sampled_from(["", "", "whole", "decimals"]),
)


class Numbers(unittest.TestCase):
    @DRAWN
    @given(NUMBERS, NUMBER_WORDS, st.integers(0, 4))
    def test_a_number_is_loaded_as_it_is_read_or_refused(
        self, texts: List[str], words: Dict[str, str], digits: int,
    ) -> None:
        file = io.StringIO(newline="")
        csv.writer(file).writerows([text, "2024-01-01", "2024-03-05"] for text in ["Pay", *texts])
        text = file.getvalue().replace("Pay,2024-01-01,2024-03-05", "Pay,Start,End", 1)
        more = ["--decimals", f"Pay={digits}", *words_of(words)]
        printed, notes = load(text, "pay", "Start", "End", "Pay", *more)
        mark = words["--decimal-mark"] or ("," if words["--german"] else ".")
        wanted = wanted_numbers(texts, mark, bool(words["--decimal-mark"]), digits, words["--bare"])
        self.assertEqual([row[3] for row in csv.reader(io.StringIO(printed)) if row[0] == "row"], wanted)
        self.assertTrue(wanted or notes)


# Points.


# The forms of dates for strptime.
FORMS = {
    "31.12.2024": "%d.%m.%Y", "31/12/2024": "%d/%m/%Y", "12/31/2024": "%m/%d/%Y", "12.31.2024": "%m.%d.%Y",
    "31-12-2024": "%d-%m-%Y", "12-31-2024": "%m-%d-%Y", "2024/12/31": "%Y/%m/%d",
    "20241231": "%Y%m%d", "2024-12-31 00:00:00": "%Y-%m-%d", "45657": "",
}


def read_in(text: str, form: str) -> Optional[datetime]:
    """The point of a text in a form; the store's own has two digits of an hour, seconds and 24 hours."""
    if form == "45657":
        days, _, part = text.replace(",", ".").partition(".")
        is_right = len(days) == 5 and all(one in DIGITS for one in days + part) and not text.endswith((".", ","))
        if not is_right or int(days) < 61:
            return None
        seconds = Fraction(int(part or "0"), 10 ** len(part)) * 86_400
        return FIRST_DAY + timedelta(days=int(days), seconds=int(seconds + Fraction(1, 2)))
    is_own = form == "own"
    place = next((at for at, one in enumerate(text) if one in "T" + " " * (not is_own)), len(text))
    day, clock = text[:place], text[place + 1:]
    is_wide = is_own or form in ("20241231", "2024-12-31 00:00:00")
    if is_wide and len(day) != (8 if form == "20241231" else 10) or form == "20241231" and place < len(text):
        return None
    try:
        point = datetime.strptime(day, "%Y-%m-%d" if is_own else FORMS[form])
        return point + (time_of(clock, is_own) if place < len(text) else timedelta())
    except ValueError:
        return None


def time_of(clock: str, is_own: bool) -> timedelta:
    half = "" if is_own else "".join(re.findall(r"[ \u00a0\u202f]?[AaPp]\.?[Mm]\.?$", clock))
    clock = clock[:len(clock) - len(half)]
    clock = clock if is_own else re.sub(r"(:\d\d:\d\d)[.,]0+$", r"\1", clock)
    widths = [len(part) for part in clock.split(":")]
    if widths[1:] not in ([2, 2], [2] if not is_own else []) or is_own and widths[0] != 2:
        raise ValueError(clock)
    form = ("%I" if half else "%H") + ":%M" + ":%S" * (len(widths) == 3) + "%p" * bool(half)
    point = datetime.strptime(clock + ("AM" if "a" in half.lower() else "PM") * bool(half), form)
    return timedelta(hours=point.hour, minutes=point.minute, seconds=point.second)


def point_of(text: str, form: Optional[str]) -> Optional[datetime]:
    text = text.strip(SPACES)
    return read_in(text, "own") or (read_in(text, form) if form else None)


def shown(point: datetime) -> str:
    day, time = str(point.date()), str(point.time())
    return day if time == "00:00:00" else f"{day}T{time}"


def wanted_row(start: str, end: str, form: Optional[str], words: Dict[str, str]) -> Optional[List[str]]:
    """The start and the end of a row, or nothing where it is refused."""
    is_last = "--last-day" in words
    first, last = point_of(start, form), point_of(end, form)
    bare = end.strip(SPACES)
    if bare and bare == words["--no-end"] or (not bare and "--open" in words):
        last = datetime(9999, 12, 31)
    elif last and is_last:
        if shown(last) == "9999-12-31":
            last = last if "--open" in words else None
        elif shown(last) == "9999-12-30" and ("--open" in words or words["--no-end"]):
            # The day after it stands for no end.
            last = None
        else:
            last = last + timedelta(days=1) if len(shown(last)) == 10 else None
    return [shown(first), shown(last)] if first and last and first < last else None


TIMES = [
    "", "", "", "", " %H:%M", "T%H:%M:%S", " %H:%M:%S.250", "T%H:%M:%S.000", " %I:%M %p", " %H:%M p.m.", " %I:%M:%S%p",
]


def text_of(point: datetime, form: str, time: str, is_short: bool) -> str:
    if form == "45657":
        return f"{(point - FIRST_DAY).days:05}" + (".5" if "H" in time else ",00015625" if "I" in time else "")
    text = point.strftime(FORMS[form] + time)
    return text.replace("/0", "/").replace(".0", ".").lstrip("0") if is_short else text


POINTS = st.datetimes(datetime(1890, 1, 1), datetime(2110, 1, 1)) | st.sampled_from(
    [datetime(9999, 12, 31), datetime(9999, 12, 30), datetime(1900, 3, 1), datetime(2024, 2, 29)],
)


@st.composite
def files(draw: st.DrawFn) -> Tuple[List[List[str]], Dict[str, str]]:
    """Starts and ends, most of them of the form that a word says, or of the store's own; and the words."""
    form = draw(st.sampled_from([*FORMS, ""]))
    own = st.builds(text_of, POINTS, st.just(form or "2024-12-31 00:00:00"), st.sampled_from(TIMES), st.booleans())
    other = st.builds(text_of, POINTS, st.sampled_from(list(FORMS)), st.sampled_from(TIMES), st.booleans())
    odd = st.sampled_from(["", "NULL", " ", "45657.", "2024-02-30", "24:00", " 2024-12-31 "])
    text = st.one_of(own, own, own, own, own, other, odd, st.text("0123/.-: TAPMapm", max_size=12))
    pairs = draw(st.lists(st.tuples(own | text, own | text), min_size=1, max_size=2))
    flags = draw(st.sets(st.sampled_from(["--german", "--last-day", "--open"])))
    no_end = draw(st.sampled_from(["", "NULL", "9999-12-30"]))
    # Most rows start before they end.
    rows = [sorted(pair, key=lambda one: point_of(one, form) or datetime.max) for pair in pairs]
    return rows, {**{"--dates": form, "--no-end": no_end}, **dict.fromkeys(flags, "yes")}


class Points(unittest.TestCase):
    @DRAWN
    @given(files())
    def test_a_point_is_loaded_as_it_is_read_or_refused(self, drawn: Tuple[List[List[str]], Dict[str, str]]) -> None:
        pairs, words = drawn
        file = io.StringIO(newline="")
        csv.writer(file).writerows([["Pay", "Start", "End"], *(["A", *pair] for pair in pairs)])
        printed, notes = load(file.getvalue(), "pay", "Start", "End", "Pay", *words_of(words))
        form = words["--dates"] or ("31.12.2024" if "--german" in words else None)
        wanted = [wanted_row(start, end, form, words) for start, end in pairs]
        found = [row[1:3] for row in csv.reader(io.StringIO(printed)) if row[0] == "row"]
        self.assertEqual(found, [] if None in wanted else wanted)
        self.assertTrue(found or notes)

    @DRAWN
    @given(st.lists(POINTS, min_size=2, max_size=6), st.sampled_from(["31/12/2024", "12/31/2024", "31-12-2024"]))
    def test_dates_that_are_as_good_the_other_way_round_are_reported(self, points: List[datetime], form: str) -> None:
        """No report is made if a date has no other reading, or if the months are twice the number by it."""
        pattern = FORMS[form]
        lines = [f"A{place},{point.strftime(pattern)},9999-12-31\n" for place, point in enumerate(points)]
        _, notes = load("".join(["Pay,Start,End\n", *lines]), "pay", "Start", "End", "Pay", "--dates", form)
        days, months = [point.day for point in points], [point.month for point in points]
        is_other = max(days) <= 12 and days != months and len(set(months)) < 2 * len(set(days))
        self.assertEqual(any("reads all dates too" in one for one in notes), is_other)


if __name__ == "__main__":
    unittest.main()
