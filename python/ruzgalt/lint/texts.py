"""Possible mistakes in a text, and texts that look alike."""
import re
import unicodedata
from operator import eq
from typing import Dict, List, Optional, Sequence, Tuple

from ruzgalt.script.forms import SPACES, in_lines, number_in
from ruzgalt.script.records import visible

# Marks of how a text runs, control characters, and ends of lines and paragraphs.
UNSEEN = ("Cf", "Cc", "Zl", "Zp")
NO_BREAK = re.compile(f"[{SPACES[1:]}]")
# A text of ASCII that looks like itself: words with single spaces between them, and no formula.
PLAIN = re.compile("[!-<>-~][!-~]*(?: [!-~]+)*")
# Several texts, a line each, without quotes, that begin or end with a letter, or are whole numbers.
LINES = re.compile(r"(?:(?:[^\W\d_][ !#-~\w]*|[0-9][ !#-~\w]*(?<=[^\W\d_])|0|[1-9][0-9]*)\n)+")
# What other programs write for no value.
NO_VALUES = ("null", "none", "nan", "nat", "<na>", "n/a")
WORDS = dict.fromkeys(NO_VALUES, "other programs write it for no value; here it is a text")
# Quotes that CSV doesn't know, and its own after a space.
QUOTES = ("''", '""', "\u2018\u2019", "\u201c\u201d", "\u201e\u201c", "\u201e\u201d", "\u00ab\u00bb", "\u00bb\u00ab")
ROUNDED = re.compile(r"-?\d+(?:[.,]\d+)?[eE][+-]?\d+", re.ASCII)


def are_plain(texts: Sequence[str]) -> bool:
    """Whether all of the texts look like themselves, at once; some that do are left out."""
    lines = in_lines(texts)
    is_simple = "  " not in lines and " \n" not in lines and LINES.fullmatch(lines)
    return bool(is_simple) and (lines.isascii() or unicodedata.is_normalized("NFKC", lines))


def doubt_of(value: str, mark: str) -> Optional[str]:
    """Returns a possible mistake in a text."""
    is_plain, last = PLAIN.fullmatch(value), value[-1:]
    if value.lower() in WORDS:
        return WORDS[value.lower()]
    if len(value) > 1 and value[0] + last in QUOTES:
        return "these quotes are part of the text"
    if last.isdigit() and ROUNDED.fullmatch(value):
        return "digits are rounded off; save the column as text, or as a number without an exponent"
    if value.startswith("="):
        return "a spreadsheet's formula stays a text; save its value"
    if value.startswith("#"):
        return "a spreadsheet's error, or a comment, is a text here"
    if value.startswith("'") and last.isdigit():
        return "a spreadsheet's sign for a text is part of the text here"
    if last.isdigit() and set(value) & set(".,") and number_in(value, mark) is not None:
        example = "1.234,50" if mark == "," else "1,234.50"
        return f"a number such as {example}; --decimals COLUMN=DIGITS makes it whole"
    return None if is_plain else unseen_in(value)


def unseen_in(value: str) -> Optional[str]:
    if NO_BREAK.search(value):
        return "a no-break space makes it another text; --plain-spaces makes it a space"
    if value != value.strip():
        return "a space at an end makes it another text"
    if not unicodedata.is_normalized("NFC", value):
        return "a letter and its accent are two characters; as one character it is another text"
    if not value.isprintable() and any(map(is_unseen, value)):
        return "a character that can't be seen makes it another text"
    return "another program has lost one of its characters" if "\ufffd" in value else None


def is_unseen(character: str) -> bool:
    return character not in "\r\n" and unicodedata.category(character) in UNSEEN


def fold(value: str) -> str:
    """What texts have in common that look alike: without capitals, accents of their own, spaces, zeros in front, or
    the .0 that a float has at its end."""
    if value.isascii() and value[-1:].isalpha() and "  " not in value and value[0] != " ":
        return value.lower()
    if not value.isascii():
        value = unicodedata.normalize("NFKC", value)
        if not value.isprintable():
            value = "".join(one for one in value if unicodedata.category(one) != "Cf")
    value = " ".join(value.split()).casefold()
    whole = value[:-2] if value.endswith(".0") else value
    return whole.lstrip("0") or "0" if whole.isdigit() else value


def folds(values: Sequence[str]) -> List[str]:
    """Returns what `fold` does for each of the texts. It takes plain ones at once."""
    return plain_folds(values) if values and are_plain(values) else list(map(fold, values))


def plain_folds(values: Sequence[str]) -> List[str]:
    return "\n".join(values).casefold().split("\n")


def described(pairs: Sequence[Tuple[str, str]]) -> str:
    """Pairs of texts that look alike, for a person: the first, and how many there are."""
    first, other = (repr(visible(text)) for text in pairs[0])
    more = f" ({len(pairs)} such pairs)" if len(pairs) > 1 else ""
    return f"{first} and {other} look alike, but are two texts{more}"


class LookAlikes:
    """Finds a text that looks like another one which it isn't."""

    def __init__(self) -> None:
        self.by_fold: Dict[str, str] = {}

    def are_apart(self, values: Sequence[str]) -> bool:
        """Whether of plain texts none looks like another one, or like one before."""
        folds = plain_folds(values)
        return WORDS.keys().isdisjoint(folds) and all(map(eq, map(self.by_fold.setdefault, folds, values), values))

    def other(self, value: str) -> Optional[str]:
        found = self.by_fold.setdefault(fold(value), value)
        return None if found == value else found
