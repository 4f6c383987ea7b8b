"""Columns of a frame as numbers and texts, the kinds of a store, and back; rows of a frame, some of them missing.

    integers, also Int64 without NA          int
    bool, boolean without NA                 int, 0 and 1
    objects of str, string                   text
    types of pyarrow                         as pandas' own
    category                                 as its categories
    floats, objects of Decimal               int, of smaller units, if decimals={COLUMN: DIGITS} says how many
    all others                               refused

A row of an answer may have no row of a frame, whose index is -1 then. Its cells are missing, and dtypes are widened as
by pandas.merge: whole numbers become floats, and one that would be rounded is refused.
"""
from __future__ import annotations

import decimal
from dataclasses import dataclass, replace
from functools import cached_property
from typing import Any, Dict, List, Optional, Sequence, Tuple

import numpy as np
import pandas as pd

from ruzgalt.convert.arrays import Cells, Ints, Marks, of_objects
from ruzgalt.convert.errors import Refused, label_at, refuse
from ruzgalt.convert.kinds import ARROW_TEXTS, arrow_type
from ruzgalt.convert.named import BY_SIDES
from ruzgalt.script import forms

# A text that has one of these is quoted in a script.
QUOTED = ',"\r\n'
LEAST, GREATEST = -(2**63), 2**63 - 1
# The bits of a whole number that a float has.
BITS = np.uint64(53)


def quoted(text: str) -> str:
    """Returns a field of a script, as records.to_record makes them."""
    return '"' + text.replace('"', '""') + '"' if any(mark in text for mark in QUOTED) else text


@dataclass(frozen=True, eq=False)
class Texts:
    """The different texts of a column. Their fields and hashes are made once, even if its rows are split."""

    cells: Sequence[str] = ()

    @cached_property
    def fields(self) -> Sequence[str]:
        """The texts as they are in a script."""
        return list(map(quoted, self.cells)) if any(mark in "".join(self.cells) for mark in QUOTED) else self.cells

    @cached_property
    def hashes(self) -> Any:
        """Of their UTF-8."""
        return pd.util.hash_array(of_objects([*self.cells, ""]), categorize=False)


@dataclass(frozen=True)
class Values:
    """A column: its numbers, or the index of each text among the different ones.

    dtype is the frame's; with digits, numbers count units of 10^-digits.
    """

    name: Any
    kind: str
    codes: Ints
    texts: Texts = Texts()
    dtype: Any = None
    digits: Optional[int] = None

    def take(self, places: Ints) -> Values:
        return replace(self, codes=self.codes[places])

    def restored(self, cells: Cells) -> Any:
        """Returns numbers of an answer in the column's dtype, or in a wider one that holds all of them."""
        if self.digits is not None:
            return unscaled(cells, self)
        if isinstance(self.dtype, pd.CategoricalDtype):
            return categories_of(cells, self.dtype)
        return plain(cells, self.dtype)


def plain(cells: Cells, dtype: Any) -> Any:
    if is_whole(dtype):
        bounds = np.iinfo(numpys(dtype)) if not is_bool(dtype) else None
        least, greatest = (bounds.min, bounds.max) if bounds else (0, 1)
        if len(cells) and not least <= cells.min() <= cells.max() <= greatest:
            return cells
    if is_bool(dtype):
        cells = cells.astype(bool)
    return pd.array(cells, dtype=dtype) if pd.api.types.is_extension_array_dtype(dtype) else cells.astype(dtype)


def is_bool(dtype: Any) -> bool:
    """Returns whether it has True and False; a category of them too."""
    return bool(pd.api.types.is_bool_dtype(dtype))


def is_whole(dtype: Any) -> bool:
    """Returns whether it has whole numbers, or True and False."""
    return bool(pd.api.types.is_integer_dtype(dtype)) or is_bool(dtype)


def numpys(dtype: Any) -> Any:
    """Returns numpy's dtype of the numbers in a column of a dtype of pandas."""
    return getattr(dtype, "numpy_dtype", dtype)


def categories_of(cells: Cells, dtype: Any) -> Any:
    """Returns cells as these categories. If a store's changes added other ones, they come last, without an order."""
    known = plain(np.asarray(dtype.categories), dtype.categories.dtype)
    places: Dict[Any, int] = {one: place for place, one in enumerate(known)}
    codes = np.array([places.setdefault(cell, len(places)) for cell in cells.tolist()], np.int64)
    if len(places) == len(known):
        return pd.Categorical.from_codes(codes, dtype=dtype)
    try:
        return pd.Categorical.from_codes(codes, pd.Index(list(places), dtype=dtype.categories.dtype))
    except (ValueError, OverflowError):
        # pandas confuses texts that differ only after a zero byte.
        return plain(cells, dtype.categories.dtype)


def values_of(column: Any, digits: Optional[int] = None) -> Values:
    """Returns a Series as a column. Raises Refused (WrongKind, BadNumber, TooLong, BadUtf8) with column and label."""
    dtype = column.dtype
    if digits is not None:
        return Values(column.name, "int", scaled(column, digits), Texts(), dtype, digits)
    if isinstance(dtype, pd.CategoricalDtype):
        return of_categories(column)
    if is_whole(dtype):
        return Values(column.name, "int", ints_of(column), Texts(), dtype)
    if dtype == object or isinstance(dtype, pd.StringDtype) or arrow_type(dtype) in ARROW_TEXTS:
        return texts_of(column)
    raise Refused("WrongKind", f"{dtype} isn't whole numbers or texts; {remedy_of(column)}", column.name)


def remedy_of(column: Any) -> str:
    """Returns the remedy for a dtype that has no kind."""
    hundredths = f"decimals={{{column.name!r}: 2}} takes numbers of two decimals"
    is_float = getattr(column.dtype, "kind", "") == "f"
    return f".astype('Int64') makes whole numbers, or {hundredths}" if is_float else ".astype(str) makes texts"


def no_value(name: Any) -> str:
    """Returns the reason for refusing a missing cell."""
    return f"no value is given; .dropna(subset=[{name!r}]) leaves such rows out"


def of_categories(column: Any) -> Values:
    missing = column.isna().to_numpy()
    refuse(missing, column, "BadNumber", no_value(column.name))
    codes = column.cat.codes.to_numpy().astype(np.int64)
    # Categories that no row has don't matter, whatever they are.
    used, codes = np.unique(codes, return_inverse=True)
    inner = values_of(pd.Series(column.cat.categories.take(used), name=column.name))
    return Values(column.name, inner.kind, inner.codes[codes], inner.texts, column.dtype)


def ints_of(column: Any) -> Ints:
    if not isinstance(column.dtype, np.dtype):
        refuse(column.isna().to_numpy(), column, "BadNumber", no_value(column.name))
    is_signed = numpys(column.dtype).kind != "u"
    numbers: Cells = column.to_numpy(dtype="i8" if is_signed else "u8")
    if not is_signed:
        refuse(numbers > np.uint64(GREATEST), column, "BadNumber", f"greater than {GREATEST}; .astype(str) makes texts")
    return numbers.astype(np.int64)


def texts_of(column: Any) -> Values:
    """Returns a column of texts. Each text is tested once."""
    cells = np.asarray(column, object)
    try:
        whole = "".join(cells)
    except TypeError:
        wrong = np.fromiter((not isinstance(cell, str) for cell in cells), bool, len(cells))
        refuse(wrong, column, "WrongKind", no_text(cells[int(wrong.argmax())], column.name))
    if not forms.is_utf8(whole):
        # Before pandas.factorize, which takes halves of surrogate pairs for other texts.
        wrong = np.fromiter((not forms.is_utf8(cell) for cell in cells), bool, len(cells))
        reason = "half of a surrogate pair, which UTF-8 can't have: read the source again in its encoding"
        refuse(wrong, column, "BadUtf8", reason)
    codes, found = codes_by_dict(cells) if "\0" in whole else pd.factorize(cells)
    # A class of texts may have an own rule for which are equal.
    texts = list(map(str.__str__, found))
    # A character has at most four bytes.
    if 4 * max(map(len, texts), default=0) > forms.TEXT_LIMIT:
        is_long = np.fromiter((not forms.is_short(text) for text in texts), bool, len(texts))
        refuse(is_long[codes], column, "TooLong", "a text of more than 4,096 bytes: shorten or split it")
    return Values(column.name, "text", codes, Texts(texts), column.dtype)


def no_text(cell: Any, name: Any) -> str:
    """Returns the reason for refusing a cell that isn't a text."""
    if is_missing(cell):
        return no_value(name)
    hundredths = f"decimals={{{name!r}: 2}} takes Decimals"
    remedies = {
        int: ".astype('int64') makes numbers of all, .astype(str) texts", decimal.Decimal: hundredths,
        bool: ".astype('boolean') takes it as it is, .astype(str) makes texts of all",
    }
    return f"{cell!r} isn't a text; {remedies.get(type(cell), '.astype(str) makes texts of all')}"


def is_missing(cell: Any) -> bool:
    if isinstance(cell, decimal.Decimal):
        return cell.is_nan()
    return cell is None or cell is pd.NA or cell is pd.NaT or isinstance(cell, float) and cell != cell


def codes_by_dict(cells: Cells) -> Tuple[Ints, List[str]]:
    """Does what pandas.factorize does, which ends texts at a zero byte: "a\\0b" is "a" for it."""
    numbers: Dict[str, int] = {}
    codes = [numbers.setdefault(cell, len(numbers)) for cell in map(str.__str__, cells)]
    return np.array(codes, np.int64), list(numbers)


def scaled(column: Any, digits: int) -> Ints:
    """Returns whole numbers of 10^-digits. A float must be the nearest of its dtype to such a number."""
    if column.dtype == object:
        return scaled_decimals(column, digits)
    dtype = numpys(column.dtype)
    if getattr(dtype, "kind", "") != "f":
        is_category = isinstance(dtype, pd.CategoricalDtype)
        remedy = ".astype('float64') makes floats" if is_category else "leave it out for whole numbers"
        raise Refused("WrongKind", f"{dtype}: decimals= needs floats or Decimals; {remedy}", column.name)
    cells = column.to_numpy(dtype=dtype, na_value=np.nan)
    bits = np.finfo(dtype).nmant + 1
    with np.errstate(invalid="ignore", over="ignore"):
        whole = np.round(cells.astype("f8") * 10.0**digits)
        refuse(np.isnan(cells), column, "BadNumber", no_value(column.name))
        reason = f"too large for the {bits} bits of a float in such units; use Decimals, which are exact"
        refuse(~(np.abs(whole) < 2.0**bits), column, "BadNumber", reason)
        reason = f"not exactly a number of {digits} decimals; give more by decimals=, or .round({digits}) it"
        refuse((whole / 10.0**digits).astype(dtype) != cells, column, "BadNumber", reason)
        reason = f"in the {bits} bits of a float it is another number of {digits} decimals too; use Decimals"
        refuse(are_shared(whole, digits, dtype), column, "BadNumber", reason)
    numbers: Ints = whole.astype(np.int64)
    return numbers


def are_shared(whole: Cells, digits: int, dtype: Any) -> Marks:
    """Returns which whole numbers of 10^-digits are the same float of this dtype as a neighbour."""
    below, own, above = (((whole + step) / 10.0**digits).astype(dtype) for step in (-1, 0, 1))
    marked: Marks = (below == own) | (own == above)
    return marked


def scaled_decimals(column: Any, digits: int) -> Ints:
    numbers = [whole_of(cell, digits) for cell in column]
    wrong = np.fromiter((number is None for number in numbers), bool, len(numbers))
    if wrong.any():
        cell = column.iloc[int(wrong.argmax())]
        remedy = "quantize()" if isinstance(cell, decimal.Decimal) else "decimal.Decimal(str(..))"
        reason = f"{cell!r} isn't a Decimal of {digits} decimals; {remedy} makes it one"
        refuse(wrong, column, "BadNumber", no_value(column.name) if is_missing(cell) else reason)
    return np.array(numbers, np.int64)


def whole_of(cell: Any, digits: int) -> Optional[int]:
    """Returns a Decimal in units of 10^-digits, or None if it isn't a whole number of them, without rounding."""
    if not isinstance(cell, decimal.Decimal) or not cell.is_finite() or abs(cell) >= 10**19:
        return None
    above, below = cell.as_integer_ratio()
    whole, rest = divmod(above * 10**digits, below)
    return whole if not rest and LEAST <= whole <= GREATEST else None


def unscaled(cells: Cells, column: Values) -> Any:
    """Returns numbers of smaller units in the column's dtype. Raises Refused (BadNumber) if it doesn't hold one."""
    digits, dtype = column.digits or 0, column.dtype
    if dtype == object:
        return of_objects([decimal.Decimal(f"{int(cell)}E-{digits}") for cell in cells])
    refuse_unheld(cells, column, "the answer has a number")
    return pd.Series(cells.astype("f8") / 10.0**digits).astype(dtype).array


def refuse_unheld(cells: Cells, column: Values, what: str) -> None:
    """Raises Refused (BadNumber) if a column of floats doesn't hold one of these numbers of its smaller units."""
    if column.digits is None or column.dtype == object:
        return
    own = numpys(column.dtype)
    bits = np.finfo(own).nmant + 1
    is_large = len(cells) and max(abs(int(cells.max())), abs(int(cells.min()))) >= 2**bits
    if is_large or are_shared(cells.astype("f8"), column.digits, own).any():
        raise Refused("BadNumber", f"{what} too large for the {bits} bits of a float: use Decimals", column.name)


def fields_of(values: Values) -> List[str]:
    """Returns the column's fields in a script."""
    if values.kind == "int":
        return list(map(str, values.codes.tolist()))
    return [values.texts.fields[code] for code in values.codes.tolist()]


def hashes(columns: Sequence[Values]) -> Any:
    """Returns a number for each row, equal for equal values of different dtypes: by int64, and by the UTF-8 of texts.

    Columns are hashed by pandas.util.hash_array, and mixed by exclusive or and a product, alike on each machine.
    """
    mixed = np.full(len(columns[0].codes), 0x345678, np.uint64)
    for column in columns:
        mixed = (mixed ^ hash_of(column)) * np.uint64(1_000_003)
    return mixed


def hash_of(column: Values) -> Any:
    if column.kind == "int":
        return pd.util.hash_array(column.codes)
    return column.texts.hashes[column.codes]


# Rows of an answer.

def rows_at(frame: Any, rows: Ints, is_wide: bool = False) -> Any:
    """Returns the frame's rows at these indices, under labels from 0 on.

    is_wide: dtypes can have missing cells, even if no cell is missing.
    """
    numbered = frame.set_axis(pd.RangeIndex(len(frame)))
    if not is_wide and not (rows < 0).any():
        made = numbered.take(rows)
    else:
        made = numbered.reindex(index=np.append(rows, -1)).iloc[:-1]
        for place, dtype in enumerate(made.dtypes):
            refuse_rounded(frame.iloc[:, place], rows[rows >= 0], dtype)
    made.index = pd.RangeIndex(len(rows))
    return made


def either(one: Any, other: Any, rows: Sequence[Ints], is_wide: bool = False, digits: Optional[int] = None) -> Any:
    """Returns the first column's cells, and the second one's if the first index is -1, in a dtype for both.

    digits: the columns have numbers of this many decimals. Raises Refused if floats would get another width.
    """
    if digits is not None and {one.dtype.kind, other.dtype.kind} == {"f"} and one.dtype != other.dtype:
        remedy = f".astype('float64').round({digits}) of both makes them equal"
        raise Refused("WrongKind", f"it is {one.dtype}, but {other.dtype} in the right frame; {remedy}", one.name)
    is_first = rows[0] >= 0
    own_rows = [rows[0][is_first], rows[1][~is_first]]
    parts = [column.take(own) for column, own in zip((one, other), own_rows) if len(own)]
    made = concatenated(parts or [one.iloc[:0]])
    dtype = concatenated([one.iloc[:0], other.iloc[:0]]).dtype if is_wide else made.dtype
    for column, own in zip((one, other), own_rows):
        refuse_rounded(column, own, dtype)
    order = np.where(is_first, np.cumsum(is_first), len(own_rows[0]) + np.cumsum(~is_first)) - 1
    return made.astype(dtype).take(order).reset_index(drop=True)


def concatenated(parts: Sequence[Any]) -> Any:
    """Returns cells one after another. True among numbers stays True, in objects; pandas 1.5 makes 1 of it."""
    are_bool = [is_bool(part.dtype) for part in parts]
    kept = parts if all(are_bool) or not any(are_bool) else [part.astype(object) for part in parts]
    return pd.concat(kept, ignore_index=True)


def refuse_rounded(column: Any, rows: Ints, dtype: Any) -> None:
    """Raises Refused (BadNumber) for a whole number in these rows that a float of this dtype doesn't hold.

    It may be a side of an interval too.
    """
    has_sides = isinstance(column.dtype, pd.IntervalDtype)
    numbers = [column.array.left, column.array.right] if has_sides else [column.array]
    kinds = [getattr(one, "kind", "") for one in (numbers[0].dtype, dtype.subtype if has_sides else dtype)]
    if kinds not in (["i", "f"], ["u", "f"]):
        return
    is_rounded = np.any([rounded(np.asarray(one)[rows]) for one in numbers], axis=0)
    if is_rounded.any():
        remedy = f"{BY_SIDES if has_sides else ''}.astype('Int64') can"
        reason = f"a missing cell in its column makes floats, whose {BITS} bits can't hold it; {remedy}"
        raise Refused("BadNumber", reason, column.name, label_at(is_rounded, column.index[rows]))


def rounded(numbers: Any) -> Marks:
    """Returns which of these aren't floats: there are too many bits from their first one to their last one."""
    sizes = np.where(numbers < 0, -numbers.astype("u8"), numbers.astype("u8"))
    last_bits = np.maximum(sizes & (~sizes + np.uint64(1)), np.uint64(1))
    marked: Marks = sizes // last_bits >> BITS > 0
    return marked
