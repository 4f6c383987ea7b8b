"""Scripts whose cost is counted. Scripts for more rows are made like those for fewer: only the number differs."""
import random
from datetime import date, timedelta
from functools import lru_cache
from typing import Iterable, Iterator, List

FIRST = date(2000, 1, 1)
YEAR = "2024-01-01,2025-01-01"
# The number of changes of each kind that precede the counted ones.
CHANGES = 50
# Enough rows for four workers, and the number of loads that makes each short enough for one thread.
MANY, LOADS = 33_000, 3


def table(name: str, key: str = "") -> str:
    """A table of two numbers, with a key if a column is named."""
    return f"table,{name},who,int,amount,int{key and f',key,{key}'}\n"


def load(name: str, rows: Iterable[str]) -> str:
    return "".join([f"load,{name}\n", *(f"row,{row}\n" for row in rows), "end\n"])


def filled(name: str, rows: Iterable[str], key: str = "") -> str:
    """A table with these rows."""
    return table(name, key) + load(name, rows)


def day(number: int) -> str:
    return str(FIRST + timedelta(number))


def period(first: int, days: int) -> str:
    """A period of some days; its first day is given by its number."""
    return f"{day(first)},{day(first + days)}"


def each_once(count: int) -> Iterator[str]:
    """A row for each of `count` persons; all hold all year."""
    return (f"{YEAR},{who},{who % 97}" for who in range(count))


def spread(count: int, seed: int = 0) -> List[str]:
    """Rows of a month each that start on random days, some ten on each day; a person has ten or so."""
    chosen = random.Random(seed)
    last, persons = 3 * count, count // 10
    return [f"{period(chosen.randrange(last), 30)},{chosen.randrange(persons)},{chosen.randrange(1_000)}"
            for _ in range(count)]


def crowded(count: int) -> List[str]:
    """Rows, half of them at once: when the first half end, row by row, the others begin."""
    half = count // 2
    starts = [*range(half), *range(2 * half, 3 * half)]
    return [f"{period(start, 2 * half)},{start % 89},{start % 97}" for start in starts]


def contracts(persons: int) -> Iterator[str]:
    """Two rows for each person, one after the other."""
    for who in range(persons):
        yield f"{period(who % 20, 150)},{who},1"
        yield f"{period(who % 20 + 150, 150)},{who},2"


def payments(persons: int) -> Iterator[str]:
    """Ten months for each person, so everybody has one at a time."""
    for who in range(persons):
        for month in range(10):
            yield f"{period(30 * month, 30)},{who},{who % 13}"


def long_texts(count: int) -> str:
    """A table of `count` texts of 4,000 bytes each."""
    rows = (f"row,{YEAR},{'x' * 4_000}\n" for _ in range(count))
    return "".join(["table,t,text,text\nload,t\n", *rows, "end\n"])


def at_half(count: int) -> str:
    """A question about the day when half of the rows hold at once."""
    return f"at,crowded,{day(count // 2)}\n"


def update(number: int) -> str:
    """An update of a month of a person."""
    return f"update,updated,2024-03-01,2024-04-01,set,amount,{number},where,who,{number}\n"


def again(_: int) -> str:
    """An update of a row that is always the same."""
    return f"update,updated,{YEAR},set,amount,7,where,who,5\n"


def rename(number: int) -> str:
    """An update of a row's key."""
    return f"update,keyed,{YEAR},set,who,{10_000_000 + number},where,who,{number}\n"


def add(number: int) -> str:
    """A load of one row, for the year after the same person's row."""
    return load("added", [f"2025-01-01,2026-01-01,{number},1"])


def add_with_key(number: int) -> str:
    """The same load, for a person whose row isn't renamed."""
    return load("keyed", [f"2025-01-01,2026-01-01,{2 * CHANGES + number},1"])


def block(number: int) -> str:
    """A load of one row into a table with a key, in a block of commands; the snapshot is kept meanwhile."""
    return f"together\n{add_with_key(number)}end\n"


@lru_cache(maxsize=None)
def to_be_changed(count: int) -> str:
    """Tables of `count` rows, and changes of each kind, so that the first change of a kind isn't counted."""
    keys = {"updated": "", "added": "", "keyed": "who"}
    tables = [filled(name, each_once(count), key) for name, key in keys.items()]
    ready = [change(number) for change in (update, rename, add, add_with_key) for number in range(CHANGES)]
    return "".join([*tables, block(2 * CHANGES), *ready])


@lru_cache(maxsize=None)
def to_be_loaded_in_blocks(count: int) -> str:
    """A table of `count` rows, and blocks of commands, so that the first block isn't counted."""
    return "".join([filled("keyed", each_once(count), "who"), *map(block, range(CHANGES))])


def of_few_rows(_: int) -> str:
    """Tables of few rows: after many changes, most versions come from these."""
    return "".join(filled(name, each_once(10)) for name in ("updated", "added"))


@lru_cache(maxsize=None)
def to_be_asked(count: int) -> str:
    """Tables of `count` rows: one with a past, two random ones, a crowded one, a payroll's, and an empty one."""
    persons = count // 10
    return "".join([
        filled("past", each_once(count // 2)), f"update,past,{YEAR},set,amount,1\n",
        filled("a", spread(count, 1)), filled("b", spread(count, 2)), filled("crowded", crowded(count)),
        filled("pay", payments(persons)), filled("job", contracts(persons)), table("empty"),
    ])


@lru_cache(maxsize=None)
def to_be_shared(_: int) -> str:
    """A table of enough rows for four workers, and one of a quarter of them, in a script that one thread reads."""
    made = []
    for name, rows in (("a", spread(MANY, 1)), ("b", spread(MANY // 4, 2))):
        made += [table(name), *(load(name, rows[part::LOADS]) for part in range(LOADS))]
    return "".join(made)
