"""Amounts raised by a part of themselves: the updates that do it, one for each amount, exactly."""
import decimal
import re
from collections import Counter
from decimal import Decimal
from typing import Iterator, List, NamedTuple, Optional, Sequence

from ruzgalt.errors import Misfit
from ruzgalt.periods import ROUNDINGS
from ruzgalt.script import schemas
from ruzgalt.script.answers import Answer
from ruzgalt.script.forms import NO_END, is_integer, printed, read_limits
from ruzgalt.script.records import short
from ruzgalt.script.schemas import Column, Kind, Table, ints, unique

PERCENT = re.compile(r"[+-]?\d{1,9}(?:\.\d{1,9})?", re.ASCII)
# Up to where a raise holds, unless that is given: no row is known to end, or else none holds after the last point.
LAST = "9999-12-31T23:59:59"
# An amount has 19 digits, and a percentage 18.
EXACT = decimal.Context(prec=60)


class Wish(NamedTuple):
    """The table and the column, the per cent, the time, the rows and the rounding of a raise."""

    table: str
    column: str
    percent: str
    start: str
    end: Optional[str] = None
    where: schemas.Where = ()
    rounding: Optional[str] = None


class Step(NamedTuple):
    """An amount, the count of its rows, the exact raised amount, and that as a whole number."""

    amount: int
    rows: int
    exact: Decimal
    raised: int


class Raise:
    """The steps, in an order such that no update changes an amount that another one has raised."""

    def __init__(self, rows: Answer, wish: Wish) -> None:
        """Takes the answer to `rows` of the table."""
        self.wish, schema, self.before = wish, rows.tables[wish.table], ""
        self.factor = factor_of(wish.percent)
        place = schema.index_of(wish.column)
        if schema.columns[place].kind is not Kind.INT:
            raise Misfit(f"{wish.column}: a column of texts, and only numbers can be raised")
        # The other columns and values that the updates ask for.
        self.others = [text for pair in wish.where if pair[0] != wish.column for text in pair]
        wanted = schemas.wanted_in(schema, wish.where)
        start, end = read_limits(wish.start, wish.end)
        if start and end and start >= end:
            raise Misfit(f"--from {wish.start} isn't before --to {wish.end}")
        there = [record[1:] for record in rows.table.texts() if schemas.has_values(record[3:], wanted)]
        self.start = printed(wish.start)
        self.end = printed(wish.end) if wish.end else LAST if any(end > NO_END for _, end, *_ in there) else NO_END
        counts = Counter(int(row[2 + place]) for row in there if row[0] < self.end and self.start < row[1])
        # Amounts go away from zero by a raise, so the farthest is first, and towards it by a cut.
        amounts = sorted(sorted(counts), key=abs, reverse=self.factor > 1)
        self.steps = [self.step(amount, counts[amount]) for amount in amounts]

    def step(self, amount: int, rows: int) -> Step:
        # A zero without a sign.
        exact, how = EXACT.add(EXACT.multiply(Decimal(amount), self.factor), Decimal(0)), self.wish.rounding
        if how is None and exact != exact.to_integral_value():
            what = f"{amount} becomes {exact.normalize(EXACT):f}, which isn't a whole number"
            raise Misfit(f"{what}: say how it is rounded, for example by --round half-up")
        made = Step(amount, rows, exact, int(exact.to_integral_value(ROUNDINGS[how] if how else None)))
        if not is_integer(str(made.raised)):
            raise Misfit(f"{amount} becomes {made.raised}, which has more than 64 bits, too many for a column")
        return made

    def refuse_again(self, answers: Sequence[Answer]) -> None:
        """Refuses a raise if an update of the script changed the same amounts from the same point on.

        If the conditions are others, but don't want different values of one column, it is only noted.
        """
        column = self.wish.column
        form = ["update", self.wish.table, self.start, "set", column, "where", column]
        values = dict(zip(self.others[::2], self.others[1::2]))
        found = []
        for answer in answers:
            texts = answer.command.record.fields
            is_raise = [*texts[:2], *map(printed, texts[2:3]), *texts[4:6], *texts[7:9]] == form and not answer.refusal
            if is_raise and all(values.get(name, value) == value for name, value in zip(texts[10::2], texts[11::2])):
                found.append((texts, f"from {texts[9]} to {texts[6]} ({answer.where})"))
        if found:
            updates = f"{len(found):,} updates, the first" if len(found) > 1 else "an update"
            self.before = f"{column} was raised from {self.start} on already, by {updates} {found[0][1]}"
        if any(list(texts[10:]) == self.others for texts, _ in found):
            raise Misfit(f"raise of {self.wish.table}: {self.before}; --again raises the raised amounts once more")

    def updates(self) -> Iterator[List[str]]:
        """Yields the record of each step that changes something."""
        for step in self.steps:
            if step.raised != step.amount:
                portion = [self.wish.table, self.start, self.end]
                changed = [self.wish.column, str(step.raised), "where", self.wish.column, str(step.amount)]
                yield ["update", *portion, "set", *changed, *self.others]

    def table(self) -> Table:
        columns = unique([*ints("rows", self.wish.column), Column("exact", Kind.TEXT), *ints("raised")])
        return Table(columns, [
            [str(one.rows), str(one.amount), f"{one.exact.normalize(EXACT):f}", str(one.raised)] for one in self.steps
        ])

    def notes(self) -> Iterator[str]:
        """Yields notes on rows that were raised before, on rounded amounts, on amounts that stay, and on no rows."""
        if self.before:
            yield f"{self.before}; if it changed some of these rows, they are raised once more"
        found = sum(step.exact != step.raised for step in self.steps)
        if found:
            yield f"{found:,} of {len(self.steps):,} amounts were rounded, {self.wish.rounding}"
        same = [step.amount for step in self.steps if step.raised == step.amount]
        if same:
            yield f"{len(same):,} amounts stay as they are, such as {same[0]}, and have no update"
        if not self.steps:
            which = "".join(f", with {short(name)} {short(value)}" for name, value in self.wish.where)
            yield f"no row of {self.wish.table} holds between {self.start} and {self.end}{which}"


def factor_of(percent: str) -> Decimal:
    if not PERCENT.fullmatch(percent):
        raise Misfit(f"--percent {short(percent)}: not a number such as 2.5 or -3")
    more = Decimal(percent)
    if more == 0 or more < -100:
        raise Misfit(f"--percent {percent}: {'nothing is raised' if more == 0 else 'more than all is taken'}")
    return EXACT.add(100, more).scaleb(-2)
