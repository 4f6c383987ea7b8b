"""`months`, `coalesce`, `gaps` and `overlaps` of tools/answers, which the package's frames compute."""
import warnings
from argparse import Namespace
from contextlib import contextmanager
from datetime import datetime, timedelta
from importlib import import_module
from typing import Any, Iterator, List, Optional, Sequence, Tuple

from ruzgalt.cli import given
from ruzgalt.cli.given import Found, last, read, refuse_names, warn
from ruzgalt.errors import Misfit
from ruzgalt.report import picks
from ruzgalt.report.shown import Amounts
from ruzgalt.script import schemas
from ruzgalt.script.answers import Answer
from ruzgalt.script.changes import IDS
from ruzgalt.script.commands import Answered
from ruzgalt.script.forms import is_month_end, print_point, printed, read_limits, read_point, shifted
from ruzgalt.script.records import short
from ruzgalt.script.schemas import PERIOD, Column, Kind, Table, ints, refuse_other_kinds, unique

START, END = (column.name for column in PERIOD)
IDS_OF_PAIR = ints("row_id", "other_row_id")
FIRST, LAST = datetime(1, 1, 1), datetime(9999, 12, 31, 23, 59, 59)
# An end from then on stands for none that is known.
NO_END = datetime(9999, 1, 1)
DAY = timedelta(1)
NEEDED = "this command needs pandas: `apt-get install python3-pandas`, or `pip install pandas`"
OF_MONTHS = """An amount --per month counts in each whole month of its record, and in a part of a month that part of
it. The sums of a group are whole numbers that add up to its exact sum, rounded once, half up: the largest remainders
count one more. An amount --in-total is divided by days over the whole period of its record: up to a day the
record has that part of the amount, rounded half up, so that its months add up to its amount. With --less the sums are
differences: for each group and each month that a record of one of the two answers touches, the answer's sum less
the other's. It needs pandas."""
WHICH_AMOUNT = (
    "say what an amount is: --per month if a record has it in each month, such as a pay (or each day, week, quarter or "
    "year), or --in-total if a record has it once for its whole period, such as a premium"
)


def show_periods(options: Namespace, call: str) -> None:
    """Prints the periods that a call finds for each group of equal values."""
    [answer] = last(read(options), options.of)
    columns = columns_of(answer, options.column)
    with calling() as package:
        found = getattr(package, call)(frame_of(answer, columns), by_of(columns), period=(START, END))
    show_frame(options, found, [*PERIOD, *columns])


def do_overlaps(options: Namespace) -> None:
    """Prints each pair of rows of equal values that hold at one time."""
    [answer] = last(read(options), options.of)
    columns, row_id = columns_of(answer, options.column), IDS_OF_PAIR[0]
    if answer.command.word != "rows":
        raise Misfit(f"{answer.shown}: not a list of rows: ask by `rows`")
    if row_id in columns:
        raise Misfit(f"{row_id.name}: no two rows have one id: give a column of the table")
    with calling() as package:
        found = package.overlaps(frame_of(answer, [*columns, row_id]), by_of(columns), period=(START, END))
    names = dict(zip(("row_id_left", "row_id_right"), (one.name for one in IDS_OF_PAIR)))
    found = found.rename(columns=names).sort_values(by_of(columns), kind="stable")
    show_frame(options, found, [*IDS_OF_PAIR, *PERIOD, *columns])


def by_of(columns: Sequence[Column]) -> Optional[List[str]]:
    return [column.name for column in columns] or None


def columns_of(answer: Answer, names: Sequence[str]) -> List[Column]:
    """Returns these columns of an answer whose records are periods of one commit. Raises Misfit for any other."""
    answered, why = answer.command.form.answered, ""
    if answer.command.word == "at":
        why = "an `at` is of one point only: ask by `rows`"
    elif answered is Answered.VERSIONS:
        why = "its records are versions of several commits: ask by `rows` as of one commit"
    elif answered not in IDS:
        why = "its records aren't periods: ask by `rows`, `join`, `anti` or `agg`"
    if why:
        raise Misfit(f"{answer.shown}: {why}")
    columns = [answer.table.columns[answer.table.index_of(name)] for name in dict.fromkeys(names)]
    for name in names:
        if name in (START, END):
            raise Misfit(f"{name}: a start or an end, which make no groups: give another column")
    return columns


def imported(name: str) -> Any:
    """Returns a module that needs pandas. Raises Misfit if pandas isn't installed."""
    try:
        return import_module(name)
    except ModuleNotFoundError as missing:
        if missing.name not in ("numpy", "pandas"):
            raise
        raise Misfit(NEEDED) from None


@contextmanager
def calling() -> Iterator[Any]:
    """Yields the package for a call. Raises Misfit if it refuses. Possible mistakes are reported by `list`."""
    package = imported("ruzgalt.frames")
    with warnings.catch_warnings():
        warnings.simplefilter("ignore", package.Doubt)
        try:
            yield package
        except (package.Refused, package.Stopped) as refused:
            raise Misfit(str(refused)) from None


def frame_of(answer: Answer, columns: Sequence[Column], where: schemas.Where = ()) -> Any:
    """Returns a frame of the records that have some values: their periods and these columns, each by its own name."""
    pandas = imported("pandas")
    wanted = schemas.wanted_in(answer.table, where)
    records = [record for record in answer.table.texts() if schemas.has_values(record, wanted)]
    made = {}
    for column, named in zip([*PERIOD, *columns], unique([*PERIOD, *columns])):
        place = answer.table.index_of(column.name)
        convert: Any = {Kind.POINT: read_point, Kind.INT: int}.get(column.kind, str)
        dtype = "int64" if column.kind is Kind.INT else object
        try:
            made[named.name] = pandas.Series([convert(record[place]) for record in records], dtype=dtype)
        except OverflowError:
            raise Misfit(f"{column.name}: a number of it has more than 64 bits, too many to be computed with") from None
    return pandas.DataFrame(made)


def records_of(frame: Any, columns: Sequence[Column]) -> List[Tuple[str, ...]]:
    texts = ([print_point(one) if column.kind is Kind.POINT else str(one) for one in frame[column.name].tolist()]
             for column in columns)
    return list(zip(*texts))


def show_frame(options: Namespace, frame: Any, columns: Sequence[Column]) -> None:
    given.show(options, Table(unique(columns), records_of(frame, columns)))


# The time that counts, from its start on and before its end; None if the option wasn't given.
Limits = Tuple[Optional[datetime], Optional[datetime]]


def do_months(options: Namespace) -> None:
    if bool(options.per) == options.in_total:
        raise Misfit(f"--sum {options.sum}: {WHICH_AMOUNT}")
    limits = limits_of(options)
    found, answer, less = summed(options)
    sides = [answer, *([less] if less else [])]
    columns = [amounts_of(one, options) for one in sides]
    if less:
        refuse_other_kinds(f"{answer.where} and {less.where}", *columns)
    named = unique([*PERIOD, *columns[0]])
    frames, name = [side_of(one, own, options, limits) for one, own in zip(sides, columns)], named[-1].name
    for other in frames[1:]:
        other.columns = frames[0].columns
        if (other[name] == -(1 << 63)).any():
            raise Misfit(f"--less: {-(1 << 63)} can't be subtracted: it would need more than 64 bits")
        other[name] = -other[name]
    sums = spread(frames, named, options, limits)
    # The column of sums has another name than the amounts if --by has taken theirs.
    digits = Amounts(options.decimals).of(options.sum)
    if digits is not None and Amounts(options.decimals).of(name) is None:
        options.decimals = [*options.decimals, (name, digits)]
    table = Table(named, [record for record, exact in sums if exact or not options.no_zeros])
    given.show(options, table)
    if options.where and not sum(map(len, frames)):
        warn("no record has the values of --where")
    warn_of_sums(options, sides, found.answers)
    rounded = sum(bool(exact != int(record[-1])) for record, exact in sums)
    if rounded:
        what, whole = "difference" if options.less else "sum", "the sums of each group" if options.by else "all"
        how = f"{whole} add up to {'its' if options.by else 'the'} exact {what}, rounded once, half up: the largest "
        how = "the sums of a record add up to its amount" if options.in_total else f"{how}remainders count up"
        warn(f"{rounded:,} of {len(table.records):,} {what}s were rounded, and {how}")
    given.warn_of_mistakes(found, given.MISTAKES)


def warn_of_sums(options: Namespace, taken: Sequence[Answer], found: Sequence[Answer]) -> None:
    """Warns of cut rows whose amounts count twice, and of a last day that isn't counted."""
    known = {answer.command.front[1]: answer.commit for answer in taken}
    for change in found if options.in_total else ():
        texts = change.command.record.fields
        if texts[0] in ("update", "delete") and not change.refusal and change.commits <= known.get(texts[1], 0):
            cut = "if it has cut a row, each part of the row has the whole amount"
            warn(f"{change.shown}: {cut}, and so the amount counts twice")
            break
    if options.end and not options.last_day and is_month_end(printed(options.end)):
        later = shifted(printed(options.end), 1)
        warn(f"--to {options.end}: that day isn't counted; --to {later}, or --last-day, counts it")


def spread(
    frames: Sequence[Any], columns: Sequence[Column], options: Namespace, limits: Limits,
) -> List[Tuple[Tuple[str, ...], Any]]:
    """Returns the record of each group and piece, with the exact sum.

    A piece that isn't counted whole has the time that counts.
    """
    name, within = columns[-1].name, (limits[0] or FIRST, limits[1] or LAST)
    how = {
        "amount": f"per {options.per}" if options.per else "in total", "each": options.each[0].upper(),
        "by": by_of(columns[2:-1]), "within": within if any(limits) else None, "period": (START, END),
    }
    with calling() as package:
        frame = imported("pandas").concat(frames, ignore_index=True)
        whole, exact = (package.spread(frame, name, exact=is_exact, **how) for is_exact in (False, True))
    for point, cut, limit in zip((START, END), (max, min), within):
        whole[point] = [cut(one, limit) for one in whole[point].tolist()]
    return list(zip(records_of(whole, columns), exact[name].tolist()))


def side_of(answer: Answer, columns: Sequence[Column], options: Namespace, limits: Limits) -> Any:
    """Returns a frame of the records that count. Raises Misfit if their start or end isn't known, but is needed."""
    frame = frame_of(answer, columns, options.where)
    refuse_unknown(frame[END] >= NO_END, frame, "end", limits[1], "--to, the time until which", options)
    refuse_unknown(frame[START] == FIRST, frame, "start", limits[0], "--from, the time when", options)
    return frame


def refuse_unknown(unknown: Any, frame: Any, what: str, limit: Any, option: str, options: Namespace) -> None:
    """Refuses a record whose start or end isn't known, if no option says where counting starts or ends."""
    if not unknown.any() or not (options.in_total or limit is None):
        return
    record = frame[unknown].iloc[0].tolist()
    why = f"{short(','.join([*map(print_point, record[:2]), *map(str, record[2:])]))}: no {what} is known"
    if options.in_total:
        remedy = "leave the record out by --where, or use --per if it has the amount in each month"
        raise Misfit(f"{why}, so an amount in total can't be divided: {remedy}")
    raise Misfit(f"{why}: give {option} it counts")


def amounts_of(answer: Answer, options: Namespace) -> List[Column]:
    """Returns the columns of the groups, and the column of the amounts."""
    groups = columns_of(answer, options.by)
    if options.in_total and answer.command.word != "rows":
        why = "its records are parts of rows, and each part has the whole amount"
        raise Misfit(f"{answer.shown}: {why}; with --in-total ask by `rows`")
    [amount] = columns_of(answer, [options.sum])
    if amount.name in IDS[answer.command.form.answered]:
        raise Misfit(f"--sum {amount.name}: a column of ids, whose sums mean nothing; give a column of amounts")
    if amount.kind is not Kind.INT:
        raise Misfit(f"--sum {amount.name}: a column of texts, and only numbers can be summed")
    return [*groups, amount]


def limits_of(options: Namespace) -> Limits:
    """Returns the time that counts. Raises Misfit if it isn't a time, or is empty."""
    start, end = read_limits(options.start, options.end)
    if options.end and options.last_day and len(options.end) != 10:
        raise Misfit(f"--to {options.end}: with --last-day it is the last day that counts, so give it without a time")
    if end and options.last_day:
        end = min(end, LAST - DAY) + DAY
    if start and end and start >= end:
        order = "is after" if options.last_day else "isn't before"
        raise Misfit(f"--from {options.start} {order} --to {options.end}")
    return start, end


def summed(options: Namespace) -> Tuple[Found, Answer, Optional[Answer]]:
    """Returns all answers, the one whose amounts are summed, and the one whose sums are subtracted, if one is given.

    The first of these two is picked or asked, or otherwise the last that is more than an `ok` and isn't the second.
    """
    words = [options.pick] if options.pick else []
    if options.less is None:
        found = read(options)
        return found, last(found, words)[0], None
    # No pick has a comma, and each question of records does.
    is_question = "," in options.less
    if is_question:
        refuse_names("--less", [options.less])
        options.ask = [options.less, *options.ask]
    else:
        picks.refuse_names([options.less])
    found = read(options)
    less = found.asked[0] if is_question else picks.picked(found.answers, options.less, found.names).answer
    if options.pick and picks.find(found.answers, options.pick.partition("=")[0]) is less:
        raise Misfit(f"--less {options.less}: that is the answer whose amounts are summed; give another")
    if not words and all(one is less for one in found.asked):
        others = [one for one in found.answers if one is not less and picks.is_asked(one)]
        words = [str(one.number) for one in others[-1:]]
    both = last(found, [*words, str(less.number)], 2)
    return found, next(one for one in both if one is not less), less
