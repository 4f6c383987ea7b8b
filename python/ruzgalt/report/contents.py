"""The data of the page: its sources, findings, commits, questions and tables."""
import json
from bisect import bisect_left
from collections import Counter
from itertools import islice
from typing import Any, Dict, Iterable, Iterator, List, NamedTuple, Optional, Sequence, Set, Tuple, TypeVar

from ruzgalt import which
from ruzgalt.errors import Misfit
from ruzgalt.lint import scripts
from ruzgalt.lint.texts import fold
from ruzgalt.report import figures, picks, svg
from ruzgalt.report.shown import Look
from ruzgalt.script import answers, changes, overlaps, refusals, schemas
from ruzgalt.script.answers import Answer
from ruzgalt.script.changes import Held
from ruzgalt.script.commands import CHANGES, where_places
from ruzgalt.script.records import short, to_record, visible
from ruzgalt.script.run import EMPTY, Past, versions_of
from ruzgalt.script.schemas import Schema, Table

# The position of the first value in a version.
VALUES = 5


class Marked(NamedTuple):
    """A file by its name, without its folder, and by what marks its bytes."""

    name: str
    size: int
    sha256: str


class Sources(NamedTuple):
    """The sources of a page. Its answers are the script's and the named questions'."""

    script: Marked
    # The script as a word of a shell, and the command that makes the page again in the folder of the files.
    word: str
    command: str
    answers: List[Answer]
    # What answered: the command, and the program that it runs if that is another file.
    files: List[Marked]
    # The version of an installed program. Empty if the program is built in a clone.
    version: str
    # The file of answers, if there is one.
    kept: Optional[Marked]
    past: Past
    # The names of questions that have one, by their answers' numbers.
    names: Dict[int, str]
    # The title and the note at the top, and how amounts and ends are shown.
    title: str = ""
    note: str = ""
    look: Look = Look()

    @property
    def tables(self) -> Dict[str, Schema]:
        return self.past.tables

    @property
    def versions(self) -> Dict[str, Table]:
        """The answer to `between` of each table, with all its versions."""
        return {name: answer.table for name, answer in zip(self.tables, self.past.ask(*map(versions_of, self.tables)))}


# How many findings of each kind are listed, and how many refusals and changes of nothing are explained by the rows.
LISTED, LOOKED_AT = 1_000, 100
Data = Dict[str, Any]


def findings_of(sources: Sources) -> Dict[str, List[Data]]:
    """All findings, each kind by the order of the script."""
    refused = [one for one in sources.answers if one.refusal]
    rows = overlaps.explained(sources.past, refused[:LOOKED_AT])
    idle = [one for one in sources.answers if is_idle(one, sources)]
    # Changes of nothing are findings of their own.
    doubtful = [one for one in scripts.of(sources.answers, sources.past) if one.kind != scripts.OF_NOTHING]
    return {
        "refused": [
            {**finding(one, refusals.reason(one)), "place": one.refused.record.where, "name": one.refused.name,
             "more": rows.get(one.number, [])} for one in refused
        ],
        "idle": [
            finding(one, why_idle(one, sources) if place < LOOKED_AT else "no row that it matches holds in that time")
            for place, one in enumerate(idle)
        ],
        "doubtful": [finding(one.answer, one.note) for one in doubtful],
    }


def finding(answer: Answer, reason: str) -> Data:
    return {"place": answer.where, "command": short(answer.command.text), "reason": reason, "name": "", "more": []}


def is_idle(answer: Answer, sources: Sources) -> bool:
    """Whether it is a change of rows that was accepted, and made and closed no version."""
    is_change = not answer.refusal and answer.command.word in CHANGES and answer.command.word != "table"
    return is_change and sources.past.counts[answer.commits] == (0, 0)


def why_idle(answer: Answer, sources: Sources) -> str:
    if answer.command.word == "load":
        return "the load has no rows"
    texts = answer.command.record.fields
    schema = answer.schema
    wanted = [(schema.index_of(texts[place]), texts[place + 1]) for place in where_places(texts)]
    rows = sources.past.versions(texts[1]).at(answer.commits - 1)
    for place, value in wanted:
        values = {row.values[place] for row in rows}
        if value not in values:
            return f"no row has {shown_value(value)} as {schema.names[place]} then{alike(value, sorted(values))}"
    held = [row for row in rows if schemas.has_values(row.values, wanted)]
    if not held:
        return "no row has all of these values" if wanted else f"{texts[1]} had no row then"
    times = sorted(f"{row.start} to {row.end}" for row in held)
    more = f", and {len(times) - 3} more" if len(times) > 3 else ""
    return f"the rows that it matches hold at other times: {', '.join(times[:3])}{more}"


def alike(value: str, others: Sequence[str]) -> str:
    found = next((other for other in others if value and other and fold(other) == fold(value)), None)
    return f", but {shown_value(found)}, which looks alike" if found else ""


def shown_value(value: str) -> str:
    return visible(to_record([value]))


def marks(then: Answer, now: Answer) -> List[str]:
    """Returns a sign for each record of both answers: 1 if the other has fewer such records, otherwise 0.

    Records that hold for a time are compared at each time and without ids, so a row that was cut in two has 0.
    """
    sides = [held_in(answer) for answer in (then, now)]
    found = list(changes.changes(*sides))
    return [signs(held, [one[1:] for one in found if one[0] == sign]) for held, sign in zip(sides, "-+")]


def held_in(answer: Answer) -> List[Held]:
    """Returns the periods and values of an answer's records. Records without a period hold all the time."""
    if answer.command.form.answered in changes.IDS:
        return changes.compared(answer)[1]
    return [("0", "1", tuple(record)) for record in answer.table.texts()]


def signs(held: Sequence[Held], more: Iterable[Sequence[str]]) -> str:
    """Returns 1 for each record that is surplus at some time, otherwise 0. The last of equal records are surplus."""
    surplus = [(start, end, tuple(values)) for start, end, *values in more]
    points: Dict[Tuple[str, ...], Set[str]] = {values: set() for *_, values in surplus}
    for start, end, values in [*surplus, *held]:
        if values in points:
            points[values].update((start, end))
    ordered = {values: sorted(some) for values, some in points.items()}

    def pieces(start: str, end: str, values: Tuple[str, ...]) -> List[Tuple[object, str]]:
        some = ordered.get(values, [])
        return [(values, point) for point in some[bisect_left(some, start):bisect_left(some, end)]]

    left = Counter(piece for one in surplus for piece in pieces(*one))
    found = []
    for one in reversed(held):
        taken = [piece for piece in pieces(*one) if left[piece] > 0]
        left.subtract(taken)
        found.append("1" if taken else "0")
    return "".join(reversed(found))


# With more records only the table is shown; and the width of a picture in pixels.
MOST, WIDTH = 400, 640
# What a page says of a picture by itself.
OF_PAGE = ("xmlns", "style", "role", "aria-label")


def picture_of(answer: Answer, sources: Sources) -> Data:
    """Returns the picture as an element tree, or the reason for having none."""
    count = len(answer.table.records) if figures.is_drawn(answer) else 0
    if count > MOST:
        why = f"No picture: {count:,} records are more than {MOST}. `{which.ANSWERS} picture` draws some of them."
        return {"picture": None, "noPicture": why}
    look = sources.look
    try:
        wish = figures.Wish(amounts=look.amounts.known_to(answer.table), look=look)
        tree = svg.tree_of(figures.of(answer, wish, sources.past.versions), WIDTH) if count else None
    except Misfit:
        why = "No picture of several facts in one: each has its own under Tables over time."
        return {"picture": None, "noPicture": why}
    return {"picture": tree and within(tree, f"p{answer.number}-"), "noPicture": ""}


def within(tree: svg.Tree, prefix: str) -> svg.Tree:
    """Returns an element as a part of the page: ids have a prefix of their picture."""
    name, attributes, *inner = tree
    kept = {key: str(one).replace("url(#", f"url(#{prefix}") for key, one in attributes.items() if key not in OF_PAGE}
    kept.update({"id": prefix + kept["id"]} if "id" in kept else {})
    return [name, kept, *(one if isinstance(one, str) else within(one, prefix) for one in inner)]


# How many records of a table are shown, and the most questions, pictures, commits and parts of a check.
SHOWN, QUESTIONS, PICTURES, COMMITS, PARTS = 1_000, 1_000, 200, 50_000, 1_000
NO_ROOM: Data = {"picture": None, "noPicture": f"No picture: the page has {PICTURES} before it."}
# The most characters of answers' records in the page, and of versions; a table has all its versions or none.
ROOM = 14_000_000
# How many records of all questions are shown at first; if they have more, each question has its share.
AT_ONCE = 30_000


class Contents(NamedTuple):
    """The data of a page: small things as they are, and lists of records as JSON, each under its name."""

    data: Data
    lists: List[Tuple[str, str]]


def of(sources: Sources, diary: Optional[str]) -> Contents:
    """The contents. With a diary the commits have its days."""
    parts = Parts(sources)
    asked = list(filter(picks.is_asked, sources.answers))
    kept = parts.first(asked, QUESTIONS, "questions")
    days = days_of(sources, diary)
    commits = list(commits_of(sources, days))
    found = findings_of(sources)
    found["doubtful"][:0] = doubts_of(sources, diary, days)
    sources.look.refuse_strangers(*(answer.table for answer in kept), *sources.versions.values())
    data = {
        "title": sources.title, "note": sources.note, "isGerman": sources.look.amounts.is_german,
        "hasLastDays": sources.look.has_last_days,
        "script": sources.script._asdict(), "scriptWord": sources.word, "command": sources.command,
        "files": [file._asdict() for file in sources.files],
        "version": sources.version, "kept": sources.kept._asdict() if sources.kept else None,
        "tool": which.ANSWERS, "isInstalled": which.IS_INSTALLED, "answers": len(sources.answers),
        **{kind: some[:LISTED] for kind, some in found.items()},
        # The page may not have all.
        "counts": {"questions": len(asked), **{kind: len(some) for kind, some in found.items()}},
        "diary": diary, "newest": len(commits), "commits": parts.first(commits, COMMITS, "commits"),
        "shown": SHOWN, "questions": list(parts.questions(kept)),
        "pairs": [[then.number, now.number] for then, now in pairs_of(kept)],
        "said": {then.number: marks(then, now) for then, now in pairs_of(kept)},
        "tables": list(parts.tables()),
    }
    left_out = sum(len(some[LISTED:]) for some in found.values())
    if left_out:
        parts.left_out.append(f"{left_out:,} findings: `{which.ANSWERS} refusals` lists all")
    return Contents({**data, "leftOut": parts.left_out}, parts.lists)


Thing = TypeVar("Thing")


class Parts:
    """Lists of records that the page has, and notes on records for which it has no capacity."""

    def __init__(self, sources: Sources) -> None:
        self.sources, self.room = sources, ROOM
        self.lists: List[Tuple[str, str]] = []
        self.left_out: List[str] = []

    def first(self, things: List[Thing], most: int, what: str) -> List[Thing]:
        """So many of them at most."""
        if len(things) > most:
            self.left_out.append(f"{len(things) - most:,} {what} after the first {most:,}")
        return things[:most]

    def questions(self, kept: Sequence[Answer]) -> Iterator[Data]:
        shown, drawn = shown_at_once(kept), 0
        for answer in kept:
            has_all = self.add_records(answer, shown)
            is_past = drawn == PICTURES and figures.is_drawn(answer)
            picture = NO_ROOM if is_past else picture_of(answer, self.sources)
            drawn += picture["picture"] is not None
            yield {
                "number": answer.number, "place": answer.where, "command": short(answer.command.text),
                "word": answer.command.word, "commit": answer.commit,
                "columns": columns_of(answer.table, self.sources.look),
                "count": len(answer.table.records), "hasAll": has_all, "shown": shown,
                "name": self.sources.names.get(answer.number, ""),
                "sentence": sentence_of(answer), "parts": parts_of(answer), **picture,
            }

    def has_room(self, records: str) -> bool:
        """Whether the page may have these records too, which it then has."""
        fits = len(records) <= self.room
        self.room -= len(records) * fits
        return fits

    def add_records(self, answer: Answer, shown: int) -> bool:
        """Takes the answer's records, or only the first ones. Returns whether all are taken."""
        count, text = len(answer.table.records), as_json(answer.table)
        has_all = self.has_room(text) or count <= shown
        if not has_all:
            text = as_json(answer.table, shown)
            rest = f"{count - shown:,} of {count:,} records"
            self.left_out.append(f"of {answer.where}, {short(answer.command.text)}: {rest}")
        self.lists.append((f"records-{answer.number}", text))
        return has_all

    def tables(self) -> Iterator[Data]:
        self.room = ROOM
        for number, (name, table) in enumerate(self.sources.versions.items()):
            text, count = as_json(table), len(table.records)
            is_there = self.has_room(text)
            if is_there:
                self.lists.append((f"versions-{number}", text))
            else:
                self.left_out.append(f"the {count:,} versions of {name}, and so what held on each day")
            yield {
                "name": name, "columns": columns_of(table, self.sources.look),
                "key": [VALUES + place for place in self.sources.tables[name].key],
                "count": count, "isThere": is_there, "number": number,
            }


def days_of(sources: Sources, diary: Optional[str]) -> changes.Days:
    """The days of the diary, as its rows have them at the script's end."""
    if diary is None:
        return []
    changes.schema_of(sources.answers, diary)
    return changes.days_in(sources.past.versions(diary))


def doubts_of(sources: Sources, diary: Optional[str], days: changes.Days) -> Iterator[Data]:
    """Yields possible mistakes in the script and its diary as a whole."""
    newest = max((answer.commits for answer in sources.answers), default=0)
    found = [] if sources.answers else [("line 1", EMPTY)]
    found.extend((f"--diary {diary}", reason) for reason in changes.strange_commits(days, newest))
    yield from ({"place": place, "command": "", "reason": why, "name": "", "more": []} for place, why in found)


def commits_of(sources: Sources, days: Sequence[Tuple[str, int]]) -> Iterator[List[str]]:
    """Yields for each commit its number, its day, the place and text of its command, and its counts."""
    day_of_commit = changes.entered_on(list(days), range(1, sources.past.newest + 1))
    for answer in sources.answers:
        command, number = answer.command, answer.commits
        if not answer.refusal and command.word in CHANGES:
            rows = f" ({len(command.rows):,} row{'s' * (len(command.rows) != 1)})" if command.word == "load" else ""
            counts = map(str, sources.past.counts[number])
            yield [str(number), day_of_commit[number] or "", answer.where, short(command.text) + rows, *counts]


def shown_at_once(kept: Sequence[Answer]) -> int:
    """How many records are shown of each answer before one asks for more."""
    most = sum(min(len(answer.table.records), SHOWN) for answer in kept)
    return SHOWN if most <= AT_ONCE else min(SHOWN, AT_ONCE // len(kept))


def as_json(table: Table, most: Optional[int] = None) -> str:
    return json.dumps(list(islice(table.texts(), most)), separators=(",", ":"))


def columns_of(table: Table, look: Look) -> List[List[Any]]:
    """The name of each column, its kind, and how its fields are shown where that isn't as they are."""
    found: List[List[Any]] = []
    for own, column in zip(table.columns, look.columns(table)):
        how = look.look_of(own)
        digits: List[Data] = [] if how.digits is None else [{"digits": how.digits}]
        found.append([column.name, column.kind.value, *digits, *([{"end": own.name}] if how.is_end else [])])
    return found


def sentence_of(answer: Answer) -> str:
    """What a division or a verdict says, in a sentence."""
    if answer.command.word != "dip":
        return answers.sentence_of(answer) if answer.command.word == "check" else ""
    records = list(answer.table.texts())
    if not records:
        return "No rows, so no parts."
    parts, instant = int(records[-1][0]) + 1, records[-1][2]
    return f"{len(records):,} rows in {parts:,} parts. There can't be fewer: {parts:,} rows hold at {instant}."


def parts_of(answer: Answer) -> List[List[str]]:
    """The first parts that a check asks about, each with its rows."""
    if answer.command.word != "check":
        return []
    return [[str(place), ", ".join(part.fields[1:])] for place, part in enumerate(islice(answer.command.rows, PARTS))]


def pairs_of(kept: Sequence[Answer]) -> Iterator[Tuple[Answer, Answer]]:
    """Two answers to one question: as of a commit, and the newest of a later one without a suffix."""
    now = {question_of(one): one for one in kept if one.command.as_of is None}
    for answer in kept:
        newest = now.get(question_of(answer))
        if answer.command.as_of is not None and newest is not None and newest.commit > answer.commit:
            yield answer, newest


def question_of(answer: Answer) -> Tuple[Tuple[str, ...], ...]:
    """Returns the question without its commit: the command, and the parts of a check."""
    return (tuple(answer.command.front), *(tuple(record.fields) for record in answer.command.rows))
