"""Chooses answers by their number, by their line, or from the last one back, and gives them names."""
import re
from dataclasses import dataclass
from typing import Dict, List, Sequence, Set

from ruzgalt.errors import Misfit
from ruzgalt.script.answers import Answer
from ruzgalt.script.records import short, visible
from ruzgalt.which import ANSWERS

# What makes something that has a name.
NAMED_BY = "`csv --folder`, `xlsx`, `sqlite`, `json` and `page`"
HELP = (
    f"an answer: its NUMBER in `{ANSWERS} list`, @LINE of its command in the script, `last`, or `last-N` for "
    f"the N-th before that; =NAME after it names what {NAMED_BY} make of it"
)
FORM = re.compile(r"(?P<number>\d{1,9})|@(?P<line>\d{1,9})|last(-(?P<back>\d{1,9}))?", re.ASCII)


@dataclass(frozen=True)
class Pick:
    name: str
    answer: Answer


def pick(
    answers: Sequence[Answer], words: Sequence[str], asked: Sequence[Answer], names: Dict[int, str],
) -> List[Pick]:
    """Returns the answers that the words name, and the asked ones; if there are none, all tables.

    `names` has the names of questions by the answers' numbers.
    """
    picks = [picked(answers, word, names) for word in words]
    taken = {one.answer.number for one in picks}
    others = [one for one in (asked if words or asked else answers) if one.number not in taken and is_asked(one)]
    picks.extend(Pick(names.get(one.number, name_of(one)), one) for one in others)
    return picks


def picked(answers: Sequence[Answer], word: str, names: Dict[int, str]) -> Pick:
    """Returns the answer that a word names, with the name after the =."""
    which, mark, name = word.partition("=")
    answer = find(answers, which)
    if answer.refusal:
        raise Misfit(f"{which}: {answer.shown} was refused: {answer.refusal.name}")
    if mark and not name:
        raise Misfit(f"{word}: no name after the =")
    if name and answer.number in names:
        raise Misfit(f"{word}: {answer.shown} has the name {visible(names[answer.number])} already")
    return Pick(name or names.get(answer.number, name_of(answer)), answer)


def refuse_names(words: Sequence[str]) -> None:
    """Refuses a name where nothing is made that would have it."""
    for word in words:
        which, mark, _ = word.partition("=")
        if mark:
            raise nameless(word, which)


def nameless(word: str, bare: str) -> Misfit:
    """Returns the error that a name has no use."""
    only = f"only what {NAMED_BY} make has one: give {bare}"
    return Misfit(f"{word}: nothing is made here that has a name; {only}")


def refuse_same(picks: Sequence[Pick]) -> None:
    """Refuses an answer that is picked twice, since it would be compared with itself."""
    seen: Set[int] = set()
    for one in picks:
        if one.answer.number in seen:
            raise Misfit(f"{one.answer.shown}: picked twice")
        seen.add(one.answer.number)


def refuse_twins(picks: Sequence[Pick]) -> None:
    """Two answers of one name would be one table, and SQLite and some file systems take capitals for small letters."""
    before: Dict[str, Pick] = {}
    for one in picks:
        twin = before.setdefault(one.name.casefold(), one)
        if twin is not one:
            both = [f"{pick.answer.where}, {short(pick.answer.command.text)}, as {pick.name}" for pick in (twin, one)]
            command, name = one.answer.command, f"{one.name}_{one.answer.number}"
            other = f"--ask {name}={command.text}" if command.record.is_asked else f"{one.answer.number}={name}"
            remedy = f"give each its own, such as {other}"
            raise Misfit(f"two answers have the same name, apart from capitals: {' and '.join(both)}; {remedy}")


def is_pick(word: str) -> bool:
    return bool(FORM.fullmatch(word.partition("=")[0]))


def is_asked(answer: Answer) -> bool:
    """Whether it is a table. What others are answered is a number of a commit, and nothing that one would ask for."""
    return not answer.refusal and answer.command.form.is_query


def name_of(answer: Answer) -> str:
    """A name that no other answer has: the command's word, its tables, and the answer's number."""
    front = answer.command.front
    tables = front[1:1 + answer.command.form.tables]
    return "_".join([front[0], *tables, str(answer.number)])


def find(answers: Sequence[Answer], which: str) -> Answer:
    form = FORM.fullmatch(which)
    if not form:
        raise Misfit(f"{which}: not a NUMBER, @LINE, last or last-N")
    if form["line"]:
        found = [answer for answer in answers if answer.line == int(form["line"])]
    else:
        place = int(form["number"]) - 1 if form["number"] else len(answers) - 1 - int(form["back"] or 0)
        found = [answers[place]] if 0 <= place < len(answers) else []
    if not found:
        raise Misfit(f"{which}: no such answer; there are {len(answers)}, which `{ANSWERS} list` lists")
    return found[0]
