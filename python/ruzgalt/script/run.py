"""Runs the program: on a script with questions after it, on trials of a table each, and again with more questions."""
import subprocess
import tempfile
from functools import cached_property
from itertools import accumulate, compress, zip_longest
from typing import Dict, Iterable, Iterator, List, Mapping, NamedTuple, Optional, Sequence, Tuple

from ruzgalt.errors import Misfit
from ruzgalt.script import answers
from ruzgalt.script.answers import Answer, Reading
from ruzgalt.script.commands import Answered, Command, commands
from ruzgalt.script.forms import POINT
from ruzgalt.script.records import Reader, Source, count_lines, encode, short, to_record, to_text, visible

NAMED_BY = "name it by DIPQ in the environment, or put dipq on the PATH"
# The number of tables that a script may have, and the number of records of a script of trials, which may have more.
TABLES, RECORDS = 64, 500_000
# No commit has a greater number.
NEWEST = 1_000_000
EMPTY = "the script is empty: it has no command"


class Running:
    """Runs the program on a script. Its messages on standard error are shown."""

    def __init__(self, program: str, script: bytes) -> None:
        self.program, self.printed = program, tempfile.TemporaryFile()
        with tempfile.TemporaryFile() as given:
            given.write(script)
            given.seek(0)
            try:
                self.process = subprocess.Popen([program], stdin=given, stdout=self.printed)
            except OSError as error:
                self.printed.close()
                is_missing = isinstance(error, FileNotFoundError)
                why = "no such program" if is_missing else f"can't be run: {error.strerror}"
                raise Misfit(f"{program}: {why}: {NAMED_BY}") from None

    def output(self) -> bytes:
        """Waits until it has ended, and returns its answers."""
        with self.printed:
            status = self.process.wait()
            if status not in (0, 1):
                raise Misfit(f"{self.program} ended with status {status} before all was answered")
            self.printed.seek(0)
            return self.printed.read()

    def stop(self) -> None:
        """Ends it, if its answers aren't wanted any more."""
        self.process.kill()
        self.process.wait()
        self.printed.close()


def output(program: str, script: bytes) -> bytes:
    return Running(program, script).output()


# Questions after a script.

def named(word: str) -> Tuple[str, str]:
    """Returns the name of a question, or nothing, and the question.

    A name is the text before a `=` that comes before the first comma: no command's word has that sign.
    """
    name, mark, question = word.partition("=")
    if not mark or "," in name:
        return "", word
    if not name.isprintable() or name != name.strip() or not name:
        raise Misfit(f"--ask {short(word)}: no name of letters, signs, and blanks between them before the =")
    return name, question


def line_of(question: str) -> bytes:
    """Returns the line of a question after a script."""
    return encode(question.strip("\r\n")) + b"\n"


def dated(question: str) -> Dict[int, str]:
    """Returns the points that it has instead of a commit's number, such as asof,2024-03-31, by their records' numbers.

    Only a command's first record has such a suffix. Other records may have `asof` as a value.
    """
    found = commands(Source(line_of(question)))
    return {one.record.number: one.as_of for one in found if one.as_of is not None and POINT.fullmatch(one.as_of)}


def with_commits(question: str, commits: Mapping[str, int]) -> str:
    """Returns the question with the commits of its points; without a point it stays as it was written."""
    points = dated(question)
    records = Reader(Source(line_of(question)))
    made = ([*one.fields[:-1], str(commits[points[one.number]])] if one.number in points else one.fields
            for one in records)
    return to_text(made) if points else question


def with_questions(script: bytes, questions: Sequence[str]) -> Source:
    """Returns the script with each question on a line of its own."""
    own = script + (b"\n" if questions and script and not script.endswith((b"\n", b"\r")) else b"")
    lines = list(map(line_of, questions))
    if b"\n" in lines:
        raise Misfit("--ask: the question is empty")
    return Source(b"".join([own, *lines]), count_lines(own) if questions else None)


def lines_of(questions: Sequence[str], source: Source) -> List[int]:
    counts = (count_lines(line_of(question)) for question in questions)
    return list(accumulate(counts, initial=(source.own_lines or 0) + 1))[:-1]


def commands_of(source: Source, questions: Sequence[str]) -> List[Command]:
    """Returns the commands of a script with questions.

    Raises Misfit if a question isn't a command by itself, since it became part of an open quote or of a block.
    """
    begun = list(commands(source))
    own = {command.line for command in begun}
    for question, line in zip(questions, lines_of(questions, source)):
        if line not in own:
            raise Misfit(f"--ask {short(question)}: the question became part of {taker_of(source, begun, line)}")
    return begun


def taker_of(source: Source, begun: Sequence[Command], line: int) -> str:
    """Returns the block that has this line as a record, or the record whose quote is open."""
    found = list(Reader(source))
    own = next((record.number for record in found if record.line == line), None)
    if own is None:
        return f"{[record for record in found if record.line < line][-1].where}, which has an open quote"
    block = [one for one in begun if one.record.number < own <= one.record.number + len(one.block)][-1]
    return f"{block.where}, {short(block.text)}'s block"


# Trials.

Trial = List[Sequence[str]]


def tried(program: str, trials: Iterable[Trial]) -> Iterator[List[Answer]]:
    """Yields the answers to each trial: records that begin with a table, whose name no other trial has.

    Several trials are answered by one run. Raises Misfit if a record is refused.
    """
    for some in batches(trials):
        script = encode(to_text(fields for trial in some for fields in trial))
        found: List[List[Answer]] = []
        for answer in answers.of(script, output(program, script)):
            if answer.refusal:
                raise Misfit(f"{program}: it refused rows of the script in a trial: {answer.refusal.name}; {NAMED_BY}")
            if answer.command.word == "table":
                found.append([])
            found[-1].append(answer)
        yield from found


def batches(trials: Iterable[Trial]) -> Iterator[List[Trial]]:
    """Yields lists of trials, each for one script."""
    some: List[Trial] = []
    count = 0
    for trial in trials:
        if some and (len(some) == TABLES or count + len(trial) > RECORDS):
            yield some
            some, count = [], 0
        some.append(trial)
        count += len(trial)
    if some:
        yield some


# The past of a script.

class Version(NamedTuple):
    """A version of a row: its id, period and values, the commit that made it, and the one that closed it, if any."""

    row_id: int
    start: str
    end: str
    made: int
    closed: Optional[int]
    values: Tuple[str, ...]


def version_of(record: Sequence[str]) -> Version:
    row_id, start, end, made, closed, *values = record
    return Version(int(row_id), start, end, int(made), int(closed) if closed else None, tuple(values))


class Versions:
    """The versions of a table by rising id, from the answer to `between`. They are read when they are needed."""

    def __init__(self, answer: Answer) -> None:
        self.schema, self.table = answer.schema, answer.table
        # The rows of the last commit that was asked for. Refused commands follow one another, and change nothing.
        self.last: Tuple[int, List[Version]] = (-1, [])

    @cached_property
    def all(self) -> List[Version]:
        return list(map(version_of, self.table.texts()))

    def at(self, commit: int) -> List[Version]:
        if self.last[0] != commit:
            is_there = (one.made <= commit and (one.closed is None or commit < one.closed) for one in self.all)
            self.last = commit, list(compress(self.all, is_there))
        return self.last[1]

    @cached_property
    def closed_by(self) -> Dict[int, List[Version]]:
        """The versions that each commit closed. Others aren't kept: most tables have few that are closed."""
        found: Dict[int, List[Version]] = {}
        for one in (version_of(record) for record in self.table.texts() if record[4]):
            found.setdefault(one.closed or 0, []).append(one)
        return found


def versions_of(name: str) -> str:
    return f"between,{name},0,{NEWEST}"


class Past:
    """Runs the program on a script with more questions after it. Each question is asked once."""

    def __init__(self, program: str, script: Source, output: bytes, begun: Sequence[Command],
                 found: Sequence[Answer]) -> None:
        self.program, (self.script, self.output, self.records) = program, front_of(script, output, begun)
        self.tables = found[-1].tables if found else {}
        self.newest = max((answer.commits for answer in found), default=0)
        self.known: Dict[str, Answer] = {}
        self.read: Dict[str, Versions] = {}

    def run(self, *questions: str) -> List[Answer]:
        """Returns the answers to commands after the script.

        Raises Misfit if the program doesn't print the script's own answers again.
        """
        after = b"".join(map(line_of, questions))
        printed = output(self.program, self.script + after)
        if not printed.startswith(self.output):
            why = "it was run again on the same script, and printed other answers"
            raise Misfit(f"{self.program}: {why}: {NAMED_BY}")
        reading = Reading(Source(printed[len(self.output):]))
        reading.tables, reading.commits = self.tables, self.newest
        return list(reading.answers(commands(Source(after, 0), self.records + 1)))

    def ask(self, *questions: str) -> List[Answer]:
        """Returns the answers to questions after the script. New ones are asked in one run."""
        new = [one for one in dict.fromkeys(questions) if one not in self.known]
        self.known.update(zip(new, self.run(*new) if new else ()))
        return [self.known[one] for one in questions]

    def versions(self, name: str) -> Versions:
        if name not in self.read:
            self.read[name] = Versions(*self.ask(versions_of(name)))
        return self.read[name]

    @cached_property
    def counts(self) -> Dict[int, Tuple[int, int]]:
        """How many versions each commit added and closed."""
        [log] = self.ask("log")
        return {int(number): (int(added), int(closed)) for number, *_, added, closed in log.table.texts()}


def front_of(script: Source, output: bytes, begun: Sequence[Command]) -> Tuple[bytes, bytes, int]:
    """Returns the complete statements of a script, ready for more lines; their answers and number of records.

    If the last one has no `end`, it is left out with its answer, which is one line. An open quote of the last record is
    closed.
    """
    last = next((command for command in reversed(begun) if not command.in_together), None)
    if last is None:
        return b"", output, 0
    text, first, number = script.data, script.byte_of(last.line), last.record.number
    if not last.is_ended:
        return text[:first], output[:output.rfind(b"\n", 0, -1) + 1], number - 1
    if last.form.part or last.form.answered is Answered.TOGETHER:
        return text.rstrip(b"\r\n") + b"\n", output, number + len(last.block)
    return text[:first] + encode(to_record(last.record.fields)) + b"\n", output, number


class Beginnings:
    """Which commit made each table, and which one loaded its first rows: before that, a table has no rows."""

    def __init__(self, found: Sequence[Answer]) -> None:
        self.made: Dict[str, int] = {}
        self.filled: Dict[str, int] = {}
        for command, commit in ((one.command, one.commits) for one in found if not one.refusal):
            if command.word == "table":
                self.made[command.record.fields[1]] = commit
            elif command.word == "load" and len(command.rows):
                self.filled.setdefault(command.record.fields[1], commit)

    def notes_of(self, answer: Answer) -> Iterator[str]:
        """Names the tables of a query that have no rows yet at the commit of its suffix."""
        if answer.command.as_of is None:
            return
        for name in dict.fromkeys(answer.command.front[1:1 + answer.command.form.tables]):
            if self.made[name] > answer.commit:
                yield f"{name} was made by commit {self.made[name]}, so commit {answer.commit} has no row of it"
            elif self.filled.get(name, 0) > answer.commit:
                yield f"{name} has rows from commit {self.filled[name]} on, so commit {answer.commit} has no row of it"


def refuse_other_bytes(name: str, kept: bytes, now: bytes) -> None:
    """Raises Misfit if kept answers aren't exactly the bytes that the program prints: a script has one output."""
    lines = enumerate(zip_longest(kept.splitlines(True), now.splitlines(True)), 1)
    for line, both in lines if kept != now else ():
        if both[0] != both[1]:
            where = f"{'standard input' if name == '-' else name}, line {line}"
            texts = (one and one.rstrip(b"\n").decode("utf-8", "surrogateescape") for one in both)
            has, prints = ("no more" if one is None else visible(str(one)) for one in texts)
            other = "these answers are of another script or question; without --answers the program answers this script"
            raise Misfit(f"{where}: it has {has}, and the program prints {prints}: {other}")
