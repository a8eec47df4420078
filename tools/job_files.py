"""A job file as tools read it: the files that it names, round by round, and of each bad line why it is one.

Lines, words and numbers are those of docs/FORMATS.md, "Job files", whose table of faults has each one's cure.
The program tells the first bad line alone; here the reading goes on behind it, so that one look tells all.
What isn't promised: that a fault behind the first is one still, once that is cured.
"""
import re
from collections.abc import Callable
from dataclasses import dataclass, field

from batch_lines import Line, lines_in

MOST_WORKERS, MOST_CONTROLS, MOST_ROUNDS = 8, 4, 1024
HEAD = ("clsact", "job", "1")
HEADS = ("clsact", "workers", "controls")
BODY = ("round", "batch", "capture", "end")
HOOKS = ("ingress", "egress")
ROWS = (
    "no `clsact job 1`", "no `workers`", "no `controls`", "no `end`", "the number of `workers`",
    "the number of `controls`", "another first word", "`batch` or `capture` before the first `round`",
    "`batch` behind a `capture`", "a second `capture`", "the control of a `batch`",
    "a control that had its batch", "another word than `force`", "the hook of a `capture`", "a missing word",
    "a word too many", "a name", "a line behind `end`", "the 1,025th `round`",
)


@dataclass(frozen=True)
class JobFault:
    """Why no job goes on with a line: the row of the table, the line's number, the line where there is
    one, and which of its words is bad, from 0; behind the last where one is missing."""

    row: str
    number: int
    line: Line | None = None
    at: int = 0

    @property
    def kind(self) -> str:
        """The program's word for it."""
        return "TooManyRounds" if self.row == "the 1,025th `round`" else "JobSyntax"


@dataclass(frozen=True)
class Named:
    """A file that a job names, and which word of which line does so."""

    line: Line
    at: int

    @property
    def name(self) -> str:
        return self.line.words[self.at].text


@dataclass
class JobRound:
    """A round of a job: its batches by control, its capture, and what passes of that."""

    batches: dict[int, Named] = field(default_factory=dict)
    capture: Named | None = None
    out: Named | None = None


def is_number(word: str, most: int) -> bool:
    """Whether a word is a number from 1 on, in decimal without a needless 0."""
    return bool(re.fullmatch("[1-9][0-9]{0,3}", word)) and int(word) <= most


def is_name(word: str) -> bool:
    return all("!" <= it <= "~" for it in word)


class JobFile:
    """What a job's bytes say."""

    def __init__(self, data: bytes) -> None:
        self.workers, self.controls = 0, MOST_CONTROLS
        self.rounds: list[JobRound] = []
        self.faults: list[JobFault] = []
        self.due, self.is_ended = list(HEADS), False
        for line in lines_in(data):
            self.take(line)
        if not self.is_ended:
            behind = data.count(b"\n") + (data != b"" and not data.endswith(b"\n")) + 1
            self.faults.append(JobFault(missing(self.due[0]) if self.due else "no `end`", behind))

    @property
    def inputs(self) -> list[Named]:
        """The files that are read, in the job's order."""
        return [it for round in self.rounds for it in (*round.batches.values(), round.capture) if it]

    @property
    def outputs(self) -> list[Named]:
        return [it.out for it in self.rounds if it.out]

    def bad(self, row: str, line: Line, at: int) -> None:
        self.faults.append(JobFault(row, line.number, line, at))

    def take(self, line: Line) -> None:
        """Takes the next line with words."""
        if self.is_ended:
            self.bad("a line behind `end`", line, 0)
        elif self.due:
            self.take_head(line, self.due.pop(0))
        elif line.words[0].text in BODY:
            TAKEN[line.words[0].text](self, line, [it.text for it in line.words])
        else:
            self.bad("another first word", line, 0)

    def take_head(self, line: Line, name: str) -> None:
        """Takes one of the first three lines. Where it isn't there, the line may be one behind it."""
        texts = [it.text for it in line.words]
        if texts[0] != name or name == "clsact" and tuple(texts) != HEAD:
            self.bad(missing(name), line, 0)
            if texts[0] in (*self.due, *BODY):
                self.take(line)
        elif name != "clsact":
            self.take_count(line, texts, name, MOST_WORKERS if name == "workers" else MOST_CONTROLS)

    def take_count(self, line: Line, texts: list[str], name: str, most: int) -> None:
        """Takes how many threads there are."""
        if not self.has_words(line, 2, 2):
            return
        if is_number(texts[1], most):
            setattr(self, name, int(texts[1]))
        else:
            self.bad(f"the number of `{name}`", line, 1)

    def has_words(self, line: Line, fewest: int, most: int) -> bool:
        """Whether a line has so many words."""
        if len(line.words) < fewest:
            self.bad("a missing word", line, len(line.words))
        elif len(line.words) > most:
            self.bad("a word too many", line, most)
        return fewest <= len(line.words) <= most

    def take_round(self, line: Line, _: list[str]) -> None:
        if self.has_words(line, 1, 1):
            self.rounds.append(JobRound())
            if len(self.rounds) == MOST_ROUNDS + 1:
                self.bad("the 1,025th `round`", line, 0)

    def take_end(self, line: Line, _: list[str]) -> None:
        self.has_words(line, 1, 1)
        self.is_ended = True

    def open_round(self, line: Line, row: str) -> JobRound | None:
        """The round to which a line belongs; nothing where there is none, or where it has its capture."""
        if not self.rounds:
            self.bad("`batch` or `capture` before the first `round`", line, 0)
            return None
        if self.rounds[-1].capture:
            self.bad(row, line, 0)
            return None
        return self.rounds[-1]

    def take_batch(self, line: Line, texts: list[str]) -> None:
        round = self.open_round(line, "`batch` behind a `capture`")
        if not round or not self.has_words(line, 3, 4):
            return
        if not is_number(texts[1], self.controls):
            self.bad("the control of a `batch`", line, 1)
        elif int(texts[1]) <= max(round.batches, default=0):
            self.bad("a control that had its batch", line, 1)
        elif texts[3:] not in ([], ["force"]):
            self.bad("another word than `force`", line, 3)
        elif self.is_named(line, 2):
            round.batches[int(texts[1])] = Named(line, 2)

    def take_capture(self, line: Line, texts: list[str]) -> None:
        round = self.open_round(line, "a second `capture`")
        if not round or not self.has_words(line, 4, 4):
            return
        if texts[1] not in HOOKS:
            self.bad("the hook of a `capture`", line, 1)
        elif self.is_named(line, 2) and self.is_named(line, 3):
            round.capture, round.out = Named(line, 2), Named(line, 3)

    def is_named(self, line: Line, at: int) -> bool:
        """Whether a word can be a name in a job."""
        if is_name(line.words[at].text):
            return True
        self.bad("a name", line, at)
        return False


TAKEN: dict[str, Callable[[JobFile, Line, list[str]], None]] = {
    "round": JobFile.take_round,
    "batch": JobFile.take_batch,
    "capture": JobFile.take_capture,
    "end": JobFile.take_end,
}


def missing(name: str) -> str:
    """The row of a line that isn't there."""
    return f"no `{'clsact job 1' if name == 'clsact' else name}`"
