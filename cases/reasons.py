"""Why a report of a job isn't lawful: a twin of the table of reasons in docs/FORMATS.md, for the jobs of lawful.py. It shares nothing
with the program.
"""
import re

from lawful import Bad, report_lines

WORDS = ["the end is missing", "not a report's title", "another line of a round is due", "the event of a command is due",
         "another result of its command", "the next packet is due", "the worker's number", "a point below the floor",
         "a point below the walk's first", "a point past the journal", "a mask that had left", "an action that isn't there",
         "points of one mask or action fall", "too many points", "too few points", "another verdict", "another length or metadata",
         "another counter", "another summary", "the last line is due", "a line behind the end"]
NUMBER = "(?:0|[1-9][0-9]*)"
SHOWS = re.compile(f"packet ({NUMBER}) worker ({NUMBER}) (.*) points((?: {NUMBER})*)\n", re.S)
DUE = [("clsact", "not a report's title"), ("round", "another line of a round is due"), ("end round", "another line of a round is due"),
       ("counter", "another counter"), ("summary", "another summary"), ("end\n", "the last line is due")]


def told(number, why):
    """What is told on standard error of a report whose line of that number is the first bad one."""
    return f"report not lawful at line {number}\nline {number}: no lawful report goes on so: {why}\n"


def numbers_of(line):
    """The number, worker and points that a packet's line shows; none where it shows no such."""
    found = SHOWS.fullmatch(line)
    numbers = [int(it) for it in [found[1], found[2], *found[4].split()]] if found else []
    return numbers if all(it < 2**32 for it in numbers) else []


def control_in(line):
    """The control that an event's line names."""
    words = line.split(" ", 3)
    is_event = words[0] in ("edit", "refused") and len(words) == 4 and words[3][:1] >= "0"
    return ord(words[3][0]) - ord("0") if is_event else None


class Due:
    """Picks what the next line tells, as far as it goes, and keeps why it doesn't."""

    def __init__(self, lines):
        self.lines, self.place, self.why = lines, 0, ""
        self.points, self.fell = [], False

    @property
    def line(self):
        return self.lines[self.place] if self.place < len(self.lines) else ""

    def event(self, options):
        control = control_in(self.line)
        named = [it for it in options if int(it.split(" ")[3]) == control]
        self.why = "another result of its command" if named else "the event of a command is due"
        return options.index(self.line) if self.line in options else 0

    def packet(self, workers):
        first = max(at for at in range(self.place) if self.lines[at].startswith("round "))
        number = 1 + sum(it.startswith("packet ") for it in self.lines[first : self.place])
        shown = numbers_of(self.line)
        if not shown or shown[0] != number:
            self.stop("the next packet is due")
        if not 1 <= shown[1] <= workers:
            self.stop("the worker's number")
        self.points, self.fell = shown[2:], False
        self.visits = 0
        return shown[1], self.choose

    def stop(self, why):
        self.why = "points of one mask or action fall" if self.fell else why
        raise Bad

    def choose(self, low, high, stands, thing):
        """The next point of the line. Those of a later visit are not below the first one here, so one that is too low falls."""
        if not self.visits and self.points:
            self.hold_bounds(low, high)
        if self.visits == len(self.points):
            self.stop("too few points")
        point = self.points[self.visits]
        if not stands(point):
            self.stop("a mask that had left" if thing == "mask" else "an action that isn't there")
        self.fell = self.fell or point < low
        self.visits += 1
        return point

    def hold_bounds(self, low, high):
        if self.points[0] < low:
            self.stop("a point below the floor")
        if max(self.points) > high:
            self.stop("a point past the journal")
        if min(self.points) < self.points[0]:
            self.stop("a point below the walk's first")

    def ended(self, line):
        """Why a packet's line isn't that of its walk, which came to an end."""
        if self.fell or self.visits < len(self.points):
            return "points of one mask or action fall" if self.fell else "too many points"
        return "another verdict" if verdict_differs(self.line, line) else "another length or metadata"


def verdict_differs(line, due):
    """Whether two lines part in their fifth word: so many blanks stand before the first byte that differs."""
    same = next((at for at, (one, other) in enumerate(zip(line, due)) if one != other), None)
    return same is not None and due[:same].count(" ") == 4


def reason(job, lines):
    """Why no lawful report goes on with the first bad one of these lines; nothing where they are a lawful report."""
    due = Due(lines)
    try:
        for line in report_lines(job, due):
            if due.place >= len(lines):
                return "the end is missing"
            if line.startswith("packet ") and (due.fell or due.visits < len(due.points) or line != due.line):
                return due.ended(line)
            if line != due.line:
                return next((why for begin, why in DUE if line.startswith(begin)), due.why)
            due.place += 1
    except Bad:
        return due.why if due.place < len(lines) else "the end is missing"
    return "" if due.place == len(lines) else "a line behind the end"
