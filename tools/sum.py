"""Adds the texts that walks of one batch wrote, or traces, as if their captures had been one; or the reports of
runs of one job, or their traces.

A packet's walk depends on the batch and on the packet alone, so the pieces of a capture may be walked
apart, and what the actions counted adds up, and how often each filter decided. Written are a refused line,
of traces the `decided` lines, the counters, the summary and `end`, as for the whole. The lines of packets
and of visits are left out: their numbers are those of a piece. Of reports the first line is written, and
rounds, events and packets are left out.

Each text is read to its end and held to its form: packets numbered from 1, each behind its own visits, as
many as its summary says, and as many of them passed. A text without any line of a packet, as this tool and
`gen` write it, is taken as well, so sums add up again. All texts have to be of one batch, as far as they
show it: the same refused line, the same filters by hook, chain, pref and handle, with the lines that
brought them, the same actions by serial, kind and index, and as many edits. Reports have to be of runs
with the same edits, as far as these lines show it, and with as many refused lines. What isn't noticed: a
piece or a run that is given twice or not at all; of walks another hook, and another batch that makes the
same actions; what a trace tells of a visit.
"""
import re
import sys
from collections.abc import Iterator
from dataclasses import dataclass, field
from typing import BinaryIO

from progress import Progress
from tool_ends import Fault, OneLineParser, end_with, shown

REPORT = b"clsact report 1"
ROUND = re.compile(rb"round (\d+)")
EVENT = re.compile(rb"(edit|refused) (\d+) control [1-4] line \d+ [!-~ ]+")
REFUSED = re.compile(rb"refused \d+ control 1 line \d+ [A-Za-z]+( [0-9A-Za-z.]+){0,2}")
LEFT = rb"( priority [0-9a-f]+:[0-9a-f]+ mark \d+ queue \d+)?"
END = rb"(pass|drop) length \d+" + LEFT
PACKET = re.compile(rb"packet (\d+) " + END)
RUN_PACKET = re.compile(rb"packet (\d+) worker [1-8] " + END + rb" points \d+(?: \d+)*")
COUNTER = re.compile(rb"counter serial (\d+) ((?:gact|vlan|skbedit) index \d+) packets (\d+) bytes (\d+)")
SUMMARY = re.compile(rb"summary edits (\d+) refused (\d+) packets (\d+) passed (\d+) dropped (\d+)")
AT = re.compile(rb"at (\d+) [!-~ ]+")
PLACE = rb"(?:ingress|egress) chain \d+ pref \d+ protocol [!-~]+ handle 0x[0-9a-f]+"
DECIDED = re.compile(rb"decided (\d+) (edit \d+ control 1 line \d+ " + PLACE + rb")")
RUN_DECIDED = re.compile(rb"decided (\d+) (edit \d+ control [1-4] line \d+ " + PLACE + rb"(?: gone \d+)?)")
LONGEST = 1000
# The line of a packet has as many points as its walk has visits.
LONGEST_OF_RUN = 1 << 20


@dataclass
class Walk:
    """What one text tells: of its batch or its run, and of its packets."""

    is_report: bool = False
    refused: bytes = b""
    filters: list[bytes] = field(default_factory=list)
    times: list[int] = field(default_factory=list)
    names: list[bytes] = field(default_factory=list)
    counts: list[tuple[int, int]] = field(default_factory=list)
    edits: int = 0
    refusals: int = 0
    rounds: int = 0
    seen_edits: int = 0
    seen_refusals: int = 0
    begun: int = 0
    last: int = 0
    seen: int = 0
    seen_passed: int = 0
    packets: int = 0
    passed: int = 0


class Text:
    """The lines of a file, with what is wrong with one of them."""

    def __init__(self, name: str, file: BinaryIO, progress: Progress) -> None:
        self.name, self.file, self.number, self.progress = shown(name), file, 0, progress
        self.longest = LONGEST

    def next_line(self) -> bytes:
        """The next line without its line feed; nothing where the file is at its end."""
        line = self.file.readline(self.longest)
        self.number += 1
        self.progress.count += 1
        if line and not line.endswith(b"\n"):
            raise self.fault("a line is cut, or far too long")
        return line[:-1] if line != b"\n" else b"\n"

    def fault(self, what: str) -> Fault:
        return Fault(f"{self.name}:{self.number}: {what}")


def take_event(text: Text, walk: Walk, found: re.Match[bytes]) -> None:
    walk.seen_edits += found[1] == b"edit"
    walk.seen_refusals += found[1] == b"refused"
    if int(found[2]) != walk.seen_edits:
        raise text.fault(f"{int(found[2])} edits are told where {walk.seen_edits} were accepted")


def take_visit(text: Text, walk: Walk, found: re.Match[bytes]) -> None:
    if int(found[1]) != walk.last + 1:
        raise text.fault(f"a visit of packet {int(found[1])} stands where packet {walk.last + 1} is due")
    walk.begun = walk.last + 1


def take_packet(text: Text, walk: Walk, found: re.Match[bytes]) -> None:
    walk.seen += 1
    walk.last += 1
    walk.seen_passed += found[2] == b"pass"
    if int(found[1]) != walk.last:
        raise text.fault(f"packet {int(found[1])} stands where packet {walk.last} is due")


def take_decided(text: Text, walk: Walk, found: re.Match[bytes]) -> None:
    if found[2] in walk.filters[-1:]:
        raise text.fault("the filter of the line before stands here again")
    walk.filters.append(found[2])
    walk.times.append(int(found[1]))


def take_counter(text: Text, walk: Walk, found: re.Match[bytes]) -> None:
    walk.names.append(b"counter serial %s %s" % (found[1], found[2]))
    walk.counts.append((int(found[3]), int(found[4])))
    if int(found[1]) != len(walk.names):
        raise text.fault(f"serial {int(found[1])} stands where serial {len(walk.names)} is due")


def take_summary(text: Text, walk: Walk, found: re.Match[bytes]) -> None:
    walk.edits, walk.refusals, walk.packets, walk.passed, dropped = map(int, found.groups())
    if walk.passed + dropped != walk.packets:
        raise text.fault("passed and dropped aren't the packets")
    if (walk.seen or walk.rounds) and (walk.seen, walk.seen_passed) != (walk.packets, walk.passed):
        raise text.fault(f"the text has {walk.seen} packets, {walk.seen_passed} of them passed")
    seen = walk.seen_refusals if walk.rounds else walk.refusals if walk.is_report else int(bool(walk.refused))
    if walk.refusals != seen:
        raise text.fault("another number of refused lines than the text has")
    if walk.rounds and walk.edits != walk.seen_edits:
        raise text.fault(f"the text has {walk.seen_edits} edits")


def read_packets(text: Text, walk: Walk, line: bytes) -> bytes:
    """The packets from this line on, each behind its visits, numbered from 1. The line behind them."""
    walk.begun = walk.last = 0
    form = RUN_PACKET if walk.is_report else PACKET
    while found := AT.fullmatch(line) or form.fullmatch(line):
        (take_visit if found.re is AT else take_packet)(text, walk, found)
        line = text.next_line()
    if walk.begun > walk.last:
        raise text.fault(f"packet {walk.begun} is due behind its visits")
    return line


def read_rounds(text: Text, walk: Walk) -> bytes:
    """The rounds of a report. The line behind them."""
    line = text.next_line()
    while found := ROUND.fullmatch(line):
        walk.rounds += 1
        if int(found[1]) != walk.rounds:
            raise text.fault(f"round {int(found[1])} stands where round {walk.rounds} is due")
        line = text.next_line()
        while found := EVENT.fullmatch(line):
            take_event(text, walk, found)
            line = text.next_line()
        if read_packets(text, walk, line) != b"end round %d" % walk.rounds:
            raise text.fault(f"round {walk.rounds} isn't ended here, and goes on with no such line")
        line = text.next_line()
    return line


def read_walk(text: Text, first: bytes) -> Walk:
    """The text that begins with this line, up to its `end`."""
    walk, line = Walk(first == REPORT), first
    text.longest = LONGEST_OF_RUN if walk.is_report else LONGEST
    if REFUSED.fullmatch(line):
        walk.refused, line = line, text.next_line()
    line = read_rounds(text, walk) if walk.is_report else read_packets(text, walk, line)
    form = RUN_DECIDED if walk.is_report else DECIDED
    while found := form.fullmatch(line):
        take_decided(text, walk, found)
        line = text.next_line()
    while found := COUNTER.fullmatch(line):
        take_counter(text, walk, found)
        line = text.next_line()
    if not (found := SUMMARY.fullmatch(line)):
        what = "run" if walk.is_report else "walk"
        raise text.fault("the text ends early" if not line else f"no line of a {what}'s text stands here")
    take_summary(text, walk, found)
    if text.next_line() != b"end":
        raise text.fault("`end` is due behind the summary")
    return walk


def walks_of(name: str, progress: Progress) -> Iterator[tuple[Text, Walk]]:
    """The texts of a file, one behind the other, each with the place of its end."""
    try:
        with open(name, "rb") as file:
            text = Text(name, file, progress)
            line = text.next_line()
            if not line:
                raise text.fault("the file is empty")
            while line:
                yield text, read_walk(text, line)
                line = text.next_line()
    except OSError as error:
        raise Fault(f"{shown(name)}: cannot read: {error.strerror}") from None


def difference(total: Walk, walk: Walk) -> str:
    """What shows that a text is of another batch than the first, or of a run with other edits; else nothing."""
    if walk.is_report != total.is_report:
        return "are a walk's and a run's"
    of, came = ("runs with other edits", "were brought") if walk.is_report else ("other batches", "stood")
    if walk.refused != total.refused:
        return f"are of {of}: another line is refused"
    if bool(walk.filters) != bool(total.filters):
        kind = "report" if walk.is_report else "walk"
        return f"are a {kind}'s and a trace's: one has `decided` lines"
    if walk.filters != total.filters:
        hooks = "" if walk.is_report else " or hooks"
        return f"are of {of}{hooks}: other filters {came}"
    if walk.names != total.names:
        return f"are of {of}: other actions were made"
    if walk.edits != total.edits:
        return f"are of {of}: another number of edits"
    return f"are of {of}: another number of refused lines" if walk.refusals != total.refusals else ""


def add_walk(total: Walk, text: Text, walk: Walk) -> None:
    """Adds a walk to the total, whose batch has to be the same, or a run whose edits have to be."""
    if found := difference(total, walk):
        raise text.fault(f"this text and the first {found}")
    total.times = [a + b for a, b in zip(total.times, walk.times)]
    total.counts = [(a + c, b + d) for (a, b), (c, d) in zip(total.counts, walk.counts)]
    total.packets += walk.packets
    total.passed += walk.passed


def lines_of(walk: Walk) -> Iterator[str]:
    """The text of a walk, a run or a trace without its packets."""
    if walk.is_report:
        yield REPORT.decode()
    if walk.refused:
        yield walk.refused.decode()
    yield from (f"decided {times} {name.decode()}" for name, times in zip(walk.filters, walk.times))
    for name, (packets, size) in zip(walk.names, walk.counts):
        yield f"{name.decode()} packets {packets} bytes {size}"
    counted = f"packets {walk.packets} passed {walk.passed} dropped {walk.packets - walk.passed}"
    yield f"summary edits {walk.edits} refused {walk.refusals} {counted}"
    yield "end"


def words(given: list[str]) -> list[str]:
    """The names on the command line."""
    about = """Adds walk texts of one batch, or texts of traces, as if their captures had been one; or reports of runs
        of one job, or their traces."""
    more = """Written are a refused line, of traces how often each filter decided, the counters, the summary
        and `end`. Lines of packets are left out: their numbers are those of a piece. Reports have to be of runs with
        the same edits, and their rounds are left out. A FILE may hold several texts, one behind the other, and be
        /dev/stdin. A text that is cut, isn't of a walk, a run or a trace, or is of another batch or of other
        edits is told in one line on standard error, with exit 2, and nothing is written. Not noticed: a piece or
        a run given twice or missing, and of walks another hook."""
    parser = OneLineParser(prog="./clsact sum", description=about, epilog=more)
    parser.add_argument("FILE", nargs="+", help="what `walk`, `trace`, `run`, `gen` or `sum` wrote")
    names: list[str] = parser.parse_args(given).FILE
    return names


def sum_of(names: list[str], progress: Progress) -> Walk:
    """All walks of these files, as one."""
    total: Walk | None = None
    for name in names:
        for text, walk in walks_of(name, progress):
            if total is None:
                total = walk
            else:
                add_walk(total, text, walk)
    assert total is not None
    return total


def main(given: list[str]) -> int:
    names = words(given)
    with Progress("clsact sum", "lines") as progress:
        total = sum_of(names, progress)
    print("\n".join(lines_of(total)))
    return 0


if __name__ == "__main__":
    end_with(main)
