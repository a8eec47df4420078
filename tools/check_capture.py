"""Says of a batch and a capture which packets met a filter on what they lack, which Linux would judge
otherwise, and which filters no packet met.

A packet that was cut, a fragment, a header that is short: what isn't there reads 0 here, and a filter on it
takes the packet or lets it go by that 0. Of a packet that was cut nobody knows what the whole one would meet.
Of the others, those with IPv6 extension headers and with a length in the protocol's place, Linux' verdict is
worked out: by the same rules, from a reading of the frame as docs/LINUX.md has it. The program traces the
capture, and a packet of which its verdict isn't found again is told as a fault of this tool. Behind the
packets stand the filters that decided none, with the lines that brought them. Where the program has no
traces, it walks the capture, and filters aren't told. What isn't promised: that a packet that isn't told is
judged alike on Linux.
"""
import re
from collections import deque
from collections.abc import Iterator
from dataclasses import dataclass, field
from itertools import chain
from typing import BinaryIO

from capture_files import Record, capture_in, opened
from decided_filters import Decided
from frame_fields import PORTS, Frame, Reading
from frame_walk import Table, Walk, tables_of
from hints import tell
from program import CANNOT_READ, Answer, CannotRead, build, kept, read_batch, show_bytes, take_program
from progress import Progress
from tool_ends import Fault, OneLineParser, end_with, shown
from tracer import Trace

HOOKS = ("ingress", "egress")
LISTED = 10
# The exit number of a program that doesn't know the word.
NO_TRACE = 2
NUMBERED = re.compile(rb"packet (\d+) (pass|drop) length \d+(?: priority (\S+) mark (\d+) queue (\d+))?")
PROTOCOL = frozenset(("ip_proto",)) | PORTS


@dataclass
class Sort:
    """Packets that lack something: what they are, what a filter on that means, and the page on it."""

    what: str
    means: str
    page: str
    count: int = 0
    met: list[int] = field(default_factory=list)
    otherwise: list[int] = field(default_factory=list)
    filters: dict[str, int] = field(default_factory=dict)

    def take(self, number: int, walk: Walk, is_otherwise: bool) -> None:
        self.count += 1
        if walk.met:
            self.met.append(number)
            for it in dict.fromkeys(walk.met):
                self.filters[it] = self.filters.get(it, 0) + 1
        if is_otherwise:
            self.otherwise.append(number)

    def told(self) -> Iterator[str]:
        yield f"{self.count} {self.what}: {len(self.met)} met a filter on {self.means} ({self.page})"
        for it, count in sorted(self.filters.items(), key=lambda of: -of[1])[:LISTED]:
            yield f"  {it}: met by {count}"
        if self.met:
            yield f"  packets {listed(self.met)}"
        if self.otherwise:
            yield f"  Linux judges {len(self.otherwise)} otherwise: packets {listed(self.otherwise)}"


def listed(numbers: list[int]) -> str:
    return " ".join(map(str, numbers[:LISTED])) + " .." * (len(numbers) > LISTED)


CUT, EXTENSIONS, LENGTHS, FRAGMENTS, SHORT = range(5)


def sorts() -> list[Sort]:
    linux = "docs/LINUX.md"
    return [
        Sort("cut within a header", "what is cut off, which reads 0 here; whole, they may be judged otherwise", "docs/CAPTURES.md"),
        Sort("with IPv6 extension headers", "what stands behind them", linux),
        Sort("with a length in the protocol's place", "the protocol", linux),
        Sort("IPv4 fragments", "ports or flags, which they lack on Linux too", linux),
        Sort("with a header that is missing or short", "what isn't there", linux),
    ]


def sort_of(frame: Frame, record: Record) -> tuple[int, frozenset[str]] | None:
    """Of which sort a packet is, and which fields it lacks; nothing where it lacks none."""
    missing = frame.missing()
    if missing:
        return (CUT if len(record.data) < record.original else SHORT), missing
    if frame.has_extensions():
        return EXTENSIONS, PROTOCOL
    if frame.is_of_length():
        return LENGTHS, frozenset(("vlan_ethtype",))
    return (FRAGMENTS, PORTS) if frame.is_fragment else None


def read_here(data: bytes) -> Reading:
    return Frame(data).reading()


def read_on_linux(data: bytes) -> Reading:
    return Frame(data).on_linux()


def meets_by_protocol(tables: list[Table], frame: Frame) -> list[str]:
    """The tables that look at the protocol of a frame that has a length there, here or on Linux."""
    kinds = (frame.kind, frame.on_linux().kind)
    return [f"chain {it.chain}, protocol 0x{it.protocol:04x}" for it in tables if it.protocol in kinds and kinds[0] != kinds[1]]


def found_again(said: bytes, number: int, walk: Walk) -> bool:
    """Whether the program's line of a packet says what the walk came to."""
    found = NUMBERED.fullmatch(said)
    if not found or int(found[1]) != number or found[2].decode() != walk.verdict:
        return False
    marks = [it.decode() if it else None for it in found.groups()[2:]]
    return walk.verdict == "drop" or marks[0] is None or marks == list(walk.marks.values())


def judge(tables: list[Table], records: Iterator[Record], lines: Iterator[bytes]) -> tuple[int, list[Sort]]:
    """How many packets there are, and those that lack something, by sort."""
    found, number = sorts(), 0
    for number, (record, line) in enumerate(zip(records, lines), 1):
        frame = Frame(record.data)
        of = sort_of(frame, record)
        if of:
            sort, lacking = of
            here = Walk(tables, record.data, read_here, lacking)
            if not found_again(line, number, here):
                raise Fault(f"packet {number}: the program judges it otherwise than this tool does, which is the tool's fault")
            here.met += meets_by_protocol(tables, frame) if sort == LENGTHS else []
            linux = Walk(tables, record.data, read_on_linux)
            found[sort].take(number, here, sort not in (CUT, FRAGMENTS) and linux.outcome() != here.outcome())
    return number, found


@dataclass
class Judged:
    """How the program ended, and what it and this tool say of the packets."""

    answer: Answer
    count: int
    sorts: list[Sort]
    decided: Decided


@dataclass(frozen=True)
class Given:
    """The hook, the batch and an open capture, with the names of the two."""

    program: str
    hook: str
    batch: bytes
    file: BinaryIO
    names: tuple[str, str]


def judged(given: Given, tables: list[Table], progress: Progress, *out: str) -> Judged:
    """What the packets of a capture lack, beside the program's trace of it, or with words for an output its walk.
    Without a text nothing is judged."""
    trace, decided = Trace(given.program, given.hook, given.batch, given.file, *out), Decided()
    lines, count, found = decided.packets(trace.lines()), 0, sorts()
    first = next(lines, None)
    if first is not None:
        capture = capture_in(opened(f"/proc/self/fd/{given.file.fileno()}"))
        assert capture
        count, found = judge(tables, progress.counted(capture.records()), chain((first,), lines))
        deque(lines, 0)
    return Judged(trace.end(*given.names), count, found, decided)


def told_of(made: Judged, batch: str, capture: str) -> Iterator[str]:
    """All lines on a capture."""
    lacking = [it for it in made.sorts if it.count]
    lack = sum(it.count for it in lacking)
    yield f"{capture}: {made.count} packets, {lack} of which lack what a filter may look at"
    for it in lacking:
        for what in it.told():
            yield f"{capture}: {what}" if not what.startswith(" ") else what
    yield from made.decided.told(batch, capture)


def tell_capture(given: Given) -> int:
    """Tells of a capture what its packets lack, and which filters they didn't meet; returns the exit number."""
    shows = show_bytes(given.program, given.names[0], given.batch)
    if shows.number > 1:
        tell(shows.told, ["trace", given.hook, *given.names])
        return shows.number
    tables = tables_of(list(shows.objects), given.hook)
    with Progress("clsact check", "packets") as progress:
        made = judged(given, tables, progress)
        if made.answer.number == NO_TRACE:
            made = judged(given, tables, progress, "/dev/null")
    tell(made.answer.told, ["trace", given.hook, *given.names])
    if made.answer.number <= 1:
        print("\n".join(told_of(made, *map(shown, given.names))))
    return made.answer.number


def main(words: list[str]) -> int:
    about = "Says which packets of a capture met a filter on what they lack, and which filters no packet met."
    more = """Of the packets it tells too which Linux would judge otherwise. Exit numbers are those of
        `./clsact walk`."""
    parser = OneLineParser(prog="./clsact check", description=about, epilog=more)
    parser.add_argument("HOOK", choices=HOOKS)
    parser.add_argument("BATCH", help="a file of tc lines")
    parser.add_argument("CAPTURE", help="a capture that `walk` takes")
    take_program(parser)
    given = parser.parse_args(words)
    build(given.program)
    name = given.BATCH
    try:
        batch, name = read_batch(name), given.CAPTURE
        with kept(name) as file:
            return tell_capture(Given(given.program, given.HOOK, batch, file, (given.BATCH, name)))
    except CannotRead:
        tell(f"cannot read {shown(name)}\n", ["trace", *words])
        return CANNOT_READ


if __name__ == "__main__":
    end_with(main)
