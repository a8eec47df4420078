"""A job file with its batches, and a report of it, put side by side: which line each event is about.

Both are held to their forms in docs/FORMATS.md and to one another as far as their words show it: rounds,
controls, workers, captures and lines are the job's, edits are counted from 1, no point is past the edits of
its round, and what report_checks.py says. Whether the report is lawful isn't looked at, and captures aren't
read. Files have the names that the job gives them, from the folder in which the tool runs.
"""
import shutil
import tempfile
from collections.abc import Iterator
from dataclasses import dataclass, field
from operator import itemgetter
from typing import IO

from batch_lines import Line, lines_of, read
from clsact_texts import At, Object, at_object, foreign, parts_of_text
from cures import why_bad
from job_files import JobFile
from packet_lines import ANY_RUN, packets_in
from progress import Progress
from report_checks import event_fault, packet_fault
from run_samples import Met, Sample
from tool_ends import BLOCK, Fault, shown

# What stands between the thousands of a packet's number and its worker: to spell each number whole takes longer.
TAILS = [b"%03d worker " % it for it in range(1000)]


@dataclass(frozen=True)
class Event:
    """An accepted or refused line, and how many edits were accepted with it."""

    point: int
    is_edit: bool
    said: Object
    batch: str
    text: str


@dataclass
class Round:
    """A round of a report: the edits accepted before it and up to its end, its events, how many packets it has."""

    before: int
    point: int
    events: list[Event] = field(default_factory=list)
    packets: int = 0
    last: dict[int, int] = field(default_factory=dict)


class Job:
    """The batches of each round, by control, and their lines."""

    def __init__(self, name: str) -> None:
        self.name, job = shown(name), JobFile(read(name))
        for fault in job.faults:
            raise Fault(f"{self.name}:{fault.number}: {why_bad(fault)}")
        self.rounds, self.workers = job.rounds, job.workers
        self.lines: dict[str, dict[int, Line]] = {}

    def line(self, batch: str, number: int) -> Line | None:
        """A line of a batch."""
        if batch not in self.lines:
            self.lines[batch] = {it.number: it for it in lines_of(batch)}
        return self.lines[batch].get(number)


class Report:
    """The rounds of a report, read line by line beside its job. Of its packets a sample is kept."""

    def __init__(self, name: str, job: Job, progress: Progress) -> None:
        self.name, self.job = shown(name), job
        self.rounds: list[Round] = []
        self.point, self.is_open, self.number, self.has_capture = 0, False, 0, False
        self.seen: dict[int, int] = {}
        self.summary: Object = {}
        self.foreign: Fault | None = None
        with opened(name) as file:
            self.sample = Sample(count_packets(file))
            self.read(progress.upto(self.parts(file)))
        if self.foreign:
            raise self.foreign
        if (self.summary.get("edits"), self.summary.get("packets")) != (self.point, self.sample.seen):
            raise self.fault("the summary counts other edits or packets than the report has")
        self.sample.count_visits()

    def parts(self, file: IO[bytes]) -> Iterator[tuple[int, tuple[int, bytes | Object]]]:
        """What the report says, with its lines' numbers."""
        parts = parts_of_text(iter(lambda: file.read(BLOCK), b""), self.name, ANY_RUN)
        return ((number, (number, at_object(it) if isinstance(it, At) else it)) for number, it in parts)

    def read(self, parts: Iterator[tuple[int, bytes | Object]]) -> None:
        """Takes what it says, of which the first line says that this is a report."""
        for self.number, said in parts:
            if self.number == 1 and not (isinstance(said, dict) and said["type"] == "report"):
                raise self.fault("this isn't the report of a run")
            if isinstance(said, dict):
                getattr(self, "take_" + said["type"].replace(" ", "_"), self.take_other)(said)
            else:
                self.take_run(said)

    def fault(self, what: str, place: int = 0) -> Fault:
        """What is wrong with the line, or with one of the lines behind it."""
        return Fault(f"{self.name}:{self.number + place}: {what}")

    def take_report(self, said: Object) -> None:
        if self.number != 1:
            raise self.fault("a report begins here within another")

    def take_round(self, said: Object) -> None:
        if self.is_open or said["round"] != len(self.rounds) + 1 or said["round"] > len(self.job.rounds):
            raise self.fault(f"round {said['round']} isn't the job's next one")
        self.rounds.append(Round(self.point, self.point))
        self.is_open, self.has_capture = True, self.job.rounds[len(self.rounds) - 1].capture is not None
        self.seen = {ord(str(worker)): self.point for worker in range(1, self.job.workers + 1)}

    def take_end_round(self, said: Object) -> None:
        if not self.is_open or said["round"] != len(self.rounds):
            raise self.fault(f"round {said['round']} isn't the one that has begun")
        self.rounds[-1].point, self.is_open = self.point, False

    def take_edit(self, said: Object) -> None:
        if said["edit"] != self.point + 1:
            raise self.fault(f"edit {said['edit']} stands where edit {self.point + 1} is due")
        self.point += 1
        self.take_event(said)

    def take_refused(self, said: Object) -> None:
        if said["refused"] != self.point:
            raise self.fault(f"{said['refused']} edits are told where {self.point} were accepted")
        self.take_event(said)

    def take_event(self, said: Object) -> None:
        """An event of the round, with the line that it is about."""
        batches = self.job.rounds[len(self.rounds) - 1].batches if self.is_open else {}
        batch = batches.get(said["control"])
        line = self.job.line(batch.name, said["line"]) if batch else None
        if batch is None or line is None:
            raise self.fault(f"the job's round has no line {said['line']} for control {said['control']}")
        if self.rounds[-1].packets:
            raise self.fault("an event stands behind the packets of its round")
        self.hold(event_fault(said, line, self.rounds[-1].last.get(said["control"], 0)))
        self.rounds[-1].last[said["control"]] = line.number
        is_edit, text = said["type"] == "edit", line.text.strip()
        self.rounds[-1].events.append(Event(self.point, is_edit, said, batch.name, text))

    def hold(self, fault: str) -> None:
        if fault:
            raise self.fault(fault)

    def take_run(self, run: bytes) -> None:
        """Takes the lines of packets, of which there may be very many: those at once whose numbers have as many digits."""
        lines = run[:-1].split(b"\n")
        while lines:
            due = self.rounds[-1].packets + 1 if self.is_open else 1
            count = 10 ** len(str(due)) - due
            self.take_lines(lines[:count])
            lines, self.number = lines[count:], self.number + count

    def take_lines(self, lines: list[bytes]) -> None:
        """Takes packets all at once. Where that can't be, one of them is at fault, and they are looked at one by one."""
        mixed = self.mixed_of(lines) if self.is_open and self.has_capture else None
        if mixed is None:
            for place, line in enumerate(lines):
                self.take_packet(line, place)
            raise self.fault("this tool finds no fault in packets that it doesn't take, which is its own fault")
        self.sample.take(len(self.rounds), lines, mixed)

    def mixed_of(self, lines: list[bytes]) -> list[int] | None:
        """Which of these packets met several points, by their places; nothing where one of them can't be so. A worker is
        one digit, and what stands behind it is known from other lines mostly, so that it isn't read anew."""
        due = self.rounds[-1].packets + 1
        fronts = fronts_from(due, len(lines))
        at = len(fronts[0])
        if list(map(itemgetter(slice(at)), lines)) != fronts or min(map(len, lines)) <= at:
            return None
        workers, mets = list(map(itemgetter(at), lines)), self.sample.met(list(map(itemgetter(slice(at + 1, None)), lines)))
        seen = self.seen_behind(workers, mets) if mets and self.seen.keys() >= set(workers) else None
        if not mets or not seen or max(it.highest for it in set(mets)) > self.point:
            return None
        self.seen, self.rounds[-1].packets = seen, due + len(lines) - 1
        is_mixed = any(it.is_mixed for it in set(mets))
        return [place for place, it in enumerate(mets) if it.is_mixed] if is_mixed else []

    def seen_behind(self, workers: list[int], mets: list[Met]) -> dict[int, int] | None:
        """The last point that each worker has seen behind these packets; nothing where one has met an earlier one."""
        seen, points = dict(self.seen), {point for it in set(mets) for point in (it.first, it.highest)}
        if len(points) == 1 and points >= {max(*seen.values(), *points)}:
            return seen | dict.fromkeys(workers, *points)
        for worker, met in zip(workers, mets):
            if met.first < seen[worker]:
                return None
            seen[worker] = met.highest
        return seen

    def take_packet(self, line: bytes, place: int) -> None:
        """Holds one packet of a run to its job."""
        packet = next(packets_in(line + b"\n"), None)
        if packet is None:
            raise foreign(self.name, self.number + place)
        if not self.is_open or "worker" not in packet or "points" not in packet:
            raise self.fault("this packet isn't one of a round, with its worker and its points", place)
        if max(packet["points"]) > self.point:
            raise self.fault(f"point {max(packet['points'])} is past the {self.point} edits of the round", place)
        if not self.has_capture:
            raise self.fault("the job's round has no capture", place)
        worker, due = ord(str(packet["worker"])[0]), self.rounds[-1].packets + 1
        floor = self.seen.get(worker, self.rounds[-1].before)
        if what := packet_fault(packet, due, self.job.workers, floor):
            raise self.fault(what, place)
        self.seen[worker], self.rounds[-1].packets = max(packet["points"]), due

    def take_summary(self, said: Object) -> None:
        self.summary = said

    def take_other(self, said: Object) -> None:
        if said["type"] not in ("counter", "end") and not self.foreign:
            self.foreign = self.fault("no report has such a line")


def fronts_from(due: int, count: int) -> list[bytes]:
    """What stands before the workers of so many packets in order, whose numbers have as many digits."""
    if due < len(TAILS):
        return [b"packet %d worker " % it for it in range(due, due + count)]
    fronts: list[bytes] = []
    while len(fronts) < count:
        thousands, place = divmod(due + len(fronts), len(TAILS))
        front = b"packet %d" % thousands
        fronts += [front + it for it in TAILS[place:place + count - len(fronts)]]
    return fronts


def opened(name: str) -> IO[bytes]:
    """A report that is open at its first line, and may be read twice."""
    try:
        file = open(name, "rb", buffering=1 << 20)
        if file.seekable():
            return file
        copy = tempfile.TemporaryFile()
        with file:
            shutil.copyfileobj(file, copy, 1 << 20)
        copy.seek(0)
        return copy
    except OSError as error:
        raise Fault(f"{shown(name)}: cannot read: {error.strerror}") from None


def count_packets(file: IO[bytes]) -> int:
    """How many lines of packets there are."""
    count, last = 0, b""
    while part := file.read(1 << 20):
        count += (last + part).count(b"\npacket ")
        last = part[-7:]
    file.seek(0)
    return count
