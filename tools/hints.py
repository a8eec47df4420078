"""What a failure of the program means for the files at hand, in one line, with the command that cures it.

`./clsact` calls it behind the program's own line, which stays as it is, where standard error is a terminal;
and before a command that writes files, where the shell sees that one of them can't be written. A file is
looked at by its name, after the program has ended; one that can't be read twice, as a pipe, isn't read. What
isn't promised: that a file is still as the program found it.
"""
import os
import shlex
import stat
import struct
import sys
from collections.abc import Callable, Iterator
from dataclasses import dataclass
from re import fullmatch

from capture_files import LONGEST, PACKERS
from cures import why_bad
from ethernet_frames import ETHERNET, LINKS, MOST, link_name
from file_faults import STANDARD_INPUT, free_in, read_fault, stream_fault, write_fault
from input_kinds import FRONT, TEXTS, kind_of, link_word, version_of
from job_files import JobFile
from tool_ends import Fault, shown

SUFFIXES = (".gz", ".bz2", ".xz", ".zst", ".pcapng", ".ntar", ".pcap", ".cap", ".dmp")
ESCAPES = {0: "\\0", 9: "\\t", 10: "\\n", 13: "\\r", 34: '\\"', 92: "\\\\"}
MOST_OF_JOB = 1 << 24
CUT = "editcap -F pcap -c 1000000"
HOOKS = ("ingress", "egress")


@dataclass(frozen=True)
class Asked:
    """A command that failed: how the program is called, and the words behind that."""

    call: str
    words: list[str]

    @property
    def command(self) -> str:
        return self.words[0] if self.words else ""

    @property
    def has_job(self) -> bool:
        """Whether the first name is a job's."""
        return self.command in ("run", "recheck") and len(self.words) > 1 or self.is_report_trace

    @property
    def is_report_trace(self) -> bool:
        """Whether a report is to be traced."""
        return self.command == "trace" and len(self.words) == 3

    def job(self) -> JobFile | None:
        """The job of the command, where it has one that can be read again."""
        return JobFile(front_of(self.words[1], MOST_OF_JOB)) if self.has_job else None

    def inputs(self) -> list[str]:
        """The files that the command reads, with its other words."""
        job = self.job()
        return self.words[1:] + ([it.name for it in job.inputs] if job else [])

    def outputs(self) -> list[str]:
        """The files that the command writes."""
        if self.command == "walk":
            return self.words[4:5]
        if self.command == "gen" and len(self.words) > 2:
            return [self.words[2] + it for it in (".tc", ".pcap", ".job", ".out.pcap")]
        job = self.job() if self.command == "run" else None
        return [it.name for it in job.outputs] if job else []


@dataclass(frozen=True)
class Broken:
    """A file that breaks its form, as the program tells it: at which place, and the number behind its
    kind."""

    asked: Asked
    file: str
    place: int
    number: int

    @property
    def name(self) -> str:
        return named(self.file)

    def front(self, most: int = FRONT) -> bytes:
        return front_of(self.file, most)

    def converted(self) -> str:
        """The command that makes a capture of the file."""
        return f"{self.asked.call} convert {quoted(self.file)} {quoted(plain_name(self.file))}"


def named(name: str) -> str:
    """A file as it is told."""
    return "standard input" if name == STANDARD_INPUT else shown(name)


def quoted(name: str) -> str:
    """A file as a shell takes it."""
    if name == STANDARD_INPUT:
        return "-"
    return shlex.quote(f"./{name}" if name.startswith("-") else name) if name.isprintable() else "FILE"


def as_told(name: str) -> str:
    """A name as the program tells it: one with control characters is quoted."""
    if not any(ord(it) < 32 or ord(it) == 127 for it in name):
        return name
    return f'"{"".join(map(letter_as_told, name))}"'


def letter_as_told(letter: str) -> str:
    if ord(letter) in ESCAPES:
        return ESCAPES[ord(letter)]
    return letter if letter.isprintable() else f"\\u{{{ord(letter):x}}}"


def front_of(name: str, most: int = FRONT) -> bytes:
    """The first bytes of a plain file; nothing of another one."""
    try:
        if stat.S_ISREG(os.stat(name).st_mode):
            with open(name, "rb") as file:
                return file.read(most)
    except (OSError, ValueError):
        pass
    return b""


def plain_name(name: str) -> str:
    """A name for the capture that `convert` makes of a file: none that is taken."""
    base = "in" if name == STANDARD_INPUT else name
    while (end := os.path.splitext(base)[1]) in SUFFIXES:
        base = base.removesuffix(end)
    names = [f"{base}.pcap", f"{base}.plain.pcap", *(f"{base}.{number}.pcap" for number in range(2, 100))]
    return next((it for it in names if not os.path.lexists(it)), names[-1])


def not_known(it: Broken) -> str:
    """Of a file whose first bytes aren't those of a capture."""
    kind = kind_of(it.front())
    if kind in TEXTS:
        due = ": walk HOOK BATCH CAPTURE OUT" * (it.asked.command == "walk")
        return f"{it.name} is {TEXTS[kind]}, where a capture is due{due}"
    if kind == "pcapng":
        return f"{it.name} is pcapng, as Wireshark saves it: {it.converted()}"
    if kind in (packer for _, packer, _ in PACKERS):
        return f"{it.name} is packed by {kind}: {it.converted()}"
    if kind == "libpcap":
        return f"{it.name} is libpcap with longer heads of packets: {it.converted()}"
    return f"{it.name} is no libpcap file; of pcapng, packed ones, or by editcap others: {it.converted()}"


def of_another_version(it: Broken) -> str:
    return f"{it.name} is libpcap of version {version_of(it.front())}, and 2.4 is due: {it.converted()}"


def not_ethernet(it: Broken) -> str:
    word = link_word(it.front())
    if word is None:
        return f"{it.name} has another link type than Ethernet: {it.converted()}"
    link = word & 0xFFFF
    if link == ETHERNET:
        return f"{it.name} has the link word 0x{word:08x}, Ethernet with a note on it: {it.converted()}"
    if link in LINKS:
        return f"{it.name} has {link_name(link)}, of which Ethernet can be made: {it.converted()}"
    return f"{it.name} has {link_name(link)}, of which no Ethernet can be made"


def too_short(it: Broken) -> str:
    if it.place and kind_of(it.front()) != "libpcap":
        return not_known(it)
    what = f"ends at byte {it.place}, within its head" if it.place else "is empty"
    return f"{it.name} {what}; a capture has 24 bytes before its first packet"


def breaks_off(it: Broken) -> str:
    return f"{it.name} breaks off in the packet at byte {it.place}; for those before it: {it.converted()}"


def too_long(it: Broken) -> str:
    if it.number > LONGEST:
        return f"{it.name} has no packet at byte {it.place}; for those before it: {it.converted()}"
    return f"{it.name} has a packet of {it.number} bytes, and {MOST} is the most; to cut it: {it.converted()}"


def too_many_packets(it: Broken) -> str:
    more = ", or the job's captures have together" * it.asked.has_job
    return f"{it.name} has more than 1048576 packets{more}: {CUT} {quoted(it.file)} piece.pcap; docs/SCALE.md"


def too_many_lines(it: Broken) -> str:
    together = {"foresee": ", of batch and change together"}.get(it.asked.command, "")
    more = ", of all batches of a job together" if it.asked.has_job else together
    return f"{it.name}:{it.place}: 262144 lines with words are the most{more}"


def bad_job(it: Broken) -> str:
    """Why no job goes on with a line."""
    data = it.front(MOST_OF_JOB)
    kind = kind_of(data)
    if kind not in ("job", "nothing") and it.place == 1:
        return f"{it.name} is {TEXTS.get(kind, kind)}, where a job is due: {it.asked.call} help job"
    fault = next(iter(JobFile(data).faults), None)
    if not fault or fault.number != it.place:
        return f"{it.name}:{it.place}: no job goes on with this line: {it.asked.call} help job"
    return f"{it.name}:{it.place}: {why_bad(fault)}; {it.asked.call} check {quoted(it.file)} tells all"


OF_FORM: dict[str, Callable[[Broken], str]] = {
    "BadMagic": not_known, "BadVersion": of_another_version, "NotEthernet": not_ethernet,
    "CutHeader": too_short, "CutRecord": breaks_off, "TooLong": too_long, "TooManyPackets": too_many_packets,
    "TooManyLines": too_many_lines, "JobSyntax": bad_job, "TooManyRounds": bad_job,
}


def beside_job(asked: Asked, name: str) -> str:
    """That a job's file lies beside the job, and not where the program was started; nothing where that
    isn't so."""
    folder = os.path.dirname(asked.words[1]) if asked.has_job else ""
    if not folder or name in asked.words or not os.path.exists(os.path.join(folder, name)):
        return ""
    return f"it lies beside the job, whose names are those of the folder of the call: cd {quoted(folder)}"


def cannot_read(asked: Asked, told: str) -> str:
    """Why the file can't be read that the program tells of."""
    name = next((it for it in asked.inputs() if as_told(it) == told), told)
    if asked.is_report_trace and name == asked.words[1] in HOOKS and not os.path.lexists(name):
        return f"{name}: no file has that name; at a hook a batch and a capture are traced: trace HOOK BATCH CAPTURE"
    why = beside_job(asked, name) or read_fault(name)
    return f"{named(name)}: {why or 'it can be read now'}"


def write_faults(asked: Asked) -> Iterator[str]:
    """The outputs of a command that can't be written, each with the system's reason."""
    for name in dict.fromkeys(asked.outputs()):
        if why := write_fault(name):
            yield f"{shown(name)}: {why}"


def cannot_write(asked: Asked, descriptor: int) -> str:
    """Which output can't be written, and why: in the program's order, its text last."""
    for told in write_faults(asked):
        return told
    if why := stream_fault(descriptor):
        return f"standard output: {why}"
    places = dict.fromkeys(os.path.dirname(it) or "." for it in asked.outputs())
    free = [f"{free_in(it)} bytes are free in {shown(it)}" for it in places]
    return "; ".join(["nothing is seen now that is in the way", *free])


def not_hitless(asked: Asked) -> str:
    """Which command looks for an order of the change's lines that is hitless, and which lines of the text tell of the packets."""
    names = " ".join(map(quoted, asked.words[2:5]))
    order = f"{asked.call} order {asked.words[1]} {names} OUT looks for an order that is"
    return f"the text's lines `fate N between` and `fate N mixed` have them; {order}"


def hint_of(told: str, asked: Asked, descriptor: int = 1) -> str:
    """What the program's line on standard error means; nothing where that says all."""
    if told == "cannot write":
        return cannot_write(asked, descriptor)
    if found := fullmatch(r"cannot read (.*)", told):
        return cannot_read(asked, found[1])
    if fullmatch(r"\d+ packets not hitless", told) and asked.command == "foresee":
        return not_hitless(asked)
    found = fullmatch(r"bad input (.+) at (\d+): (\w+)(?: (\d+))?", told)
    if not found or found[3] not in OF_FORM:
        return ""
    name = next((it for it in asked.inputs() if as_told(it) == found[1]), found[1])
    return OF_FORM[found[3]](Broken(asked, name, int(found[2]), int(found[4] or 0)))


def tell(told: str, words: list[str], call: str = "./clsact") -> None:
    """Writes what the program told on standard error, and where somebody looks at that, what it means."""
    print(told, end="", file=sys.stderr)
    is_seen = sys.stderr is not None and sys.stderr.isatty()
    if hint := hint_of(told.rstrip("\n"), Asked(call, words)) if is_seen else "":
        print(f"clsact: {hint}", file=sys.stderr)


def main(words: list[str]) -> int:
    """`hints.py CALL TOLD WORD ..` behind the program's line, `hints.py CALL --before WORD ..` before it
    is run: 1 where something was told."""
    asked = Asked(words[0], words[2:])
    hints = list(write_faults(asked))[:1] if words[1] == "--before" else [hint_of(words[1], asked)]
    for it in filter(None, hints):
        print(f"clsact: {it}", file=sys.stderr)
    return int(any(hints))


if __name__ == "__main__":
    try:
        sys.exit(main(sys.argv[1:]))
    except Fault as fault:
        sys.exit(str(fault))
