"""Says why a packet of a capture met the filter that a line of a batch brought, or why it didn't.

The program traces the capture, and the lines of the one packet are read; the batch tells which filter the
line brought, and what became of it. Answered in one to three lines: met, and at which visits; asked and
missed, and by which field; not asked, and why; or that the line brought no filter that stands. What isn't
promised: an EtherType that no line of the trace tells, where the capture can't be read once more.
"""
import argparse
import os
import stat
from collections.abc import Iterator
from dataclasses import dataclass
from typing import BinaryIO

from batch_state import Filter
from capture_files import capture_in, opened
from clsact_texts import Object, at_said, read_line
from field_words import type_word
from frame_fields import Frame
from hints import tell
from line_fates import fate_of
from packet_ways import Way
from program import CANNOT_READ, CannotRead, build, open_file, read_batch, take_program
from progress import Progress
from tool_ends import OneLineParser, end_with, shown
from tracer import Trace
from why_not import Question

HOOKS = ("ingress", "egress")


@dataclass(frozen=True)
class Asked:
    """The words of the command line, with the batch, and the capture open."""

    hook: str
    batch: bytes
    capture: BinaryIO
    packet: int
    line: int


@dataclass
class Found:
    """What a trace tells of a packet: the refused line, the packet's way, or how many packets there are."""

    refused: Object | None = None
    way: Way | None = None
    packets: int = 0


def object_in(line: bytes) -> Object:
    return read_line(line.decode("ascii").removesuffix("\n")) or {}


def found_in(lines: Iterator[bytes], number: int) -> Found:
    """Reads a trace as far as the packet, or to its end."""
    found, way = Found(), Way()
    visit, end = b"at %d " % number, b"packet %d " % number
    for line in lines:
        if line.startswith(visit):
            way.take(at_said(line[len(visit):-1]) or {})
        elif line.startswith(end):
            way.end, found.way = object_in(line), way
            break
        elif line.startswith(b"refused "):
            found.refused = object_in(line)
        elif line.startswith(b"summary "):
            found.packets = object_in(line)["packets"]
    return found


def first_type(file: BinaryIO, number: int) -> str:
    """The EtherType of a packet as it stands in a capture that can be read once more; else nothing."""
    if not stat.S_ISREG(os.fstat(file.fileno()).st_mode):
        return ""
    capture = capture_in(opened(f"/proc/self/fd/{file.fileno()}"))
    records = capture.records() if capture else iter(())
    record = next((it for place, it in enumerate(records, 1) if place == number), None)
    return type_word(Frame(record.data).kind) if record else ""


def answer(asked: Asked, found: Found) -> list[str]:
    """The lines of the answer."""
    fate = fate_of(asked.batch, asked.line, found.refused)
    if not isinstance(fate, Filter):
        return fate
    if fate.request.hook != asked.hook:
        other = f"line {asked.line} brought a filter of {fate.request.hook}"
        return [f"{other}, and the packets came at {asked.hook}"]
    if not found.way:
        return [f"packet {asked.packet} isn't there: the capture has {found.packets}"]
    if not any(it.tables for it in found.way.passages):
        found.way.passages[0].protocol = first_type(asked.capture, asked.packet)
    return Question(asked.packet, found.way, fate).answer()


def explained(program: str, asked: Asked, names: tuple[str, str]) -> int:
    """Answers, and returns the exit number: the program's where it told nothing of the packet."""
    trace = Trace(program, asked.hook, asked.batch, asked.capture)
    with Progress("clsact explain", "lines") as progress:
        found = found_in(progress.counted(trace.lines()), asked.packet)
    ended = trace.end(*names)
    if not found.way and ended.number not in (0, 1):
        tell(ended.told, ["trace", asked.hook, *names])
        return ended.number
    print("\n".join(answer(asked, found)))
    return 0


def count(word: str) -> int:
    """A number from 1 on, in decimal without a leading 0."""
    if not (word.isascii() and word.isdigit()) or word.startswith("0"):
        why = "is no number from 1 on, in decimal without a leading 0"
        raise argparse.ArgumentTypeError(f"{shown(word)} {why}")
    return int(word)


def main(words: list[str]) -> int:
    about = "Says why packet N met the filter that line LINE of the batch brought, or why it didn't."
    more = """The answer is one to three lines: met, and at which visits; asked and missed, and by which
        field; not asked, and which line decided before it; or what else the line is, or what became of its
        filter. With an answer it ends with 0. Exit numbers of a fault are those of `./clsact trace`."""
    parser = OneLineParser(prog="./clsact explain", description=about, epilog=more)
    parser.add_argument("HOOK", choices=HOOKS)
    parser.add_argument("BATCH", help="a file of tc lines")
    parser.add_argument("CAPTURE", help="a capture that `walk` takes")
    parser.add_argument("N", type=count, help="the packet's number, from 1")
    parser.add_argument("LINE", type=count, help="the number of a line of BATCH, from 1")
    take_program(parser)
    given = parser.parse_args(words)
    build(given.program)
    name = given.BATCH
    try:
        batch, name = read_batch(name), given.CAPTURE
        with open_file(name) as capture:
            asked = Asked(given.HOOK, batch, capture, given.N, given.LINE)
            return explained(given.program, asked, (given.BATCH, given.CAPTURE))
    except CannotRead:
        tell(f"cannot read {shown(name)}\n", ["trace", *words])
        return CANNOT_READ


if __name__ == "__main__":
    end_with(main)
