"""Makes one plain Ethernet capture of captures as people have them, several in order of time.

Files are libpcap or pcapng, also packed; one of another form is left to editcap, where that is there. What was
done is told on standard error, a line each: what the file is, of which packets an Ethernet header was made, how
many are cut, and what couldn't be taken. Several files are merged by their times, each in the order that it has
itself. OUT is written beside its name, and renamed once it is whole. What isn't promised: that a frame whose
header was made is the one that was on the wire.
"""
import heapq
import os
import shutil
import signal
import struct
import subprocess
import sys
import tempfile
from collections import Counter
from collections.abc import Iterable, Iterator
from contextlib import contextmanager, suppress
from types import FrameType
from typing import BinaryIO

from capture_files import NANO, Capture, Record, Source, capture_in, head_of, opened
from ethernet_frames import ETHERNET, MOST, frame_of, link_name
from progress import Progress
from tool_ends import Fault, OneLineParser, end_with, shown

MOST_PACKETS = 1_048_576
MADE = "an Ethernet header was made, with zeros for addresses that weren't captured"
CUT = "cut by the snap length: what is cut off reads 0, and lengths are those of what was captured"


def packets(count: int) -> str:
    return f"{count} packet" + "s" * (count != 1)


def by_editcap(source: Source) -> Capture:
    """The capture that editcap makes of a file whose form isn't known here."""
    head = head_of(source, 64)
    source.put_back(head)
    form = f"{source.name}: neither libpcap nor pcapng" + " but a text" * (head.isascii() and b"\0" not in head)
    if not shutil.which("editcap"):
        raise Fault(f"{form}; Wireshark's editcap knows other forms, and isn't here")
    with tempfile.TemporaryDirectory() as scratch:
        given, made = os.path.join(scratch, "given"), os.path.join(scratch, "made")
        with open(given, "wb") as file:
            file.writelines(source.pieces())
        ran = subprocess.run(["editcap", "-F", "nsecpcap", given, made], capture_output=True, check=False)
        found = capture_in(opened(made)) if os.path.exists(made) else None
    if ran.returncode or not found:
        raise Fault(f"{form}, and editcap makes no capture of it")
    found.form = "made by editcap"
    return found


class Taken:
    """A file, and counts of what was taken of it and what wasn't."""

    def __init__(self, name: str) -> None:
        source = opened(name)
        self.name, self.packers = source.name, source.packers
        self.capture = capture_in(source) or by_editcap(source)
        self.count, self.cut, self.long, self.late, self.checksums = 0, 0, 0, 0, 0
        self.made, self.left_out = Counter[int](), Counter[int]()

    def frames(self) -> Iterator[Record]:
        """The packets that frames can be made of."""
        last = 0
        for record in self.capture.records():
            frame = frame_of(record)
            if not frame:
                self.left_out[record.link] += 1
                continue
            self.take(record, frame)
            self.late += frame.at < last
            last = max(last, frame.at)
            yield frame._replace(data=frame.data[:MOST])

    def take(self, record: Record, frame: Record) -> None:
        """Counts a packet of which there is a frame."""
        self.count += 1
        self.made[record.link] += record.link != ETHERNET
        self.checksums += record.checksum > 0
        self.cut += len(frame.data) < frame.original
        self.long += len(frame.data) > MOST

    def is_whole(self) -> bool:
        """Whether all that the file has was taken."""
        return self.capture.broken_at is None and not self.left_out and not self.long

    def told(self, is_merged: bool) -> Iterator[str]:
        """What was done with the file, and what has to be known of it."""
        yield f"{', '.join([self.capture.form, *self.packers])}: {packets(self.count)}"
        for link, count in sorted((+self.made).items()):
            yield f"{packets(count)} of {link_name(link)}: {MADE}"
        for link, count in sorted(self.left_out.items()):
            yield f"{packets(count)} of {link_name(link)} left out: no Ethernet frame can be made"
        if self.checksums:
            yield f"{packets(self.checksums)}: the checksum behind the frame was taken away"
        if self.cut:
            yield f"{packets(self.cut)} {CUT}"
        if self.long:
            yield f"{packets(self.long)} cut to {MOST} bytes"
        if self.late and is_merged:
            yield f"{packets(self.late)} earlier than one before it in the file: their place is behind that one"
        if self.capture.broken_at is not None:
            yield f"breaks off at byte {self.capture.broken_at}: the whole packets before it are taken"


def write(file: BinaryIO, frames: Iterable[Record], is_fine: bool) -> int:
    """Writes a capture, and returns how many packets it has."""
    magic, unit, count = (0xA1B23C4D, 1, 0) if is_fine else (0xA1B2C3D4, 1000, 0)
    file.write(struct.pack("<IHHIIII", magic, 2, 4, 0, 0, MOST, ETHERNET))
    head = struct.Struct("<IIII")
    for count, frame in enumerate(frames, 1):
        seconds, rest = divmod(frame.at, NANO)
        file.write(head.pack(seconds & 0xFFFFFFFF, rest // unit, len(frame.data), frame.original & 0xFFFFFFFF))
        file.write(frame.data)
    return count


def take_away(name: str) -> None:
    """Takes the file away when the tool is stopped, and stops as the signal asks."""
    def stop(number: int, _: FrameType | None) -> None:
        with suppress(FileNotFoundError):
            os.remove(name)
        signal.signal(number, signal.SIG_DFL)
        os.kill(os.getpid(), number)
    for number in (signal.SIGINT, signal.SIGTERM, signal.SIGHUP):
        signal.signal(number, stop)


@contextmanager
def beside(name: str) -> Iterator[BinaryIO]:
    """A file that gets this name once it is whole."""
    part = f"{os.path.realpath(name)}.{os.getpid()}.part"
    try:
        with open(part, "xb") as file:
            take_away(part)
            yield file
        if os.path.exists(name):
            shutil.copymode(name, part)
        os.replace(part, os.path.realpath(name))
    finally:
        if os.path.exists(part):
            os.remove(part)


@contextmanager
def output(name: str) -> Iterator[BinaryIO]:
    """Where the capture is written: a device or a pipe is written in place, and `-` is standard output."""
    if name == "-" and sys.stdout.isatty():
        raise Fault("standard output: a capture is nothing for a terminal")
    if name == "-":
        yield sys.stdout.buffer
    elif os.path.exists(name) and not (os.path.isfile(name) and os.access(name, os.W_OK)):
        with open(name, "wb") as file:
            yield file
    else:
        with beside(name) as file:
            yield file


def put(name: str, taken: list[Taken], is_fine: bool) -> int:
    """Writes what was taken, and returns how many packets that is."""
    frames = heapq.merge(*(it.frames() for it in taken), key=lambda it: it.at)
    try:
        with output(name) as file, Progress("clsact convert", "packets") as progress:
            count = write(file, progress.counted(frames if len(taken) > 1 else taken[0].frames()), is_fine)
            file.flush()
            return count
    except OSError as error:
        raise Fault(f"{shown(name)}: cannot write: {error.strerror}") from None


def tell(taken: list[Taken], name: str, count: int, is_fine: bool) -> None:
    """Tells what was done, file by file, and what OUT is."""
    is_merged = len(taken) > 1
    for it in taken:
        for what in it.told(is_merged):
            print(f"{it.name}: {what}", file=sys.stderr)
    order = f" of {len(taken)} files in order of time" * is_merged
    form = "nanoseconds" if is_fine else "microseconds"
    print(f"{shown(name)}: {packets(count)}{order}, Ethernet, {form}", file=sys.stderr)
    if count > MOST_PACKETS:
        print(f"{shown(name)}: at most {MOST_PACKETS} packets are walked at once; docs/SCALE.md", file=sys.stderr)


def main(words: list[str]) -> int:
    about = "Makes a plain Ethernet capture of what people have: pcapng, packed, Linux cooked, raw IP, cut, several."
    more = """What was done is told on standard error, and OUT replaced once it is whole; `-` is standard input,
        or standard output as OUT. Exit 0: all packets were taken. 1: some weren't (no Ethernet can be made of
        them, or the file breaks off), and the others are in OUT. 2: any fault; nothing is written."""
    parser = OneLineParser(prog="./clsact convert", description=about, epilog=more)
    parser.add_argument("FILE", nargs="+", help="a capture")
    parser.add_argument("OUT", help="the capture to write; what stood there is replaced")
    given = parser.parse_args(words)
    if given.FILE.count("-") > 1:
        parser.error("standard input is there once")
    taken = [Taken(it) for it in given.FILE]
    is_fine = any(it.capture.is_fine for it in taken)
    tell(taken, given.OUT, put(given.OUT, taken, is_fine), is_fine)
    return 0 if all(it.is_whole() for it in taken) else 1


if __name__ == "__main__":
    end_with(main)
