"""Captures as people have them, packet by packet: libpcap and pcapng files, also packed, from a file or a pipe.

Nothing is kept of a file but the packet that is being read, so a large one takes no memory. A file that breaks
off (a crash, a full disk, a copy that was stopped) gives its whole packets, and tells at which byte it breaks.
Sizes are believed up to a bound, above which what stands there is taken for no packet. What isn't promised:
that a file of another form is known as one.
"""
import importlib
import io
import struct
import sys
import zlib
from collections.abc import Callable, Iterator
from dataclasses import dataclass, field
from types import ModuleType
from typing import NamedTuple

from tool_ends import STDIN, Fault, shown

NANO = 1_000_000_000
LONGEST = 1 << 27
STEP = 1 << 20
NEST = 2
PACKERS = (
    (b"\x1f\x8b\x08", "gzip", "gzip"),
    (b"BZh", "bzip2", "bz2"),
    (b"\xfd7zXZ\x00", "xz", "lzma"),
    (b"\x28\xb5\x2f\xfd", "zstd", "compression.zstd"),
)
# The first word of a libpcap file: how many nanoseconds its fractions count, and how long a packet's head is.
MAGICS = {0xA1B2C3D4: (1000, 16), 0xA1B23C4D: (1, 16), 0xA1B2CD34: (1000, 24)}
SECTION, INTERFACE, OLD_PACKET, SIMPLE_PACKET, PACKET = 0x0A0D0D0A, 1, 2, 3, 6
BYTE_ORDER = 0x1A2B3C4D
RESOLUTION, OFFSET, CHECKSUM, FLAGS = 9, 14, 13, 2


class Cut(Exception):
    """The file breaks off, or what stands there is of no packet."""


class Record(NamedTuple):
    """A packet: its time in nanoseconds from 1970, its link type, how many bytes of its end are a checksum,
    its length when it was captured, and what was kept of it."""

    at: int
    link: int
    checksum: int
    original: int
    data: bytes


class Joined(io.RawIOBase):
    """Bytes that were read already, and the file that goes on behind them."""

    def __init__(self, front: bytes, file: io.BufferedIOBase) -> None:
        self.front, self.file = front, file

    def readable(self) -> bool:
        return True

    def readinto(self, room: memoryview) -> int:  # type: ignore[override]
        # What a packer has is taken before it is asked for more, which may be where it breaks off.
        part = self.front[: len(room)] or self.file.read1(len(room))
        self.front = self.front[len(part):]
        room[: len(part)] = part
        return len(part)


@dataclass
class Source:
    """A file that is read from its first byte on, whatever packed it, and how far it was read."""

    name: str
    file: io.BufferedIOBase
    packers: list[str] = field(default_factory=list)
    place: int = 0

    def upto(self, count: int) -> bytes:
        """The next bytes, or fewer of them where the file ends or its packer gives up."""
        try:
            data = self.file.read(count)
        except (EOFError, zlib.error):
            raise Cut from None
        except OSError as error:
            if error.errno is None:
                raise Cut from None
            raise Fault(f"{self.name}: cannot read: {error.strerror}") from None
        except Exception as error:
            if type(error).__name__ in ("LZMAError", "ZstdError"):
                raise Cut from None
            raise
        self.place += len(data)
        return data

    def take(self, count: int) -> bytes:
        """The next bytes, all of them."""
        data = self.upto(count)
        if len(data) < count:
            raise Cut
        return data

    def put_back(self, front: bytes) -> None:
        """Lets these bytes be read once more."""
        self.place -= len(front)
        self.file = io.BufferedReader(Joined(front, self.file), STEP)

    def pieces(self) -> Iterator[bytes]:
        """All that is left."""
        while data := self.upto(STEP):
            yield data


def file_of(name: str) -> io.BufferedIOBase:
    """The bytes under a name; `-` is standard input."""
    if name == "-":
        if sys.stdin is None:
            raise Fault(f"{STDIN}: cannot read: it is closed, or a folder")
        return io.BufferedReader(io.FileIO(sys.stdin.fileno(), closefd=False), STEP)
    try:
        return io.BufferedReader(io.FileIO(name), STEP)
    except (OSError, ValueError) as error:
        why = error.strerror if isinstance(error, OSError) else "no such name"
        raise Fault(f"{shown(name)}: cannot read: {why}") from None


def unpacking(name: str, packer: str, module: str) -> ModuleType:
    """What unpacks it, where this Python has that."""
    try:
        return importlib.import_module(module)
    except ImportError:
        raise Fault(f"{name}: packed by {packer}, which this Python can't unpack; unpack it first") from None


def opened(name: str) -> Source:
    """The file under a name, unpacked."""
    source = Source(STDIN if name == "-" else shown(name), file_of(name))
    while True:
        head = head_of(source, 8)
        source.put_back(head)
        found = next((it for it in PACKERS if head.startswith(it[0])), None)
        if not found or len(source.packers) == NEST:
            return source
        _, packer, module = found
        source.file = unpacking(source.name, packer, module).open(source.file, "rb")
        source.packers.append(packer)


def head_of(source: Source, count: int) -> bytes:
    """The first bytes of a file, as many as there are."""
    try:
        return source.upto(count)
    except Cut:
        raise Fault(f"{source.name}: its first bytes can't be unpacked") from None


@dataclass
class Capture:
    """A file with packets, its form, and after it was read the byte at which it breaks off."""

    source: Source
    form: str
    is_fine: bool
    reader: Callable[["Capture"], Iterator[Record]]
    start: int = 0
    broken_at: int | None = None

    def records(self) -> Iterator[Record]:
        """Its packets, up to its end or the first that isn't whole."""
        try:
            yield from self.reader(self)
        except Cut:
            self.broken_at = self.start

    def begin(self, count: int) -> bytes:
        """The first bytes of a packet or a block; nothing at the file's end."""
        self.start = self.source.place
        data = self.source.upto(count)
        if data and len(data) < count:
            raise Cut
        return data


def capture_in(source: Source) -> Capture | None:
    """The capture that a file holds; nothing where it is of another form."""
    head = head_of(source, 4)
    source.put_back(head)
    if not head:
        raise Fault(f"{source.name}: the file is empty")
    if head == b"\n\r\r\n":
        return Capture(source, "pcapng", True, block_records)
    for order in "<>":
        magic = struct.unpack(order + "I", head)[0] if len(head) == 4 else 0
        if magic in MAGICS:
            return Capture(source, "libpcap", MAGICS[magic][0] == 1, plain_records)
    return None


def checksum_of(link: int) -> int:
    """How many bytes of checksum the link word of a libpcap file says that each frame ends with."""
    return 2 * (link >> 28) if link & 0x04000000 else 0


def plain_records(capture: Capture) -> Iterator[Record]:
    """The packets of a libpcap file. Before version 2.4 the two lengths may stand the other way round."""
    head = capture.begin(24)
    order = "<" if struct.unpack("<I", head[:4])[0] in MAGICS else ">"
    magic, major, minor, _, _, _, link = struct.unpack(order + "IHHIIII", head)
    unit, size = MAGICS[magic]
    heads, may_swap = struct.Struct(f"{order}IIII{size - 16}x"), (major, minor) != (2, 4)
    while head := capture.begin(size):
        seconds, fraction, captured, original = heads.unpack(head)
        if may_swap and captured > original:
            captured, original = original, captured
        # A crash may leave a file whose end is zeros.
        if captured > LONGEST or not any(head):
            raise Cut
        data = capture.source.take(captured)
        yield Record(seconds * NANO + fraction * unit, link & 0xFFFF, checksum_of(link), original, data)


@dataclass
class Interface:
    """An interface of a pcapng file: how many of its ticks are a second, and what has to be added to them."""

    link: int
    limit: int
    checksum: int = 0
    ticks: int = 1_000_000
    offset: int = 0

    def time(self, high: int, low: int) -> int:
        return ((high << 32) + low) * NANO // self.ticks + self.offset * NANO


def options_of(order: str, data: bytes) -> dict[int, bytes]:
    """The options at the end of a block."""
    found, at = dict[int, bytes](), 0
    while at + 4 <= len(data):
        code, length = struct.unpack_from(order + "HH", data, at)
        if code == 0:
            break
        found[code] = data[at + 4: at + 4 + length]
        at += 4 + length + -length % 4
    return found


def interface_of(order: str, body: bytes) -> Interface:
    if len(body) < 8:
        raise Cut
    link, limit = struct.unpack_from(order + "H2xI", body)
    options = options_of(order, body[8:])
    made = Interface(link, limit, (options.get(CHECKSUM) or b"\0")[0])
    if resolution := options.get(RESOLUTION):
        base, power = (2, resolution[0] & 0x7F) if resolution[0] & 0x80 else (10, resolution[0])
        made.ticks = base ** power
    if len(options.get(OFFSET, b"")) == 8:
        made.offset = struct.unpack(order + "q", options[OFFSET])[0]
    return made


@dataclass
class Section:
    """A section of a pcapng file: its order of bytes, its interfaces, and the time of its last packet."""

    order: str
    interfaces: list[Interface] = field(default_factory=list)
    last: int = 0

    def interface(self, number: int) -> Interface:
        if number >= len(self.interfaces):
            raise Cut
        return self.interfaces[number]

    def packet(self, body: bytes, is_old: bool) -> Record:
        """The packet of a block that has a time."""
        if len(body) < 20:
            raise Cut
        number, high, low, captured, original = struct.unpack_from(self.order + ("H2x" if is_old else "I") + "IIII", body)
        interface, end = self.interface(number), 20 + captured
        if end > len(body):
            raise Cut
        self.last, checksum = interface.time(high, low), interface.checksum
        flags = options_of(self.order, body[end + -end % 4:]).get(FLAGS, b"") if end + 4 < len(body) else b""
        if len(flags) == 4:
            checksum = struct.unpack(self.order + "I", flags)[0] >> 5 & 15 or checksum
        return Record(self.last, interface.link, checksum, original, body[20:end])

    def simple(self, body: bytes) -> Record:
        """The packet of a block that has no time: it gets that of the packet before it."""
        if len(body) < 4:
            raise Cut
        original, interface = struct.unpack_from(self.order + "I", body)[0], self.interface(0)
        kept = min(original, interface.limit or original, len(body) - 4)
        return Record(self.last, interface.link, interface.checksum, original, body[4: 4 + kept])


def block_body(capture: Capture, head: bytes, order: str) -> bytes:
    """What a block holds behind the head that was read of it, without the length at its end."""
    length = struct.unpack_from(order + "I", head, 4)[0]
    if length < len(head) + 4 or length > LONGEST or length % 4:
        raise Cut
    body = capture.source.take(length - len(head))
    if struct.unpack(order + "I", body[-4:])[0] != length:
        raise Cut
    return body[:-4]


def section_of(capture: Capture, head: bytes) -> Section:
    """The section whose first block begins here."""
    head += capture.source.take(4)
    order = next((it for it in "<>" if struct.unpack(it + "I", head[8:])[0] == BYTE_ORDER), "")
    if not order:
        raise Cut
    block_body(capture, head, order)
    return Section(order)


def block_records(capture: Capture) -> Iterator[Record]:
    """The packets of a pcapng file. Blocks of other kinds (names, statistics, comments) are passed over."""
    section = Section("<")
    while head := capture.begin(8):
        kind = struct.unpack_from(section.order + "I", head)[0]
        if kind == SECTION:
            section = section_of(capture, head)
            continue
        body = block_body(capture, head, section.order)
        if kind == INTERFACE:
            section.interfaces.append(interface_of(section.order, body))
        elif kind in (PACKET, OLD_PACKET):
            yield section.packet(body, kind == OLD_PACKET)
        elif kind == SIMPLE_PACKET:
            yield section.simple(body)
