"""How tools ask the program: `./clsact` beside this folder, which builds it where it has to, or a given file.

The program is asked by its command line alone, so a tool knows no more than its texts and exit numbers. A
batch is read once, by the tool, and its bytes are the program's standard input. So one that can't be read
twice (standard input, a pipe) is judged as a file would be, and what is told has the name that was given.
"""
import io
import os
import stat
import subprocess
import sys
from collections.abc import Iterable, Iterator
from dataclasses import dataclass
from typing import BinaryIO

from clsact_texts import Object, objects_of
from tool_ends import Fault, OneLineParser, shown

CLSACT = os.path.join(os.path.dirname(os.path.dirname(os.path.realpath(__file__))), "clsact")
MOST = 4_294_967_295
STEP = 1 << 20
CANNOT_READ = 4
STDIN = "/dev/stdin"


@dataclass(frozen=True)
class Given:
    """What a check is given: a file by its name, the program to ask, and whether it is to warn."""

    name: str
    program: str
    is_warned: bool


@dataclass(frozen=True)
class Answer:
    """What the program ended with: its exit number, its text, and what it told on standard error."""

    number: int
    text: bytes
    told: str

    @property
    def objects(self) -> Iterator[Object]:
        """What the text says, line by line."""
        return (said for _, said in objects_of(io.BytesIO(self.text), "the program's text"))


class CannotRead(Exception):
    """A file can't be read, or is longer than the program takes."""


def take_program(parser: OneLineParser) -> None:
    """Lets a tool's user give the program."""
    parser.add_argument("--program", default=CLSACT, metavar="FILE", help="the program to ask (./clsact)")


def open_file(name: str) -> BinaryIO:
    """The file under a name, whatever its kind; `-` is standard input."""
    try:
        return open(STDIN if name == "-" else name, "rb")
    except (OSError, ValueError):
        raise CannotRead from None


def read_batch(name: str) -> bytes:
    """The bytes of a batch."""
    parts, length = list[bytes](), 0
    try:
        with open_file(name) as file:
            while length <= MOST and (part := file.read(STEP)):
                parts.append(part)
                length += len(part)
    except OSError:
        raise CannotRead from None
    if length > MOST:
        raise CannotRead
    return b"".join(parts)


def kept(name: str) -> BinaryIO:
    """A file, open, that may be read twice: a copy of one that may not."""
    try:
        file = open_file(name)
        if stat.S_ISREG(os.fstat(file.fileno()).st_mode):
            if os.fstat(file.fileno()).st_size <= MOST:
                return file
            raise CannotRead
        with file:
            return copy_of(iter(lambda: file.read(STEP), b""))
    except (OSError, ValueError):
        raise CannotRead from None


def copy_of(parts: Iterable[bytes]) -> BinaryIO:
    """A file without a name that has these bytes, open at its first one."""
    copy, length = os.fdopen(os.memfd_create("copy"), "w+b"), 0
    for part in parts:
        copy.write(part)
        length += len(part)
        if length > MOST:
            raise CannotRead
    copy.seek(0)
    return copy


def show(program: str, name: str) -> tuple[Answer, bytes]:
    """The program's answer to `show` of a batch, and the batch."""
    try:
        data = read_batch(name)
    except CannotRead:
        return Answer(CANNOT_READ, b"", f"cannot read {shown(name)}\n"), b""
    return show_bytes(program, name, data), data


def show_bytes(program: str, name: str, data: bytes) -> Answer:
    """The program's answer to `show` of these bytes, told under this name. Where the program has to be built,
    that is seen on standard error."""
    build(program)
    with copy_of([data]) as file:
        answer = run(program, ["show", STDIN], subprocess.PIPE, file.fileno())
    return Answer(answer.number, answer.text, answer.told.replace(STDIN, shown(name)))


def build(program: str) -> None:
    """Builds the program where it has to be, which is seen on standard error."""
    if program == CLSACT and run(program, ["show", "/dev/null"], None).number:
        sys.exit(70)


def run(program: str, words: list[str], told: int | None, given: int = subprocess.DEVNULL) -> Answer:
    """The program's answer to these words, where this descriptor is its standard input."""
    return run_over(program, words, told, given, ())


def run_over(program: str, words: list[str], told: int | None, given: int, kept: tuple[int, ...]) -> Answer:
    """The same, where these descriptors are open too."""
    try:
        ran = subprocess.run([program, *words], stdin=given, stdout=subprocess.PIPE, stderr=told, check=False,
                             pass_fds=kept)
    except OSError as error:
        raise Fault(f"{shown(program)}: cannot run: {error.strerror}") from None
    return Answer(ran.returncode, ran.stdout, (ran.stderr or b"").decode("utf-8", "replace"))
