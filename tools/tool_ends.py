"""How the tools in this folder end, so that each of them ends alike.

A fault in an input is one line on standard error, `FILE:LINE: WHAT`, and exit 2. A closed pipe and Ctrl-C
end a tool as they end other programs, without a word. What isn't promised: a tool that is stopped may have
written a front of its text.
"""
import argparse
import io
import os
import shutil
import signal
import sys
import tempfile
from collections.abc import Callable, Iterable, Iterator
from typing import NoReturn

FAULT = 2
BLOCK = 1 << 15
STDIN = "standard input"


class Fault(Exception):
    """What is wrong with an input, and where, in one line."""


class OneLineParser(argparse.ArgumentParser):
    """Reads the words of the command line, and answers wrong ones with one line."""

    def error(self, message: str) -> NoReturn:
        usage = " ".join(self.format_usage().split())
        print(f"{usage} ({shown(message)})", file=sys.stderr)
        sys.exit(FAULT)


def take_no_words(parser: OneLineParser, words: list[str], example: str) -> None:
    """Reads the command line of a tool that has its text from standard input, and no words."""
    parser.epilog = f"Example: {example}"
    _, more = parser.parse_known_args(words)
    if more:
        parser.error(f"the text comes on standard input: {example}")


def input_blocks() -> Iterator[bytes]:
    """The bytes of standard input, as they come."""
    if sys.stdin is None:
        raise Fault(f"{STDIN}: cannot read: it is closed, or a folder")
    try:
        yield from iter(lambda: os.read(sys.stdin.fileno(), BLOCK), b"")
    except OSError as error:
        raise Fault(f"{STDIN}: cannot read: {error.strerror}") from None


def write_whole(parts: Iterable[bytes]) -> None:
    """Writes parts to standard output behind the last of them: before that they are in a file without a name, so
    that they take no memory, and a fault in the input leaves nothing."""
    with tempfile.TemporaryFile(buffering=1 << 20) as file:
        file.writelines(parts)
        file.seek(0)
        sys.stdout.flush()
        shutil.copyfileobj(file, sys.stdout.buffer, 1 << 20)


def shown(name: str) -> str:
    """The name, with quotes and escapes where it has characters that a terminal would not print."""
    return name if name.isprintable() and name else ascii(name)


def end_with(tool: Callable[[list[str]], int]) -> NoReturn:
    """Runs the tool over the command line's words, and ends with its exit number."""
    signal.signal(signal.SIGPIPE, signal.SIG_DFL)
    signal.signal(signal.SIGINT, signal.SIG_DFL)
    for stream in (sys.stdout, sys.stderr):
        if isinstance(stream, io.TextIOWrapper):
            stream.reconfigure(errors="backslashreplace")
    try:
        number = number_of(tool)
        sys.stdout.flush()
    except Fault as fault:
        end_at(str(fault))
    except OSError as error:
        end_at(f"cannot write: {error.strerror}")
    sys.exit(number)


def number_of(tool: Callable[[list[str]], int]) -> int:
    """The tool's exit number, also where reading its words ended it."""
    if sys.stdout is None:
        raise Fault("cannot write: standard output is closed")
    try:
        return tool(sys.argv[1:])
    except SystemExit as ended:
        return ended.code if isinstance(ended.code, int) else FAULT


def end_at(fault: str) -> NoReturn:
    """Tells the fault, and ends at once, so that Python doesn't try once more to write what is left."""
    print(fault, file=sys.stderr, flush=True)
    os._exit(FAULT)
