"""Asks the program for the trace or the walk of a capture, and reads its text line by line, so that it takes
no memory.

Batch and capture are handed over open, so each may be a pipe. Who has seen enough of the text may end it.
What isn't promised: that the program knows of traces; where it doesn't, it ends with 2.
"""
import subprocess
import tempfile
from collections.abc import Iterator
from typing import BinaryIO

from program import Answer, copy_of
from tool_ends import Fault, shown

STEP = 1 << 20


class Trace:
    """A trace that the program is writing; with words for an output the text of a walk."""

    def __init__(self, program: str, hook: str, batch: bytes, capture: BinaryIO, *out: str) -> None:
        self.errors = tempfile.TemporaryFile()
        with copy_of([batch]) as given:
            files = (given.fileno(), capture.fileno())
            self.names = [f"/proc/self/fd/{it}" for it in files]
            words = [program, "walk" if out else "trace", hook, *self.names, *out]
            try:
                self.process = subprocess.Popen(words, bufsize=STEP, pass_fds=files, stdin=subprocess.DEVNULL,
                                                stdout=subprocess.PIPE, stderr=self.errors)
            except OSError as error:
                raise Fault(f"{shown(program)}: cannot run: {error.strerror}") from None

    def lines(self) -> Iterator[bytes]:
        """The lines of the text, each with its end."""
        assert self.process.stdout
        yield from self.process.stdout

    def end(self, *names: str) -> Answer:
        """How the program ended, told with these names of batch and capture. It can write no more."""
        assert self.process.stdout
        self.process.stdout.close()
        number = self.process.wait()
        self.errors.seek(0)
        told = self.errors.read().decode("utf-8", "replace")
        self.errors.close()
        for given, name in zip(self.names, names):
            told = told.replace(given, shown(name))
        return Answer(number if number >= 0 else 128 - number, b"", told)
