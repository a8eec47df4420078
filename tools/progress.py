"""Says on a terminal that a command goes on, and how far it is, where it takes more than two seconds.

A tool tells its own count. The program tells nothing of itself, so it is looked at from outside, by what the
system knows of its process: the bytes that it has read and written, the lines of its text where that goes to a
file, the drafts of captures that it writes, the time. Nothing is shown where standard error is no terminal, nor
any more once the text itself comes to a terminal: what was shown then stays on a line above it. What isn't
promised: how much is left to do.
"""
import os
import sys
import threading
import time
from collections.abc import Callable, Iterable, Iterator
from contextlib import suppress
from typing import TypeVar

SOON, OFTEN = 2.0, 0.5
FEW = 4096
CLEAR = "\r\033[K"
Item = TypeVar("Item")


def is_seen() -> bool:
    """Whether somebody looks at standard error."""
    return sys.stderr is not None and sys.stderr.isatty()


def size_text(size: int) -> str:
    """A number of bytes as one reads it."""
    return f"{size} bytes" if size < 10_000 else f"{size / 1000:,.0f} kB" if size < 10_000_000 else f"{size / 1e6:,.1f} MB"


def say(text: str) -> None:
    """Puts the text in place of what stood on the terminal's last line, as far as there is room."""
    room = os.get_terminal_size(2).columns or 80
    sys.stderr.write(CLEAR + text[: room - 1])
    sys.stderr.flush()


class Above:
    """Puts texts on one line that has nothing behind it, so that what comes to the same terminal begins below it."""

    def __init__(self) -> None:
        self.up = ""

    def say(self, text: str) -> None:
        """Puts the text in place of the one before. An empty one leaves that."""
        if text:
            sys.stderr.write(self.up)
            say(text)
            sys.stderr.write("\n")
            sys.stderr.flush()
            self.up = "\033[A"


class Progress:
    """How far a tool is: what it counts, and a thread that tells of it as long as the tool is at work."""

    def __init__(self, name: str, what: str) -> None:
        self.name, self.what, self.count, self.begun = name, what, 0, time.monotonic()
        self.ended = threading.Event()
        self.thread = threading.Thread(target=self.tell, daemon=True)

    def __enter__(self) -> "Progress":
        if is_seen():
            self.thread.start()
        return self

    def __exit__(self, *_: object) -> None:
        self.end()

    def end(self) -> None:
        """Takes what is shown away, as before a text that may come to the same terminal."""
        self.ended.set()
        if self.thread.ident is not None:
            self.thread.join()

    def counted(self, items: Iterable[Item]) -> Iterator[Item]:
        """The items, each counted as it is taken. Behind the last nothing is shown any more."""
        for it in items:
            self.count += 1
            yield it
        self.end()

    def upto(self, items: Iterable[tuple[int, Item]]) -> Iterator[Item]:
        """The items, each with the count at which it begins. Behind the last nothing is shown any more."""
        for self.count, it in items:
            yield it
        self.end()

    def text(self) -> str:
        return f"{self.name}: {self.count:,} {self.what}, {time.monotonic() - self.begun:.0f} s"

    def tell(self) -> None:
        is_told, wait = False, SOON
        while not self.ended.wait(wait):
            say(self.text())
            is_told, wait = True, OFTEN
        if is_told:
            say("")


class Process:
    """A process of the program, as the system tells of it."""

    def __init__(self, number: int, name: str) -> None:
        self.folder, self.name = f"/proc/{number}", name
        self.started = self.stat()
        self.lines, self.place, self.by_script = 0, 0, 0

    def begin(self) -> None:
        """Notes what the script wrote, a little, before it became the program."""
        self.by_script = min(self.moved("wchar") - self.drafts(), FEW)

    def written(self) -> int:
        """The bytes that it wrote, but for what it is writing of an output."""
        return self.moved("wchar") - self.drafts() - self.by_script

    def stat(self) -> str:
        """When it was started, which no other process of this number has; nothing where it has ended."""
        try:
            with open(f"{self.folder}/stat", encoding="utf-8", errors="replace") as file:
                words = file.read().rpartition(")")[2].split()
        except OSError:
            return ""
        return "" if words[0] in "ZX" else words[19]

    def goes_on(self) -> bool:
        return bool(self.started) and self.stat() == self.started

    def moved(self, name: str) -> int:
        """How many bytes it has read (`rchar`) or written (`wchar`)."""
        with open(f"{self.folder}/io", encoding="ascii") as file:
            return next((int(it.split()[1]) for it in file if it.startswith(f"{name}:")), 0)

    def opened(self) -> Iterator[tuple[int, str]]:
        """Its descriptors, with the files that they are open on."""
        for it in os.listdir(f"{self.folder}/fd"):
            try:
                yield int(it), os.readlink(f"{self.folder}/fd/{it}")
            except OSError:
                continue

    def written_lines(self) -> int:
        """The lines of its text so far, where that is a file."""
        with open(f"{self.folder}/fd/1", "rb") as file:
            file.seek(self.place)
            while part := file.read(1 << 20):
                self.place += len(part)
                self.lines += part.count(b"\n")
        return self.lines

    def drafts(self) -> int:
        """The bytes of the captures and files that it is writing."""
        names = [f"{self.folder}/fd/{it}" for it, name in self.opened() if os.path.basename(name).startswith(".clsact-")]
        return sum(os.stat(it).st_size for it in names)

    def text(self, seconds: float) -> str:
        parts = [f"{seconds:.0f} s", f"{size_text(self.moved('rchar'))} read"]
        drafts = self.drafts()
        if drafts:
            parts.append(f"{size_text(drafts)} of an output written")
        if os.path.isfile(f"{self.folder}/fd/1"):
            parts.append(f"{self.written_lines():,} lines written")
        elif self.written() > 0:
            parts.append(f"{size_text(self.written())} written")
        return f"clsact {self.name}: {', '.join(parts)}"

    def is_for_terminal(self) -> bool:
        """Whether its text comes to a terminal."""
        return os.readlink(f"{self.folder}/fd/1").startswith(("/dev/pts/", "/dev/tty", "/dev/console"))

    def writes_to_terminal(self) -> bool:
        """Whether its text comes to a terminal, and has begun to."""
        return self.is_for_terminal() and self.written() > 0


def watch(process: Process, shown: Callable[[str], None]) -> None:
    """Tells of a process until it has ended, or writes to a terminal itself."""
    begun, is_told = time.monotonic() - SOON, False
    while process.goes_on():
        try:
            if not is_told:
                process.begin()
            if process.writes_to_terminal():
                break
            shown(process.text(time.monotonic() - begun))
        except OSError:
            break
        is_told = True
        time.sleep(OFTEN)
    if is_told:
        shown("")


def main(words: list[str]) -> int:
    """`progress.py PROCESS COMMAND`, by the script that started the program two seconds ago."""
    if len(words) == 2 and words[0].isdecimal() and is_seen():
        process = Process(int(words[0]), words[1])
        with suppress(OSError):
            watch(process, Above().say if process.is_for_terminal() else say)
    return 0


if __name__ == "__main__":
    sys.exit(main(sys.argv[1:]))
