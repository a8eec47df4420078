"""Shows the manual pages of man/ in the reader that the system has, or as plain text where it has none.

The page of a format is opened by its word, and what clsact(1) says of one command is written as plain
text, since it is short. The words are looked up in the pages, so a command that has its paragraph there
has its help here.
"""
import os
import shutil
import signal
import subprocess
import sys

from manual_text import item_of, pieces_of, text_of
from tool_ends import Fault, OneLineParser, end_with, shown

MAN = os.path.join(os.path.dirname(os.path.dirname(os.path.realpath(__file__))), "man")
MAIN = os.path.join(MAN, "clsact.1")
FORMATS = ("batch", "job", "report")


def word_of(given: list[str]) -> str:
    """The word on the command line; an empty one where there is none."""
    about = "Opens the manual page clsact(1), or that of a format, or writes what is said of a command."
    parser = OneLineParser(prog="./clsact help", description=about)
    parser.add_argument("WORD", nargs="?", default="", help="batch, job, report, or a command")
    word: str = parser.parse_args(given).WORD
    return word


def open_page(path: str) -> int:
    """Opens the page with man, or writes it where there is no man or where it won't."""
    reader = shutil.which("man")
    shown_by_man = reader and (opened(reader, path) if sys.stdout.isatty() else written(reader, path))
    if not shown_by_man:
        sys.stdout.write(text_of(pieces_of(path)))
    return 0


def opened(reader: str, path: str) -> bool:
    """Whether man showed the page on the terminal."""
    shows = subprocess.Popen([reader, "-l", path], stderr=subprocess.DEVNULL)
    signal.signal(signal.SIGINT, signal.SIG_IGN)
    number = shows.wait()
    signal.signal(signal.SIGINT, signal.SIG_DFL)
    return number == 0


def written(reader: str, path: str) -> bool:
    """Whether man made a text of the page. It is written here, since man doesn't tell where that fails."""
    ran = subprocess.run([reader, "-l", path], stdout=subprocess.PIPE, stderr=subprocess.DEVNULL, check=False)
    if ran.returncode == 0:
        sys.stdout.buffer.write(ran.stdout)
    return ran.returncode == 0


def main(given: list[str]) -> int:
    word = word_of(given)
    if word in FORMATS:
        return open_page(os.path.join(MAN, f"clsact-{word}.5"))
    if not word:
        return open_page(MAIN)
    commands = [it for it in pieces_of(MAIN) if it.section == "DESCRIPTION"]
    item = item_of(commands, word)
    if not item:
        raise Fault(f"no page and no command has the name {shown(word)}: ./clsact help")
    sys.stdout.write(text_of(item))
    return 0


if __name__ == "__main__":
    end_with(main)
