"""Says which version this is: its number, the kit by which it is proved, and the commit.

The number stands in VERSION, and the kit in the first lines of docs/THEOREM.md; no other file has one of them
for itself. An installed tree has what `./clsact package` knew when it made the tree, in PROVED.
"""
import os
import re
import subprocess
import sys

from tool_ends import Fault, OneLineParser, end_with, shown

TOP = os.path.dirname(os.path.dirname(os.path.realpath(__file__)))
KIT = re.compile(r"By `([^`]+)`\.")


def content(*names: str) -> str:
    """The text of a file of this tree."""
    path = os.path.join(TOP, *names)
    try:
        with open(path, encoding="utf-8") as file:
            return file.read()
    except (OSError, UnicodeDecodeError) as error:
        raise Fault(f"{shown(path)}: cannot read: {getattr(error, 'strerror', 'not UTF-8')}") from None


def number() -> str:
    """The number of this version."""
    return content("VERSION").strip()


def kit() -> str:
    """The kit by which the clauses are proved."""
    found = KIT.search(content("docs", "THEOREM.md"))
    if not found:
        raise Fault("docs/THEOREM.md: its head names no kit")
    return found[1]


def git(*words: str) -> str:
    """What git answers about this checkout; nothing where there is no git, or where this isn't its top."""
    if not os.path.exists(os.path.join(TOP, ".git")):
        return ""
    try:
        ran = subprocess.run(["git", "-C", TOP, *words], capture_output=True, text=True, check=False)
    except OSError:
        return ""
    return ran.stdout.strip() if ran.returncode == 0 else ""


def commit() -> str:
    """The commit of this checkout, and whether a file that git knows differs from it."""
    name = git("rev-parse", "HEAD")
    if not name:
        return "no commit known"
    return f"commit {name}{' with changes' if git('status', '--porcelain', '--untracked-files=no') else ''}"


def origin() -> str:
    """By which kit the program is proved, and of which commit it is."""
    if os.path.exists(os.path.join(TOP, "PROVED")):
        return content("PROVED").strip()
    return f"a checkout to be proved by {kit()}, {commit()}"


def main(words: list[str]) -> int:
    OneLineParser(prog="./clsact --version", description="Says which version this is.").parse_args(words)
    sys.stdout.write(f"clsact {number()}\n{origin()}\n")
    return 0


if __name__ == "__main__":
    end_with(main)
