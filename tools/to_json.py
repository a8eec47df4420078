"""Writes a text of the program as JSON lines: an object an event, packet, visit, counter, summary, action, filter.

The text comes on standard input: that of `walk`, `trace`, `show` or `gen`, a report, or the answer to one.
docs/FORMATS.md has a table of the objects; `./clsact text` makes the same text of them. Nothing is written of a
damaged text: the objects wait in a file without a name until the text is whole. Not looked at: whether the
numbers of different lines agree.
"""
import json
from collections.abc import Iterator

from clsact_texts import At, at_json, parts_of_text
from packet_lines import json_of_run
from progress import Progress
from tool_ends import STDIN, OneLineParser, end_with, input_blocks, take_no_words, write_whole


def json_lines(progress: Progress) -> Iterator[bytes]:
    """An object for each line on standard input, an action's two lines in one."""
    for said in progress.upto(parts_of_text(input_blocks(), STDIN)):
        if isinstance(said, bytes):
            yield json_of_run(said)
        else:
            yield at_json(said) if isinstance(said, At) else json.dumps(said).encode() + b"\n"


def main(words: list[str]) -> int:
    about = "Writes a text of walk, trace, show, gen or a run, from standard input, as JSON lines."
    take_no_words(OneLineParser(prog="./clsact json", description=about), words, "./clsact json <walk.txt")
    with Progress("clsact json", "lines") as progress:
        write_whole(json_lines(progress))
    return 0


if __name__ == "__main__":
    end_with(main)
