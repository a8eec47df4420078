"""Makes the program's text again of the JSON lines that `./clsact json` wrote, to the byte.

The objects come on standard input, a line each; docs/FORMATS.md has a table of them. Their names may stand in
any order, and none may be missing or too much: an object that no line says is told with its line, and then
nothing is written: the text waits in a file without a name until all are read. Lines may be taken out or
changed on the way, as long as each object says one line and the last is `end`.
"""
import json
from collections.abc import Iterator
from typing import Any

from clsact_texts import JSON_AT, LAST, rest_of, spell_object
from packet_lines import JSON_RUN, pieces_of, run_of_json
from progress import Progress
from tool_ends import STDIN, Fault, OneLineParser, end_with, input_blocks, take_no_words, write_whole

# A line of the longest text is longer as JSON.
LONGEST = 1 << 23


def object_of(number: int, line: bytes) -> dict[str, Any]:
    """The object that stands in a line."""
    try:
        said = json.loads(line)
    except (ValueError, RecursionError):
        raise Fault(f"{STDIN}:{number}: this line isn't JSON") from None
    if not isinstance(said, dict):
        raise Fault(f"{STDIN}:{number}: this line isn't an object")
    return said


def main(words: list[str]) -> int:
    about = "Makes the program's text again of JSON lines, from standard input."
    take_no_words(OneLineParser(prog="./clsact text", description=about), words, "./clsact text <walk.json")
    with Progress("clsact text", "lines") as progress:
        write_whole(texts(progress))
    return 0


def texts(progress: Progress) -> Iterator[bytes]:
    """The line of each object on standard input, the last of which is an end."""
    number, last = 1, None
    for is_run, piece in pieces_of(input_blocks(), JSON_RUN, LONGEST):
        if is_run and last not in LAST:
            yield run_of_json(piece)
        elif last not in LAST and (at := JSON_AT.fullmatch(piece)) and (rest := rest_of(at[2])):
            yield b"at %b %b\n" % (at[1], rest)
        else:
            said = object_of(number, piece.split(b"\n")[0])
            spelt = spell_object(said)
            if spelt is None or last in LAST:
                raise Fault(f"{STDIN}:{number}: no text of the program has such an object here")
            yield spelt.encode() + b"\n"
            last = said["type"]
        number += piece.count(b"\n") or 1
        progress.count = number - 1
    progress.end()
    if last not in LAST:
        raise Fault(f"{STDIN}:{number}: the object `end` is missing")


if __name__ == "__main__":
    end_with(main)
