"""The lines of packets in the program's texts, of which there may be very many: whole runs of them are taken at once.

The lines of a run have all points, as in a report, or none, as in a walk. Its JSON is made of it, and it of its JSON,
by putting other words in the place of words: each line was held to its form before, so a word stands where it is due.
What isn't promised: that the numbers of a run's lines agree.
"""
import re
from collections.abc import Iterable, Iterator
from typing import Any

N = "(?:[1-9][0-9]{0,19}|0)"
CLASS = "[0-9a-f]{1,4}:[0-9a-f]{1,4}"
LEFT = f"(?: priority {CLASS} mark {N} queue {N})?"
# The words between the numbers of a line, and what stands for each in its JSON.
WORDS = [
    (b" worker ", b', "worker": '),
    (b" pass length ", b', "verdict": "pass", "length": '),
    (b" drop length ", b', "verdict": "drop", "length": '),
    (b" priority ", b', "priority": "'),
    (b" mark ", b'", "mark": '),
    (b" queue ", b', "queue": '),
]
FIRST, JSON_FIRST = b"packet ", b'{"type": "packet", "packet": '
POINTS, JSON_POINTS = b" points ", b', "points": ['
PLAIN = f"packet {N}(?: worker {N})? (?:pass|drop) length {N}{LEFT}"
JSON_PLAIN = f'\\{{"type": "packet", "packet": {N}(?:, "worker": {N})?, "verdict": "(?:pass|drop)", "length": {N}' + \
    f'(?:, "priority": "{CLASS}", "mark": {N}, "queue": {N})?'
TEXT_RUN = re.compile(f"(?:{PLAIN}\n)+|(?:{PLAIN} points {N}(?: {N})*\n)+".encode())
JSON_RUN = re.compile(f'(?:{JSON_PLAIN}\\}}\n)+|(?:{JSON_PLAIN}, "points": \\[{N}(?:, {N})*\\]\\}}\n)+'.encode())
# Lines that may be those of packets, for whom holds them to their form afterwards.
ANY_RUN = re.compile(rb"(?:packet [^\n]*\n)+")
PACKET = re.compile((
    f"packet ({N})(?: worker ({N}))? (pass|drop) length ({N})"
    f"(?: priority ({CLASS}) mark ({N}) queue ({N}))?(?: points ({N}(?: {N})*))?\n"
).encode())
# What stands behind the worker in a report: the verdict and the points are found.
REST = re.compile(f" (pass|drop) length {N}{LEFT} points ({N}(?: {N})*)".encode())


def pieces_of(blocks: Iterable[bytes], run: re.Pattern[bytes], longest: int) -> Iterator[tuple[bool, bytes]]:
    """The runs of a text that comes in blocks, and each line between them; of a line above this length a piece."""
    rest = b""
    for block in blocks:
        whole = rest + block
        end = whole.rfind(b"\n") + 1 or (len(whole) if len(whole) > longest else 0)
        rest = whole[end:]
        yield from pieces_in(whole[:end], run)
    if rest:
        yield False, rest


def pieces_in(block: bytes, run: re.Pattern[bytes]) -> Iterator[tuple[bool, bytes]]:
    """The same of a block that ends with a line."""
    at = 0
    while at < len(block):
        found = run.match(block, at)
        end = found.end() if found else block.find(b"\n", at) + 1 or len(block)
        yield found is not None, block[at:end]
        at = end


def json_of_run(run: bytes) -> bytes:
    """The JSON lines of a run."""
    inner, last = run[len(FIRST): -1], b"]}\n" if POINTS in run else b"}\n"
    between = last + JSON_FIRST
    inner = with_points(inner, between) if last[:1] == b"]" else inner.replace(b"\n" + FIRST, between)
    for word, due in WORDS:
        inner = inner.replace(word, due)
    return JSON_FIRST + inner + last


def with_points(inner: bytes, between: bytes) -> bytes:
    """The same with the points of each line as JSON, and with this between two lines."""
    first, *parts = inner.split(POINTS)
    ends = [it.partition(b"\n" + FIRST) for it in parts]
    made = [points.replace(b" ", b", ") + (between + more if end else b"") for points, end, more in ends]
    return JSON_POINTS.join([first, *made])


def run_of_json(lines: bytes) -> bytes:
    """The run that has these JSON lines."""
    last = b"]}\n" if lines.endswith(b"]}\n") else b"}\n"
    inner = lines[len(JSON_FIRST): -len(last)].replace(last + JSON_FIRST, b"\n" + FIRST)
    for word, due in [*WORDS, (POINTS, JSON_POINTS)]:
        inner = inner.replace(due, word)
    # What is left of commas stands between points.
    return FIRST + inner.replace(b", ", b" ") + b"\n"


def packets_in(run: bytes) -> Iterator[dict[str, Any]]:
    """What the lines of a run say."""
    return map(packet_of, PACKET.finditer(run))


def packet_of(found: re.Match[bytes]) -> dict[str, Any]:
    """What the line of a packet says."""
    number, worker, verdict, length, priority, mark, queue, points = (it.decode() if it else "" for it in found.groups())
    said: dict[str, Any] = {"type": "packet", "packet": int(number)} | ({"worker": int(worker)} if worker else {})
    said |= {"verdict": verdict, "length": int(length)}
    said |= {"priority": priority, "mark": int(mark), "queue": int(queue)} if priority else {}
    return said | ({"points": [int(it) for it in points.split(" ")]} if points else {})
