"""What a file is, by its first bytes: a capture and its form, what packed it, or a text by its first words.

What isn't promised: that the rest of the file is what its first bytes say.
"""
import struct

from batch_lines import lines_in
from capture_files import MAGICS, PACKERS

FRONT = 4096
PCAPNG = b"\n\r\r\n"
TEXTS = {"job": "a job", "report": "the report of a run", "list": "a list as tc -j prints it",
         "batch": "a batch", "text": "a text"}
OBJECTS = ("tc", "qdisc", "filter", "actions")
SORTS = {("clsact", "job"): "job", ("clsact", "report"): "report"}


def kind_of(front: bytes) -> str:
    """What a file of such first bytes is: `libpcap`, `pcapng`, what packed it, a text by its name in
    TEXTS, `nothing`, or `bytes`."""
    if not front:
        return "nothing"
    if front.startswith(PCAPNG):
        return "pcapng"
    if len(front) > 3 and any(struct.unpack(order + "I", front[:4])[0] in MAGICS for order in "<>"):
        return "libpcap"
    packer = next((name for head, name, _ in PACKERS if front.startswith(head)), "")
    return packer or kind_of_text(front)


def kind_of_text(front: bytes) -> str:
    """The same of what is no capture."""
    try:
        text = front[: front.rfind(b"\n") + 1 or None].decode("utf-8")
    except UnicodeDecodeError:
        return "bytes"
    if not all(it.isprintable() or it in "\t\r\n" for it in text):
        return "bytes"
    if text.lstrip()[:1] in ("[", "{"):
        return "list"
    words: list[str] = next(([it.text for it in line.words] for line in lines_in(text.encode())), [])
    sort = SORTS.get((words[0], words[1])) if len(words) > 1 else None
    return sort or ("batch" if words and words[0] in OBJECTS else "text")


def order_of(front: bytes) -> str:
    """The order of bytes of a libpcap file."""
    return "<" if int.from_bytes(front[:4], "little") in MAGICS else ">"


def link_word(front: bytes) -> int | None:
    """The word with the link type of a libpcap file, where its head is there."""
    found: int | None = struct.unpack_from(order_of(front) + "I", front, 20)[0] if len(front) > 23 else None
    return found


def version_of(front: bytes) -> str:
    """The version of a libpcap file."""
    found = struct.unpack_from(order_of(front) + "HH", front, 4) if len(front) > 7 else ()
    return ".".join(map(str, found)) or "another kind"
