"""Batch files as tools see them: lines, their words with columns, and what a line of the grammar asks for.

Lines and words are cut as docs/FORMATS.md says. `request_of` is for lines that the program took for good: it
looks for the parts of a line and checks none of them, so a line with a bad word may be read as anything, or
end in a LookupError or a ValueError.
"""
import re
from collections.abc import Iterator
from dataclasses import dataclass, field
from ipaddress import IPv6Address

from tool_ends import Fault, shown

TYPES = {"ip": 0x800, "ipv4": 0x800, "ipv6": 0x86DD, "arp": 0x806, "802.1q": 0x8100, "802.1ad": 0x88A8}
PREFS = ("pref", "prio", "priority", "preference")
VALUES = ("index", "id", "protocol", "priority", "mark", "queue_mapping")
SETTINGS = ("id", "protocol", "priority", "mark", "queue_mapping", "jump", "goto")
WIDTHS = {"tcp_flags": 12, "ip_tos": 8, "ip_ttl": 8}
PROTOCOLS = {"icmp": 1, "tcp": 6, "udp": 17, "icmpv6": 58, "sctp": 132}


@dataclass(frozen=True)
class Word:
    """A word of a line, and its column from 1."""

    text: str
    column: int


@dataclass(frozen=True)
class Line:
    """A line of a batch: its number from 1, its text without the end, its words."""

    number: int
    text: str
    words: list[Word]

    @property
    def end(self) -> int:
        """The column behind the last word."""
        return self.words[-1].column + len(self.words[-1].text)


@dataclass(frozen=True)
class Action:
    """An action of a line, from which of the line's words on, and up to which."""

    kind: str
    named: bool
    operation: str
    control: str
    jump: int
    index: int
    words: dict[str, int]
    first: int
    behind: int
    does: frozenset[tuple[str, str]]


@dataclass(frozen=True)
class Field:
    """A field of a filter, and at which of the line's words its value stands."""

    name: str
    value: str
    at: int

    @property
    def mask(self) -> int:
        """Which bits of the value count, as a number; the length of its prefix for an address."""
        value, _, given = self.value.partition("/")
        if self.name.endswith("_ip"):
            return int(given or (128 if ":" in value else 32))
        if self.name.endswith("_mac"):
            return mac_mask(given)
        base = 0 if self.name == "ip_ttl" else 16
        return int(given, base) if given else (1 << WIDTHS.get(self.name, 16)) - 1

    @property
    def width(self) -> int:
        """How many bits the value has at most."""
        if self.name.endswith("_ip"):
            return 128 if ":" in self.value else 32
        return 48 if self.name.endswith("_mac") else 16

    @property
    def bits(self) -> int:
        """The mask as bits, also that of an address."""
        if self.name.endswith("_ip"):
            return (1 << self.width) - (1 << (self.width - self.mask))
        return self.mask

    @property
    def number(self) -> int:
        """The value as a number, also with bits that its mask leaves out."""
        value = self.value.partition("/")[0]
        if self.name.endswith("_ip"):
            return address_number(value)
        if self.name.endswith("_ethtype"):
            return type_of(value) or 0
        if self.name == "ip_proto" and value in PROTOCOLS:
            return PROTOCOLS[value]
        if self.name.endswith("_mac") or self.name in ("ip_proto", "tcp_flags", "ip_tos"):
            return int(value.replace(":", ""), 16)
        return number_of(value)


@dataclass
class Request:
    """What a line asks for: `words` has at which of the line's words an option's value stands."""

    sort: str
    verb: str
    hook: str = ""
    protocol: int | None = None
    pref: int = 0
    chain: int = 0
    handle: int = 0
    fields: list[Field] = field(default_factory=list)
    actions: list[Action] = field(default_factory=list)
    words: dict[str, int] = field(default_factory=dict)
    line: int = 0


def mac_mask(given: str) -> int:
    if ":" in given:
        return int(given.replace(":", ""), 16)
    length = int(given or 48)
    return (1 << 48) - (1 << (48 - length))


def address_number(value: str) -> int:
    """An IPv6 address, or four numbers with dots."""
    if ":" in value:
        return int(IPv6Address(value))
    return int.from_bytes([int(it) for it in value.split(".")], "big")


def number_of(word: str) -> int:
    return int(word, 16) if word[:2] in ("0x", "0X") else int(word)


def type_of(word: str) -> int | None:
    """The EtherType that a word spells; nothing for `all`."""
    return None if word == "all" else TYPES.get(word.lower()) or int(word, 16)


def seen_text(text: str) -> str:
    """The text as a terminal may have it: what isn't printable is escaped, but for tabs."""
    return "".join(it if it.isprintable() or it == "\t" else f"\\u{{{ord(it):x}}}" for it in text)


def line_from(number: int, raw: bytes) -> Line:
    text = raw.decode("utf-8", "surrogateescape").removesuffix("\r")
    words = [Word(it[0], it.start() + 1) for it in re.finditer(r"[^ \t]+", text.split("#", 1)[0])]
    return Line(number, text, words)


def lines_in(data: bytes) -> Iterator[Line]:
    """The lines of a batch that have words."""
    lines = data.split(b"\n")
    return (line for number, raw in enumerate(lines, 1) if (line := line_from(number, raw)).words)


def read(name: str) -> bytes:
    """The bytes of a file."""
    try:
        with open(name, "rb") as file:
            return file.read()
    except OSError as error:
        raise Fault(f"{shown(name)}: cannot read: {error.strerror}") from None


def lines_of(name: str) -> Iterator[Line]:
    """The lines of a file that have words."""
    return lines_in(read(name))


def words_of(texts: list[str], at: int) -> tuple[str, dict[str, int], int]:
    """The control of an action from a place on, where the values of its words stand, and where it ends."""
    control, words = "pipe", dict[str, int]()
    while at < len(texts) and texts[at] != "action":
        if texts[at] in VALUES:
            words[texts[at]] = at + 1
            at += 2
        else:
            control = {"pass": "ok", "shot": "drop"}.get(texts[at], texts[at])
            at += {"jump": 2, "goto": 3}.get(control, 1)
            words[control] = at - 1
    return control, words, at


def action_from(texts: list[str], first: int) -> Action:
    """The action whose kind or control stands at a place."""
    kind, operation, at = "gact", "", first
    if texts[at] in ("gact", "vlan", "skbedit"):
        kind, at = texts[at], at + 1
    if kind == "vlan" and texts[at] != "index":
        operation, at = texts[at], at + 1
    named = not operation and texts[at] == "index"
    control, words, behind = words_of(texts, at)
    jump = number_of(texts[words[control]]) if control in ("jump", "goto") else 0
    index = number_of(texts[words["index"]]) if "index" in words else 0
    does = {("operation", operation), ("control", control)}
    does |= {(name, texts[place].lower()) for name, place in words.items() if name in SETTINGS}
    return Action(kind, named, operation, control, jump, index, words, first, behind, frozenset(does))


def take_options(request: Request, texts: list[str], at: int) -> int:
    """Reads the options from a place on, up to `flower` or the line's end."""
    while at < len(texts) and texts[at] != "flower":
        name = "pref" if texts[at] in PREFS else texts[at]
        request.words[name] = at + 1
        if name == "protocol":
            request.protocol = type_of(texts[at + 1])
        else:
            setattr(request, name, number_of(texts[at + 1]))
        at += 2
    return at + 1


def request_of(line: Line) -> Request:
    """What a good line asks for."""
    texts = [it.text for it in line.words]
    request, at = Request(texts[0], texts[1], line=line.number), 2
    if request.sort == "filter":
        request.hook = texts[4]
        at = take_options(request, texts, 5)
        while at < len(texts) and texts[at] != "action":
            request.fields.append(Field(texts[at], texts[at + 1], at + 1))
            at += 2
    while request.sort != "qdisc" and at < len(texts):
        request.actions.append(action_from(texts, at + 1))
        at = request.actions[-1].behind
    return request
