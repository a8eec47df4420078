"""Forms of lines: a template that reads a line to an object, and spells an object as that line.

`{name}` is a word of its own, `{name:codec}` one of another codec, `{name=words}` fixed words that are kept
under the name, and what stands in `[ ]` may be missing. What isn't promised: that two forms have no line in
common.
"""
import re
from collections.abc import Callable, Iterator
from dataclasses import dataclass
from typing import Any

from packet_lines import CLASS, N

Object = dict[str, Any]
KIND = "(?:gact|vlan|skbedit)"
TAG = "[0-9a-f]{4}:[0-9a-f]{4}"


@dataclass(frozen=True)
class Codec:
    """How a value is spelt: which words may stand there, the value that they say, and back."""

    pattern: str
    read: Callable[[str], Any]
    spell: Callable[[Any], str] = str


def word_value(word: str) -> int | str:
    """A decimal number is a number, and any other word is kept as it stands."""
    return int(word) if re.fullmatch(N, word) else word


def fields_of(words: str) -> Object:
    parts = words.split()
    return {name: word_value(value) for name, value in zip(parts[::2], parts[1::2])}


def fields_text(fields: Object) -> str:
    return "".join(f" {name} {value}" for name, value in fields.items())


def bound_of(words: str) -> list[Object]:
    found = re.findall(r" action (\w+) index (\d+)", words)
    return [{"kind": kind, "index": int(index)} for kind, index in found]


def bound_text(actions: list[Object]) -> str:
    return "".join(f" action {it['kind']} index {it['index']}" for it in actions)


def serials_of(words: str) -> list[int]:
    return [] if words == "none" else [int(it) for it in words.split(",")]


def serials_text(serials: list[int]) -> str:
    return ",".join(map(str, serials)) or "none"


def points_of(words: str) -> list[int]:
    return [int(it) for it in words.split(" ")]


def points_text(points: list[int]) -> str:
    return " ".join(map(str, points))


def no_room(said: Any) -> str:
    """What is told of an action that found no room; nothing that reads as a line for another word."""
    return "no room" if said is False else ""


def more_text(said: Any) -> str:
    """What is told where there are more ways; nothing that reads as a line for another word."""
    return "more" if said is True else ""


def tags_of(words: str) -> list[str]:
    return words.split(",")


CODECS = {
    "number": Codec(N, int),
    "word": Codec("[!-~]+", word_value),
    "verdict": Codec("pass|drop", str),
    "hook": Codec("ingress|egress", str),
    "kind": Codec(KIND, str),
    "handle": Codec("0x[1-9a-f][0-9a-f]{0,7}", str),
    "class": Codec(CLASS, str),
    "control": Codec("ok|drop|continue|pipe|reclassify", str),
    "reason": Codec("[A-Z][A-Za-z]+", str),
    "fields": Codec("(?: (?!action )[a-z_]+ [!-~]+)*", fields_of, fields_text),
    "under": Codec("(?: (?!handle |point )[a-z_]+ [!-~]+)*", fields_of, fields_text),
    "room": Codec("no room", lambda _: False, no_room),
    "foreseen": Codec("steady|moved|between|mixed|open", str),
    "when": Codec("before|after|both|between|mixed", str),
    "more": Codec("more", lambda _: True, more_text),
    "tags": Codec(f"{TAG}(?:,{TAG})*", tags_of, ",".join),
    "bound": Codec(f"(?: action {KIND} index {N})*", bound_of, bound_text),
    "serials": Codec(f"none|{N}(?:,{N})*", serials_of, serials_text),
    "points": Codec(f"{N}(?: {N})*", points_of, points_text),
}
CODEC_OF_NAME = {"protocol": "word"} | {name: name for name in CODECS}


@dataclass(frozen=True)
class Slot:
    """A place of a template where a value stands: its name, its codec, and which words may stand there."""

    name: str
    codec: Codec
    pattern: str

    def spelt(self, found: Object) -> str:
        return self.codec.spell(found[self.name])


def slot_of(inside: str) -> Slot:
    """What `{name}`, `{name:codec}` or `{name=words}` stands for."""
    name, mark, more = re.findall(r"(\w+)([:=]?)(.*)", inside)[0]
    if mark == "=":
        return Slot(name, Codec(re.escape(more), word_value), re.escape(more))
    codec = CODECS[more or CODEC_OF_NAME.get(name, "number")]
    return Slot(name, codec, codec.pattern)


Part = tuple[bool, list[str | Slot]]


def parts_of(template: str) -> Iterator[Part]:
    """A template's parts, each with whether it may be missing, and its texts and slots."""
    for part in re.findall(r"\[[^]]*\]|[^][]+", template):
        pieces = re.findall(r"\{[^}]*\}|[^{}]+", part.strip("[]"))
        yield part[0] == "[", [slot_of(it[1:-1]) if it[0] == "{" else it for it in pieces]


class Form:
    """One form of a line, by its template."""

    def __init__(self, sort: str, template: str) -> None:
        self.sort, self.template = sort, template
        self.first = template.split(" ")[0]
        self.parts = list(parts_of(template))
        self.slots = {it.name: it for _, part in self.parts for it in part if isinstance(it, Slot)}
        self.pattern = re.compile(self.pattern_text())

    def pattern_text(self) -> str:
        """The regular expression of the lines of this form."""
        seen: set[str] = set()
        return "".join(f"(?:{self.part_text(part, seen)})" + "?" * may_miss for may_miss, part in self.parts)

    def unnamed(self) -> str:
        """The same expression without names, as a part of another one."""
        return re.sub(r"\?P<\w+>", "?:", self.pattern_text())

    def part_text(self, part: list[str | Slot], seen: set[str]) -> str:
        """The expression of one part. Where a name stands again, so does its word."""
        text = ""
        for it in part:
            if isinstance(it, str):
                text += re.escape(it)
            else:
                text += f"(?P={it.name})" if it.name in seen else f"(?P<{it.name}>{it.pattern})"
                seen.add(it.name)
        return text

    def read(self, line: str) -> Object | None:
        """What the line says, where it is of this form."""
        found = self.pattern.fullmatch(line)
        if not found:
            return None
        words = {name: word for name, word in found.groupdict().items() if word is not None}
        return {"type": self.sort} | {name: self.slots[name].codec.read(word) for name, word in words.items()}

    def spell(self, said: Object) -> str:
        """The line that says this; another object gives another line or a LookupError."""
        text = ""
        for may_miss, part in self.parts:
            names = [it.name for it in part if isinstance(it, Slot)]
            if not may_miss or names[0] in said:
                text += "".join(it if isinstance(it, str) else str(it.spelt(said)) for it in part)
        return text
