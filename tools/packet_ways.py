"""The way of a packet by its lines of a trace: through which chains it went, which tables were tried there,
what was looked for in each, and what was found.

A walk goes through chain 0, and behind each restart through a chain anew: each time is a passage here. What
isn't kept: what actions did, but for whether a filter's last one let the walk go on to the next table.
"""
from dataclasses import dataclass, field

from batch_lines import Field
from clsact_texts import Object


@dataclass(frozen=True)
class Look:
    """A look-up: its visit, the fields of its mask with the packet's values, and the line it found, or 0."""

    visit: int
    fields: list[Field]
    line: int


@dataclass
class Tried:
    """A table that was tried, the packet's EtherType there, and the look-ups in its masks."""

    pref: int
    protocol: str = ""
    looks: list[Look] = field(default_factory=list)


@dataclass
class Passage:
    """A time through a chain: its tables, the look-up whose filter ended it, the packet's EtherType then."""

    chain: int
    tables: list[Tried] = field(default_factory=list)
    taker: Look | None = None
    protocol: str = ""
    is_spent: bool = False


class Way:
    """The passages of a packet, as its lines come. An EtherType that no line tells is empty."""

    def __init__(self) -> None:
        self.passages = [Passage(0)]
        self.protocol, self.told = "", ""
        self.end: Object = {}

    def take(self, said: Object) -> None:
        """Takes what a line of the packet says."""
        getattr(self, f"take_{said.get('visit') or said.get('what')}", self.pass_over)(said)
        self.passages[-1].protocol = self.protocol

    def pass_over(self, said: Object) -> None:
        """The head says nothing of the way."""

    def take_table(self, said: Object) -> None:
        self.passages[-1].tables.append(Tried(said["pref"]))

    def take_fields(self, said: Object) -> None:
        self.told = said["protocol"]

    def take_miss(self, said: Object) -> None:
        """A look-up. Where its frame has other fields than that of the one before, they were told."""
        self.protocol = self.told
        fields = [Field(name, str(value), 0) for name, value in said["fields"].items()]
        table = self.passages[-1].tables[-1]
        table.protocol = self.protocol
        table.looks.append(Look(said["number"], fields, said.get("line", 0)))

    def take_match(self, said: Object) -> None:
        self.take_miss(said)
        self.passages[-1].taker = self.passages[-1].tables[-1].looks[-1]

    def take_run(self, said: Object) -> None:
        if said["action"]["control"] == "continue" and "room" not in said:
            self.passages[-1].taker = None
        if said["action"]["kind"] == "vlan":
            self.protocol = ""

    def take_restart(self, said: Object) -> None:
        self.passages.append(Passage(said["chain"]))

    def take_spent(self, _: Object) -> None:
        self.passages[-1].is_spent = True
