"""The walk of a frame through a hook, by what `show` tells of it and by any reading of frames.

It follows the rules of docs/FORMATS.md and "A walk" of docs/ARCHITECTURE.md: tables by pref, masks by age, actions, at
most 16 restarts, 31 jumps and 65,536 visits. It is there to ask what another reading of a frame would come to, and
which filters it met; the program's own walk is the one that counts, and its user holds this one to it.
"""
import ipaddress
from collections.abc import Callable
from dataclasses import dataclass, field

from batch_lines import mac_mask, type_of
from clsact_texts import Object
from frame_fields import Reading

RESTARTS, JUMPS, VISITS, ROOM, MOST = 16, 31, 65_536, 64, 262_144
PROTOCOLS = {"tcp": 6, "udp": 17, "icmp": 1, "icmpv6": 58, "sctp": 132}
WIDTHS = {"vlan_id": 12, "cvlan_id": 12, "vlan_prio": 3, "cvlan_prio": 3, "tcp_flags": 12, "ip_tos": 8, "ip_ttl": 8, "ip_proto": 8}
Condition = tuple[str, int, int]


def condition_of(name: str, text: str) -> Condition:
    """A field's name, value and mask, as `show` prints them."""
    value, _, mask = text.partition("/")
    if name.endswith("_ip"):
        address = ipaddress.ip_address(value)
        width = address.max_prefixlen
        ones = (1 << width) - (1 << (width - int(mask or width)))
        return name + "6" * (width == 128), int(address), ones
    if name.endswith("_mac"):
        return name, int(value.replace(":", ""), 16), mac_mask(mask)
    if name.endswith("_ethtype"):
        return name, type_of(value) or 0, 0xFFFF
    base = 16 if name in ("tcp_flags", "ip_tos", "ip_proto") else 10
    number = PROTOCOLS[value] if value in PROTOCOLS else int(value, base)
    return name, number, int(mask, base) if mask else (1 << WIDTHS.get(name, 16)) - 1


@dataclass
class Filter:
    """A filter: where it stands, its fields, and its actions."""

    place: str
    conditions: list[Condition]
    actions: list[Object]

    def meets(self, reading: Reading) -> bool:
        return all(self.has(reading, it) for it in self.conditions)

    def lacks(self, reading: Reading, lacking: frozenset[str]) -> bool:
        """Whether only fields that the frame lacks are in question."""
        return any(it[0] in lacking for it in self.conditions) and all(
            it[0] in lacking or self.has(reading, it) for it in self.conditions)

    @staticmethod
    def has(reading: Reading, condition: Condition) -> bool:
        name, wanted, mask = condition
        value = reading.values.get(name, 0)
        return value is not None and value & mask == wanted & mask


@dataclass
class Table:
    """A chain's pref: its protocol, and its filters by mask, the oldest first."""

    chain: int
    protocol: int | None
    masks: list[list[Filter]] = field(default_factory=list)


def tables_of(objects: list[Object], hook: str) -> list[Table]:
    """The tables of a hook, in the order in which `show` tells them."""
    actions = {(it["kind"], it["index"]): it for it in objects if it["type"] == "action"}
    tables, seen = dict[tuple[int, int], Table](), dict[tuple[int, int], list[frozenset[tuple[str, int]]]]()
    for it in objects:
        if it["type"] == "filter" and it["hook"] == hook:
            place = it["chain"], it["pref"]
            conditions = [condition_of(name, str(value)) for name, value in it["fields"].items()]
            made = Filter("{hook} chain {chain} pref {pref} handle {handle}".format(**it), conditions,
                          [actions[of["kind"], of["index"]] for of in it["actions"]])
            table = tables.setdefault(place, Table(it["chain"], type_of(str(it["protocol"]))))
            masks, mask = seen.setdefault(place, []), frozenset((name, ones) for name, _, ones in conditions)
            if mask not in masks:
                masks.append(mask)
                table.masks.append([])
            table.masks[masks.index(mask)].append(made)
    return list(tables.values())


class Walk:
    """A frame on its way: its bytes, what skbedit left, and the filters that looked at what it lacks."""

    def __init__(self, tables: list[Table], data: bytes, read: Callable[[bytes], Reading], lacking: frozenset[str] = frozenset()) -> None:
        self.tables, self.read, self.lacking = tables, read, lacking
        self.data, self.loaded, self.reading = data, len(data), read(data)
        self.left = VISITS - 1
        self.marks = {"priority": "0:0", "mark": "0", "queue_mapping": "0"}
        self.met = list[str]()
        self.verdict = self.run()

    def outcome(self) -> tuple[str, dict[str, str]]:
        """The verdict, and what skbedit left of a packet that passes."""
        return self.verdict, self.marks if self.verdict == "pass" else {}

    def run(self) -> str:
        ending: str | int = 0
        for _ in range(RESTARTS + 1):
            ending = self.through(ending) if isinstance(ending, int) else ending
        return ending if isinstance(ending, str) else "drop"

    def through(self, chain: int) -> str | int:
        """What a chain comes to: a verdict, or the chain to go on with."""
        for table in self.tables:
            if table.chain == chain and table.protocol in (None, self.reading.kind):
                found = self.decider(table)
                if self.left < 0:
                    return "drop"
                ending = self.act_on(found.actions) if found else "continue"
                if ending != "continue":
                    return ending
        return "pass"

    def decider(self, table: Table) -> Filter | None:
        """The filter under the oldest mask that has the frame's fields."""
        for filters in table.masks:
            self.left -= 1
            self.met += [it.place for it in filters if self.lacking and it.lacks(self.reading, self.lacking)]
            found = next((it for it in filters if it.meets(self.reading)), None)
            if found:
                return found
        return None

    def act_on(self, actions: list[Object]) -> str | int:
        """How a list of actions ends."""
        position, jumps = 0, JUMPS
        while position < len(actions):
            if not self.left:
                return "drop"
            self.left -= 1
            action = actions[position]
            control = self.act(action)
            if control == "jump":
                if not jumps or not 0 < action["jump"] < len(actions):
                    return "pass"
                position, jumps = action["jump"], jumps - 1
            elif control == "pipe":
                position += 1
            else:
                endings: dict[str, str | int] = {"ok": "pass", "reclassify": 0}
                return action["chain"] if control == "goto" else endings.get(control, control)
        return "pass"

    def act(self, action: Object) -> str:
        """Does what an action does, and answers its control."""
        if action["kind"] == "skbedit":
            self.marks |= {name: str(action[name]) for name in self.marks if name in action}
        if action["kind"] == "vlan":
            if action["vlan"] == "push" and self.lacks_room():
                return "drop"
            self.data = retagged(self.data, action)
            self.reading = self.read(self.data)
        return str(action["control"])

    def lacks_room(self) -> bool:
        return len(self.data) >= 14 and (len(self.data) + 4 > self.loaded + ROOM or len(self.data) + 4 > MOST)


def retagged(data: bytes, action: Object) -> bytes:
    """The frame with a tag more, less, or another one."""
    is_tagged = len(data) >= 18 and int.from_bytes(data[12:14], "big") in (0x8100, 0x88A8)
    kind = (type_of(str(action.get("protocol", "802.1Q"))) or 0).to_bytes(2, "big")
    if action["vlan"] == "push" and len(data) >= 14:
        control: int = action["priority"] << 13 | action["id"]
        return data[:12] + kind + control.to_bytes(2, "big") + data[12:]
    if action["vlan"] == "pop" and is_tagged:
        return data[:12] + data[16:]
    if action["vlan"] == "modify" and is_tagged:
        old = int.from_bytes(data[14:16], "big")
        control = int(action.get("priority", old >> 13)) << 13 | old & 0x1000 | int(action["id"])
        return data[:12] + kind + control.to_bytes(2, "big") + data[16:]
    return data
