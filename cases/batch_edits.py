"""What the lines of a batch say: the edit of each, or its first bad word.

A part of the twin in tracing.py, after the grammar in docs/FORMATS.md. Each word is taken where some line
goes on with it; the first that isn't, or the place behind the last where words are missing, is the first bad
word.
"""
import ipaddress
import re
from collections.abc import Callable
from dataclasses import dataclass
from typing import Any

from frame_values import FIELDS, ether_name, whole

Value = Callable[[str], Any]


class BadWord(Exception):
    """The number of the first bad word."""


@dataclass(frozen=True)
class Params:
    """What an action does: its kind, its verb and the values of that, and its control with its number."""

    kind: str
    verb: str
    values: dict[str, int]
    control: str
    number: int | None

    def text(self) -> str:
        """As `show` prints it, without the index."""
        values = [f"{name} {VALUE_TEXTS.get((self.kind, name), str)(it)}" for name, it in self.values.items()]
        number = [] if self.number is None else ["chain"][: self.control == "goto"] + [str(self.number)]
        return " ".join([self.kind, *filter(None, [self.verb]), *values, self.control, *number])


@dataclass(frozen=True)
class ActionLine:
    """An action of a line: only named where it has no parameters."""

    kind: str
    index: int | None
    params: Params | None


@dataclass(frozen=True)
class Edit:
    """What a line asks for. A del without a protocol has None; for `all` it is ALL. Each mask has a value."""

    verb: str
    hook: str = ""
    protocol: int | None = None
    chain: int = 0
    pref: int | None = None
    handle: int | None = None
    masks: tuple[tuple[str, int], ...] = ()
    key: tuple[int, ...] = ()
    actions: tuple[ActionLine, ...] = ()


def commands(batch: bytes) -> dict[int, list[str]]:
    """The words of each line that has some, by the line's number."""
    lines = batch.decode("latin-1").split("\n")
    words = [re.findall(r"[^ \t]+", it.removesuffix("\r").partition("#")[0]) for it in lines]
    return {place: its for place, its in enumerate(words, 1) if its}


# ---- the words of values: None for a word that spells none

def matched(pattern: str, word: str) -> re.Match[str] | None:
    return re.fullmatch(pattern, word, re.ASCII)


def decimal(word: str, most: int) -> int | None:
    return int(word) if matched("0|[1-9][0-9]{0,9}", word) and int(word) <= most else None


def number(least: int, most: int) -> Value:
    """A number in decimal, or with 0x in 1 to 8 hexadecimal digits."""
    def read(word: str) -> int | None:
        its = int(word, 16) if matched("0[xX][0-9a-fA-F]{1,8}", word) else decimal(word, most)
        return its if its is not None and least <= its <= most else None
    return read


def hexadecimal(digits: int, most: int) -> Value:
    """So many hexadecimal digits at most, with or without 0x."""
    def read(word: str) -> int | None:
        its = int(word, 16) if matched(f"(0x)?[0-9a-fA-F]{{1,{digits}}}", word) else most + 1
        return its if its <= most else None
    return read


def named(names: dict[str, int], others: Value) -> Value:
    return lambda word: names[word] if word in names else others(word)


def numbered_type(word: str) -> int | None:
    return int(word, 16) if matched("0x[0-9a-fA-F]{1,4}", word) else None


def class_number(word: str) -> int | None:
    found = matched("([0-9a-fA-F]{1,4}):([0-9a-fA-F]{1,4})", word)
    return int(found[1], 16) << 16 | int(found[2], 16) if found else None


def class_text(value: int) -> str:
    return f"{value >> 16:x}:{value & 0xFFFF:x}"


def masked(value: Value, mask: Value, most: int) -> Value:
    """A value and its mask, which is whole where none is told."""
    def read(word: str) -> tuple[int, int] | None:
        first, slash, second = word.partition("/")
        its = value(first), mask(second) if slash else most
        return None if None in its else its
    return read


def plain(value: Value, name: str) -> Value:
    """A value whose mask is always whole."""
    return masked(value, lambda _: None, whole(name))


def prefix(bits: int) -> Value:
    """The mask of a length in decimal."""
    def read(word: str) -> int | None:
        length = decimal(word, bits)
        return None if length is None else 2**bits - 2 ** (bits - length)
    return read


def mac(word: str) -> int | None:
    return int(word.replace(":", ""), 16) if matched("[0-9a-fA-F]{2}(:[0-9a-fA-F]{2}){5}", word) else None


def mac_mask(word: str) -> int | None:
    return mac(word) if ":" in word else prefix(48)(word)


def address(version: type, pattern: str) -> Value:
    def read(word: str) -> int | None:
        try:
            return int(version(word)) if matched(pattern, word) else None
        except ValueError:
            return None
    return read


IPV4 = masked(address(ipaddress.IPv4Address, "[0-9.]+"), prefix(32), 2**32 - 1)
IPV6 = masked(address(ipaddress.IPv6Address, "[0-9a-fA-F:]+"), prefix(128), 2**128 - 1)
TAG_NAMES = {"802.1Q": 0x8100, "802.1q": 0x8100, "802.1ad": 0x88A8, "802.1AD": 0x88A8}
TYPE_NAMES = {"ip": 0x0800, "ipv4": 0x0800, "ipv6": 0x86DD, "arp": 0x0806, **TAG_NAMES}
IP_PROTOCOLS = {"tcp": 6, "udp": 17, "icmp": 1, "icmpv6": 58, "sctp": 132}
ETHER_TYPE = named(TYPE_NAMES, numbered_type)
CHAIN = number(0, 2**28 - 1)
INDEX = number(1, 2**32 - 1)
KINDS = ("gact", "vlan", "skbedit")
ALL = -1
OPTIONS = {
    "protocol": named({"all": ALL}, ETHER_TYPE),
    "pref": number(1, 65535),
    "chain": CHAIN,
    "handle": INDEX,
}
SAME_OPTION = {"prio": "pref", "priority": "pref", "preference": "pref"}
TAG = {"protocol": named(TAG_NAMES, lambda _: None), "id": number(0, 4094), "priority": number(0, 7)}
EDITED = {"queue_mapping": number(0, 65535), "priority": class_number, "mark": number(0, 2**32 - 1)}
VALUE_TEXTS = {("vlan", "protocol"): ether_name, ("skbedit", "priority"): class_text}
CONTROLS = {"ok": "ok", "pass": "ok", "drop": "drop", "shot": "drop", "continue": "continue", "pipe": "pipe",
            "reclassify": "reclassify", "jump": "jump", "goto": "goto"}
FIELD_VALUES = {
    "dst_mac": masked(mac, mac_mask, whole("dst_mac")),
    "src_mac": masked(mac, mac_mask, whole("src_mac")),
    "vlan_id": plain(number(0, 4095), "vlan_id"),
    "vlan_prio": plain(number(0, 7), "vlan_prio"),
    "vlan_ethtype": plain(ETHER_TYPE, "vlan_ethtype"),
    "ip_proto": plain(named(IP_PROTOCOLS, hexadecimal(2, 255)), "ip_proto"),
    "src_ip": lambda word: IPV6(word) if ":" in word else IPV4(word),
    "dst_ip": lambda word: IPV6(word) if ":" in word else IPV4(word),
    "src_port": plain(number(0, 65535), "src_port"),
    "dst_port": plain(number(0, 65535), "dst_port"),
    "tcp_flags": masked(hexadecimal(3, 0xFFF), hexadecimal(3, 0xFFF), 0xFFF),
    "cvlan_id": plain(number(0, 4095), "cvlan_id"),
    "cvlan_prio": plain(number(0, 7), "cvlan_prio"),
    "cvlan_ethtype": plain(ETHER_TYPE, "cvlan_ethtype"),
    "ip_tos": masked(hexadecimal(2, 255), hexadecimal(2, 255), 255),
    "ip_ttl": masked(number(0, 255), number(0, 255), 255),
}
# Fields that stand only behind ip_proto, with one of these.
BEHIND = {"src_port": {6, 17}, "dst_port": {6, 17}, "tcp_flags": {6}}


# ---- the grammar

class Words:
    """The words of a line, taken one after the other."""

    def __init__(self, words: list[str]) -> None:
        self.words, self.taken = words, 0

    def next(self) -> str | None:
        return self.words[self.taken] if self.taken < len(self.words) else None

    def ask(self, good: bool) -> None:
        """Where it isn't good, no line goes on with the next word, or ends here."""
        if not good:
            raise BadWord(self.taken + 1)

    def word(self, *those: str) -> str:
        """One of those words."""
        self.ask(self.next() in those)
        self.taken += 1
        return self.words[self.taken - 1]

    def value(self, read: Value) -> Any:
        self.ask(self.next() is not None and read(self.words[self.taken]) is not None)
        self.taken += 1
        return read(self.words[self.taken - 1])

    def named_values(self, readings: dict[str, Value]) -> dict[str, Any]:
        """Names with their values, in any order, each at most once; some only behind ip_proto."""
        told: dict[str, Any] = {}
        same = SAME_OPTION if readings is OPTIONS else {}
        while (name := same.get(word := self.next() or "", word)) in readings and name not in told:
            self.ask(name not in BEHIND or told.get("ip_proto", (0, 0))[0] in BEHIND[name])
            self.word(word)
            told[name] = self.value(readings[name])
        return told

    def control(self, controls: list[str]) -> tuple[str, int | None]:
        control = CONTROLS[self.word(*controls)]
        if control == "goto":
            self.word("chain")
        return control, self.value(CHAIN) if control in ("jump", "goto") else None

    def full_action(self, kind: str, controls: list[str]) -> ActionLine:
        """What an action does, its control and its index. The control of vlan and skbedit may be left out."""
        verb = self.word("push", "pop", "modify") if kind == "vlan" else ""
        values = {"push": TAG, "modify": TAG}.get(verb, EDITED if kind == "skbedit" else {})
        told = self.named_values(values)
        self.ask("id" in told if values is TAG else bool(told) or not values)
        told |= {"protocol": told.get("protocol", 0x8100)} if values is TAG else {}
        told |= {"priority": told.get("priority", 0)} if verb == "push" else {}
        has_control = kind == "gact" or self.next() in controls
        control, number = self.control(controls) if has_control else ("pipe", None)
        params = Params(kind, verb, {name: told[name] for name in values if name in told}, control, number)
        return ActionLine(kind, self.index() if self.next() == "index" else None, params)

    def index(self) -> int:
        self.word("index")
        return self.value(INDEX)

    def action(self, of_filter: bool) -> ActionLine:
        """An action in full; in a filter it may go to a chain, or be only named."""
        self.word("action")
        is_kind = self.next() in KINDS
        kind = self.word(*KINDS) if is_kind else "gact"
        if of_filter and is_kind and self.next() == "index":
            return ActionLine(kind, self.index(), None)
        return self.full_action(kind, [it for it in CONTROLS if of_filter or it != "goto"])

    def qdisc_line(self) -> Edit:
        verb = self.word("add", "del")
        for word in ("dev", "eth0", "clsact"):
            self.word(word)
        return Edit(f"qdisc {verb}")

    def filter_line(self) -> Edit:
        verb = self.word("add", "replace", "del")
        for word in ("dev", "eth0"):
            self.word(word)
        hook = self.word("ingress", "egress")
        told = self.named_values(OPTIONS)
        needed = {"add": set(), "replace": {"pref", "handle"}, "del": {"pref"}}[verb]
        self.ask(needed <= told.keys())
        if verb == "del":
            if "handle" in told or self.next() is not None:
                self.word("flower")
            return Edit("filter del", hook, **told)
        self.word("flower")
        masks, key = self.fields()
        actions: list[ActionLine] = []
        while self.next() is not None:
            self.ask(len(actions) < 16)
            actions.append(self.action(True))
        told = {"protocol": ALL, **told}
        return Edit(f"filter {verb}", hook, **told, masks=masks, key=key, actions=tuple(actions))

    def fields(self) -> tuple[tuple[tuple[str, int], ...], tuple[int, ...]]:
        """Masks and key, in the order of the fields. One whose mask is 0 leaves no trace."""
        told = self.named_values(FIELD_VALUES).items()
        by_name = {field_name(name, mask): (value & mask, mask) for name, (value, mask) in told if mask}
        inside = [name for name in FIELDS if name in by_name]
        return tuple((it, by_name[it][1]) for it in inside), tuple(by_name[it][0] for it in inside)

    def actions_line(self) -> Edit:
        verb = self.word("add", "change", "del")
        if verb == "del":
            self.word("action")
            its = ActionLine(self.word(*KINDS), self.index(), None)
        else:
            its = self.action(False)
            self.ask(verb == "add" or its.index is not None)
        return Edit(f"actions {verb}", actions=(its,))


def field_name(name: str, mask: int) -> str:
    """An IPv6 address is another field than one of IPv4; its masks have more than 32 bits."""
    return name + "6" if name.endswith("_ip") and mask >= 2**32 else name


def edit_of(words: list[str]) -> Edit:
    """The edit that the words of a line give, or BadWord."""
    its = Words(words)
    lines = {"qdisc": its.qdisc_line, "filter": its.filter_line, "actions": its.actions_line}
    edit = lines[its.word(*lines)]()
    its.ask(its.next() is None)
    return edit
