"""What `tc -j` prints of filters and actions, as words of a batch, or why there are none.

tc prints a number in another base than the one in which it takes it, and some names that it doesn't take at all;
what is written here is taken back, by tc and here. Members that say nothing of packets (where the kernel works,
what was counted) are left away. Each other member, field, kind or value without words is told and never dropped
in silence. Tried on what iproute2 6.1 and 6.15 print. What isn't promised: that a field whose mask is 0 is known
as one, since tc prints none.
"""
import ipaddress
import re
from collections.abc import Callable
from typing import Any

from export import ORDER

Printed = dict[str, Any]
# The names of EtherTypes that tc prints and a batch has as numbers.
TYPES = {
    "802_3": 0x1, "ax25": 0x2, "802_2": 0x4, "snap": 0x5, "ddcmp": 0x6, "wan_ppp": 0x7, "ppp_mp": 0x8, "localtalk": 0x9, "can": 0xC,
    "ppptalk": 0x10, "tr_802_2": 0x11, "mobitex": 0x15, "control": 0x16, "irda": 0x17, "econet": 0x18, "loop": 0x60, "pup": 0x200,
    "pupat": 0x201, "x25": 0x805, "bpq": 0x8FF, "ieeepup": 0xA00, "ieeepupat": 0xA01, "dec": 0x6000, "dna_dl": 0x6001,
    "dna_rc": 0x6002, "dna_rt": 0x6003, "lat": 0x6004, "diag": 0x6005, "cust": 0x6006, "sca": 0x6007, "teb": 0x6558,
    "rarp": 0x8035, "atalk": 0x809B, "aarp": 0x80F3, "ipx": 0x8137, "mpls_uc": 0x8847, "mpls_mc": 0x8848, "atmmpoa": 0x884C,
    "ppp_disc": 0x8863, "ppp_ses": 0x8864, "atmfate": 0x8884, "profinet": 0x8892, "aoe": 0x88A2, "ethercat": 0x88A4,
    "tipc": 0x88CA, "lldp": 0x88CC, "cfm": 0x8902,
}
TYPE_WORDS = ("ip", "ipv6", "arp", "802.1Q", "802.1ad")
IP_PROTOCOLS = {"esp": 0x32, "ah": 0x33, "l2tp": 0x73}
IP_PROTOCOL_WORDS = ("tcp", "udp", "icmp", "icmpv6", "sctp")
CLASSES = {"none": "0:0", "root": "ffff:ffff"}
CONTROLS = {"pass": "ok", "drop": "drop", "continue": "continue", "pipe": "pipe", "reclassify": "reclassify"}
# Members of an action that say nothing of what it does to packets, and those of which the reader is told.
QUIET = (
    "order", "kind", "index", "ref", "bind", "control_action", "not_in_hw", "installed", "last_used", "first_used", "stats",
    "used_hw_stats",
)
LEFT_AWAY = ("cookie", "hw_stats", "no_percpu", "skip_hw", "in_hw", "in_hw_count")
MAC = "[0-9a-f]{2}(:[0-9a-f]{2}){5}"


class Beyond(Exception):
    """What is printed has no words in a batch."""


def number(value: Any) -> int:
    if type(value) is not int or value < 0:
        raise Beyond(f"{value!r} where a number is due")
    return value


def hexadecimal(value: Any) -> str:
    """Digits without 0x, as masks are printed."""
    if not re.fullmatch("(0x)?[0-9a-f]{1,8}", str(value)):
        raise Beyond(f"{value!r} where hexadecimal digits are due")
    return f"0x{int(value, 16):x}"


def type_word(value: Any) -> str:
    """An EtherType; one without a name is a decimal number in brackets."""
    name = str(value)
    if name in TYPE_WORDS:
        return name
    found = re.fullmatch(r"\[(\d{1,5})\]", name)
    kind = int(found[1]) if found else TYPES.get(name.lower())
    if kind is None or kind > 0xFFFF:
        raise Beyond(f"protocol {name}")
    return f"0x{kind:04x}"


def protocol_word(value: Any) -> str:
    return "all" if value == "all" else type_word(value)


def address_word(value: Any) -> str:
    """An address with the length of its prefix. IPv6 is written without dots in it."""
    address, slash, length = str(value).partition("/")
    try:
        parsed = ipaddress.ip_address(address)
    except ValueError:
        raise Beyond(f"address {value}") from None
    if slash and not re.fullmatch(r"\d{1,3}", length):
        raise Beyond(f"address {value}")
    if parsed.version == 6:
        address = ":".join(f"{int(it, 16):x}" for it in parsed.exploded.split(":")) if "." in address else address
    return address + slash + length


def mac_word(value: Any) -> str:
    if not re.fullmatch(rf"{MAC}(/({MAC}|\d{{1,2}}))?", str(value)):
        raise Beyond(f"address {value}")
    return str(value)


def ip_protocol_word(value: Any) -> str:
    """One without a name is hexadecimal, with or without 0x."""
    if value in IP_PROTOCOL_WORDS:
        return str(value)
    if value in IP_PROTOCOLS:
        return f"0x{IP_PROTOCOLS[value]:02x}"
    if not re.fullmatch("(0x)?[0-9a-f]{1,2}", str(value)):
        raise Beyond(f"ip_proto {value}")
    return f"0x{int(value, 16):02x}"


def flags_word(value: Any) -> str:
    """Hexadecimal; 0x stands before the value alone."""
    flags, slash, mask = str(value).partition("/")
    return hexadecimal(flags) + slash + (hexadecimal(mask) if slash else "")


WORDS: dict[str, Callable[[Any], str]] = {
    "dst_mac": mac_word, "src_mac": mac_word, "src_ip": address_word, "dst_ip": address_word, "ip_proto": ip_protocol_word,
    "vlan_ethtype": type_word, "cvlan_ethtype": type_word, "tcp_flags": flags_word, "ip_tos": lambda it: f"0x{number(it):x}",
} | {it: lambda it: str(number(it)) for it in ("vlan_id", "vlan_prio", "cvlan_id", "cvlan_prio", "src_port", "dst_port", "ip_ttl")}
MASKED = ("ip_tos", "ip_ttl")


def field_words(keys: Printed) -> list[tuple[str, str]]:
    """The fields of a filter with their values, in the order in which tc takes them."""
    left = {name: value for name, value in keys.items() if name != "eth_type"}
    found = []
    for name in ORDER:
        if name in left:
            word = value_word(name, left.pop(name))
            mask = left.pop(f"{name}_mask", None) if name in MASKED else None
            found.append((name, word if mask is None else f"{word}/{hexadecimal(mask)}"))
    if left:
        raise Beyond(f"field {', '.join(left)}")
    behind = [name for name, _ in found if name.endswith("_port") or name == "tcp_flags"]
    if behind and keys.get("ip_proto") not in ("tcp", "udp"):
        raise Beyond(f"{behind[0]} behind ip_proto {keys.get('ip_proto')}")
    return found


def value_word(name: str, value: Any) -> str:
    if name.endswith("_port") and isinstance(value, dict):
        raise Beyond(f"a range of {name}")
    return WORDS[name](value)


def class_word(value: Any) -> str:
    """`1:10`, `:5`, `1:`, `none` or `root`."""
    major, colon, minor = CLASSES.get(str(value), str(value)).partition(":")
    if not colon or not re.fullmatch("[0-9a-f]{0,4}/[0-9a-f]{0,4}", f"{major}/{minor}"):
        raise Beyond(f"priority {value}")
    return f"{major or 0}:{minor or 0}"


def control_words(control: Printed) -> str:
    kind = control["type"]
    if kind == "jump":
        return f"jump {number(control['jump'])}"
    if kind == "goto":
        return f"goto chain {number(control['chain'])}"
    if kind not in CONTROLS:
        raise Beyond(f"control {kind}")
    return CONTROLS[kind]


def gact_words(left: Printed) -> str:
    if left.pop("prob", {"random_type": "none"})["random_type"] != "none":
        raise Beyond("random")
    return "gact"


def vlan_words(left: Printed) -> str:
    operation = left.pop("vlan_action")
    if operation not in ("push", "pop", "modify"):
        raise Beyond(f"vlan {operation}")
    if operation == "pop":
        return "vlan pop"
    protocol = left.pop("protocol", "802.1Q")
    if protocol not in ("802.1Q", "802.1ad"):
        raise Beyond(f"vlan {operation} protocol {protocol}")
    words = f"vlan {operation} protocol {protocol} id {number(left.pop('id'))}"
    return words + (f" priority {number(left.pop('priority'))}" if "priority" in left else "")


def skbedit_words(left: Printed) -> str:
    words = "skbedit"
    if "queue_mapping" in left:
        words += f" queue_mapping {number(left.pop('queue_mapping'))}"
    if "priority" in left:
        words += f" priority {class_word(left.pop('priority'))}"
    if "mark" in left:
        words += f" mark {number(left.pop('mark'))}"
    return words


KINDS = {"gact": gact_words, "vlan": vlan_words, "skbedit": skbedit_words}


def action_words(action: Printed) -> str:
    """`KIND .. CONTROL` of an action, without its index."""
    if action["kind"] not in KINDS:
        raise Beyond(f"action {action['kind']}")
    control = control_words(action["control_action"])
    left = {name: value for name, value in action.items() if name not in QUIET + LEFT_AWAY}
    words = KINDS[action["kind"]](left)
    if left or words == "skbedit":
        raise Beyond(f"{action['kind']} with {', '.join(left) or 'nothing'}")
    return f"{words} {control}"
