"""The fields that filters compare: what a frame has in each, and how a value under a mask is printed.

A part of the twin in tracing.py; the rules are those of docs/DEFINITIONS.md and of "How an edit is printed"
in docs/FORMATS.md. An IPv6 address is one field here, of 128 bits. Nothing is shared with the program or with
tools/.
"""
import ipaddress
from collections.abc import Callable, Mapping
from functools import lru_cache

TAGS = {0x8100: "802.1Q", 0x88A8: "802.1ad"}
ETHER_NAMES = {0x0800: "ip", 0x86DD: "ipv6", 0x0806: "arp", **TAGS}
IP_NAMES = {6: "tcp", 17: "udp"}


def number(data: bytes, at: int, size: int) -> int:
    """The big-endian number of so many bytes at a place."""
    return int.from_bytes(data[at : at + size], "big")


def ether_type(frame: bytes) -> int:
    """The outermost EtherType, or 0 where there is no Ethernet header."""
    return number(frame, 12, 2) if len(frame) >= 14 else 0


def tags(frame: bytes) -> list[int]:
    """Where the tags that are there begin: at most two."""
    first = len(frame) >= 18 and number(frame, 12, 2) in TAGS
    second = first and len(frame) >= 22 and number(frame, 16, 2) in TAGS
    return [12, 16][: first + second]


def tag_values(frame: bytes, prefix: str, at: int) -> dict[str, int]:
    control = number(frame, at + 2, 2)
    kind = number(frame, at + 4, 2)
    return {f"{prefix}_id": control & 0xFFF, f"{prefix}_prio": control >> 13, f"{prefix}_ethtype": kind}


def transport_values(protocol: int, header: bytes) -> dict[str, int]:
    """Ports from 4 bytes of TCP or UDP on, flags from 14 bytes of TCP on."""
    values = {}
    if protocol in IP_NAMES and len(header) >= 4:
        values |= {"src_port": number(header, 0, 2), "dst_port": number(header, 2, 2)}
    if protocol == 6 and len(header) >= 14:
        values["tcp_flags"] = number(header, 12, 2) & 0xFFF
    return values


def ipv4_values(ip: bytes) -> dict[str, int]:
    """None where the header is cut or too short; a fragment has no transport header."""
    if len(ip) < 20 or ip[0] % 16 < 5:
        return {}
    addresses = {"src_ip": number(ip, 12, 4), "dst_ip": number(ip, 16, 4)}
    is_fragment = number(ip, 6, 2) & 0x3FFF
    transport = {} if is_fragment else transport_values(ip[9], ip[4 * (ip[0] % 16) :])
    return {"ip_proto": ip[9], "ip_tos": ip[1], "ip_ttl": ip[8], **addresses, **transport}


def ipv6_values(ip: bytes) -> dict[str, int]:
    """None where the fixed header is cut; no extension header is walked."""
    if len(ip) < 40:
        return {}
    addresses = {"src_ip6": number(ip, 8, 16), "dst_ip6": number(ip, 24, 16)}
    fixed = {"ip_proto": ip[6], "ip_tos": number(ip, 0, 2) >> 4 & 0xFF, "ip_ttl": ip[7]}
    return {**fixed, **addresses, **transport_values(ip[6], ip[40:])}


@lru_cache(maxsize=4096)
def values_of(frame: bytes) -> Mapping[str, int]:
    """The value of each field; 0 where its header isn't there."""
    values = dict.fromkeys(FIELDS, 0)
    if len(frame) < 14:
        return values
    values |= {"dst_mac": number(frame, 0, 6), "src_mac": number(frame, 6, 6)}
    there = tags(frame)
    for prefix, at in zip(("vlan", "cvlan"), there):
        values |= tag_values(frame, prefix, at)
    start = 14 + 4 * len(there)
    network = {0x0800: ipv4_values, 0x86DD: ipv6_values}.get(number(frame, start - 2, 2))
    return values | (network(frame[start:]) if network else {})


def ether_name(kind: int) -> str:
    return ETHER_NAMES.get(kind, f"0x{kind:04x}")


def mac(value: int) -> str:
    return value.to_bytes(6, "big").hex(":")


def mac_text(value: int, mask: int) -> str:
    return mac(value) + ("" if mask == 2**48 - 1 else f"/{mac(mask)}")


def ipv4_text(value: int, mask: int) -> str:
    return f"{ipaddress.IPv4Address(value)}/{mask.bit_count()}"


def ipv6_text(value: int, mask: int) -> str:
    groups = [f"{number(value.to_bytes(16, 'big'), at, 2):x}" for at in range(0, 16, 2)]
    return f"{':'.join(groups)}/{mask.bit_count()}"


def number_text(value: int, _: int) -> str:
    return str(value)


def ether_text(value: int, _: int) -> str:
    return ether_name(value)


def ip_proto_text(value: int, _: int) -> str:
    return IP_NAMES.get(value, f"0x{value:02x}")


def flags_text(value: int, mask: int) -> str:
    return f"{value:#x}/{mask:#x}"


def ttl_text(value: int, mask: int) -> str:
    return f"{value}/{mask}"


# Each field in the order in which an edit prints them: how many bits it has, and its printed form.
FIELDS: dict[str, tuple[int, Callable[[int, int], str]]] = {
    "dst_mac": (48, mac_text),
    "src_mac": (48, mac_text),
    "vlan_id": (12, number_text),
    "vlan_prio": (3, number_text),
    "vlan_ethtype": (16, ether_text),
    "ip_proto": (8, ip_proto_text),
    "src_ip": (32, ipv4_text),
    "dst_ip": (32, ipv4_text),
    "src_port": (16, number_text),
    "dst_port": (16, number_text),
    "tcp_flags": (12, flags_text),
    "cvlan_id": (12, number_text),
    "cvlan_prio": (3, number_text),
    "cvlan_ethtype": (16, ether_text),
    "ip_tos": (8, flags_text),
    "ip_ttl": (8, ttl_text),
    "src_ip6": (128, ipv6_text),
    "dst_ip6": (128, ipv6_text),
}


@lru_cache(maxsize=4096)
def frame_text(frame: bytes) -> str:
    """The EtherType, and each field whose value isn't 0, under a mask that is whole."""
    values = values_of(frame)
    masks = {name: whole(name) for name, value in values.items() if value}
    return f"protocol {ether_name(ether_type(frame))}{fields_text(values, masks)}"


@lru_cache(maxsize=4096)
def masked_text(frame: bytes, masks: tuple[tuple[str, int], ...]) -> str:
    """The fields of these masks, with the frame's values under them."""
    return fields_text(values_of(frame), dict(masks))


def whole(name: str) -> int:
    """The mask under which all bits of a field count."""
    return 2 ** FIELDS[name][0] - 1


def fields_text(values: Mapping[str, int], masks: Mapping[str, int]) -> str:
    """The fields that have a mask, each with its value under it, and a space before each word."""
    words = []
    for name, (_, text) in FIELDS.items():
        if mask := masks.get(name):
            words += [name.removesuffix("6"), text(values[name] & mask, mask)]
    return "".join(f" {it}" for it in words)
