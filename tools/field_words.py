"""A field's value under its mask, as the program prints it: docs/FORMATS.md, "How an edit is printed"."""
from ipaddress import IPv4Address

from batch_lines import TYPES, Field

TYPE_NAMES = {TYPES[name]: name for name in ("ip", "ipv6", "arp")} | {0x8100: "802.1Q", 0x88A8: "802.1ad"}
PROTOCOL_NAMES = {6: "tcp", 17: "udp"}


def type_word(number: int | None) -> str:
    """An EtherType, or what a table without one asks for."""
    return "all" if number is None else TYPE_NAMES.get(number, f"0x{number:04x}")


def address_word(number: int, is_long: bool) -> str:
    if not is_long:
        return str(IPv4Address(number))
    return ":".join(f"{number >> shift & 0xFFFF:x}" for shift in range(112, -1, -16))


def mac_word(number: int) -> str:
    return number.to_bytes(6, "big").hex(":")


def printed(it: Field) -> str:
    """The value without what its mask leaves out, with the mask where it is printed."""
    number = it.number & it.bits
    if it.name.endswith("_mac"):
        return mac_word(number) + (f"/{mac_word(it.bits)}" if it.bits + 1 != 1 << it.width else "")
    if it.name.endswith("_ip"):
        return f"{address_word(number, ':' in it.value)}/{it.mask}"
    if it.name.endswith("_ethtype"):
        return type_word(number)
    if it.name == "ip_proto":
        return PROTOCOL_NAMES.get(number, f"0x{number:02x}")
    if it.name in ("tcp_flags", "ip_tos"):
        return f"0x{number:x}/0x{it.bits:x}"
    return f"{number}/{it.bits}" if it.name == "ip_ttl" else str(number)
