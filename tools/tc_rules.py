"""What tc itself refuses of a filter's fields, though it is good here ("What tc asks of fields").

tc reads the fields of a line one after the other and goes by the EtherType that it has come to: that of the
protocol, then of `vlan_ethtype`, then of `cvlan_ethtype`. Tried with iproute2 6.1; the kernel isn't asked.
docs/LINUX.md has these rules in words.
"""
from collections.abc import Iterator

from batch_lines import Field, type_of

IP, IPV6 = 0x800, 0x86DD
TAGS = (0x8100, 0x88A8)


def is_foreign(kind: int | None, value: str) -> bool:
    """Whether tc takes the name of an IP protocol only under another EtherType. It takes the number so."""
    return {"icmp": IP, "icmpv6": IPV6}.get(value, kind) != kind


def fault_of(field: Field, kind: int | None, tagged: bool, twice: bool) -> str:
    """What is wrong for tc with a field, behind fields that came to an EtherType; empty where nothing is."""
    if field.name.endswith("_ip") and kind != (IPV6 if ":" in field.value else IP):
        return "an address without its protocol"
    if field.name == "ip_proto" and (kind not in (IP, IPV6) or is_foreign(kind, field.value)):
        return "an IP protocol without its protocol"
    if field.name.endswith("_port") and field.value in ("0", "0x0", "0X0"):
        return "port 0"
    if field.name.startswith("vlan_") and not tagged:
        return "a VLAN field without 802.1Q"
    if field.name.startswith("cvlan_") and not twice:
        return "a second VLAN field without `vlan_ethtype 802.1Q` before it"
    return ""


def faults(protocol: int | None, fields: list[Field]) -> Iterator[tuple[Field, str]]:
    """Each field that tc refuses where the others stand before and behind it so, and why."""
    kind, tagged, twice = protocol, protocol in TAGS, False
    for field in fields:
        fault = fault_of(field, kind, tagged, twice)
        if fault:
            yield field, fault
        if field.name in ("vlan_ethtype", "cvlan_ethtype"):
            kind = type_of(field.value)
            twice = twice or kind in TAGS
