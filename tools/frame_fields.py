"""What a filter sees of a frame, here and on Linux, and what the frame lacks of it.

The fields are those of docs/FORMATS.md, each by its own condition and its own place, and 0 where that doesn't hold.
`read_on_linux` reads as docs/LINUX.md says that Linux does: addresses that aren't there match nothing, extension
headers of IPv6 are walked, flags want a whole TCP header, and a number below 0x600 is no protocol. What isn't
promised: any other difference of that page.
"""
from dataclasses import dataclass, field

TAGS = (0x8100, 0x88A8)
IP, IPV6, SHORTEST = 0x800, 0x86DD, 0x600
TCP, UDP = 6, 17
HOPS, ROUTING, FRAGMENT, OPTIONS = 0, 43, 44, 60
PORTS = frozenset(("src_port", "dst_port", "tcp_flags"))
NUMBERS = frozenset(("ip_proto", "ip_tos", "ip_ttl"))
ADDRESSES = frozenset(("src_ip", "dst_ip", "src_ip6", "dst_ip6"))
MACS = frozenset(("dst_mac", "src_mac"))
FIRST = frozenset(("vlan_id", "vlan_prio", "vlan_ethtype"))
SECOND = frozenset(("cvlan_id", "cvlan_prio", "cvlan_ethtype"))


@dataclass
class Reading:
    """The EtherType by which tables are tried, and the values of fields: one that isn't there is 0, and one that is
    None matches nothing."""

    kind: int
    values: dict[str, int | None] = field(default_factory=dict)


class Frame:
    """Where the headers of a frame stand."""

    def __init__(self, data: bytes) -> None:
        self.data = data
        self.tags = 0
        while self.tags < 2 and len(data) >= 18 + 4 * self.tags and self.two(12 + 4 * self.tags) in TAGS:
            self.tags += 1
        self.network = 14 + 4 * self.tags
        self.kind = self.two(12) if len(data) >= 14 else 0
        self.inner = self.two(self.network - 2) if len(data) >= 14 else 0
        words = data[self.network] & 15 if len(data) > self.network else 0
        self.is_ipv4 = self.inner == IP and len(data) >= self.network + 20 and words >= 5
        self.is_ipv6 = self.inner == IPV6 and len(data) >= self.network + 40
        self.transport = self.network + (4 * words if self.is_ipv4 else 40)
        self.protocol = data[self.network + (9 if self.is_ipv4 else 6)] if self.is_ipv4 or self.is_ipv6 else 0
        self.is_fragment = self.is_ipv4 and self.two(self.network + 6) & 0x3FFF != 0

    def two(self, at: int) -> int:
        return int.from_bytes(self.data[at: at + 2], "big")

    def number(self, at: int, size: int) -> int:
        return int.from_bytes(self.data[at: at + size], "big")

    def reading(self) -> Reading:
        """The fields as they are read here."""
        made = Reading(self.kind)
        if len(self.data) >= 14:
            made.values |= {"dst_mac": self.number(0, 6), "src_mac": self.number(6, 6)}
        for place, name in enumerate(("vlan", "cvlan")[: self.tags]):
            control = self.two(14 + 4 * place)
            made.values |= {f"{name}_id": control & 4095, f"{name}_prio": control >> 13, f"{name}_ethtype": self.two(16 + 4 * place)}
        made.values |= self.network_values()
        if not self.is_fragment:
            made.values |= self.transport_values(self.protocol, self.transport)
        return made

    def network_values(self) -> dict[str, int | None]:
        at = self.network
        if self.is_ipv4:
            return {"ip_tos": self.data[at + 1], "ip_ttl": self.data[at + 8], "ip_proto": self.protocol,
                    "src_ip": self.number(at + 12, 4), "dst_ip": self.number(at + 16, 4)}
        if self.is_ipv6:
            return {"ip_tos": self.two(at) >> 4 & 255, "ip_ttl": self.data[at + 7], "ip_proto": self.protocol,
                    "src_ip6": self.number(at + 8, 16), "dst_ip6": self.number(at + 24, 16)}
        return {}

    def transport_values(self, protocol: int, at: int) -> dict[str, int | None]:
        if protocol not in (TCP, UDP) or not (self.is_ipv4 or self.is_ipv6) or len(self.data) < at + 4:
            return {}
        made: dict[str, int | None] = {"src_port": self.two(at), "dst_port": self.two(at + 2)}
        if protocol == TCP and len(self.data) >= at + 14:
            made["tcp_flags"] = self.two(at + 12) & 4095
        return made

    def has_whole_flags(self, at: int) -> bool:
        """Whether Linux reads the flags of the TCP header at a place: it is whole, and says so itself."""
        return len(self.data) >= at + 20 and self.data[at + 12] >> 4 >= 5

    def behind_extensions(self) -> tuple[int, int, bool]:
        """The protocol behind the headers of IPv6 that Linux walks, where it begins, and whether it is of a fragment."""
        protocol, at = self.protocol, self.transport
        while protocol in (HOPS, ROUTING, OPTIONS) and len(self.data) >= at + 2:
            protocol, at = self.data[at], at + 8 * (self.data[at + 1] + 1)
        if protocol == FRAGMENT and len(self.data) >= at + 8:
            return self.data[at], at + 8, True
        return protocol, at, False

    def on_linux(self) -> Reading:
        """The fields as Linux reads them."""
        made = self.reading()
        made.values |= {name: None for name in ADDRESSES if name not in made.values}
        if self.tags == 1 and self.two(16) in TAGS:
            made.values |= {name: None for name in SECOND}
        protocol, at, is_fragment = self.behind_extensions() if self.is_ipv6 else (self.protocol, self.transport, self.is_fragment)
        if self.is_ipv6:
            made.values |= {"ip_proto": protocol} | {name: 0 for name in PORTS}
            made.values |= {} if is_fragment else self.transport_values(protocol, at)
        if made.values.get("tcp_flags") and not self.has_whole_flags(at):
            made.values["tcp_flags"] = 0
        self.name_lengths(made)
        return made

    def name_lengths(self, made: Reading) -> None:
        """A number below 0x600 says how long the frame is; Linux calls its protocol 4, or 1 where ones stand behind it."""
        if len(self.data) >= 14 and self.kind < SHORTEST:
            made.kind = 1 if self.data[14:16] == b"\xff\xff" else 4
        if self.tags == 1 and self.inner < SHORTEST:
            made.values["vlan_ethtype"] = 1 if self.data[18:20] == b"\xff\xff" else 4

    def is_of_length(self) -> bool:
        return len(self.data) >= 14 and (self.kind if not self.tags else self.inner if self.tags == 1 else SHORTEST) < SHORTEST

    def has_extensions(self) -> bool:
        return self.is_ipv6 and self.protocol in (HOPS, ROUTING, FRAGMENT, OPTIONS)

    def missing(self) -> frozenset[str]:
        """The fields of headers that begin in the frame, and that it hasn't whole."""
        size = len(self.data)
        if size < 14:
            return MACS | FIRST | SECOND | NUMBERS | ADDRESSES | PORTS
        if self.tags < 2 and self.inner in TAGS:
            return (SECOND if self.tags else FIRST | SECOND) | NUMBERS | ADDRESSES | PORTS
        if self.inner in (IP, IPV6) and not (self.is_ipv4 or self.is_ipv6):
            return NUMBERS | ADDRESSES | PORTS
        if self.is_fragment or not (self.is_ipv4 or self.is_ipv6) or self.protocol not in (TCP, UDP):
            return frozenset()
        if size < self.transport + 4:
            return PORTS
        return frozenset(("tcp_flags",)) if self.protocol == TCP and not self.has_whole_flags(self.transport) else frozenset()
