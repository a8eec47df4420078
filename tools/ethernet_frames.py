"""Ethernet frames of packets that were captured under other link types, where the packet tells enough.

A packet of Linux' cooked form or of plain IP has no Ethernet header, so one is made: its EtherType is what the
packet tells, its source address too where it has one, and its destination is zeros, or ones where the packet was a
broadcast. So no filter on `dst_mac` says anything of such a frame, and on most none on `src_mac`. A checksum that
was kept behind a frame is taken away, since tc never sees it. A packet of which no frame can be made (radio,
USB, what was cut within its link header) gives none.
"""
import struct
from collections.abc import Callable
from typing import NamedTuple

from capture_files import Record

ETHERNET = 1
MOST = 262_144
NOBODY, EVERYBODY = bytes(6), b"\xff" * 6
BROADCAST = 1
# Kinds of hardware whose cooked packets are no Ethernet inside: netlink, and radio with its own headers.
FOREIGN = (824, 801, 802, 803)
NAMES = {
    6: "Token Ring", 9: "PPP", 10: "FDDI", 50: "PPP", 51: "PPPoE", 100: "ATM", 104: "Cisco HDLC", 105: "802.11 radio",
    107: "Frame Relay", 119: "802.11 radio", 127: "802.11 radio", 163: "802.11 radio", 187: "Bluetooth", 189: "USB",
    192: "PPI", 195: "802.15.4 radio", 201: "Bluetooth", 220: "USB", 227: "CAN", 230: "802.15.4 radio", 249: "USB",
    253: "netlink",
}


class Made(NamedTuple):
    """The header to put before a packet, and how many bytes of its own header it takes the place of."""

    header: bytes
    instead: int


def cooked(kind: int, hardware: int, size: int, address: bytes, protocol: int, length: int) -> bytes | None:
    """The Ethernet header of a cooked packet. Below 0x600 stands a length, as 802.3 has it."""
    if hardware in FOREIGN:
        return None
    if protocol in (1, 4) and length <= 1500:
        protocol = length
    elif protocol < 0x600:
        return None
    source = address[:6] if size == 6 else NOBODY
    return (EVERYBODY if kind == BROADCAST else NOBODY) + source + struct.pack(">H", protocol)


def of_cooked(data: bytes, original: int) -> Made | None:
    if len(data) < 16:
        return None
    kind, hardware, size, address, protocol = struct.unpack_from(">HHH8sH", data)
    header = cooked(kind, hardware, size, address, protocol, original - 16)
    return Made(header, 16) if header else None


def of_cooked_2(data: bytes, original: int) -> Made | None:
    if len(data) < 20:
        return None
    protocol, hardware, kind, size, address = struct.unpack_from(">H6xHBB8s", data)
    header = cooked(kind, hardware, size, address, protocol, original - 20)
    return Made(header, 20) if header else None


def before_ip(data: bytes, at: int) -> Made | None:
    """The header for the IP packet that begins at a place, by its version."""
    kind = {4: b"\x08\x00", 6: b"\x86\xdd"}.get(data[at] >> 4) if len(data) > at else None
    return Made(NOBODY + NOBODY + kind, at) if kind else None


def of_ip(data: bytes, _: int) -> Made | None:
    return before_ip(data, 0)


def of_loopback(data: bytes, _: int) -> Made | None:
    return before_ip(data, 4)


class Link(NamedTuple):
    """A link type of which frames are made: what it is, and how."""

    name: str
    made: Callable[[bytes, int], Made | None]


LINKS = {
    0: Link("loopback of BSD", of_loopback), 12: Link("raw IP", of_ip), 14: Link("raw IP", of_ip), 101: Link("raw IP", of_ip),
    108: Link("loopback of BSD", of_loopback), 113: Link("Linux cooked", of_cooked), 228: Link("raw IPv4", of_ip),
    229: Link("raw IPv6", of_ip), 276: Link("Linux cooked", of_cooked_2),
}


def link_name(link: int) -> str:
    """What a link type is, where that is known."""
    name = LINKS[link].name if link in LINKS else NAMES.get(link, "")
    return f"link type {link}" + f" ({name})" * bool(name)


def without_checksum(record: Record) -> Record:
    """The packet without a checksum behind it, as far as that was captured."""
    whole = max(max(record.original, len(record.data)) - record.checksum, 0)
    return record._replace(checksum=0, original=whole, data=record.data[:whole])


def frame_of(record: Record) -> Record | None:
    """The packet as one of Ethernet."""
    if record.checksum:
        record = without_checksum(record)
    if record.link == ETHERNET:
        return record
    made = LINKS[record.link].made(record.data, record.original) if record.link in LINKS else None
    if not made:
        return None
    grown = max(record.original + len(made.header) - made.instead, 0)
    return record._replace(link=ETHERNET, original=grown, data=made.header + record.data[made.instead:])
