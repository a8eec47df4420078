#!/usr/bin/env python3
"""Makes input.pcap, and expected.txt and expected.pcap by its own reading of the rules.

It shares no code with the program: what the program gives is compared with what stands here.
"""
import ipaddress
import os
import random
import struct

NET = ipaddress.ip_network("10.20.0.0/16")  # as in rules.tc, whose action is drop


def ethernet(ether_type, rest, tags=()):
    head = bytes.fromhex("020000000001020000000002")
    for tpid, tci in tags:
        head += struct.pack(">HH", tpid, tci)
    return head + struct.pack(">H", ether_type) + rest


def ipv4(source, destination, protocol, payload, options=b"", ihl=None, fragment=0):
    words = 5 + len(options) // 4 if ihl is None else ihl
    head = struct.pack(">BBHHHBBH", 0x40 | words, 0, 20 + len(options) + len(payload), 7, fragment, 64, protocol, 0)
    return head + ipaddress.ip_address(source).packed + ipaddress.ip_address(destination).packed + options + payload


def frames():
    pick = random.Random(2026)
    for number in range(300):
        inside = f"10.20.{pick.randrange(256)}.{pick.randrange(256)}"
        outside = f"{pick.choice([10, 192, 198])}.{pick.choice([19, 21, 168])}.{pick.randrange(256)}.{pick.randrange(256)}"
        destination = inside if number % 3 == 0 else outside
        payload = struct.pack(">HHHH", 5000 + number, 53, 8 + number % 40, 0) + bytes(number % 40)
        packet = ipv4("203.0.113.5", destination, 17, payload)
        kind = number % 12
        if kind == 3:
            yield ethernet(0x0800, packet, [(0x8100, 100)])  # tagged: its EtherType isn't IPv4's
        elif kind == 4:
            yield ethernet(0x86DD, bytes(4) + struct.pack(">HBB", len(payload), 17, 64) + bytes(32) + payload)
        elif kind == 5:
            yield ethernet(0x0806, bytes(28))
        elif kind == 6:
            yield ethernet(0x0800, ipv4("203.0.113.5", destination, 6, payload, options=b"\1\1\1\0"))
        elif kind == 7:
            yield ethernet(0x0800, ipv4("203.0.113.5", inside, 17, payload, ihl=4))  # no IPv4 header: too short
        elif kind == 8:
            yield ethernet(0x0800, packet)[: 14 + number % 30]  # cut
        elif kind == 9:
            yield ethernet(0x0800, ipv4("203.0.113.5", destination, 17, payload, fragment=0x2000))
        elif kind == 10:
            yield bytes(number % 14)  # no whole Ethernet header
        else:
            yield ethernet(0x0800, packet)


def is_dropped(frame):
    """`protocol ip` on the outermost EtherType, and dst_ip where the header is whole."""
    if len(frame) < 14 or frame[12:14] != b"\x08\x00":
        return False
    if len(frame) < 34 or frame[14] & 15 < 5:
        return ipaddress.ip_address(0) in NET
    return ipaddress.ip_address(frame[30:34]) in NET


def capture(packets):
    out = struct.pack("<IHHIIII", 0xA1B2C3D4, 2, 4, 0, 0, 262144, 1)
    for seconds, fraction, original, frame in packets:
        out += struct.pack("<IIII", seconds, fraction, len(frame), original) + frame
    return out


def main():
    here = os.path.dirname(os.path.abspath(__file__))
    packets = [(1_795_000_000 + n // 10, n % 10 * 100_000, len(f) + n % 2, f) for n, f in enumerate(frames())]
    dropped = [is_dropped(frame) for *_, frame in packets]
    lines = [f"packet {n} {'drop' if d else 'pass'} length {len(p[3])}" for n, (d, p) in enumerate(zip(dropped, packets), 1)]
    total = sum(len(p[3]) for d, p in zip(dropped, packets) if d)
    lines.append(f"counter serial 1 gact index 1 packets {sum(dropped)} bytes {total}")
    lines.append(f"summary edits 2 refused 0 packets {len(packets)} passed {len(packets) - sum(dropped)} dropped {sum(dropped)}")
    lines.append("end")
    for name, data in [
        ("input.pcap", capture(packets)),
        ("expected.pcap", capture([p for d, p in zip(dropped, packets) if not d])),
        ("expected.txt", ("\n".join(lines) + "\n").encode()),
    ]:
        with open(os.path.join(here, name), "wb") as file:
            file.write(data)


if __name__ == "__main__":
    main()
