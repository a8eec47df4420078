#!/usr/bin/env python3
"""Makes the captures of the examples gateway, vlan, refused, overlap, leak and foresee: what comes in, and what is to go out by the rules of docs/FORMATS.md.

It shares no code with the program: the packets that pass were picked by hand.
"""
import os
import sys

HERE = os.path.dirname(os.path.abspath(__file__))
sys.dont_write_bytecode = True
sys.path.insert(0, os.path.join(HERE, "..", "cases"))
from frames import capture  # noqa: E402

CAPTURES = {
    "gateway/ingress.pcap": [
        (1, "udp 192.0.2.9 10.0.0.1 53"),
        (2, "tcp 10.0.0.254 10.0.0.1 22 0x002"),
        (3, "tcp 203.0.113.5 10.0.0.1 22 0x002"),
        (4, "udp 203.0.113.5 10.0.0.1 53"),
        (5, "tcp 203.0.113.5 10.0.0.1 443 0x002"),
        (6, "tcp 203.0.113.5 10.0.0.1 80 0x002"),
        (7, "tcp 203.0.113.5 10.0.0.1 80 0x010"),
        (8, "tag 100 udp 192.0.2.9 10.0.0.1 53"),
    ],
    "gateway/ingress_passed.pcap": [
        (2, "tcp 10.0.0.254 10.0.0.1 22 0x002"),
        (4, "udp 203.0.113.5 10.0.0.1 53"),
        (5, "tcp 203.0.113.5 10.0.0.1 443 0x002"),
        (7, "tcp 203.0.113.5 10.0.0.1 80 0x010"),
    ],
    "gateway/egress.pcap": [
        (1, "udp 10.0.0.1 10.20.1.1 53"),
        (2, "udp 10.0.0.1 224.0.0.251 53 with 0 01005e0000fb"),
    ],
    "gateway/egress_passed.pcap": [
        (1, "tag 0x6014 udp 10.0.0.1 10.20.1.1 53"),
    ],
    "vlan/input.pcap": [
        (1, "tag 100 udp 10.0.0.1"),
        (2, "tag 100 udp 10.7.0.1"),
        (3, "udp 10.7.0.2"),
        (4, "udp 10.0.0.1"),
        (5, "tag 8 udp 10.7.0.1"),
    ],
    "vlan/expected.pcap": [
        (2, "tag 0x6007 udp 10.7.0.1"),
        (3, "tag 0x6007 udp 10.7.0.2"),
        (5, "tag 8 udp 10.7.0.1"),
    ],
    "overlap/input.pcap": [
        (1, "udp 10.0.0.1"),
        (2, "udp 10.0.0.2"),
        (3, "udp 10.0.0.1"),
        (4, "udp 10.0.0.2"),
    ],
    "overlap/passed.pcap": [
        (3, "udp 10.0.0.1"),
    ],
    "leak/input.pcap": [
        (1, "udp 10.0.0.1"),
        (2, "udp 10.0.0.1"),
        (3, "udp 10.0.0.1"),
        (4, "udp 10.0.0.1"),
    ],
    "leak/passed.pcap": [
        (2, "udp 10.0.0.1"),
        (3, "udp 10.0.0.1"),
    ],
    "leak/none.pcap": [],
    "foresee/input.pcap": [
        (1, "udp 203.0.113.9 10.0.0.1 53"),
        (2, "tcp 203.0.113.9 10.0.0.1 443 0x010"),
        (3, "tcp 203.0.113.9 10.0.0.1 23 0x010"),
    ],
    "foresee/deny.pcap": [
        (1, "tcp 192.0.2.1 10.0.0.1 443 0x002"),
    ],
    "foresee/live.pcap": [
        (1, "udp 203.0.113.5 10.0.0.1 53"),
        (2, "tag 100 udp 203.0.113.5 10.0.0.1 53"),
        (3, "tcp 203.0.113.5 10.0.0.1 443 0x002"),
        (4, "tcp 203.0.113.5 10.0.0.1 80 0x010"),
        (5, "tcp 203.0.113.5 10.0.0.1 22 0x002"),
        (6, "udp 192.0.2.9 10.0.0.1 53"),
    ],
    "refused/input.pcap": [
        (1, "udp 10.0.0.1"),
        (2, "udp 10.0.0.2"),
    ],
    "refused/expected.pcap": [
        (2, "udp 10.0.0.2"),
    ],
}

for name, packets in CAPTURES.items():
    with open(os.path.join(HERE, name), "wb") as file:
        file.write(capture(packets, False))
