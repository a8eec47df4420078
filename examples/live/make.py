#!/usr/bin/env python3
"""Makes block.tc, a list of 256 blocked addresses, and replay.pcap, 10,000 packets, in the current folder; always the same bytes."""
import os
import random
import sys

HERE = os.path.dirname(os.path.realpath(__file__))
sys.dont_write_bytecode = True
sys.path.insert(0, os.path.join(HERE, "..", "..", "cases"))
from frames import capture  # noqa: E402

BLOCK = "filter add dev eth0 ingress protocol ip pref 5 flower src_ip 198.18.0.{}/32 action gact index 100"


def packets():
    """What each packet is, in the words of cases/frames.py: eight kinds in turn, from addresses by chance."""
    chance = random.Random(10_000)
    for number in range(1, 10_001):
        blocked, other = f"198.18.0.{chance.randrange(256)}", f"203.0.113.{chance.randrange(256)}"
        yield [
            f"udp {other} 10.0.0.1 53",
            f"udp {other} 10.0.0.1 53",
            f"udp {blocked} 10.0.0.1 53",
            f"tag 100 udp {other} 10.0.0.1 53",
            f"tcp {other} 10.0.0.1 443 0x002",
            f"tcp {blocked} 10.0.0.1 443 0x002",
            f"tcp {blocked} 10.0.0.1 80 0x010",
            f"tcp {other} 10.0.0.1 22 0x002",
        ][number % 8]


def main():
    with open("block.tc", "w", encoding="ascii") as file:
        file.writelines(f"{BLOCK.format(it)}\n" for it in range(256))
    with open("replay.pcap", "wb") as file:
        file.write(capture(list(enumerate(packets(), 1)), False))


if __name__ == "__main__":
    main()
