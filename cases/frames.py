"""Captures made from lines that say what their frames are. Nothing here is shared with the program.

Packet n of a capture has seconds n, fraction 0, and its frame's length as original length. A frame is one of these, from left to right:

    udp [S] D [P]         60 bytes: UDP over IPv4 from S (10.0.0.254) to D, port P (53)
    tcp S D P F           60 bytes: TCP over IPv4 with the flags F
    udp6 D                62 bytes: UDP over IPv6 from 2001:db8::fe to D
    zeros N               N zero bytes
    tag I FRAME           with 0x8100 and the number I behind the first 12 bytes
    FRAME with AT HEX     with these bytes in place of those from byte AT on
    FRAME cut N           its first N bytes; the original length stays
    FRAME original N      with another original length
    FRAME claims N        with a captured length that isn't the frame's
"""
import ipaddress
import re
import struct
import sys

ETHERNET = bytes.fromhex("020000000001020000000002")


def address(word):
    return ipaddress.ip_address(word).packed


def udp(source, destination, port):
    ip = bytes.fromhex("4500002e0000000040110000") + address(source) + address(destination)
    return ETHERNET + b"\x08\x00" + ip + struct.pack(">HHHH", 0x1388, port, 0x1A, 0) + bytes(18)


def tcp(source, destination, port, flags):
    ip = bytes.fromhex("450000280000000040060000") + address(source) + address(destination)
    return ETHERNET + b"\x08\x00" + ip + struct.pack(">HH8xH6x", 0x1388, port, 0x5000 + flags) + bytes(6)


def udp6(destination):
    ip = bytes.fromhex("6000000000081140") + address("2001:db8::fe") + address(destination)
    return ETHERNET + b"\x86\xdd" + ip + bytes.fromhex("1388003500080000")


def base_frame(words):
    """The frame that the words begin with. Its words are taken away."""
    kind = words.pop(0)
    if kind == "tag":
        number = int(words.pop(0), 0)
        inner = base_frame(words)
        return inner[:12] + struct.pack(">HH", 0x8100, number) + inner[12:]
    if kind == "zeros":
        return bytes(int(words.pop(0)))
    if kind == "udp6":
        return udp6(words.pop(0))
    if kind == "tcp":
        source, destination, port, flags = (words.pop(0) for _ in range(4))
        return tcp(source, destination, int(port), int(flags, 0))
    if kind == "udp":
        given = []
        while words and re.match(r"[0-9.]+$", words[0]):
            given.append(words.pop(0))
        source, destination, port = given if len(given) == 3 else ("10.0.0.254", given[0], "53")
        return udp(source, destination, int(port))
    sys.exit(f"cases: no frame: {kind}")


def record(line, seconds, order):
    """The bytes of a packet in a capture."""
    words = line.split()
    frame = base_frame(words)
    original, claimed = len(frame), None
    while words:
        change, first = words.pop(0), words.pop(0)
        if change == "with":
            new = bytes.fromhex(words.pop(0))
            frame = frame[: int(first)] + new + frame[int(first) + len(new) :]
        elif change == "cut":
            frame = frame[: int(first)]
        elif change == "original":
            original = int(first)
        elif change == "claims":
            claimed = int(first)
        else:
            sys.exit(f"cases: no change of a frame: {change}")
    return struct.pack(order + "IIII", seconds, 0, len(frame) if claimed is None else claimed, original) + frame


def capture(packets, is_big):
    """The bytes of a capture of these packets, each with its seconds."""
    order = ">" if is_big else "<"
    magic = 0xA1B23C4D if is_big else 0xA1B2C3D4
    head = struct.pack(order + "IHHIIII", magic, 2, 4, 0, 0, 262144, 1)
    return head + b"".join(record(line, seconds, order) for seconds, line in packets)
