#!/usr/bin/env python3
"""Writes a capture of about so many octets: small packets of Ethernet, IPv4 and TCP between some endpoints.

    packets.py OCTETS [pcap | pcapng]
"""

import struct
import sys

PACKETS = 10_000

SECTION = struct.pack("<IIIHHqI", 0x0A0D0D0A, 28, 0x1A2B3C4D, 1, 0, -1, 28)
INTERFACE = struct.pack("<IIHHII", 1, 20, 1, 0, 262_144, 20)


def packet(i: int) -> bytes:
    payload = bytes([i & 255]) * (12 + i * 7 % 64)
    source = bytes([10, 0, 0, 1 + i % 3])
    header = struct.pack(">BBHHHBBH", 0x45, 0, 40 + len(payload), i & 0xFFFF, 0x4000, 64, 6, 0)
    segment = struct.pack(">HHIIBBHHH", 1000 + i % 50, 2809, i * 64, 1, 0x50, 0x10, 65535, 0, 0)
    return bytes(12) + b"\x08\x00" + header + source + bytes([10, 0, 1, 1]) + segment + payload


def record(i: int) -> bytes:
    octets = packet(i)
    return struct.pack("<IIII", 1_700_000_000 + i // 1000, i % 1000 * 1000, len(octets), len(octets)) + octets


def block(i: int) -> bytes:
    octets = packet(i)
    padded = octets + bytes(-len(octets) % 4)
    time = (1_700_000_000 + i // 1000) * 1_000_000 + i % 1000 * 1000
    head = struct.pack("<IIIIIII", 6, 32 + len(padded), 0, time >> 32, time & 0xFFFFFFFF, len(octets), len(octets))
    return head + padded + struct.pack("<I", 32 + len(padded))


def main() -> None:
    octets = int(sys.argv[1])
    blocks = sys.argv[2:] == ["pcapng"]
    records = b"".join((block if blocks else record)(i) for i in range(PACKETS))
    header = struct.pack("<IHHIIII", 0xA1B2C3D4, 2, 4, 0, 0, 262_144, 1)
    sys.stdout.buffer.write(SECTION + INTERFACE if blocks else header)
    for _ in range(max(1, octets // len(records))):
        sys.stdout.buffer.write(records)


if __name__ == "__main__":
    main()
