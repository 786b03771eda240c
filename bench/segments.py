#!/usr/bin/env python3
"""Writes a capture of about so many octets: segments of so many octets of payload each, in order, of 200 connections by turns.

    segments.py OCTETS [PAYLOAD]

Each connection has one GIOP 1.0 request, which is faulted by a boolean of 2 and has more octets than are captured: so nothing
but its first octets has lines, and the time is that of packets, segments and flows.
"""

from __future__ import annotations

import struct
import sys

CONNECTIONS = 200
HEADER = struct.pack("<IHHIIII", 0xA1B2C3D4, 2, 4, 0, 0, 262_144, 1)
REQUEST = b"\0\0\0\0" + b"\0\0\0\1" + b"\2\0\0\0" + b"\0\0\0\1k\0\0\0" + b"\0\0\0\4put\0" + b"\0\0\0\0"
BEGIN = b"GIOP\1\0\0\0" + struct.pack(">I", 0x7FFF_FFFF) + REQUEST


def record(number: int, connection: int, sent: int, payload: bytes) -> bytes:
    """The record of a packet of a connection, of which so many octets were sent before."""
    ends = bytes([10, 0, 0, connection]) + bytes([10, 1, 0, 1])
    head = struct.pack(">BBHHHBBH", 0x45, 0, 40 + len(payload), 0, 0x4000, 64, 6, 0) + ends
    segment = struct.pack(">HHIIBBHHH", 10_000 + connection, 2809, sent, 0, 0x50, 16, 65535, 0, 0)
    octets = bytes(12) + b"\x08\x00" + head + segment + payload
    seconds, tenths = divmod(number, 10_000)
    return struct.pack("<IIII", 1_700_000_000 + seconds, tenths * 100, len(octets), len(octets)) + octets


def main() -> None:
    octets = int(sys.argv[1])
    size = int(sys.argv[2]) if len(sys.argv) > 2 else 512
    rounds = max(1, octets // (CONNECTIONS * (size + 70)))
    first, others = BEGIN + bytes(size - len(BEGIN)), bytes(size)
    out = sys.stdout.buffer
    out.write(HEADER)
    for turn in range(rounds):
        payload = others if turn else first
        out.write(b"".join(record(turn, connection, turn * size, payload) for connection in range(CONNECTIONS)))


if __name__ == "__main__":
    main()
