#!/usr/bin/env python3
"""Writes captures of real calls to a naming service and their replies, those of examples/, again and again.

    exchanges.py long OCTETS      one connection, with about so many octets of capture
    exchanges.py short COUNT      so many connections one after the other, each with a SYN, all calls, and FINs
    exchanges.py late OCTETS      as long, but each eighth packet comes after the two that follow it

A packet is Ethernet, IPv4 and TCP, and has one message.

    exchanges.py requests OCTETS  the requests alone of a capture of so many octets, as giopdump reads them
    exchanges.py replies OCTETS   its replies alone
"""

from __future__ import annotations

import struct
import sys
from pathlib import Path
from typing import Iterator, List, Tuple

EXAMPLES = Path(__file__).resolve().parent.parent / "examples"
HEADER = struct.pack("<IHHIIII", 0xA1B2C3D4, 2, 4, 0, 0, 262_144, 1)
FIN, SYN, PUSH, ACK = 1, 2, 8, 16
HEADS = 16 + 14 + 20 + 20  # octets of a record without those of its message
PORTS = 50_000  # of clients


def messages(name: str) -> List[bytes]:
    """The messages of a stream of examples/."""
    octets, found = (EXAMPLES / name).read_bytes(), []
    while octets:
        size = 12 + int.from_bytes(octets[8:12], "little" if octets[6] & 1 else "big")
        found.append(octets[:size])
        octets = octets[size:]
    return found


CALLS = list(zip(messages("naming.giop"), messages("naming-replies.giop")))
ROUND = sum(len(call) + len(reply) + 2 * HEADS for call, reply in CALLS)


def record(number: int, octets: bytes) -> bytes:
    """The record of a packet, a tenth of a millisecond after the one in front of it."""
    seconds, tenths = divmod(number, 10_000)
    return struct.pack("<IIII", 1_700_000_000 + seconds, tenths * 100, len(octets), len(octets)) + octets


class Connection:
    """Makes the packets of a connection; both ends count from 0."""

    def __init__(self, number: int) -> None:
        self._ends = (
            (bytes((10, 0, number // PORTS % 256, 1)), 10_000 + number % PORTS),
            (bytes((10, 1, 0, 1)), 2809),
        )
        self._sent = [0, 0]

    def packet(self, side: int, flags: int, payload: bytes = b"") -> bytes:
        """The next packet of an end, 0 for the client."""
        (source, port), (target, other) = self._ends[side], self._ends[1 - side]
        head = struct.pack(">BBHHHBBH", 0x45, 0, 40 + len(payload), 0, 0x4000, 64, 6, 0) + source + target
        sent, got = self._sent[side], self._sent[1 - side]
        self._sent[side] = (sent + len(payload) + (flags & (SYN | FIN) > 0)) % 2**32
        segment = struct.pack(">HHIIBBHHH", port, other, sent, got, 0x50, flags, 65535, 0, 0)
        return bytes(12) + b"\x08\x00" + head + segment + payload

    def calls(self) -> Iterator[bytes]:
        """The packets of all calls and their replies."""
        for call, reply in CALLS:
            yield self.packet(0, ACK | PUSH, call)
            yield self.packet(1, ACK | PUSH, reply)

    def whole(self) -> Iterator[bytes]:
        """The packets of a connection from its SYN to its FINs."""
        yield self.packet(0, SYN)
        yield self.packet(1, SYN | ACK)
        yield from self.calls()
        yield self.packet(0, FIN | ACK)
        yield self.packet(1, FIN | ACK)


def long(octets: int) -> Iterator[bytes]:
    connection = Connection(0)
    for _ in range(max(1, octets // ROUND)):
        yield from connection.calls()


def short(count: int) -> Iterator[bytes]:
    for number in range(count):
        yield from Connection(number).whole()


def reordered(octets: int) -> Iterator[bytes]:
    late: List[Tuple[int, bytes]] = []
    for number, packet in enumerate(long(octets)):
        if number % 8 == 3:
            late.append((number + 2, packet))
            continue
        yield packet
        if late and late[0][0] <= number:
            yield late.pop()[1]
    yield from (packet for _, packet in late)


def main() -> None:
    sort, number = sys.argv[1], int(sys.argv[2])
    out = sys.stdout.buffer
    if sort in ("requests", "replies"):
        for _ in range(max(1, number // ROUND)):
            out.writelines(pair[sort == "replies"] for pair in CALLS)
        return
    out.write(HEADER)
    makers = {"long": long, "short": short, "late": reordered}
    out.writelines(record(place, packet) for place, packet in enumerate(makers[sort](number)))


if __name__ == "__main__":
    main()
