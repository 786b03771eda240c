#!/usr/bin/env python3
"""Writes a capture of one connection: so many calls, and then COUNT calls, between which replies come.

    outstanding.py oldest CALLS COUNT   each of the COUNT calls is followed by the reply to the oldest one
    outstanding.py random CALLS COUNT   each of them by the reply to any one
    outstanding.py newest CALLS COUNT   each of the later half of them by the replies to the two newest ones

A packet is Ethernet, IPv4 and TCP, and has one message of GIOP 1.2 without a body.
"""

from __future__ import annotations

import random
import struct
import sys
from collections import deque
from typing import Deque, Iterator, List, Tuple

from exchanges import ACK, HEADER, PUSH, Connection, record

CHOOSER = random.Random(1)


def message(sort: int, body: bytes) -> bytes:
    """A message of this type, big-endian."""
    return b"GIOP\1\2\0" + bytes([sort]) + struct.pack(">I", len(body)) + body


def request(number: int) -> bytes:
    """A Request that expects a reply."""
    target = struct.pack(">HHI3sx", 0, 0, 3, b"key")
    operation = struct.pack(">I5s3x", 5, b"ping\0")
    return message(0, struct.pack(">IB3x", number, 3) + target + operation + bytes(4))


def reply(number: int) -> bytes:
    """The Reply without an exception."""
    return message(1, struct.pack(">III", number, 0, 0))


def answered(sort: str, outstanding: Deque[int], is_late: bool) -> List[int]:
    """The calls that are answered now, which are outstanding no longer."""
    if sort == "oldest":
        return [outstanding.popleft()]
    if sort == "random":
        place = CHOOSER.randrange(len(outstanding))
        outstanding[place], outstanding[-1] = outstanding[-1], outstanding[place]
        return [outstanding.pop()]
    return [outstanding.pop(), outstanding.pop()] if is_late else []


def messages(sort: str, calls: int, count: int) -> Iterator[Tuple[int, bytes]]:
    """The end that sends each message, 0 for the client, and the message."""
    outstanding: Deque[int] = deque()
    for number in range(calls + count):
        yield 0, request(number)
        outstanding.append(number)
        if number >= calls:
            for call in answered(sort, outstanding, 2 * (number - calls) >= count):
                yield 1, reply(call)


def main() -> None:
    sort, calls, count = sys.argv[1], int(sys.argv[2]), int(sys.argv[3])
    connection, out = Connection(0), sys.stdout.buffer
    out.write(HEADER)
    for place, (side, octets) in enumerate(messages(sort, calls, count)):
        out.write(record(place, connection.packet(side, ACK | PUSH, octets)))


if __name__ == "__main__":
    main()
