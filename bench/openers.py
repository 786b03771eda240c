#!/usr/bin/env python3
"""Writes a stream of interleaved calls to standard output: openers.py OCTETS.

Sixteen Requests of GIOP 1.2 of the operation `record` of calls.sig are open at once, and each in turn gets a Fragment
with the next 8 to 71 octets of it until all have ended; then sixteen others begin. The stream has at least that many
octets and ends with a whole message. It is the same on every run.
"""

from __future__ import annotations

from typing import Iterator, List

from messages import FRAGMENT, ORDERS, REQUEST, message, write
from typed import call

OPEN = 16


def split(draw: Iterator[int], whole: bytes) -> List[bytes]:
    """A whole call as a list of messages: its first part and its Fragments."""
    order, rest = ORDERS[whole[6] & 1], whole[12:]
    request_id = rest[:4]
    parts, kind, front = [], REQUEST, b""
    while rest:
        count = 8 + next(draw) % 64
        part, rest = rest[:count], rest[count:]
        parts.append(message(order, kind, front + part, more=bool(rest)))
        kind, front = FRAGMENT, request_id
    return parts


def calls(draw: Iterator[int], many: int = OPEN) -> bytes:
    left = [split(draw, call(draw)) for _ in range(many)]
    out = b""
    while left:
        for parts in left:
            out += parts.pop(0)
        left = [parts for parts in left if parts]
    return out


if __name__ == "__main__":
    write("openers.py", calls)
