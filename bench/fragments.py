#!/usr/bin/env python3
"""Writes a stream of large fragmented calls to standard output: fragments.py OCTETS.

Each call is a Request of GIOP 1.2 of the operation `store` of calls.sig, whose octet sequence of 262,144 octets comes in
Fragments of 4,096. The stream has at least that many octets and ends with a whole message. It is the same on every run.
"""

from __future__ import annotations

from typing import Iterator

from messages import FRAGMENT, ORDERS, REQUEST, Values, called, message, running_up, write

LENGTH = 1 << 18
PART = 1 << 12


def call(draw: Iterator[int]) -> bytes:
    order = ORDERS[next(draw) % 2]
    request_id = next(draw)
    head = called(order, request_id, "store")
    head.sequence(running_up(next(draw), LENGTH))
    rest = bytes(head.octets)
    out = message(order, REQUEST, rest[:PART], more=True)
    rest = rest[PART:]
    while rest:
        part = Values(order)
        part.number(request_id)
        part.octets += rest[:PART]
        rest = rest[PART:]
        out += message(order, FRAGMENT, bytes(part.octets), more=bool(rest))
    return out


if __name__ == "__main__":
    write("fragments.py", call)
