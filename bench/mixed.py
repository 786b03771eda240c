#!/usr/bin/env python3
"""Writes a stream of mixed GIOP messages to standard output: mixed.py OCTETS.

The stream has at least that many octets and ends with a whole message. It is the same on every run. Its messages are of
every type, both byte orders and all three versions, with payloads of 0 to 4,095 octets, most of them short, as a
connection's are. The octets of a payload run up from a drawn one.
"""

from __future__ import annotations

from typing import Iterator

from messages import CANCEL_REQUEST, CLOSE_CONNECTION, FRAGMENT, ORDERS, REQUEST, message, running_up, write

TYPES = [0, 0, 0, 0, 1, 1, 1, 1, 2, 3, 4, 5, 6, 7]


def mixed(draw: Iterator[int]) -> bytes:
    minor = next(draw) % 3
    order = ORDERS[next(draw) % 2]
    kind = TYPES[next(draw) % len(TYPES)]
    if kind == FRAGMENT and minor == 0:
        kind = REQUEST
    if kind == CANCEL_REQUEST:
        size = 4
    elif kind == CLOSE_CONNECTION:
        size = 0
    elif next(draw) % 16 == 0:
        size = next(draw) % 4096
    else:
        size = next(draw) % 256
    return message(order, kind, running_up(next(draw) % 256, size), minor)


if __name__ == "__main__":
    write("mixed.py", mixed)
