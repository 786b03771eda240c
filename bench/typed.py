#!/usr/bin/env python3
"""Writes a stream of typed calls to standard output: typed.py OCTETS.

The calls are Requests of GIOP 1.2 of about 380 octets, in both byte orders, of the operation `record` of calls.sig. The
stream has at least that many octets and ends with a whole message. It is the same on every run.
"""

from __future__ import annotations

from typing import Iterator

from messages import ORDERS, REQUEST, called, message, write


def call(draw: Iterator[int]) -> bytes:
    order = ORDERS[next(draw) % 2]
    values = called(order, next(draw), "record")
    values.string(f"track number {next(draw) % 100000}")
    values.number(next(draw) % 3, 4)
    values.number(7, 4)
    for _ in range(7):
        values.number(next(draw), 4)
        values.number(-next(draw), 4)
        values.number(next(draw) << 32, 8)
    shape = next(draw) % 2
    values.number(shape, 2)
    if shape == 0:
        values.string("a note of this track")
    else:
        values.number(next(draw) << 20, 8)
    values.number(22, 4)
    for _ in range(22):
        values.number(next(draw), 4)
    values.number(next(draw) % 2, 1)
    values.sequence(bytes(next(draw) % 256 for _ in range(40)))
    return message(order, REQUEST, bytes(values.octets))


if __name__ == "__main__":
    write("typed.py", call)
