#!/usr/bin/env python3
"""Writes a stream of calls with sequences of doubles to standard output: doubles.py OCTETS.

The calls are Requests of GIOP 1.2, in both byte orders, of the operation `plot` of calls.sig, each with 8,192 doubles. The
stream has at least that many octets and ends with a whole message. It is the same on every run.
"""

from __future__ import annotations

from typing import Iterator

from messages import ORDERS, REQUEST, called, message, write

LENGTH = 1 << 13


def call(draw: Iterator[int]) -> bytes:
    order = ORDERS[next(draw) % 2]
    values = called(order, next(draw), "plot")
    values.number(LENGTH)
    for _ in range(LENGTH):
        values.number(next(draw) << 32 | next(draw), 8)
    return message(order, REQUEST, bytes(values.octets))


if __name__ == "__main__":
    write("doubles.py", call)
