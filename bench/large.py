#!/usr/bin/env python3
"""Writes a stream of one large call to standard output: large.py OCTETS.

It is a Request of GIOP 1.2 of the operation `store` of calls.sig, whose one octet sequence has that many octets. It is the
same on every run.
"""

from __future__ import annotations

import sys

from messages import REQUEST, called, count_asked, message, running_up

PERIOD = bytes(range(256))


def call(octets: int) -> bytes:
    values = called("little", 1, "store")
    values.number(octets)
    whole, rest = divmod(octets, len(PERIOD))
    values.octets += PERIOD * whole + running_up(0, rest)
    return message("little", REQUEST, bytes(values.octets))


if __name__ == "__main__":
    sys.stdout.buffer.write(call(count_asked("large.py")))
