#!/usr/bin/env python3
"""Writes a stream of interleaved calls to standard output: many.py OCTETS.

It is that of openers.py with 4,096 calls open at once, the most that the dumper joins.
"""

from __future__ import annotations

from functools import partial

from messages import write
from openers import calls

if __name__ == "__main__":
    write("many.py", partial(calls, many=4096))
