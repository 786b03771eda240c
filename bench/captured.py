#!/usr/bin/env python3
"""Writes real calls to standard output: captured.py OCTETS.

They are those of examples/naming.giop, again and again. The stream has at least that many octets and ends with a whole
message. It is the same on every run.
"""

from __future__ import annotations

from pathlib import Path
from typing import Iterator

from messages import write

CALLS = Path(__file__).resolve().parent.parent / "examples" / "naming.giop"


def calls(_draw: Iterator[int]) -> bytes:
    return CALLS.read_bytes()


if __name__ == "__main__":
    write("captured.py", calls)
