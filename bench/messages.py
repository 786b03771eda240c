"""What the makers of streams share: numbers that are the same on every run, and the program of a maker.

A maker draws a block of messages, which `write` writes again and again up to the length that is asked for.
"""

from __future__ import annotations

import sys
from pathlib import Path
from typing import Callable, Iterator

sys.path.insert(0, str(Path(__file__).resolve().parent.parent))

from reference.encoding import (  # what makers take from here
    CANCEL_REQUEST, CLOSE_CONNECTION, FRAGMENT, ORDERS, REQUEST, Order, Values, message,
)  # fmt: skip

__all__ = [
    "CANCEL_REQUEST", "CLOSE_CONNECTION", "FRAGMENT", "ORDERS", "REQUEST", "Order", "Values", "message",
    "called", "count_asked", "numbers", "running_up", "write",
]  # fmt: skip

BLOCK = 1 << 20


def numbers(seed: int = 1) -> Iterator[int]:
    """Numbers below 2^31, by the constants of MMIX."""
    while True:
        seed = (seed * 6364136223846793005 + 1442695040888963407) % 2**64
        yield seed >> 33


def running_up(first: int, count: int) -> bytes:
    """Octets that run up from the first."""
    return bytes((first + i) % 256 for i in range(count))


def called(order: Order, request_id: int, operation: str) -> Values:
    """The header of a Request of 1.2, and the padding to its body."""
    values = Values(order).request(request_id, operation, b"root/object/7")
    values.align(8)
    return values


def count_asked(maker: str) -> int:
    """The number of octets that the one word of the command line says."""
    if len(sys.argv) != 2 or not sys.argv[1].isdigit():
        sys.exit(f"usage: {maker} OCTETS > STREAM")
    return int(sys.argv[1])


def write(maker: str, messages_of: Callable[[Iterator[int]], bytes]) -> None:
    """The program of a maker: it writes at least so many octets as its one word says, and ends with a whole message.

    `messages_of` gives the octets of some messages, whole ones, from the numbers that it draws.
    """
    wanted = count_asked(maker)
    draw = numbers()
    block = bytearray()
    while len(block) < min(wanted, BLOCK):
        block += messages_of(draw)
    written = 0
    while written < wanted:
        sys.stdout.buffer.write(block)
        written += len(block)
