"""Requests with encapsulations in both byte orders: of the operation `keep` of examples/features.sig, with code sets, to an
object by its internet profile; whole, and in Fragments."""

from __future__ import annotations

import sys
from itertools import product
from pathlib import Path
from typing import List

sys.path.insert(0, str(Path(__file__).resolve().parent.parent))

from reference.encoding import FRAGMENT, ORDERS, REQUEST, Order, Values, message


def profile(order: Order) -> Values:
    """An internet profile without components."""
    values = Values.enclosed(order).put(("octet", 1), ("octet", 2), ("string", "192.0.2.1"))
    return values.put(("ushort", 2809), ("octets", b"orders"), ("ulong", 0))


def payload(outer: Order, inner: Order) -> bytes:
    """What follows the header of a Request of 1.2."""
    values = Values(outer).put(("ulong", 9), ("octet", 3), ("octet", 0), ("octet", 0), ("octet", 0))
    values.put(("short", 1), ("ulong", 0))
    values.encapsulation(profile(inner))
    values.put(("string", "keep"), ("ulong", 1), ("ulong", 1))
    values.encapsulation(Values.enclosed(inner).put(("ulong", 0x10001), ("ulong", 0x10109)))
    values.align(8)
    values.encapsulation(Values.enclosed(inner).put(("long", 7), ("long", -1)))
    values.number(2)
    note = Values.enclosed(inner).put(("string", "hello"))
    longer = Values.enclosed(inner).put(("string", "hello"))
    longer.octets += b" and more than thirty-two octets"
    values.encapsulation(longer)
    values.encapsulation(note)
    return bytes(values.octets)


def messages() -> List[bytes]:
    """Each whole, and in three parts."""
    made = []
    for outer, inner in product(ORDERS, ORDERS):
        octets = payload(outer, inner)
        made.append(message(outer, REQUEST, octets))
        first, second = len(octets) // 3, 2 * len(octets) // 3
        again = (9).to_bytes(4, outer)
        made.append(message(outer, REQUEST, octets[:first], more=True))
        made.append(message(outer, FRAGMENT, again + octets[first:second], more=True))
        made.append(message(outer, FRAGMENT, again + octets[second:]))
    return made
