"""Messages of all versions, made by seeds, with numbers that have names with a signature file of version 3, and with those next
to them: ids of service contexts, tags of profiles, code sets, and minors of system exceptions."""

from __future__ import annotations

import random
import sys
from pathlib import Path
from typing import List

sys.path.insert(0, str(Path(__file__).resolve().parent.parent))

from reference.encoding import LOCATE_REPLY, ORDERS, REPLY, REQUEST, Values, message

CODE_SETS = (0x00010001, 0x00010020, 0x00010100, 0x00010106, 0x00010109, 0x05010001)
MINORS = tuple(0x1000 * vendor + code for vendor in (0x4F4D0, 0x41540, 0x54410, 0) for code in (0, 1, 0x7FF, 0xFFF))
SYSTEM_EXCEPTION, LOCATION_FORWARD = 2, 3


class Draw:
    """Draws the messages of a seed."""

    def __init__(self, seed: int) -> None:
        self.random = random.Random(f"named {seed}")
        self.order = self.random.choice(ORDERS)
        self.minor = self.random.choice((0, 1, 2))

    def near(self, known: int) -> int:
        """A number, or one next to it."""
        return known + self.random.choice((0, 0, 0, 1, -1))

    def inner(self) -> Values:
        return Values.enclosed(self.random.choice(ORDERS))

    def contexts(self, into: Values) -> None:
        """Service contexts."""
        draw = self.random
        into.number(count := draw.choice((0, 1, 2, 5)))
        for _ in range(count):
            into.number(number := draw.choice((1, self.near(draw.randrange(19)))))
            if number == 1:
                sets = self.inner().put(*(("ulong", self.near(draw.choice(CODE_SETS))) for _ in range(2)))
                into.encapsulation(sets)
            else:
                into.sequence(b"c" * draw.choice((0, 3)))

    def profile(self, into: Values) -> None:
        """A profile."""
        into.number(number := self.near(self.random.randrange(4)))
        if number == 0:
            body = self.inner().put(("octet", 1), ("octet", 2), ("string", "h"), ("ushort", 1), ("octets", b"k"))
            into.encapsulation(body.put(("ulong", 0)))
        else:
            into.sequence(b"p" * self.random.choice((0, 3)))

    def reference(self, into: Values) -> None:
        """An object reference."""
        into.string("IDL:A:1.0")
        into.number(count := self.random.choice((0, 1, 3)))
        for _ in range(count):
            self.profile(into)

    def raised(self, into: Values) -> None:
        """A system exception."""
        into.string("IDL:omg.org/CORBA/UNKNOWN:1.0")
        into.put(("ulong", self.near(self.random.choice(MINORS)) % 2**32), ("ulong", self.random.choice((0, 2, 3))))

    def message(self) -> bytes:
        """A Reply, a LocateReply, or a Request of 1.2 to an object by a profile."""
        kind = self.random.choice((REPLY, REPLY, LOCATE_REPLY, REQUEST))
        values = Values(self.order)
        if kind == REQUEST:
            values.put(("ulong", 7), ("octet", 3), ("octet", 0), ("octet", 0), ("octet", 0), ("short", 1))
            self.profile(values)
            values.string("ask")
            self.contexts(values)
            return message(self.order, kind, bytes(values.octets))
        raises = self.random.random() < 0.5
        status = (
            (4 if kind == LOCATE_REPLY else SYSTEM_EXCEPTION)
            if raises
            else 2
            if kind == LOCATE_REPLY
            else LOCATION_FORWARD
        )
        if kind == REPLY and self.minor < 2:
            self.contexts(values)
        values.put(("ulong", 7), ("ulong", status))
        if kind == REPLY and self.minor == 2:
            self.contexts(values)
            values.align(8)
        (self.raised if raises else self.reference)(values)
        return message(self.order, kind, bytes(values.octets), self.minor)


def messages(count: int) -> List[bytes]:
    """As many messages, by the seeds from 0."""
    return [Draw(seed).message() for seed in range(count)]


if __name__ == "__main__":
    sys.stdout.buffer.write(b"".join(messages(int(sys.argv[1]))))
