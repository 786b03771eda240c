"""An encoder of GIOP messages, written apart from the dumper and the converter."""

from __future__ import annotations

import struct
from typing import Literal, Tuple, Union

Order = Literal["big", "little"]
Value = Union[int, float, str, bytes]

ORDERS: Tuple[Order, Order] = ("big", "little")  # by bit 0 of a header's flags
REQUEST, REPLY, CANCEL_REQUEST, LOCATE_REQUEST, LOCATE_REPLY, CLOSE_CONNECTION, MESSAGE_ERROR, FRAGMENT = range(8)
HEADER = 12
FORMS = {
    "octet": "B", "boolean": "?", "short": "h", "ushort": "H", "long": "i", "ulong": "I",
    "longlong": "q", "ulonglong": "Q", "float": "f", "double": "d",
}  # fmt: skip


class Values:
    """Values in one byte order, one after the other, each at a multiple of its size, which counts from `start` octets in
    front of the first: those of a message's header, or none in an encapsulation."""

    def __init__(self, order: Order, start: int = HEADER) -> None:
        self.order = order
        self.octets = bytearray()
        self._start = start

    @staticmethod
    def enclosed(order: Order) -> Values:
        """What an encapsulation holds: its byte order, and the values to come."""
        values = Values(order, 0)
        values.octets.append(ORDERS.index(order))
        return values

    def align(self, size: int) -> None:
        """Zeros up to a multiple of size."""
        self.octets += bytes(-(self._start + len(self.octets)) % size)

    def number(self, value: int, size: int = 4) -> None:
        """A number of so many octets; one below 0 as its two's complement."""
        self.align(size)
        self.octets += (value % (1 << 8 * size)).to_bytes(size, self.order)

    def sequence(self, octets: bytes) -> None:
        """A sequence of octets: how many, and the octets."""
        self.number(len(octets))
        self.octets += octets

    def string(self, text: str) -> None:
        """A string: how many octets, and the octets with the zero at their end."""
        self.sequence(text.encode("latin-1") + b"\0")

    def encapsulation(self, inner: Values) -> None:
        """The octets of these values as an encapsulation."""
        self.sequence(bytes(inner.octets))

    def put(self, *values: Tuple[str, Value]) -> Values:
        """Values by the words of a signature file, or `octets`; a str is a string but for a `char`."""
        for word, value in values:
            if isinstance(value, bytes) and word == "wchar":
                self.octets += bytes([len(value)]) + value
            elif isinstance(value, bytes):
                self.sequence(value)
            elif isinstance(value, str) and word == "string":
                self.string(value)
            elif isinstance(value, str):
                self.octets += value.encode("latin-1")
            else:
                self.align(struct.calcsize(FORMS[word]))
                self.octets += struct.pack((">" if self.order == "big" else "<") + FORMS[word], value)
        return self

    def request(self, request_id: int, operation: str, key: bytes) -> Values:
        """The header of a Request of 1.2 with an object key and no service context, without the padding after it."""
        self.put(("ulong", request_id), ("octet", 3), ("octet", 0), ("octet", 0), ("octet", 0))
        return self.put(("short", 0), ("octets", key), ("string", operation), ("ulong", 0))


def message(order: Order, kind: int, payload: bytes, minor: int = 2, more: bool = False) -> bytes:
    """A message: its header and its payload. `more` says that Fragments follow."""
    flags = ORDERS.index(order) + 2 * more
    return b"GIOP" + bytes([1, minor, flags, kind]) + len(payload).to_bytes(4, order) + payload


def request(
    request_id: int, operation: str, *values: Tuple[str, Value], order: Order = "big", key: bytes = b"key"
) -> bytes:
    """A Request of 1.2 to the object of a key."""
    return with_body(REQUEST, Values(order).request(request_id, operation, key), *values)


def reply(request_id: int, *values: Tuple[str, Value], status: int = 0, order: Order = "big") -> bytes:
    """A Reply of 1.2; of status 1 the repository id of the exception is the first value."""
    return with_body(REPLY, Values(order).put(("ulong", request_id), ("ulong", status), ("ulong", 0)), *values)


def with_body(kind: int, header: Values, *values: Tuple[str, Value]) -> bytes:
    """A message of 1.2 of a header and its body, which begins at a multiple of 8."""
    if values:
        header.align(8)
    return message(header.order, kind, bytes(header.put(*values).octets))
