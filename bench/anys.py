#!/usr/bin/env python3
"""Writes a stream of events to standard output: anys.py OCTETS.

They are Requests of GIOP 1.2 in both byte orders, of the operations of anys.sig, as an event channel pushes them: anys of
a struct, which its TypeCode describes, of a string, a number or a truth value; and structured events of a notification
channel, with a property of each of these and the struct behind them. The stream has at least that many octets and ends
with a whole message. It is the same on every run.
"""

from __future__ import annotations

from typing import Callable, Iterator

from messages import ORDERS, REQUEST, Values, called, message, write

TK_ULONG, TK_BOOLEAN, TK_STRUCT, TK_ENUM, TK_STRING, TK_LONGLONG = 5, 8, 15, 17, 18, 23

Maker = Callable[[Values, Iterator[int]], None]


def described(values: Values, name: str) -> Values:
    """What the TypeCode of a struct or an enum has in its encapsulation, so far."""
    inner = Values.enclosed(values.order)
    inner.string(f"IDL:shop.example/Shop/{name}:1.0")
    inner.string(name)
    return inner


def currency_code(values: Values) -> None:
    """The TypeCode of a Currency."""
    inner = described(values, "Currency")
    inner.number(3)
    for name in ("EUR", "USD", "JPY"):
        inner.string(name)
    values.number(TK_ENUM)
    values.encapsulation(inner)


def money(values: Values, draw: Iterator[int]) -> None:
    """An any of a Money."""
    inner = described(values, "Money")
    inner.number(2)
    inner.string("cents")
    inner.number(TK_LONGLONG)
    inner.string("unit")
    currency_code(inner)
    values.number(TK_STRUCT)
    values.encapsulation(inner)
    values.number(next(draw), 8)
    values.number(next(draw) % 3)


def text(values: Values, draw: Iterator[int]) -> None:
    """An any of a string."""
    values.number(TK_STRING)
    values.number(0)
    values.string(f"order number {next(draw) % 100000}")


def number(values: Values, draw: Iterator[int]) -> None:
    """An any of an unsigned long."""
    values.number(TK_ULONG)
    values.number(next(draw))


def truth(values: Values, draw: Iterator[int]) -> None:
    """An any of a boolean."""
    values.number(TK_BOOLEAN)
    values.number(next(draw) % 2, 1)


def properties(values: Values, draw: Iterator[int], *makers: Maker) -> None:
    """A sequence of properties."""
    values.number(len(makers))
    for maker in makers:
        values.string(maker.__name__)
        maker(values, draw)


def event(values: Values, draw: Iterator[int]) -> None:
    """A structured event."""
    for word in ("Shop", "OrderPlaced", f"order {next(draw) % 100000}"):
        values.string(word)
    properties(values, draw, number, truth)
    properties(values, draw, text, number, truth)
    money(values, draw)


PUSHED = (money, money, text, number, truth)


def call(draw: Iterator[int]) -> bytes:
    order = ORDERS[next(draw) % 2]
    is_structured = next(draw) % 4 == 0
    values = called(order, next(draw), "push_structured_event" if is_structured else "push")
    make = event if is_structured else PUSHED[next(draw) % len(PUSHED)]
    make(values, draw)
    return message(order, REQUEST, bytes(values.octets))


if __name__ == "__main__":
    write("anys.py", call)
