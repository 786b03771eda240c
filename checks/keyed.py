"""Signature files of version 3 made by seeds, in which operations of one name have interfaces, with object keys and fronts of
such; request lists that have interfaces too; and requests to objects of these keys and of others, with replies."""

from __future__ import annotations

import random
import sys
from dataclasses import dataclass
from pathlib import Path
from typing import List, NamedTuple, Sequence, Tuple

sys.path.insert(0, str(Path(__file__).resolve().parent.parent))

from reference.encoding import FRAGMENT, ORDERS, REPLY, REQUEST, Value, Values, message

INTERFACES = ("IDL:shop.example/Shop/Orders:1.0", "IDL:A:1.0", "IDL:B:1.0", "of{1};//*", "i", "I" * 128)
NAMES = ("get", "put", "_get_level", "n" * 128)
OTHERS = ("none", "", "get it", "n" * 129)  # no operation of the file
TYPES = ("octet", "boolean", "ulong", "ulonglong", "string", "sequence<octet>", "string<3>", "wchar", "wstring<3>")
LENGTHS = (1, 1, 2, 3, 31, 32, 33, 63, 64)  # of keys
MOST_KEY = 64  # octets of one in a signature file
LONGER = (1, 1, 2, 31, 64, 127, 128, 129, 130, 161, 200)  # of keys that begin as another
IDS = range(8)

Parameter = Tuple[str, str]  # its direction, `return` for what is returned, and its type


class Keyed(NamedTuple):
    """A signature file, a request list, requests and replies."""

    signatures: str
    requests: str
    calls: List[bytes]
    replies: List[bytes]


@dataclass(frozen=True)
class Form:
    """An operation: its name, its parameters, and its interfaces, if it has any."""

    name: str
    parameters: Sequence[Parameter]
    interfaces: Sequence[str]

    @property
    def text(self) -> str:
        """Its declaration."""
        returned = [kind for direction, kind in self.parameters if direction == "return"]
        others = [each for each in self.parameters if each[0] != "return"]
        listed = ", ".join(f"{direction} {kind} p{n}" for n, (direction, kind) in enumerate(others))
        interfaces = ", ".join(f'"{each}"' for each in self.interfaces)
        of = f" of {interfaces}" if interfaces else ""
        return f"operation {' '.join(returned) or 'void'} {self.name}({listed}){of};"


class Draw:
    """Draws a signature file, and messages for it."""

    def __init__(self, seed: int) -> None:
        self.random = random.Random(f"keyed {seed}")
        self.interfaces = self.random.sample(INTERFACES, self.random.randrange(1, 5))
        self.forms = [form for name in NAMES for form in self.forms_of(name)]
        self.keys = [self.random.choice((b"", b"a"))]
        for _ in range(self.random.choice((0, 1, 3, 8, 20))):
            self.keys.append(self.longer(self.random.choice(self.keys), self.random.choice(LENGTHS), MOST_KEY))

    def forms_of(self, name: str) -> List[Form]:
        """Operations of one name, with different interfaces, or without."""
        draw = self.random
        left = draw.sample(self.interfaces, len(self.interfaces))
        made = []
        while left and draw.random() < 0.7:
            count = draw.randrange(1, len(left) + 1)
            made.append(Form(name, self.parameters(), left[:count]))
            left = left[count:]
        if draw.random() < 0.4:
            made.append(Form(name, self.parameters(), ()))
        return draw.sample(made, len(made))

    def parameters(self) -> List[Parameter]:
        """The parameters of an operation."""
        draw = self.random
        directions = draw.choices(("in", "in", "out", "inout"), k=draw.choice((0, 1, 1, 2, 3)))
        returned = [("return", draw.choice(TYPES))] if draw.random() < 0.6 else []
        return returned + [(direction, draw.choice(TYPES)) for direction in directions]

    def longer(self, key: bytes, count: int, most: int) -> bytes:
        """A key with so many octets more, at most so many in all."""
        return (key + bytes(self.random.choices(b"ab", k=count)))[:most]

    def signatures(self) -> str:
        """The signature file: its declarations in any order."""
        draw = self.random
        keys = {}
        for key in self.keys:
            end = draw.choice(("", "*"))
            if key[: MOST_KEY - len(end)] or end:
                keys[f"{key[: MOST_KEY - len(end)].hex()}{end}"] = draw.choice(self.interfaces)
        lines = [form.text for form in self.forms] + [f'key "{key}" of "{keys[key]}";' for key in keys]
        return "\n".join(["signatures 3;", *draw.sample(lines, len(lines)), ""])

    def requests(self) -> str:
        """A request list."""
        draw = self.random
        lines = []
        for _ in range(draw.choice((0, 3, 8, 12))):
            interface = draw.choice((*self.interfaces, "IDL:None:1.0", "none", ""))
            lines.append(f"{draw.choice(IDS)} {draw.choice((*NAMES, 'none'))} {interface}".rstrip())
        return "".join(f"{line}\n" for line in lines)

    def key(self) -> bytes:
        """The key of a request: one of the file, one that begins as one does, or another."""
        draw, known = self.random, self.random.choice(self.keys)
        length = draw.choice(LONGER)
        return draw.choice(
            (known, known, known[:-1], self.longer(known, draw.choice((1, 2)), 300), self.longer(known, length, length))
        )

    def value(self, kind: str) -> Tuple[str, Value]:
        """A value of a type."""
        draw = self.random
        if kind.startswith("string"):
            return "string", "s" * draw.choice((0, 1, 2, 33))
        if kind.startswith("w"):
            return kind, b"w" * draw.choice((0, 1, 32, 33))
        if kind == "sequence<octet>":
            return "octets", b"o" * draw.choice((0, 1, 32, 33))
        return kind, draw.randrange(2) if kind in ("octet", "boolean") else draw.randrange(1 << 16)

    def form(self) -> Form:
        """An operation of the file, or another."""
        return self.random.choice([*self.forms, Form("none", (), ())])

    def values(self, form: Form, is_reply: bool) -> List[Tuple[str, Value]]:
        """The values of a body."""
        passed_over = ("in",) if is_reply else ("out", "return")
        return [self.value(kind) for direction, kind in form.parameters if direction not in passed_over]

    def target(self, values: Values) -> None:
        """The target of a Request of 1.2: mostly its key."""
        sort, key = self.random.choice((0, 0, 0, 0, 1, 2)), self.key()
        values.put(("short", sort))
        if sort == 0:
            values.put(("octets", key))
        else:
            if sort == 2:
                values.put(("ulong", 0), ("string", "IDL:A:1.0"), ("ulong", 1))
            inner = Values.enclosed(values.order).put(
                ("octet", 1), ("octet", 2), ("string", "h"), ("ushort", 1), ("octets", key)
            )
            values.number(0)
            values.encapsulation(inner)

    def contexts(self, values: Values) -> None:
        """Service contexts."""
        if self.random.random() < 0.8:
            values.number(0)
        else:
            values.put(("ulong", 1), ("ulong", 7), ("octets", b"c" * self.random.randrange(40)))

    def request(self) -> List[bytes]:
        """A Request, perhaps in Fragments."""
        draw = self.random
        order, minor, request_id = draw.choice(ORDERS), draw.randrange(3), draw.choice(IDS)
        values, form = Values(order), self.form()
        name = form.name if draw.random() < 0.9 else draw.choice((*NAMES, *OTHERS))
        if minor == 2:
            values.put(("ulong", request_id), ("octet", 3), ("octet", 0), ("octet", 0), ("octet", 0))
            self.target(values)
            values.put(("string", name))
            self.contexts(values)
        else:
            self.contexts(values)
            values.put(("ulong", request_id), ("boolean", True))
            values.octets += bytes(3 * minor)
            values.put(("octets", self.key()), ("string", name), ("octets", b""))
        return self.ended(REQUEST, values, minor, request_id, self.values(form, is_reply=False))

    def reply(self) -> List[bytes]:
        """A Reply, perhaps in Fragments."""
        draw = self.random
        order, minor, request_id = draw.choice(ORDERS), draw.randrange(3), draw.choice(IDS)
        values = Values(order)
        if minor == 2:
            values.put(("ulong", request_id), ("ulong", 0))
        self.contexts(values)
        if minor < 2:
            values.put(("ulong", request_id), ("ulong", 0))
        return self.ended(REPLY, values, minor, request_id, self.values(self.form(), is_reply=True))

    def ended(
        self, kind: int, values: Values, minor: int, request_id: int, body: Sequence[Tuple[str, Value]]
    ) -> List[bytes]:
        """The messages of a header and a body."""
        if minor == 2 and body:
            values.align(8)
        octets = bytes(values.put(*body).octets)
        if minor < 2 or self.random.random() < 0.7:
            return [message(values.order, kind, octets, minor)]
        cuts = sorted(self.random.choices(range(4, len(octets) + 1), k=self.random.choice((1, 1, 2, 4))))
        parts = [octets[begin:end] for begin, end in zip([0, *cuts], [*cuts, None])]
        rest = [request_id.to_bytes(4, values.order) + part for part in parts[1:]]
        made = [message(values.order, kind, parts[0], more=True)]
        made += [message(values.order, FRAGMENT, part, more=True) for part in rest[:-1]]
        return [*made, message(values.order, FRAGMENT, rest[-1])]


def keyed(seed: int, count: int) -> Keyed:
    """A signature file with a request list, so many requests, and half as many replies, each with its Fragments."""
    draw = Draw(seed)
    calls = [b"".join(draw.request()) for _ in range(count)]
    replies = [b"".join(draw.reply()) for _ in range(count // 2)]
    return Keyed(draw.signatures(), draw.requests(), calls, replies)
