"""Requests of all versions with an any, a TypeCode, wide text, arrays in arrays or a type within itself, made by a seed: of
types that the file has and of others, in each other, and described in both byte orders. The file, DESCRIBED, is of version 3."""

from __future__ import annotations

import random
import sys
from dataclasses import dataclass
from pathlib import Path
from typing import List, Sequence, Tuple, Union

sys.path.insert(0, str(Path(__file__).resolve().parent.parent))

from reference.encoding import FORMS, ORDERS, REQUEST, Order, Values, message

LONG_ID = "IDL:shop.example/Shop/Orders/Described/AtLength/"  # whose ids come in two, three and four pieces
DESCRIBED = f"""signatures 3;
enum Colour "IDL:Colour:1.0" {{ red, green, blue }};
struct One "IDL:One:1.0" {{ short x; }};
struct Two "{LONG_ID}Two:1.0" {{ longlong first; string second; }};
struct Deep "{LONG_ID}{LONG_ID[4:]}Deep:1.0" {{ One one; Two two; any more; sequence<One, 2> ones; }};
union Either "{LONG_ID}Either{"r" * 40}:1.0" switch (Colour) {{ case red: long n; default: any value; }};
struct Wide "IDL:Wide:1.0" {{ octet n; wstring text; wchar mark; }};
struct Grid "IDL:Grid:1.0" {{ octet at[2][3]; }};
struct Tree;
struct Tree "IDL:Tree:1.0" {{ octet n; sequence<Tree> more; sequence<Tree, 2> two; }};
operation void tree(in Tree t, in encapsulation<Tree> e, in octet z);
operation void push(in any v);
operation void typ(in TypeCode t, in octet o);
operation void both(in octet a, in Deep d, in any v, in octet z);
operation void held(in encapsulation<any> e, in octet z);
operation void grid(in octet a, in short at[2][1][2], in Grid g, in octet z);
operation void text(in octet a, in wchar c, in Wide w, in sequence<wstring<2>> s, in encapsulation<wchar> e, in octet z);
"""
ID = {
    "Colour": "IDL:Colour:1.0", "One": "IDL:One:1.0", "Two": f"{LONG_ID}Two:1.0",
    "Deep": f"{LONG_ID}{LONG_ID[4:]}Deep:1.0", "Either": f"{LONG_ID}Either{'r' * 40}:1.0", "Wide": "IDL:Wide:1.0",
    "Grid": "IDL:Grid:1.0", "Tree": "IDL:Tree:1.0",
}  # fmt: skip
KINDS = {
    "null": 0, "void": 1, "short": 2, "long": 3, "ushort": 4, "ulong": 5, "float": 6, "double": 7, "boolean": 8,
    "char": 9, "octet": 10, "any": 11, "TypeCode": 12, "Principal": 13, "Object": 14, "string": 18, "longlong": 23,
    "ulonglong": 24, "longdouble": 25, "wchar": 26, "wstring": 27, "fixed": 28,
}  # fmt: skip
STRUCT, UNION, ENUM, SEQUENCE, ARRAY, ALIAS, EXCEPT, BOX, NATIVE = 15, 16, 17, 19, 20, 21, 22, 30, 31


@dataclass(frozen=True)
class Simple:
    """A kind without another type in it, by its word."""

    word: str


@dataclass(frozen=True)
class Around:
    """A sequence, an array, an alias or a value box of a type, by its kind; a sequence's bound, or an array's length."""

    kind: int
    type: Described
    count: int


@dataclass(frozen=True)
class Named:
    """A struct, a union, an enum, an exception or a native type by its kind, its id and its members."""

    kind: int
    identity: str
    members: Tuple[Tuple[str, Described], ...]


Described = Union[Simple, Around, Named]

COLOUR = Named(ENUM, ID["Colour"], tuple((name, Simple("void")) for name in ("red", "green", "blue")))
ONE = Named(STRUCT, ID["One"], (("x", Simple("short")),))
TWO = Named(STRUCT, ID["Two"], (("first", Simple("longlong")), ("second", Simple("string"))))
DEEP = Named(
    STRUCT, ID["Deep"], (("one", ONE), ("two", TWO), ("more", Simple("any")), ("ones", Around(SEQUENCE, ONE, 2)))
)
EITHER = Named(UNION, ID["Either"], (("n", Simple("long")), ("value", Simple("any"))))
WIDE = Named(STRUCT, ID["Wide"], (("n", Simple("octet")), ("text", Simple("wstring")), ("mark", Simple("wchar"))))
GRID = Named(STRUCT, ID["Grid"], (("at", Around(ARRAY, Around(ARRAY, Simple("octet"), 3), 2)),))
# What is told of the members of a tree is compared with nothing.
TREE = Named(STRUCT, ID["Tree"], (("n", Simple("octet")), ("more", Simple("any")), ("two", Simple("any"))))
KNOWN: Sequence[Described] = (COLOUR, ONE, TWO, DEEP, EITHER, WIDE, GRID, TREE)


class Draw:
    """Draws types, and values of them."""

    def __init__(self, seed: int) -> None:
        self.random = random.Random(seed)

    def type(self, depth: int = 0) -> Described:
        """A type: simple, known, unknown, or of another."""
        draw = self.random
        if depth > 8 or draw.random() < 0.35:
            return Simple(draw.choice(list(KINDS)))
        if draw.random() < 0.5:
            return draw.choice(KNOWN)
        if draw.random() < 0.5:
            kind = draw.choice((SEQUENCE, SEQUENCE, ARRAY, ALIAS, ALIAS, BOX))
            return Around(kind, self.type(depth + 1), draw.choice((0, 0, 1, 3)))
        return self.unknown(depth)

    def unknown(self, depth: int) -> Described:
        """A type that is known nowhere, or by its id alone."""
        draw = self.random
        known = draw.choice(list(ID.values()))
        identity = draw.choice(
            (known, known + "x", known[:-1], known[:33], "", "IDL:Other:1.0", "i" * draw.choice((32, 128, 129, 161)))
        )
        members = tuple((f"m{n}", self.type(depth + 1)) for n in range(draw.choice((0, 1, 2, 4))))
        return Named(draw.choice((STRUCT, STRUCT, UNION, ENUM, EXCEPT, NATIVE)), identity, members)

    def code(self, into: Values, made: Described) -> None:
        """A TypeCode."""
        if isinstance(made, Simple):
            into.number(KINDS[made.word])
            if made.word in ("string", "wstring"):
                into.number(self.random.choice((0, 0, 3)))
            elif made.word == "fixed":
                into.put(("ushort", 5), ("short", 2))
            elif made.word == "Object":
                into.encapsulation(self.inner().put(("string", "IDL:Thing:1.0"), ("string", "Thing")))
            return
        into.number(made.kind)
        inner = self.inner()
        if isinstance(made, Named):
            self.named(inner, made)
        else:
            if made.kind in (ALIAS, BOX):
                inner.put(("string", "IDL:Another:1.0"), ("string", "Another"))
            self.code(inner, made.type)
            if made.kind in (SEQUENCE, ARRAY):
                inner.number(made.count)
        if self.random.random() < 0.05:
            inner.octets += b"more"
        into.encapsulation(inner)

    def named(self, inner: Values, made: Named) -> None:
        """The parameters of a type with an id."""
        inner.put(("string", made.identity), ("string", "Name"))
        if made.kind == NATIVE:
            return
        if made.kind == UNION:
            self.code(inner, COLOUR)
            inner.number(-1)
        inner.number(len(made.members) if self.random.random() < 0.95 else 7)
        for number, (name, part) in enumerate(made.members):
            if made.kind == UNION:
                inner.number(number)
            inner.string(name)
            if made.kind != ENUM:
                self.code(inner, part)

    def inner(self) -> Values:
        return Values.enclosed(self.random.choice(ORDERS))

    def any(self, into: Values, depth: int) -> None:
        """An any of some type."""
        made = self.type(depth)
        self.code(into, made)
        self.value(into, made, depth + 1)

    def value(self, into: Values, made: Described, depth: int) -> None:
        """A value of a type, as its TypeCode describes it."""
        draw = self.random
        if isinstance(made, Simple):
            self.simple(into, made.word, depth)
        elif made is TREE:
            self.tree(into, depth)
        elif isinstance(made, Around):
            count = draw.choice((0, 1, 2)) if made.kind == SEQUENCE else made.count if made.kind == ARRAY else 1
            if made.kind == SEQUENCE:
                into.number(count)
            for _ in range(count):
                self.value(into, made.type, depth + 1)
        elif made.kind == ENUM:
            into.number(draw.choice((0, 1, 2, 2, 3)))
        elif made.kind == UNION:
            case = draw.choice((0, 1))
            into.number(case)
            for _, part in made.members[case : case + 1]:
                self.value(into, part, depth + 1)
        else:
            for _, part in made.members:
                self.value(into, part, depth + 1)

    def tree(self, into: Values, depth: int) -> None:
        """A tree, of up to some twelve generations."""
        into.put(("octet", depth))
        for most in (3, 2):
            count = self.random.choice((0, 1, most)) if depth < 13 and self.random.random() < 0.7 else 0
            into.number(count)
            for _ in range(count):
                self.tree(into, depth + (1 if count == 1 else 4))

    def simple(self, into: Values, word: str, depth: int) -> None:
        """A value of a simple type."""
        draw = self.random
        if word == "any":
            self.any(into, depth + 4)
        elif word == "TypeCode":
            self.code(into, self.type(depth + 1))
        elif word == "string":
            into.string("s" * draw.choice((0, 1, 31, 32, 40)))
        elif word == "char":
            into.put((word, "c"))
        elif word == "boolean":
            into.put((word, draw.random() < 0.5))
        elif word in FORMS:
            into.put((word, draw.choice((0, 1, 7))))
        elif word == "Object":
            into.put(("string", ""), ("ulong", 0))
        elif word in ("wchar", "wstring"):
            into.put((word, b"w" * draw.choice((0, 1, 4, 32, 33))))
        elif word not in ("null", "void"):
            into.sequence(b"more")


def headed(order: Order, minor: int, operation: str) -> Values:
    """The header of a Request, with the padding after it."""
    if minor == 2:
        values = Values(order).request(5, operation, b"k")
        values.align(8)
        return values
    values = Values(order).put(("ulong", 0), ("ulong", 5), ("boolean", True))
    values.octets += bytes(3 * minor)
    return values.put(("octets", b"k"), ("string", operation), ("octets", b""))


def payload(draw: Draw, order: Order, minor: int) -> bytes:
    """What follows a message's header."""
    operation = draw.random.choice(("push", "push", "push", "typ", "both", "held", "text", "grid", "tree"))
    values = headed(order, minor, operation)
    if operation == "push":
        draw.any(values, 0)
    elif operation == "typ":
        draw.code(values, draw.type())
        values.put(("octet", 9))
    elif operation == "both":
        values.put(("octet", 1))
        draw.value(values, DEEP, 1)
        draw.any(values, 0)
        values.put(("octet", 2))
    elif operation == "tree":
        draw.tree(values, draw.random.choice((0, 3)))
        inner = draw.inner()
        draw.tree(inner, draw.random.choice((0, 3)))
        values.encapsulation(inner)
        values.put(("octet", 2))
    elif operation == "grid":
        values.put(("octet", 1), *(("short", n) for n in range(4)))
        draw.value(values, GRID, 1)
        values.put(("octet", 2))
    elif operation == "text":
        values.put(("octet", 1), ("wchar", b"cc"))
        draw.value(values, WIDE, 1)
        values.put(("ulong", 2), ("wstring", b""), ("wstring", b"longer"))
        values.encapsulation(draw.inner().put(("wchar", b"c" * draw.random.choice((0, 2, 33)))))
        values.put(("octet", 2))
    else:
        inner = draw.inner()
        draw.any(inner, 1)
        values.encapsulation(inner)
        values.put(("octet", 3))
    return bytes(values.octets)


def messages(count: int) -> List[bytes]:
    """As many requests, by the seeds from 0: two in three of 1.2."""
    made = []
    for seed in range(count):
        order, minor = ORDERS[seed % 2], (2, 2, 2, 2, 1, 0)[seed % 6]
        made.append(message(order, REQUEST, payload(Draw(seed), order, minor), minor))
    return made


if __name__ == "__main__":
    sys.stdout.buffer.write(b"".join(messages(int(sys.argv[1]))))
