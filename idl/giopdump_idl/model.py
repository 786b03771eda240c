"""What a signature file can say: types, exceptions and operations; and `Unsayable`, what it can't."""

from __future__ import annotations

import os
from dataclasses import dataclass, field
from functools import cached_property
from typing import Iterable, List, Optional, Sequence, Tuple, Union as Either

from omniidl import idlast

# The limits of a signature file (docs/FORMATS.md).
MOST_DEPTH = 24
MOST_NAME = 64
MOST_OPERATION_NAME = 128
MOST_MEMBERS = 256
MOST_PARAMETERS = 255
MOST_ENUMERATORS = 1024
MOST_LABELS = 1024
MOST_DECLARATIONS = 4096
MOST_INTERFACES = 1024
MOST_OCTETS = 1048576

RETURNED = "return value"


# How deep a type is looked through. What is nested deeper is far beyond MOST_DEPTH.
MOST_NESTING = 100


class Unsayable(Exception):
    """What the signature language has no form for: `cause` is counted in the summary, `text` told in a comment."""

    def __init__(self, cause: str, text: Optional[str] = None) -> None:
        super().__init__(text or cause)
        self.cause = cause
        self.text = text or cause

    def within(self, where: str) -> Unsayable:
        """The same, told of a part of something."""
        return Unsayable(self.cause, f"{where}: {self.text}")


class TooDeep(Unsayable):
    """A type that is nested too deep to be looked through. It is told of the whole, and not kept of what is within,
    which may have a form by itself."""

    def __init__(self) -> None:
        super().__init__(f"more than {MOST_DEPTH} levels", f"{MOST_NESTING} levels deep or more, {MOST_DEPTH} at most")

    def within(self, where: str) -> Unsayable:
        return self


@dataclass(frozen=True)
class Place:
    """Where a declaration stands: the name of its IDL file, and the line."""

    file: str
    line: int

    @staticmethod
    def of(decl: idlast.Decl) -> Place:
        return Place(os.path.basename(decl.file()), decl.line())

    def __str__(self) -> str:
        return f"{self.file}:{self.line}"


# Types. Each has a depth, as the signature language counts it. Types that are declared are equal where they are the
# same declaration, all others where they are spelled alike.


@dataclass(frozen=True)
class Scalar:
    """A base type of the signature language, or a wide character, by its word."""

    word: str
    depth: int = field(default=1, init=False)


@dataclass(frozen=True)
class Described:
    """An `any`, which says of which type its value is, or a `TypeCode`, which describes a type: by their words."""

    word: str

    @property
    def depth(self) -> int:
        return 4 if self.word == "any" else 3


@dataclass(frozen=True)
class Text:
    """A string, or a wide one by its word; a bound of 0 is none."""

    bound: int
    word: str = "string"
    depth: int = field(default=1, init=False)


@dataclass(frozen=True)
class Reference:
    """An object reference of any interface: a type id and tagged profiles, which may be encapsulations."""

    depth: int = field(default=6, init=False)


@dataclass(frozen=True)
class Series:
    """A sequence; a bound of 0 is none."""

    element: Type
    bound: int

    @cached_property
    def depth(self) -> int:
        return 1 if self.element == Scalar("octet") else 1 + self.element.depth


@dataclass(frozen=True)
class Array:
    """An array, which can stand in an item alone, or in version 3 as the element of another."""

    element: Type
    length: int

    @cached_property
    def depth(self) -> int:
        return 1 + self.element.depth

    @property
    def spread(self) -> Tuple[Type, List[int]]:
        """What the innermost arrays have, and the lengths, the outermost first."""
        made, lengths = self.element.spread if isinstance(self.element, Array) else (self.element, [])
        return made, [self.length, *lengths]


@dataclass(eq=False)
class Announced:
    """A struct or a union that is declared later, as the element of a sequence; `made` is what it is once that is known."""

    word: str
    scoped: Tuple[str, ...]
    depth: int = field(default=1, init=False)
    made: Named = field(init=False)


@dataclass(frozen=True)
class Item:
    """A member, a case's member or a parameter."""

    name: str
    type: Type


@dataclass(eq=False)
class Declared:
    """A declaration with a name of its own in the signature file. Its repository id is empty if it has none that can be
    written."""

    scoped: Tuple[str, ...]
    place: Place
    repository_id: str

    @property
    def parts(self) -> Sequence[Type]:
        """The types that stand in the declaration."""
        return ()

    @cached_property
    def depth(self) -> int:
        return 1 + max((part.depth for part in self.parts), default=0)


@dataclass(eq=False)
class Enum(Declared):
    """An enum, its names in the order of their numbers."""

    names: Tuple[str, ...]


@dataclass(eq=False)
class Struct(Declared):
    """A struct, or one of ours around an array."""

    members: Tuple[Item, ...]

    @property
    def parts(self) -> Sequence[Type]:
        return [member.type for member in self.members]


@dataclass(frozen=True)
class Case:
    """A case of a union: its labels as they are written, and its member."""

    labels: Tuple[str, ...]
    item: Item


@dataclass(eq=False)
class Union(Declared):
    """A union."""

    switch: Type
    cases: Tuple[Case, ...]

    @property
    def parts(self) -> Sequence[Type]:
        return [self.switch] + [case.item.type for case in self.cases]


@dataclass(eq=False)
class Raised(Declared):
    """An exception."""

    members: Tuple[Item, ...]

    @property
    def parts(self) -> Sequence[Type]:
        return [member.type for member in self.members]


Named = Either[Enum, Struct, Union]
Type = Either[Scalar, Described, Text, Reference, Series, Array, Announced, Named]


@dataclass(frozen=True)
class Parameter:
    """A parameter: `in`, `out` or `inout`, and its name and type."""

    direction: str
    item: Item


@dataclass(frozen=True)
class Slot:
    """What an operation declares: its direction, its name in words, and its name and type or why it has none. The
    value that is returned is the first of those that go `out`."""

    direction: str
    title: str
    made: Either[Item, Unsayable]


@dataclass(frozen=True)
class Member:
    """A typed value of a request or a reply: which of an operation's parameters it is, 0 for what is returned."""

    position: int
    title: str
    item: Item


@dataclass(frozen=True)
class Cut:
    """Where the types of a request or a reply end before its values do: `cause` is counted, `why` is told of what has
    no type, and `told` of an operation that is left out for it."""

    where: str
    cause: str
    why: str
    told: str


@dataclass(frozen=True)
class Half:
    """A request or a reply: its values up to the first without a type, and where that cuts it."""

    members: Tuple[Member, ...]
    cut: Optional[Cut] = None

    @staticmethod
    def of(kind: str, slots: Iterable[Tuple[int, Slot]]) -> Half:
        """The slots that travel in it, up to the first without a form: what follows that has no known offset."""
        members: List[Member] = []
        for position, slot in slots:
            if isinstance(slot.made, Unsayable):
                why = slot.made
                return Half(
                    tuple(members),
                    Cut(place_in(kind, slot.title), why.cause, why.text, why.within(slot.title).text),
                )
            members.append(Member(position, slot.title, slot.made))
        return Half(tuple(members))

    @property
    def types(self) -> List[Type]:
        """The types of what is typed."""
        return [each.item.type for each in self.members]


@dataclass(frozen=True)
class Operation:
    """An operation as it travels; an attribute is one or two of them. Its interfaces, by their repository ids, are those that
    it is said to be of; if there are none it is of all others."""

    name: str
    request: Half
    reply: Half
    interfaces: Tuple[str, ...] = ()

    @staticmethod
    def of(name: str, slots: Sequence[Slot]) -> Operation:
        """The operation of these slots, its request and its reply each as far as it has types. Where nothing is
        returned the first slot is a parameter."""
        first = 0 if slots and slots[0].title == RETURNED else 1
        placed = list(enumerate(slots, first))
        return Operation(
            name,
            Half.of("request", [each for each in placed if each[1].direction != "out"]),
            Half.of("reply", [each for each in placed if each[1].direction != "in"]),
        )

    @staticmethod
    def refused(name: str, why: Unsayable) -> Operation:
        """An operation that has no form at all."""
        cut = Cut("the whole", why.cause, why.text, why.text)
        return Operation(name, Half((), cut), Half((), cut))

    @property
    def cuts(self) -> List[Cut]:
        """Where its request and its reply are cut."""
        return [half.cut for half in (self.request, self.reply) if half.cut]

    @property
    def says_nothing(self) -> bool:
        """Whether it has values, and none has a type."""
        return bool(self.cuts) and not self.types

    @property
    def types(self) -> List[Type]:
        """The types that a Request carries, and then those that a Reply carries."""
        return self.request.types + self.reply.types

    @property
    def result(self) -> Optional[Type]:
        """The type of what is returned, where there is one."""
        returned = [each for each in self.reply.members if each.position == 0]
        return returned[0].item.type if returned else None

    @property
    def parameters(self) -> List[Parameter]:
        """Its typed parameters: `inout` where both the request and the reply have one."""
        asked = {each.position: each.item for each in self.request.members}
        told = {each.position: each.item for each in self.reply.members if each.position}
        return [
            Parameter(("in" if at in asked else "") + ("out" if at in told else ""), asked.get(at) or told[at])
            for at in sorted({**asked, **told})
        ]


def at_most(count: int, most: int, what: str) -> None:
    """Refuses more of something than a signature file may have."""
    if count > most:
        raise Unsayable(f"more than {most} {what}", f"{count} {what}, {most} at most")


def checked_depth(depth: int) -> None:
    """Refuses what is nested too deep."""
    if depth > MOST_DEPTH:
        raise Unsayable(f"more than {MOST_DEPTH} levels", f"{depth} levels deep, {MOST_DEPTH} at most")


def spelled(scoped: Iterable[str]) -> str:
    """A scoped name as IDL writes it."""
    return "::".join(scoped)


def place_in(kind: str, title: str) -> str:
    """A value of a request or a reply, in words."""
    return f"the {RETURNED}" if title == RETURNED else f"{title} of the {kind}"
