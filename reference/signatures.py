"""The types of a signature file that is valid, and the operations of a request list (docs/FORMATS.md, Signature file, Request
list)."""

from __future__ import annotations

import re
from dataclasses import dataclass, field
from typing import Callable, Dict, List, NamedTuple, Optional, Set, Tuple, TypeVar

from .types import (
    BASE,
    IOR,
    WIDE,
    Any,
    Array,
    Encapsulation,
    Enum,
    Members,
    Octets,
    Recursive,
    Series,
    String,
    Struct,
    Type,
    TypeCode,
    Union,
)

TOKENS = re.compile(r'//[^\n]*|[ \t\r\n]+|(-?\w+|"[^"]*"|[{}()<>\[\],;:])')
MOST_KEY = 128  # octets of an object key that may have an interface
Made = TypeVar("Made")


class Asked(NamedTuple):
    """What a Request asks for: the name of an operation, and the interface of its object key, if one is known."""

    name: bytes
    interface: Optional[bytes] = None


@dataclass(frozen=True)
class Operation:
    """An operation: the interfaces that it is said to be of, its request and its reply."""

    interfaces: Tuple[bytes, ...]
    request: Struct
    reply: Struct


@dataclass
class Table:
    """What is known of bodies: the operations of each name, and each exception's members by its repository id. In version 3
    an enum, struct or union may have a repository id too, and object keys, or the fronts of some, have interfaces."""

    version: int = 1
    operations: Dict[bytes, List[Operation]] = field(default_factory=dict)
    exceptions: Dict[bytes, Struct] = field(default_factory=dict)
    identified: Dict[bytes, Type] = field(default_factory=dict)
    keys: Dict[bytes, bytes] = field(default_factory=dict)
    fronts: Dict[bytes, bytes] = field(default_factory=dict)

    def interface(self, key: bytes) -> Optional[bytes]:
        """The interface of an object key, if one is known."""
        if len(key) > MOST_KEY:
            return None
        known = [front for front in self.fronts if key.startswith(front)]
        return self.keys.get(key, self.fronts[max(known, key=len)] if known else None)

    def operation(self, asked: Asked) -> Optional[Operation]:
        """The operation of a name and an interface: the interface's own, else the one that is of no interface."""
        named = self.operations.get(asked.name, [])
        own = [each for each in named if asked.interface in each.interfaces]
        return next(iter(own + [each for each in named if not each.interfaces]), None)


class Parser:
    """Reads a text from the front."""

    def __init__(self, text: bytes) -> None:
        self._tokens: List[str] = [token for token in TOKENS.findall(text.decode("latin-1")) if token]
        self._at = 0
        self._declared: Dict[str, Type] = {}
        self._announced: Set[str] = set()  # names that are declared later
        self.table = Table()
        self.wanted("signatures")
        self.table.version = int(self.wanted("1", "2", "3"))
        self.wanted(";")
        while self._at < len(self._tokens):
            self.declaration()

    @property
    def next(self) -> str:
        """The next token."""
        return self._tokens[self._at]

    def taken(self) -> str:
        """The next token, which is then after."""
        self._at += 1
        return self._tokens[self._at - 1]

    def wanted(self, *texts: str) -> str:
        """The next token, which is one of these."""
        token = self.taken()
        if token not in texts:
            raise ValueError(f"{token} where {' or '.join(texts)} is due")
        return token

    def found(self, text: str) -> bool:
        """Whether the next token is this one, which is then after."""
        if self.next != text:
            return False
        self._at += 1
        return True

    def up_to(self, end: str, each: Callable[[], Made], between: str = "") -> List[Made]:
        """What is made of each part up to the token at their end."""
        made: List[Made] = []
        while not self.found(end):
            if between and made:
                self.wanted(between)
            made.append(each())
        return made

    def declaration(self) -> None:
        """One declaration."""
        kind = self.wanted("enum", "struct", "union", "exception", "operation", *["key"] * (self.table.version == 3))
        if kind == "operation":
            self.operation()
        elif kind == "key":
            self.key()
        elif kind == "exception":
            self.taken()
            repository_id = self.repository_id()
            self.table.exceptions[repository_id] = Struct(self.members())
        elif self.table.version == 3 and self._tokens[self._at + 1] == ";":
            self._announced.add(self.taken())
        else:
            name = self.taken()
            repository_ids = [self.repository_id()] if self.table.version == 3 and self.next.startswith('"') else []
            makers: Dict[str, Callable[[], Type]] = {"enum": self.enum, "struct": self.struct, "union": self.union}
            self._declared[name] = makers[kind]()
            self._announced.discard(name)
            self.table.identified.update((each, self._declared[name]) for each in repository_ids)
        self.wanted(";")

    def repository_id(self) -> bytes:
        return self.taken().strip('"').encode()

    def enum(self) -> Type:
        self.wanted("{")
        return Enum(tuple(self.up_to("}", self.taken, ",")))

    def struct(self) -> Type:
        return Struct(self.members())

    def members(self) -> Members:
        self.wanted("{")
        return self.up_to("}", self.member)

    def member(self) -> Tuple[str, Type]:
        item = self.item()
        self.wanted(";")
        return item

    def item(self) -> Tuple[str, Type]:
        """A type and a name, and where it is an array its lengths, of which the first is the outermost."""
        made, name = self.type(), self.taken()
        lengths: List[int] = []
        while self.found("["):
            lengths.append(int(self.taken()))
            self.wanted("]")
        for length in reversed(lengths):
            made = Array(made, length)
        return name, made

    def union(self) -> Type:
        self.wanted("switch")
        self.wanted("(")
        switch = self.type()
        self.wanted(")")
        self.wanted("{")
        cases: Dict[int, Tuple[str, Type]] = {}
        default: Optional[Tuple[str, Type]] = None
        for labels, item in self.up_to("}", lambda: self.case(switch)):
            cases.update((label, item) for label in labels if label is not None)
            default = item if None in labels else default
        return Union(switch, cases, default)

    def case(self, switch: Type) -> Tuple[Set[Optional[int]], Tuple[str, Type]]:
        """The labels of a case, of which None is the default, and its member."""
        labels: Set[Optional[int]] = set()
        while self.next in ("case", "default"):
            labels.add(self.label(switch) if self.taken() == "case" else None)
            self.wanted(":")
        return labels, self.member()

    def label(self, switch: Type) -> int:
        """The value of a label."""
        text = self.taken()
        if isinstance(switch, Enum):
            return switch.names.index(text)
        return ("false", "true").index(text) if text in ("false", "true") else int(text)

    def operation(self) -> None:
        returned: List[Tuple[str, Type]] = [] if self.found("void") else [("return", self.type())]
        name = self.taken().encode()
        self.wanted("(")
        parameters = self.up_to(")", self.parameter, ",")
        request = Struct([item for direction, item in parameters if direction != "out"])
        reply = Struct(returned + [item for direction, item in parameters if direction != "in"])
        interfaces = self.interfaces() if self.table.version == 3 else ()
        self.table.operations.setdefault(name, []).append(Operation(interfaces, request, reply))

    def interfaces(self) -> Tuple[bytes, ...]:
        """The interfaces that an operation is said to be of."""
        found: List[bytes] = []
        while self.found("," if found else "of"):
            found.append(self.repository_id())
        return tuple(found)

    def key(self) -> None:
        """An object key, or the front of some, and its interface."""
        digits = self.repository_id().decode()
        self.wanted("of")
        known = self.table.fronts if digits.endswith("*") else self.table.keys
        known[bytes.fromhex(digits.rstrip("*"))] = self.repository_id()

    def parameter(self) -> Tuple[str, Tuple[str, Type]]:
        return self.wanted("in", "out", "inout"), self.item()

    def type(self) -> Type:
        """A type."""
        word = self.taken()
        if word == "string":
            return String(self.bound("<", ">"))
        if word == "sequence":
            return self.sequence()
        if word == "encapsulation":
            self.wanted("<")
            value = self.type()
            self.wanted(">")
            return Encapsulation(value)
        if self.table.version == 3 and word in ("any", "TypeCode"):
            code = TypeCode(self.table.identified)
            return Any(code) if word == "any" else code
        if self.table.version == 3 and word in WIDE:
            if word == "wstring":
                self.bound("<", ">")  # counts characters, which octets don't tell
            return WIDE[word]
        return IOR if word == "Object" else BASE.get(word) or self._declared[word]

    def sequence(self) -> Type:
        """A sequence, after its word."""
        self.wanted("<")
        name = self.next
        element = None
        if name in self._announced:
            self.taken()
        else:
            element = self.type()
        bound = self.bound(",", "")
        self.wanted(">")
        if element is None:
            return Recursive(self._declared, name, bound)
        return Octets(bound) if name == "octet" else Series(element, bound)

    def bound(self, begin: str, end: str) -> Optional[int]:
        """A bound between these tokens, where there is one."""
        if not self.found(begin):
            return None
        bound = int(self.taken())
        if end:
            self.wanted(end)
        return bound


def table_of(text: bytes) -> Table:
    """The types that a signature file declares."""
    return Parser(text).table


def requests_of(text: bytes) -> Dict[int, Asked]:
    """What is asked for by each request id of a request list; nothing of an id whose lines differ."""
    asked: Dict[int, Set[Asked]] = {}
    for line in text.splitlines():
        request_id, *words = line.split(b" ")
        asked.setdefault(int(request_id), set()).add(Asked(*words))
    return {request_id: one for request_id, (one, *others) in asked.items() if not others}
