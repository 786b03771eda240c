"""Types of values, and how a value of each is read from octets (docs/FORMATS.md, Values, Encapsulations, Built-in types)."""

from __future__ import annotations

from dataclasses import dataclass
from functools import cached_property
from typing import Callable, Dict, List, Optional, Sequence, Tuple, Union as Either

from .encoding import HEADER, ORDERS, Order

PIECE = 32
ROOM = 24  # how many parts of a value may be in each other
# what a reading gives: a number, the octets of a string or of a sequence, the type that a TypeCode names, or nothing
Read = Either[int, bytes, "Type", None]


class Fault(Exception):
    """A fault of a message at the octet after which so many of its octets stand."""

    def __init__(self, word: str, at: int) -> None:
        super().__init__(word)
        self.word = word
        self.at = at


class Over(Exception):
    """The octets of a message are over, and a value isn't complete."""


class Untyped(Exception):
    """What follows has a type that isn't known, or one for which there is no room."""


def escaped(octets: bytes) -> str:
    """Octets as text: those outside 20 to 7e, the quote and the backslash are written as `\\xHH`."""
    return "".join(chr(each) if 0x20 <= each <= 0x7E and each not in b'"\\' else f"\\x{each:02x}" for each in octets)


def behind(text: str) -> str:
    """A text with a space before it, where there is one."""
    return f" {text}" if text else ""


class Reader:
    """Reads the octets of one joined message, its header included; `at` is how many were read. What is complete goes to
    `tell`, with the number of the octets up to its last. In a message of 1.0 or 1.1, which is `narrow`, wide text has no
    room; numbers that have names are told with them if it is `naming`."""

    def __init__(
        self,
        octets: bytes,
        order: Order,
        narrow: bool,
        naming: bool,
        tell: Callable[[int, str], None],
        seams: Sequence[int] = (),
    ) -> None:
        self.octets = octets
        self._seams = seams  # at which octets the payloads of Fragments of 1.1 begin
        self.order = order
        self.narrow = narrow
        self.naming = naming
        self.tell = tell
        self.at = HEADER
        self.parts = 0  # that have begun and not ended
        self._aligned_from = 0
        self._end: Optional[int] = None  # of the encapsulations that it stands in, the one that ends first

    def reaches(self, end: int) -> bool:
        """Whether there are octets up to there; a fault where an encapsulation ends before."""
        if self._end is not None and end > self._end:
            if self._end <= len(self.octets):
                raise Fault("encap-short", self._end)
            raise Over
        return end <= len(self.octets)

    def _aligned(self, at: int) -> int:
        """What alignment counts an octet by: by the innermost encapsulation; else by the Fragment of 1.1 that it came in,
        whose header has 12 octets; else by the joined message."""
        if self._aligned_from:
            return at - self._aligned_from
        return 12 + at - max((seam for seam in self._seams if seam <= at), default=12)

    def take(self, count: int, size: int = 1) -> bytes:
        """So many octets, the first at a multiple of size."""
        begin = self.at
        while self._aligned(begin) % size:
            begin += 1
        if not self.reaches(begin + count):
            raise Over
        self.at = begin + count
        return self.octets[begin : self.at]

    def number(self, size: int, signed: bool = False) -> int:
        """A number of so many octets."""
        return int.from_bytes(self.take(size, size), self.order, signed=signed)

    def pieces(self, head: str, count: int, show: Callable[[bytes], str], last_with: int = 0) -> bytes:
        """A content of so many octets in pieces; after the last one stand so many octets more, which complete it."""
        begin = self.at
        for offset in range(0, count - PIECE, PIECE):
            self.tell(begin + offset + PIECE, f"{head} @{offset}{show(self.take(PIECE))} more")
        offset = self.at - begin
        last = self.take(count - offset + last_with)
        if last_with and last[-1]:
            raise Fault("string-end", self.at)
        self.tell(self.at, f"{head} @{offset}{show(last[: count - offset])}")
        return self.octets[begin : begin + count]

    def rest(self, path: str, end: int) -> None:
        """What stands up to there, a line for each 32 octets and one for those that are left."""
        begin = self.at
        while self.at < end:
            offset = self.at - begin
            octets = self.take(min(PIECE, end - self.at))
            self.tell(self.at, f"{path} rest @{offset} {octets.hex()}")

    def has_room(self, of: Type) -> bool:
        """Whether a value of a type may begin."""
        return self.parts + of.depth <= ROOM and not (self.narrow and of.is_wide)

    def value(self, of: Type, path: str) -> Read:
        """A value of a type, which is one part more until it ends."""
        self.parts += 1
        try:
            return of.read(self, path)
        finally:
            self.parts -= 1

    def encapsulation(self, path: str, value: Type) -> Read:
        """An encapsulation: its length, its byte order, a value, and what is left. It gives what the value does."""
        length = self.number(4)
        outside = (self.order, self._aligned_from, self._end)
        end = self.at + length
        self.tell(self.at, f"{path} encapsulation {length}")
        self._aligned_from = self.at
        self._end = end if self._end is None else min(end, self._end)
        flag = self.take(1)[0]
        if flag > 1:
            raise Fault("encap-order", self.at)
        self.order = ORDERS[flag]
        self.tell(self.at, f"{path} order {self.order}")
        read: Read = None
        try:
            read = self.value(value, path)
        except Untyped:
            pass  # what is left of it is its rest
        self.rest(path, end)
        self.order, self._aligned_from, self._end = outside
        return read


class Type:
    """A type. `read` reads a value, whose lines have this path; `depth` is how many of its parts may be in each other;
    `within` are the types of its parts, but not of what an any has."""

    def read(self, reader: Reader, path: str) -> Read:
        raise NotImplementedError

    @property
    def within(self) -> Sequence[Type]:
        return ()

    @cached_property
    def depth(self) -> int:
        return 1 + max((part.depth for part in self.within), default=0)

    @cached_property
    def is_wide(self) -> bool:
        """Whether it is wide text, or has a part that is."""
        return any(part.is_wide for part in self.within)


@dataclass(frozen=True)
class Integer(Type):
    """An integer by its word."""

    word: str
    size: int
    signed: bool

    def read(self, reader: Reader, path: str) -> int:
        value = reader.number(self.size, self.signed)
        reader.tell(reader.at, f"{path} {self.word} {value}")
        return value


@dataclass(frozen=True)
class Named(Type):
    """An unsigned long of the standard's, whose numbers may have names."""

    name: Callable[[int], str]  # empty if the number has none

    def read(self, reader: Reader, path: str) -> int:
        value = reader.number(4)
        reader.tell(reader.at, f"{path} ulong {value}{behind(self.name(value) if reader.naming else '')}")
        return value


class Boolean(Type):
    """A boolean."""

    def read(self, reader: Reader, path: str) -> int:
        value = reader.number(1)
        if value > 1:
            raise Fault("boolean", reader.at)
        reader.tell(reader.at, f"{path} boolean {('false', 'true')[value]}")
        return value


class Char(Type):
    """A char."""

    def read(self, reader: Reader, path: str) -> int:
        octet = reader.take(1)
        reader.tell(reader.at, f'{path} char "{escaped(octet)}"')
        return octet[0]


@dataclass(frozen=True)
class Real(Type):
    """A floating-point number, which is shown as its bits."""

    word: str
    size: int

    def read(self, reader: Reader, path: str) -> None:
        bits = reader.number(self.size)
        reader.tell(reader.at, f"{path} {self.word} {bits:0{2 * self.size}x}")


@dataclass(frozen=True)
class Enum(Type):
    """An enum by its names."""

    names: Tuple[str, ...]

    def read(self, reader: Reader, path: str) -> int:
        value = reader.number(4)
        if value >= len(self.names):
            raise Fault("enum", reader.at)
        reader.tell(reader.at, f"{path} enum {self.names[value]}")
        return value


@dataclass(frozen=True)
class String(Type):
    """A string; where it is bounded, with so many octets of content at most."""

    bound: Optional[int] = None

    def read(self, reader: Reader, path: str) -> bytes:
        length = reader.number(4)
        if self.bound is not None and length > self.bound + 1:
            raise Fault("bound", reader.at)
        if length == 0:
            reader.tell(reader.at, f'{path} string @0 ""')
            return b""
        return reader.pieces(f"{path} string", length - 1, lambda octets: f' "{escaped(octets)}"', last_with=1)


@dataclass(frozen=True)
class Octets(Type):
    """A sequence of octets, with a bound or without."""

    bound: Optional[int] = None

    def read(self, reader: Reader, path: str) -> bytes:
        return reader.pieces(f"{path} octets", counted(reader, self.bound), lambda octets: behind(octets.hex()))


@dataclass(frozen=True)
class Wide(Type):
    """A wide character or string by its word: a number of so many octets, and as many octets as it says."""

    word: str
    size: int
    is_wide = True

    def read(self, reader: Reader, path: str) -> None:
        reader.pieces(f"{path} {self.word}", reader.number(self.size), lambda octets: behind(octets.hex()))


@dataclass(frozen=True)
class Series(Type):
    """A sequence of anything else."""

    element: Type
    bound: Optional[int] = None

    def read(self, reader: Reader, path: str) -> int:
        count = counted(reader, self.bound)
        reader.tell(reader.at, f"{path} count {count}")
        for place in range(count):
            reader.value(self.element, f"{path}[{place}]")
        return count

    @property
    def within(self) -> Sequence[Type]:
        return (self.element,)


@dataclass(frozen=True)
class Recursive(Type):
    """A sequence of a type that is declared after it, by its name, which counts as one part of it."""

    declared: Dict[str, Type]
    name: str
    bound: Optional[int]

    def read(self, reader: Reader, path: str) -> int:
        count, element = counted(reader, self.bound), self.declared[self.name]
        reader.tell(reader.at, f"{path} count {count}")
        if count and not reader.has_room(element):
            raise Untyped
        for place in range(count):
            reader.value(element, f"{path}[{place}]")
        return count

    @cached_property
    def depth(self) -> int:
        return 2


def counted(reader: Reader, bound: Optional[int]) -> int:
    """The count of a sequence."""
    count = reader.number(4)
    if bound is not None and count > bound:
        raise Fault("bound", reader.at)
    return count


@dataclass(frozen=True)
class Array(Type):
    """An array."""

    element: Type
    count: int

    def read(self, reader: Reader, path: str) -> None:
        for place in range(self.count):
            reader.value(self.element, f"{path}[{place}]")

    @property
    def within(self) -> Sequence[Type]:
        return (self.element,)


Members = Sequence[Tuple[str, Type]]


@dataclass(frozen=True)
class Struct(Type):
    """A struct; a request, a reply and an exception are such."""

    members: Members

    def read(self, reader: Reader, path: str) -> None:
        for name, member in self.members:
            reader.value(member, f"{path}.{name}")

    @property
    def within(self) -> Sequence[Type]:
        return [member for _, member in self.members]


@dataclass(frozen=True)
class Disposition(Type):
    """The discriminator of a target, which selects one of so many cases."""

    cases: int

    def read(self, reader: Reader, path: str) -> int:
        value = reader.number(2, signed=True)
        if not 0 <= value < self.cases:
            raise Fault("disposition", reader.at)
        reader.tell(reader.at, f"{path} short {value}")
        return value


@dataclass(frozen=True)
class Union(Type):
    """A union: the case of a discriminator's value, or else the default, where there is one. Reading it gives what the case
    does."""

    switch: Type
    cases: Dict[int, Tuple[str, Type]]
    default: Optional[Tuple[str, Type]] = None

    def read(self, reader: Reader, path: str) -> Read:
        value = self.switch.read(reader, f"{path}.switch")
        assert isinstance(value, int)
        case = self.cases.get(value, self.default)
        return None if case is None else reader.value(case[1], f"{path}.{case[0]}")

    @property
    def within(self) -> Sequence[Type]:
        cases = [*self.cases.values(), *([self.default] if self.default else [])]
        return [self.switch, *(case for _, case in cases)]


@dataclass(frozen=True)
class Encapsulation(Type):
    """An encapsulation of a value."""

    value: Type

    def read(self, reader: Reader, path: str) -> Read:
        return reader.encapsulation(path, self.value)

    @property
    def within(self) -> Sequence[Type]:
        return (self.value,)


@dataclass(frozen=True)
class Tagged(Type):
    """Octets after a number, which are an encapsulation where that is one known number."""

    number: Tuple[str, Type]
    known: int
    data: str
    value: Type

    def read(self, reader: Reader, path: str) -> None:
        name, numbered = self.number
        number = numbered.read(reader, f"{path}.{name}")
        data = Encapsulation(self.value) if number == self.known else Octets()
        reader.value(data, f"{path}.{self.data}")

    @property
    def within(self) -> Sequence[Type]:
        return (Encapsulation(self.value),)


OCTET, SHORT = Integer("octet", 1, False), Integer("short", 2, True)
USHORT, ULONG, LONG = Integer("ushort", 2, False), Integer("ulong", 4, False), Integer("long", 4, True)
BASE: Dict[str, Type] = {
    "octet": OCTET, "short": SHORT, "ushort": USHORT, "ulong": ULONG, "long": LONG,
    "longlong": Integer("longlong", 8, True), "ulonglong": Integer("ulonglong", 8, False),
    "boolean": Boolean(), "char": Char(), "float": Real("float", 4), "double": Real("double", 8),
}  # fmt: skip

# The names of numbers: of service contexts and profiles from 0 on, of code sets, and of the vendors of minor codes by all but
# the lowest 12 bits.
CONTEXT_NAMES = (
    "TransactionService CodeSets ChainBypassCheck ChainBypassInfo LogicalThreadId BI_DIR_IIOP SendingContextRunTime "
    "INVOCATION_POLICIES FORWARDED_IDENTITY UnknownExceptionInfo RTCorbaPriority RTCorbaPriorityRange FT_GROUP_VERSION FT_REQUEST "
    "ExceptionDetailMessage SecurityAttributeService ActivityService RMICustomMaxStreamFormat"
).split()
PROFILE_NAMES = "TAG_INTERNET_IOP TAG_MULTIPLE_COMPONENTS TAG_SCCP_IOP TAG_UIPMC".split()
CODE_SET_NAMES = {
    0x00010001: "ISO_8859_1", 0x00010020: "ISO_646", 0x00010100: "UCS_2", 0x00010106: "UCS_4", 0x00010109: "UTF_16",
    0x05010001: "UTF_8",
}  # fmt: skip
VENDORS = {0x4F4D0: "OMG", 0x41540: "omniORB", 0x54410: "TAO"}


def among(names: Sequence[str]) -> Callable[[int], str]:
    """The name of a number, which is its place among these."""
    return lambda number: names[number] if number < len(names) else ""


def minor_name(number: int) -> str:
    """The vendor of a minor code, and the code that it is among those of the vendor."""
    vendor = VENDORS.get(number >> 12)
    return f"{vendor} {number & 0xFFF}" if vendor else ""


CODE_SET = Named(lambda number: CODE_SET_NAMES.get(number, ""))
CODE_SETS = Struct([("char_data", CODE_SET), ("wchar_data", CODE_SET)])
SERVICE_CONTEXTS = Series(Tagged(("context_id", Named(among(CONTEXT_NAMES))), 1, "context_data", CODE_SETS))
IIOP = Struct([("major", OCTET), ("minor", OCTET), ("host", String()), ("port", USHORT), ("object_key", Octets())])
TAGGED_PROFILE = Tagged(("tag", Named(among(PROFILE_NAMES))), 0, "profile_data", IIOP)
IOR = Struct([("type_id", String()), ("profiles", Series(TAGGED_PROFILE))])
IOR_ADDRESS = Struct([("selected_profile_index", ULONG), ("ior", IOR)])
TARGET = Union(Disposition(3), {0: ("object_key", Octets()), 1: ("profile", TAGGED_PROFILE), 2: ("ior", IOR_ADDRESS)})
COMPLETED = Enum(("COMPLETED_YES", "COMPLETED_NO", "COMPLETED_MAYBE"))
SYSTEM_EXCEPTION = Struct([("exception_id", String()), ("minor", Named(minor_name)), ("completed", COMPLETED)])

# The kinds of a TypeCode, by their numbers; `indirection` stands apart.
KINDS = (
    "null void short long ushort ulong float double boolean char octet any TypeCode Principal objref struct union enum string "
    "sequence array alias except longlong ulonglong longdouble wchar wstring fixed value value_box native abstract_interface "
    "local_interface component home event"
).split()
INDIRECTION = 0xFFFFFFFF
ANY, TYPECODE, PRINCIPAL, OBJREF, STRUCT, UNION, ENUM, STRING, SEQUENCE, ARRAY, ALIAS, EXCEPT = range(11, 23)
WSTRING, FIXED, VALUE, VALUE_BOX, EVENT = 27, 28, 29, 30, 36
WIDE: Dict[str, Type] = {"wchar": Wide("wchar", 1), "wstring": Wide("wstring", 4)}
NOTHING = Struct([])  # the value of the kinds null and void
# The kinds that tell a type or none without parameters.
BY_KIND: Dict[int, Optional[Type]] = {
    **{kind: BASE[word] for kind, word in enumerate(KINDS) if word in BASE},
    0: NOTHING, 1: NOTHING, PRINCIPAL: Octets(), 25: None, 26: WIDE["wchar"],
}  # fmt: skip
IDENTIFIED = {STRUCT: Struct, UNION: Union, ENUM: Enum}


@dataclass(frozen=True)
class TypeCode(Type):
    """A TypeCode. Reading one gives the type that it names, where the types with these repository ids are declared."""

    identified: Dict[bytes, Type]

    def read(self, reader: Reader, path: str) -> Read:
        kind = reader.number(4)
        if kind >= len(KINDS) and kind != INDIRECTION:
            raise Fault("enum", reader.at)
        word = "indirection" if kind == INDIRECTION else f"tk_{KINDS[kind]}"
        reader.tell(reader.at, f"{path}.kind enum {word}")
        if kind in BY_KIND:
            return BY_KIND[kind]
        if kind in (ANY, TYPECODE):
            return Any(self) if kind == ANY else self
        if kind in (STRING, WSTRING):
            ULONG.read(reader, f"{path}.bound")
            return String() if kind == STRING else WIDE["wstring"]
        if kind == INDIRECTION:
            LONG.read(reader, f"{path}.offset")
            return None
        return self.parameters(reader, kind, f"{path}.parameters")

    def parameters(self, reader: Reader, kind: int, path: str) -> Read:
        """The parameters of the other kinds: told in full where there is room for TypeCodes of members, else octets."""
        if kind == FIXED:
            return reader.value(Struct([("digits", USHORT), ("scale", SHORT)]), path)
        if reader.parts - 1 + 8 <= ROOM:
            return reader.value(Encapsulation(Parameters(kind, self)), path)
        Octets().read(reader, path)
        return IOR if kind == OBJREF else None

    @cached_property
    def depth(self) -> int:
        return 3


@dataclass(frozen=True)
class Parameters(Type):
    """What stands in the encapsulation of a TypeCode's parameters, up to where the members named end."""

    kind: int
    code: TypeCode

    def read(self, reader: Reader, path: str) -> Read:
        if self.kind in (SEQUENCE, ARRAY):
            element = reader.value(self.code, f"{path}.element")
            ULONG.read(reader, f"{path}.{'bound' if self.kind == SEQUENCE else 'length'}")
            return sequence_of(element) if self.kind == SEQUENCE else None
        known = self.code.identified.get(String().read(reader, f"{path}.id"))
        String().read(reader, f"{path}.name")
        if not isinstance(known, IDENTIFIED.get(self.kind, ())):
            known = None
        if self.kind in (ALIAS, VALUE_BOX):
            content = reader.value(self.code, f"{path}.{'type' if self.kind == ALIAS else 'boxed'}")
            return content if self.kind == ALIAS else None
        if self.kind == UNION:
            reader.value(self.code, f"{path}.discriminator")
            LONG.read(reader, f"{path}.default_used")
            return known
        if self.kind == ENUM:
            count = reader.value(Series(String()), f"{path}.enumerators")
            return known if isinstance(known, Enum) and len(known.names) == count else None
        if self.kind in (STRUCT, EXCEPT, VALUE, EVENT):
            count = self.members(reader, path)
            return known if isinstance(known, Struct) and len(known.members) == count else None
        return IOR if self.kind == OBJREF else None

    def members(self, reader: Reader, path: str) -> Read:
        """The members of a struct or an exception, or what a value type has; it gives their count."""
        member = [("name", String()), ("type", self.code)]
        if self.kind in (VALUE, EVENT):
            SHORT.read(reader, f"{path}.modifier")
            reader.value(self.code, f"{path}.base")
            member.append(("visibility", SHORT))
        return reader.value(Series(Struct(member)), f"{path}.members")


def sequence_of(element: Read) -> Optional[Type]:
    """The type that a sequence's TypeCode names, by what its element's names."""
    if not isinstance(element, Type) or element is NOTHING or isinstance(element, (Octets, Series)):
        return None
    return Octets() if element is OCTET else Series(element)


@dataclass(frozen=True)
class Any(Type):
    """A TypeCode, and a value of the type that it names."""

    code: TypeCode

    def read(self, reader: Reader, path: str) -> None:
        named = reader.value(self.code, f"{path}.type")
        if named is NOTHING:
            return
        if not isinstance(named, Type) or not reader.has_room(named):
            raise Untyped
        reader.value(named, f"{path}.value")

    @cached_property
    def depth(self) -> int:
        return 4


# The names of a status in 1.0 and 1.1, and those that 1.2 has more.
REPLY_STATUS = ("NO_EXCEPTION", "USER_EXCEPTION", "SYSTEM_EXCEPTION", "LOCATION_FORWARD")
REPLY_STATUS_MORE = ("LOCATION_FORWARD_PERM", "NEEDS_ADDRESSING_MODE")
LOCATE_STATUS = ("UNKNOWN_OBJECT", "OBJECT_HERE", "OBJECT_FORWARD")
LOCATE_STATUS_MORE = ("OBJECT_FORWARD_PERM", "LOC_SYSTEM_EXCEPTION", "LOC_NEEDS_ADDRESSING_MODE")
NO_EXCEPTION, USER_EXCEPTION = range(2)
BODY_OF_STATUS: Dict[int, Type] = {2: SYSTEM_EXCEPTION, 3: IOR, 4: IOR, 5: SHORT}
BODY_OF_LOCATE_STATUS: Dict[int, Type] = {2: IOR, 3: IOR, 4: SYSTEM_EXCEPTION, 5: SHORT}

_ID, _KEY, _OPERATION = ("request_id", ULONG), ("object_key", Octets()), ("operation", String())
_CONTEXTS, _RESERVED = ("service_contexts", SERVICE_CONTEXTS), ("reserved", Array(OCTET, 3))
_EXPECTED, _PRINCIPAL = ("response_expected", Boolean()), ("requesting_principal", Octets())
_FLAGS, _TARGET = ("response_flags", OCTET), ("target", TARGET)


def header_members(minor: int, kind: int) -> Members:
    """The members of a header by the minor version and the message type."""
    reply = ("reply_status", Enum(REPLY_STATUS + (REPLY_STATUS_MORE if minor == 2 else ())))
    locate = ("locate_status", Enum(LOCATE_STATUS + (LOCATE_STATUS_MORE if minor == 2 else ())))
    requests: List[Members] = [
        [_CONTEXTS, _ID, _EXPECTED, _KEY, _OPERATION, _PRINCIPAL],
        [_CONTEXTS, _ID, _EXPECTED, _RESERVED, _KEY, _OPERATION, _PRINCIPAL],
        [_ID, _FLAGS, _RESERVED, _TARGET, _OPERATION, _CONTEXTS],
    ]
    by_kind: List[Members] = [
        requests[minor],
        [_ID, reply, _CONTEXTS] if minor == 2 else [_CONTEXTS, _ID, reply],
        [_ID],
        [_ID, _TARGET] if minor == 2 else [_ID, _KEY],
        [_ID, locate],
        [],
        [],
        [_ID],
    ]
    return by_kind[kind]


HEADERS = {(minor, kind): header_members(minor, kind) for minor in range(3) for kind in range(8)}
