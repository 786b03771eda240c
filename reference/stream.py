"""A whole stream of GIOP as lines: messages, Fragments, faults and totals (docs/FORMATS.md, Lines)."""

from __future__ import annotations

from dataclasses import dataclass, field
from typing import Dict, List, NamedTuple, Optional, Tuple

from .encoding import CANCEL_REQUEST, FRAGMENT, HEADER, LOCATE_REPLY, LOCATE_REQUEST, ORDERS, REPLY, REQUEST, Order
from .signatures import Asked, Operation, Table
from .types import (
    BODY_OF_LOCATE_STATUS,
    BODY_OF_STATUS,
    HEADERS,
    NO_EXCEPTION,
    SYSTEM_EXCEPTION,
    USER_EXCEPTION,
    Fault,
    Over,
    Read,
    Reader,
    String,
    Struct,
    Type,
    Untyped,
    behind,
)

KINDS = "Request Reply CancelRequest LocateRequest LocateReply CloseConnection MessageError Fragment".split()
MAY_HAVE_FRAGMENTS = (REQUEST, REPLY, LOCATE_REQUEST, LOCATE_REPLY)
MOST_OPEN = 16
MOST_NAME = 128

# The lines of one octet stand in this order.
START, VALUE, CALL, CONTINUES, CANCELLED, REST, FAULT, END, STREAM = range(9)


@dataclass
class Known:
    """What is told of a stream: the types of bodies, the operations that replies answer, by their request ids or else by
    the numbers of their messages, and how many messages may be open."""

    table: Table = field(default_factory=Table)
    requests: Dict[int, Asked] = field(default_factory=dict)
    most: int = MOST_OPEN
    answers: Optional[Dict[int, Asked]] = None

    def answered(self, number: int, request_id: int) -> Optional[Operation]:
        """The operation that a message answers, if one is known."""
        asked = self.requests.get(request_id) if self.answers is None else self.answers.get(number)
        return self.table.operation(asked) if asked else None


@dataclass(frozen=True)
class Header:
    """A message's header."""

    number: int
    minor: int
    order: Order
    more: bool
    kind: int
    size: int


class HeaderEnd(NamedTuple):
    """A Request's or Reply's header that is complete: with which octet of the stream, the message's number and type, its
    request id, and of a Request what its call line has, an empty name without one, and whether it expects a reply."""

    place: int
    number: int
    kind: int
    request_id: int
    asked: Asked
    is_expecting: bool


class Raised(NamedTuple):
    """An exception that a Reply raises: with which octet of the stream, the message's number, the exception's id."""

    place: int
    number: int
    name: bytes


class Message:
    """A joined message: its header, and its octets with their places in the stream."""

    def __init__(self, header: Header, end_of_header: int) -> None:
        self.header = header
        self.octets = bytearray(HEADER)
        # From which octet on the octets come together, and how many of the stream stand before them that aren't its own.
        self._parts = [(HEADER, end_of_header - HEADER)]
        self.is_over = False  # whether its lines are made
        self.seams: List[int] = []  # at which of its octets the payloads of Fragments of 1.1 begin

    def join(self, octets: bytes, begin: int) -> None:
        """The payload of a Fragment of 1.1, which comes after so many octets of the stream."""
        self.seams.append(len(self.octets))
        self.add(octets, begin)

    def add(self, octets: bytes, begin: int) -> None:
        """Octets that come after so many of the stream."""
        self._parts.append((len(self.octets), begin - len(self.octets)))
        self.octets += octets

    def place(self, at: int) -> int:
        """The place of the octet up to which there are so many of the message."""
        return at + next(shift for first, shift in reversed(self._parts) if first < at or first == HEADER)


def header_fault(header: bytes) -> Optional[Tuple[str, int]]:
    """The fault of a message's header, of as many octets as there are, with the number of the octet."""
    for at, octet in enumerate(header):
        if at < 4 and octet != b"GIOP"[at]:
            return "magic", at + 1
        if at == 4 and octet != 1 or at == 5 and octet > 2:
            return "version", at + 1
        if at == 6 and header[5] == 0 and octet > 1:
            return "byte-order", at + 1
    return None


def size_of(header: bytes) -> int:
    """How many octets come after a header."""
    return int.from_bytes(header[8:HEADER], ORDERS[header[6] & 1])


def is_shown(name: bytes) -> bool:
    """Whether a name stands whole in a line."""
    return 1 <= len(name) <= MOST_NAME and all(0x21 <= octet <= 0x7E for octet in name)


class Dump:
    """The lines of a stream, each with the place of its octet and its sort, and those of its end."""

    def __init__(self, stream: bytes, known: Known) -> None:
        self._stream = stream
        self._known = known
        self._unfinished: List[int] = []
        self._open: Dict[int, Message] = {}
        self._pending: Optional[Message] = None  # the one of 1.1, which is open without an id
        self._is_mixed = False  # whether nobody can tell whose the Fragments of 1.1 are
        self.lines: List[Tuple[int, int, str]] = []
        self.closing: List[str] = []
        self.begun: List[int] = []  # with which octet each message's first header is complete
        self.header_ends: List[HeaderEnd] = []
        self.raised: List[Raised] = []
        self.messages = 0
        self.faults = 0
        self.octets = len(stream)
        self._dump()
        self.lines.sort(key=lambda line: line[:2])

    def _dump(self) -> None:
        place = 0
        stop = None
        while stop is None and place < len(self._stream):
            header = self._stream[place : place + HEADER]
            if fault := header_fault(header):
                stop = fault[0], place + fault[1]
            elif len(header) < HEADER:
                stop = "truncated", len(self._stream)
            else:
                stop = self._message(place)
                place += HEADER + size_of(header)
        for message in [*self._open.values(), *([self._pending] if self._pending else [])]:
            self._read(message, None)
        if stop:
            word, self.octets = stop
            self.faults += 1
            line = f"stream fault {word} at {self.octets}"
            if word == "truncated":
                self.closing.append(line)
            else:
                self._say(self.octets, STREAM, line)
        self.closing += [f"m{number} unfinished" for number in sorted(self._unfinished)]
        self.closing.append(f"total messages {self.messages} faults {self.faults} octets {self.octets}")

    def _say(self, place: int, sort: int, line: str) -> None:
        self.lines.append((place, sort, line))

    def _fault(self, number: int, word: str, place: int) -> None:
        self.faults += 1
        self._say(place, FAULT, f"m{number} fault {word} at {place}")

    def _message(self, place: int) -> Optional[Tuple[str, int]]:
        """One message, whose header begins after so many octets; whether the stream ends in it."""
        minor, flags, kind = self._stream[place + 5 : place + 8]
        begin = place + HEADER
        size = size_of(self._stream[place:begin])
        self.messages += 1
        self.begun.append(begin)
        header = Header(self.messages, minor, ORDERS[flags & 1], minor > 0 and bool(flags & 2), kind, size)
        word = KINDS[kind] if kind < len(KINDS) else kind
        more = " more" if header.more else ""
        self._say(begin, START, f"m{header.number} start 1.{minor} {header.order} {word} size {header.size}{more}")
        end = begin + header.size
        payload = self._stream[begin:end]
        closed = end if end <= len(self._stream) else None
        if kind >= len(KINDS) or kind == FRAGMENT and minor == 0:
            self._fault(header.number, "message-type", begin)
        elif minor == 1 and (kind == FRAGMENT or header.more and kind in MAY_HAVE_FRAGMENTS):
            if self._known.table.version < 3 or kind in (LOCATE_REQUEST, LOCATE_REPLY):
                self._fault(header.number, "fragment-1.1", begin)
            elif kind == FRAGMENT:
                self._old_fragment(header, payload, begin, closed)
            else:
                self._old_first(header, payload, begin)
        elif kind == FRAGMENT:
            self._fragment(header, payload, begin, closed)
        else:
            self._first(header, payload, begin, closed)
        return None if closed is not None else ("truncated", len(self._stream))

    def _first(self, header: Header, payload: bytes, begin: int, closed: Optional[int]) -> None:
        """A message that is no Fragment."""
        message = Message(header, begin)
        message.add(payload, begin)
        has_id = len(payload) >= 4
        request_id = int.from_bytes(payload[:4], header.order)
        if header.minor < 2 or not header.more or header.kind not in MAY_HAVE_FRAGMENTS:
            if header.kind == CANCEL_REQUEST and has_id:
                self._cancel(header, request_id, begin + 4)
            self._read(message, closed)
        elif not has_id:
            self._read(message, closed)
        elif request_id in self._open or self._open_count() >= self._known.most:
            word = "id-open" if request_id in self._open else "too-many-open"
            self._say(begin + 4, VALUE, f"m{header.number} header.request_id ulong {request_id}")
            self._fault(header.number, word, begin + 4)
        else:
            self._open[request_id] = message

    def _open_count(self) -> int:
        return len(self._open) + (self._pending is not None)

    def _old_first(self, header: Header, payload: bytes, begin: int) -> None:
        """A Request or Reply of 1.1 that Fragments continue."""
        if self._is_mixed or self._pending:
            self._is_mixed = True
            self._fault(header.number, "fragment-1.1", begin)
        elif self._open_count() >= self._known.most:
            self._is_mixed = True
            self._fault(header.number, "too-many-open", begin)
        else:
            self._pending = Message(header, begin)
            self._pending.add(payload, begin)

    def _old_fragment(self, header: Header, payload: bytes, begin: int, closed: Optional[int]) -> None:
        """A Fragment of 1.1."""
        message = self._pending
        if self._is_mixed or message is None:
            self._fault(header.number, "fragment-1.1" if self._is_mixed else "no-open", begin)
            return
        self._say(begin, CONTINUES, f"m{header.number} continues m{message.header.number}")
        if message.header.order != header.order:
            if self._goes_on(message):
                self._fault(message.header.number, "fragment-order", begin)
        else:
            message.join(payload, begin)
        if closed is not None and not header.more:
            self._pending = None
            self._read(message, closed)

    def _cancel(self, header: Header, request_id: int, place: int) -> None:
        """Takes an open message that is cancelled from those that are open."""
        message = self._open.get(request_id)
        if message is None:
            self._cancel_pending(header, request_id, place)
        elif message.header.kind in (REQUEST, LOCATE_REQUEST):
            del self._open[request_id]
            if self._goes_on(message):
                self._say(place, CANCELLED, f"m{message.header.number} cancelled by m{header.number}")

    def _cancel_pending(self, header: Header, request_id: int, place: int) -> None:
        """The same for the message of 1.1, if its header has given this id, and it isn't over."""
        message = self._pending
        if self._is_mixed or message is None or message.is_over or message.header.kind != REQUEST:
            return
        reading = Reading(message, self._known, None)
        try:
            reading.read()
        except Fault:
            return
        except Over:
            pass
        if f"m{message.header.number} header.request_id ulong {request_id}" in [line for _, _, line in reading.lines]:
            self._pending = None
            self._goes_on(message)
            self._say(place, CANCELLED, f"m{message.header.number} cancelled by m{header.number}")

    def _fragment(self, header: Header, payload: bytes, begin: int, closed: Optional[int]) -> None:
        """A Fragment of 1.2."""
        if len(payload) < 4:
            if closed is not None:
                self._fault(header.number, "short", closed)
            return
        request_id = int.from_bytes(payload[:4], header.order)
        self._say(begin + 4, VALUE, f"m{header.number} header.request_id ulong {request_id}")
        message = self._open.get(request_id)
        if message is None:
            self._fault(header.number, "no-open", begin + 4)
            return
        self._say(begin + 4, CONTINUES, f"m{header.number} continues m{message.header.number}")
        if message.header.order != header.order:
            if self._goes_on(message):
                self._fault(message.header.number, "fragment-order", begin + 4)
        else:
            message.add(payload[4:], begin + 4)
        if closed is not None and not header.more:
            del self._open[request_id]
            self._read(message, closed)

    def _goes_on(self, message: Message) -> bool:
        """Whether a message that has no further lines had no fault."""
        if message.is_over:
            return False
        faults = self.faults
        self._read(message, None)
        if self.faults > faults:
            return False
        self._unfinished.remove(message.header.number)
        return True

    def _read(self, message: Message, closed: Optional[int]) -> None:
        """The lines of all octets of a message; where it is closed, that is at this place."""
        if message.is_over:
            return
        message.is_over = True
        number = message.header.number
        reading = Reading(message, self._known, closed)
        try:
            ended = reading.read()
        except Fault as fault:
            ended = True
            self._fault(number, fault.word, message.place(fault.at))
        except Over:
            ended = closed is not None
            if closed is not None:
                self._fault(number, "short", closed)
        self.lines += reading.lines
        self.header_ends += reading.header_ends
        self.raised += reading.raised
        if not ended:
            self._unfinished.append(number)


class Reading:
    """The reading of one joined message: its header, its body and its rest."""

    def __init__(self, message: Message, known: Known, closed: Optional[int]) -> None:
        self._message = message
        self._known = known
        self._closed = closed
        narrow, naming = message.header.minor < 2, known.table.version == 3
        self._reader = Reader(bytes(message.octets), message.header.order, narrow, naming, self._tell, message.seams)
        self.lines: List[Tuple[int, int, str]] = []
        self.header_ends: List[HeaderEnd] = []
        self.raised: List[Raised] = []

    def _place(self) -> int:
        """The place of the last octet that was read."""
        return self._message.place(self._reader.at)

    def _tell(self, at: int, line: str) -> None:
        self.lines.append((self._message.place(at), VALUE, f"m{self._message.header.number} {line}"))

    def read(self) -> bool:
        """Whether the message has ended."""
        heard: Dict[str, Read] = {}
        header, reader = self._message.header, self._reader
        for name, member in HEADERS[header.minor, header.kind]:
            heard[name] = member.read(reader, f"header.{name}")
            if name == "operation":
                self._call(heard)
        if header.kind in (REQUEST, REPLY):
            self.header_ends.append(self._header_end(heard))
            try:
                self._body(*self._body_of(heard))
            except Untyped:
                pass  # what follows is the message's rest
        elif header.kind == LOCATE_REPLY and self._known.table.version == 3:
            self._located(heard["locate_status"])
        return self._rest()

    def _header_end(self, heard: Dict[str, Read]) -> HeaderEnd:
        """The header that has just ended."""
        header, request_id, asked = self._message.header, heard["request_id"], self._asked(heard)
        expected = heard.get("response_expected", heard.get("response_flags", 0))
        assert isinstance(request_id, int) and isinstance(expected, int)
        shown = asked if is_shown(asked.name) else Asked(b"")
        return HeaderEnd(self._place(), header.number, header.kind, request_id, shown, bool(expected & 1))

    def _asked(self, heard: Dict[str, Read]) -> Asked:
        """What a Request asks for, an empty name if it is none."""
        name, key = heard.get("operation", b""), heard.get("object_key", heard.get("target"))
        assert isinstance(name, bytes)
        return Asked(name, self._known.table.interface(key) if isinstance(key, bytes) else None)

    def _raise(self, name: Read) -> None:
        """An exception of this id is raised."""
        if isinstance(name, bytes) and is_shown(name):
            self.raised.append(Raised(self._place(), self._message.header.number, name))

    def _call(self, heard: Dict[str, Read]) -> None:
        request_id, asked = heard["request_id"], self._asked(heard)
        assert isinstance(request_id, int)
        if is_shown(asked.name):
            call = f"m{self._message.header.number} call {request_id} {asked.name.decode()}"
            self.lines.append((self._place(), CALL, call + behind((asked.interface or b"").decode())))

    def _body_of(self, heard: Dict[str, Read]) -> Tuple[str, Optional[Type]]:
        """The path and the type of a body, where one is known; of a user exception those of its repository id."""
        if self._message.header.kind == REQUEST:
            operation = self._known.table.operation(self._asked(heard))
            return "body", operation.request if operation else None
        status, request_id = heard["reply_status"], heard["request_id"]
        assert isinstance(status, int) and isinstance(request_id, int)
        if status == NO_EXCEPTION:
            answered = self._known.answered(self._message.header.number, request_id)
            return "body", answered.reply if answered else None
        return ("exception", String()) if status == USER_EXCEPTION else ("body", BODY_OF_STATUS[status])

    def _body(self, path: str, body: Optional[Type]) -> None:
        """A body, after the padding that it has in 1.2; one without room is rest."""
        reader = self._reader
        body = body if body and reader.has_room(body) else None
        if self._message.header.minor == 2:
            begin = reader.at + -reader.at % 8
            is_empty = body is None or isinstance(body, Struct) and not body.members
            if len(reader.octets) <= begin:
                if not is_empty:
                    raise Over
                begin = len(reader.octets)
            reader.at = begin
        if body is SYSTEM_EXCEPTION:
            self._raise([member.read(reader, f"{path}.{name}") for name, member in SYSTEM_EXCEPTION.members][0])
            return
        value = reader.value(body, path) if body else None
        if path == "exception" and isinstance(value, bytes):
            self._raise(value)
            exception = self._known.table.exceptions.get(value)
            if exception and reader.has_room(exception):
                reader.value(exception, "body")

    def _located(self, status: Read) -> None:
        """The body of a LocateReply, which follows its header at once, if its status has one."""
        body = BODY_OF_LOCATE_STATUS.get(status) if isinstance(status, int) else None
        if body:
            body.read(self._reader, "body")

    def _rest(self) -> bool:
        """What is left, and the end."""
        number, begin = self._message.header.number, self._reader.at
        octets = self._reader.octets[begin:]
        for offset in range(0, len(octets), 32):
            piece = octets[offset : offset + 32]
            if len(piece) == 32 or self._closed is not None:
                place = self._message.place(begin + offset + 32) if len(piece) == 32 else self._closed
                assert place is not None
                self.lines.append((place, REST, f"m{number} rest @{offset} {piece.hex()}"))
        if self._closed is None:
            return False
        self.lines.append((self._closed, END, f"m{number} end"))
        return True


def dump(stream: bytes, known: Known) -> List[str]:
    """The lines of a stream."""
    dumped = Dump(stream, known)
    return [line for _, _, line in dumped.lines] + dumped.closing
