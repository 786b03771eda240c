"""Which streams the flows of a capture have (docs/FORMATS.md, When a stream begins, When a stream closes)."""

from __future__ import annotations

import re
from dataclasses import dataclass, field
from typing import Dict, FrozenSet, List, NamedTuple, Optional, Set, Tuple

from .encoding import HEADER
from .packets import Endpoint, Flow, Segment
from .stream import header_fault, size_of

WINDOW = 1_048_576
BLOCK = 1024
SECOND = 10**9  # nanoseconds


@dataclass
class Limits:
    """The chosen ports, every one where there is none; how many connections are known at once; the blocks of the pool; the
    number of the first stream."""

    ports: FrozenSet[int] = frozenset()
    connections: int = 1024
    blocks: int = 16384
    first: int = 1


class Delivery(NamedTuple):
    """Octets that a stream is given: the number of when that happened, the packet that was read then, the one that had them,
    and the octets of the stream up to their last."""

    happened: int
    read: int
    packet: int
    end: int


class Start(NamedTuple):
    """What is known of a stream where it begins: the number of the opposite flow's live stream, 0 if none lives; how many
    octets of its own flow are in no stream before it; and whether it was looked for."""

    partner: int
    passed: int
    is_found: bool


@dataclass
class Stream:
    """A stream: the flow and the packet in which it began, what is known of its beginning, its octets, how they came, and the
    word with which it closed, when, and the packet that was read then."""

    number: int
    flow: Flow
    connection: int
    packet: int
    start: Start
    octets: bytearray = field(default_factory=bytearray)
    deliveries: List[Delivery] = field(default_factory=list)
    closed: Tuple[str, int, int] = ("", 0, 0)


class Held(NamedTuple):
    """A payload that came too early, its packet and that one's time."""

    number: int
    octets: bytes
    packet: int
    time: Optional[int]


class FlowState:
    """One flow of a known connection, from its first payload on."""

    def __init__(self, flow: Flow, due: int, capture: Capture, connection: Connection) -> None:
        self._flow = flow
        self._due = due
        self._capture = capture
        self._connection = connection
        self._fin: Optional[int] = None
        self._next_message = 0  # of the live stream: after how many of its octets its next message begins
        self._began = 0
        self._since = due  # from where on octets are in no stream, while none lives
        self._waits = False  # for a stream that begins at the number that is due
        self._is_found = False  # a stream of the flow was looked for
        self._tail: Optional[Held] = None  # what was looked through last and may begin a header
        self.live: Optional[Stream] = None
        self.last = 0  # the number of its last stream
        self.held: List[Held] = []

    def is_in_step(self) -> bool:
        """Whether a stream lives, or is waited for."""
        return self.live is not None or self._waits

    def ahead(self, number: int) -> int:
        """How far a number is after the one that is due: negative for one before it."""
        return (number - self._due + 2**31) % 2**32 - 2**31

    def is_near(self, number: int) -> bool:
        """Whether a number is within the window of the one that is due, before or after it."""
        return -WINDOW <= self.ahead(number) <= WINDOW

    def is_own(self, number: int) -> bool:
        """Whether a number is the flow's own: near the one that is due, or its live stream's first."""
        return self.is_near(number) or self.live is not None and number == self._began

    def blocks(self) -> int:
        return sum(-(-len(held.octets) // BLOCK) for held in self.held)

    def _left(self, held: Held) -> Held:
        """What is left of a payload without what came before."""
        before = -self.ahead(held.number)
        if before <= 0 or not self.is_in_step() and before > WINDOW:
            return held
        return held._replace(number=self._due, octets=held.octets[before:])

    def payload_came(self, number: int, octets: bytes) -> None:
        left = self._left(Held(number, octets, self._capture.packet, self._capture.time))
        if not left.octets or any(
            held.number == left.number and len(held.octets) >= len(left.octets) for held in self.held
        ):
            return
        self.held.append(left)
        self.go_on()
        while self._is_far():
            self.gap()

    def _is_far(self) -> bool:
        return any(self.ahead(held.number) + len(held.octets) > WINDOW for held in self.held)

    def fin_came(self, number: int) -> None:
        if self.is_in_step() and self.ahead(number) >= 0:
            self._fin = number
            self.go_on()

    def packet_came(self, acknowledged: Optional[int], has_octets: bool) -> None:
        """A packet of the connection: what it acknowledges of the flow, and whether it has octets of the other side."""
        while self.held and self._is_missed(acknowledged, has_octets):
            self.gap()

    def _is_missed(self, acknowledged: Optional[int], has_octets: bool) -> bool:
        """Whether what is missing in front of what is held is given up."""
        is_received = acknowledged is not None and self.ahead(acknowledged) > 0
        first, now = self.held[self._first()].time, self._capture.time
        if first is None or now is None:
            return is_received
        return is_received and (has_octets or now - first >= SECOND) or now - first >= 30 * SECOND

    def _first(self) -> int:
        """The place of the first of what is held."""
        return min(range(len(self.held)), key=lambda at: (self.ahead(self.held[at].number), at))

    def gap(self) -> None:
        lacking = self._lacking()
        first = self.ahead(self.held[self._first()].number)
        self.close("gap")
        if lacking is not None and first <= lacking < 2**31:
            self._due = (self._due + lacking) % 2**32
            self._waits = True
        self.go_on()

    def _lacking(self) -> Optional[int]:
        """How many octets the message that the live stream is in lacks, if its header is complete; 0 between two messages."""
        lacking = self._next_message - len(self.live.octets) if self.live else -1
        return lacking if lacking >= 0 else None

    def go_on(self) -> None:
        """Takes what is due of what is held, and the FIN where that is reached."""
        self._take_held()
        if self.is_in_step() and self._fin is not None and self.ahead(self._fin) <= 0:
            self.close("fin")
            self._fin = None
            self._take_held()
        if not self.is_in_step():
            self._fin = None

    def _take_held(self) -> None:
        while self.held:
            place = self._first()
            if self.is_in_step() and self.ahead(self.held[place].number) > 0:
                return
            left = self._left(self.held.pop(place))
            if left.octets:
                self._take(left)

    def _take(self, held: Held) -> None:
        """Delivers octets, or those from a header on to a stream that begins."""
        begin = 0
        stream = self.live
        if self._waits:
            stream = self._begin(held.number, held.packet)
        elif stream is None:
            held = self._after_tail(held)
            found = stream_at(held.octets)
            if found is None:
                self._capture.passed(held.octets)
                if is_beginning(held.octets):
                    self._tail = held
                return
            begin = found
            stream = self._begin((held.number + begin) % 2**32, held.packet)
        self._capture.delivered(stream, held.octets[begin:], held.packet)
        self._due = (held.number + len(held.octets)) % 2**32
        self._read_headers(stream)

    def _read_headers(self, stream: Stream) -> None:
        """Finds the ends of the live stream's messages; it closes at the first header that is wrong."""
        while header := bytes(stream.octets[self._next_message : self._next_message + HEADER]):
            if fault := header_fault(header):
                self.close("fault")
                self._since = (self._began + self._next_message + fault[1]) % 2**32
                return
            if len(header) < HEADER:
                return
            self._next_message += HEADER + size_of(header)

    def _begin(self, number: int, packet: int) -> Stream:
        """The stream that begins at a number, with octets of this packet."""
        self._began = number
        start = self._start()
        self._is_found = start.is_found
        self._waits = False
        self._tail = None
        self._next_message = 0
        stream = self._capture.begun(self._flow, self._connection, packet, start)
        self.live = stream
        self.last = stream.number
        return stream

    def _after_tail(self, held: Held) -> Held:
        """What is looked through of a payload: after the tail that it goes on, if there is one."""
        tail = self._tail
        if tail is None or (tail.number + len(tail.octets)) % 2**32 != held.number:
            return held
        both = tail.octets + held.octets
        if not is_beginning(both) and not both.startswith(FRONTS):
            return held
        return held._replace(number=tail.number, octets=both)

    def _start(self) -> Start:
        """What is known of a stream that begins."""
        passed = (self._began - self._since) % 2**32
        opposite = self._connection.flows.get(self._flow.opposite())
        partner = opposite.live.number if opposite and opposite.live else 0
        return Start(partner, passed, self._is_found or not self._waits and (self.last > 0 or passed > 0))

    def close(self, word: str) -> None:
        self._waits = False
        if self.live:
            self._capture.closed(self.live, word)
            self.live = None
            self._since = self._due

    def end(self) -> None:
        """The end of the capture."""
        self.close("end" if self._fin is None else "gap")


# What isn't read, and how it begins.
UNREAD = (("TLS", re.compile(b"[\x14-\x17]\3[\0-\4]")), ("ZIOP", re.compile(b"ZIOP")))
FRONTS = tuple(b"GIOP\1" + bytes([minor]) for minor in range(3))  # the six octets of a header


def stream_at(octets: bytes) -> Optional[int]:
    """Where a stream begins in a payload: at its front, or where messages stand up to its end, at the first place of the
    six octets."""
    place = min((place for place in map(octets.find, FRONTS) if place >= 0), default=None)
    return place if place is None or place == 0 or is_chain(octets[place:]) else None


def is_beginning(octets: bytes) -> bool:
    """Whether octets are a beginning of the six: one to five of them."""
    return 0 < len(octets) < 6 and FRONTS[0].startswith(octets)


def is_chain(octets: bytes) -> bool:
    """Whether messages stand there up to the end, at least one of them whole."""
    at, whole = 0, 0
    while at < len(octets):
        header = octets[at : at + HEADER]
        if not any(front[: len(header)] == header[:6] for front in FRONTS):
            return False
        if len(header) < HEADER:
            break
        at += HEADER + size_of(header)
        whole += at <= len(octets)
    return whole > 0


class Connection:
    """A known connection."""

    def __init__(self, number: int) -> None:
        self.number = number
        self.flows: Dict[Flow, FlowState] = {}
        self.last = 0  # the number of its last segment
        self.came: Set[Flow] = set()  # the flows of its segments
        self._syn: Optional[Segment] = None  # one that was neither answered nor followed yet

    def keeps(self, segment: Segment) -> bool:
        """Whether a segment is a SYN that is kept from now on, and does nothing else."""
        state = self.flows.get(segment.flow)
        if not segment.is_syn or segment.acknowledged is not None or state and state.is_own(segment.number):
            return False
        self._syn = segment
        return True

    def begins_anew(self, segment: Segment) -> bool:
        """Whether a segment answers the SYN that is kept, or follows it."""
        syn = self._syn
        if syn is None:
            return False
        if segment.flow != syn.flow:
            return segment.is_syn and segment.acknowledged == syn.number
        is_plain = not segment.is_syn and not segment.is_reset
        return is_plain and len(segment.payload) > 0 and segment.number == syn.number

    def used(self, segment: Segment, number: int) -> None:
        self.last = number
        self.came.add(segment.flow)

    def before(self) -> Tuple[bool, bool, int]:
        """The lesser this is, the sooner the connection makes room."""
        is_live = bool(self.live())
        return is_live, is_live and len(self.came) == 2, self.last

    def live(self) -> List[Stream]:
        return [state.live for state in self.flows.values() if state.live]


class Capture:
    """The connections of a capture."""

    def __init__(self, limits: Limits) -> None:
        self.limits = limits
        self.streams: List[Stream] = []
        self.others = 0  # payloads that were looked through and in which no stream begins
        self.fronts: Set[str] = set()  # what of UNREAD stood at their fronts
        self.packet = -1  # the packet that is read
        self.time: Optional[int] = None  # of that packet, in nanoseconds
        self._known: Dict[FrozenSet[Endpoint], Connection] = {}
        self._connections = 0
        self._segments = 0
        self._happened = 0
        self.causes: Set[str] = set()  # of the streams that have closed

    def happened(self) -> int:
        """The number of what happens now, in the order of the capture."""
        self._happened += 1
        return self._happened

    def begun(self, flow: Flow, connection: Connection, packet: int, start: Start) -> Stream:
        self.happened()
        self.streams.append(Stream(self.limits.first + len(self.streams), flow, connection.number, packet, start))
        self.streams[-1].deliveries.append(Delivery(self._happened, self.packet, packet, 0))
        return self.streams[-1]

    def delivered(self, stream: Stream, octets: bytes, packet: int) -> None:
        stream.octets += octets
        stream.deliveries.append(Delivery(self.happened(), self.packet, packet, len(stream.octets)))

    def closed(self, stream: Stream, word: str) -> None:
        self.causes.add(word)
        stream.closed = (word, self.happened(), self.packet)

    def passed(self, octets: bytes) -> None:
        """A payload was looked through, and no stream begins in it."""
        self.others += 1
        self.fronts |= {name for name, front in UNREAD if front.match(octets)}

    def _states(self) -> List[FlowState]:
        return [state for connection in self._known.values() for state in connection.flows.values()]

    def _relieve(self) -> None:
        """While the pool is short the flow that holds the most gives up, of several the one of the oldest stream."""
        while sum(state.blocks() for state in self._states()) > self.limits.blocks:
            min(self._states(), key=lambda state: (-state.blocks(), number_of(state))).gap()

    def take(self, segment: Segment) -> None:
        """What a segment does."""
        self._segments += 1
        ends = frozenset(segment.flow)
        connection = self._known.get(ends)
        if connection and connection.keeps(segment):
            connection.used(segment, self._segments)
            return
        if connection and connection.begins_anew(segment):
            self._forget(ends, segment.flow, "syn")
            connection = None
        if connection is None:
            if not self._may_begin(segment):
                return
            connection = self._made_known(ends)
            connection.flows[segment.flow] = FlowState(segment.flow, segment.number, self, connection)
        connection.used(segment, self._segments)
        opposite = connection.flows.get(segment.flow.opposite())
        if opposite:
            opposite.packet_came(segment.acknowledged, len(segment.payload) > 0)
        state = connection.flows.get(segment.flow)
        if state is None and self._may_begin(segment):
            state = FlowState(segment.flow, segment.number, self, connection)
            connection.flows[segment.flow] = state
        if state and not segment.is_reset:
            state.payload_came(segment.number, segment.payload)
            self._relieve()
        if state and segment.is_fin:
            state.fin_came(segment.end())
        if state and segment.is_reset and state.is_near(segment.sequence):
            self._forget(ends, segment.flow, "reset")
        elif state:
            state.packet_came(None, False)

    def _may_begin(self, segment: Segment) -> bool:
        """Whether a segment has the first payload of its flow: a stream begins in it, or it is a beginning of a header."""
        is_chosen = not self.limits.ports or bool(self.limits.ports & set(segment.flow.ports()))
        if segment.is_reset or not is_chosen or not segment.payload:
            return False
        if stream_at(segment.payload) is None and not is_beginning(segment.payload):
            self.passed(segment.payload)
            return False
        return True

    def _made_known(self, ends: FrozenSet[Endpoint]) -> Connection:
        if len(self._known) == self.limits.connections:
            first = min(self._known, key=lambda each: self._known[each].before())
            self._forget(first, None, "room")
        self._connections += 1
        self._known[ends] = Connection(self._connections)
        return self._known[ends]

    def _forget(self, ends: FrozenSet[Endpoint], first: Optional[Flow], word: str) -> None:
        """Forgets a connection, with what it holds shown before: that of this flow first, or else of the older stream."""
        flows = self._known[ends].flows
        for state in by_turns(flows, first):
            while state.held:
                state.gap()
        for state in by_turns(flows, first):
            state.close(word)
        del self._known[ends]

    def end(self) -> None:
        """The end of the capture: first the gaps, then the streams that live close."""
        while holding := [state for state in self._states() if state.held]:
            min(holding, key=number_of).gap()
        for state in sorted((state for state in self._states() if state.live), key=number_of):
            state.end()


def by_turns(flows: Dict[Flow, FlowState], first: Optional[Flow]) -> List[FlowState]:
    """The flows of a connection, this one first, or by their last streams."""
    return [flows[flow] for flow in sorted(flows, key=lambda flow: (flow != first, number_of(flows[flow])))]


def number_of(state: FlowState) -> int:
    """The number of a flow's last stream."""
    return state.last
