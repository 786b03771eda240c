"""The packets of a capture file, and the TCP segment in a packet (docs/FORMATS.md, Capture files, Which packets are read)."""

from __future__ import annotations

from dataclasses import dataclass
from typing import List, NamedTuple, Optional, Tuple

from .encoding import ORDERS, Order

MOST_CAPTURED = 262_144
MOST_INTERFACES = 256
NO_TIME_FROM = 253_402_300_800 * 10**9  # 10000-01-01, in nanoseconds since 1970

BIG, LITTLE = ORDERS
# The order of a pcap file, and how many nanoseconds its fractions count, by its magic.
MAGICS = {
    bytes.fromhex("a1b2c3d4"): (BIG, 1000),
    bytes.fromhex("d4c3b2a1"): (LITTLE, 1000),
    bytes.fromhex("a1b23c4d"): (BIG, 1),
    bytes.fromhex("4d3cb2a1"): (LITTLE, 1),
}
SECTION, INTERFACE, SIMPLE, ENHANCED = bytes.fromhex("0a0d0d0a"), 1, 3, 6
# The least length of a block by its type: its type, its two lengths and its fixed fields.
LEAST_LENGTH = {INTERFACE: 20, SIMPLE: 16, ENHANCED: 32}
LEAST_SECTION = 28


class CaptureFault(Exception):
    """A rule that a capture breaks at an octet."""

    def __init__(self, word: str, at: int) -> None:
        super().__init__(word)
        self.word = word
        self.at = at


class Packet(NamedTuple):
    """A packet: up to which octet of the capture it stands there, its link type, its time in nanoseconds since 1970, and
    its octets."""

    end: int
    link: int
    time: Optional[int]
    octets: bytes


class Interface(NamedTuple):
    """An interface of a section: its link type, its snapshot length, and its unit of time as ticks in a second."""

    link: int
    most: int
    ticks: int


class File:
    """The octets of a capture, read from the front."""

    def __init__(self, octets: bytes) -> None:
        self.octets = octets
        self.order: Order = BIG

    def reach(self, end: int) -> None:
        """The capture has the octets up to there."""
        if end > len(self.octets):
            raise CaptureFault("truncated", len(self.octets))

    def number(self, at: int, size: int = 4) -> int:
        """A number that stands there."""
        self.reach(at + size)
        return int.from_bytes(self.octets[at : at + size], self.order)


def packets_of(capture: bytes) -> Tuple[List[Packet], Optional[CaptureFault]]:
    """The packets, and the fault that ends the reading."""
    file = File(capture)
    packets: List[Packet] = []
    try:
        file.reach(4)
        if capture[:4] == SECTION:
            read_blocks(file, packets)
        elif capture[:4] in MAGICS:
            read_records(file, packets)
        else:
            raise CaptureFault("magic", 4)
    except CaptureFault as fault:
        return packets, fault
    return packets, None


def timed(nanoseconds: int) -> Optional[int]:
    """A time, where it has one."""
    return nanoseconds if nanoseconds < NO_TIME_FROM else None


def read_records(file: File, packets: List[Packet]) -> None:
    """The records of a pcap file."""
    file.order, unit = MAGICS[file.octets[:4]]
    file.reach(8)
    if file.number(4, 2) != 2:
        raise CaptureFault("version", 8)
    link = file.number(20) & 0xFFFF
    at = 24
    while at < len(file.octets):
        seconds, fraction, captured = (file.number(at + field) for field in (0, 4, 8))
        if captured > MOST_CAPTURED:
            raise CaptureFault("length", at + 12)
        begin, at = at + 16, at + 16 + captured
        file.reach(begin)
        file.reach(at)
        packets.append(Packet(at, link, timed(seconds * 10**9 + fraction * unit), file.octets[begin:at]))


def read_blocks(file: File, packets: List[Packet]) -> None:
    """The blocks of a pcapng file."""
    interfaces: List[Interface] = []
    at = 0
    while at < len(file.octets):
        file.reach(at + 4)
        is_section = file.octets[at : at + 4] == SECTION
        length = section_length(file, at) if is_section else block_length(file, at, len(interfaces))
        end = at + length
        packet = None
        if is_section:
            interfaces = []
        elif (kind := file.number(at)) == INTERFACE:
            interfaces.append(interface_of(file, at, end - 4))
        elif kind == ENHANCED:
            packet = enhanced(file, at, end, interfaces)
        elif kind == SIMPLE:
            packet = simple(file, at, end, interfaces)
        if file.number(end - 4) != length:
            raise CaptureFault("format", end)
        if packet:
            packets.append(packet)
        at = end


def section_length(file: File, at: int) -> int:
    """The length of a section header, which gives the order of its section."""
    file.reach(at + 12)
    for file.order in ORDERS:
        if file.number(at + 8) == 0x1A2B3C4D:
            break
    else:
        raise CaptureFault("format", at + 12)
    length = file.number(at + 4)
    if length % 4 or length < LEAST_SECTION:
        raise CaptureFault("length", at + 12)
    file.reach(at + 16)
    if file.number(at + 12, 2) != 1:
        raise CaptureFault("version", at + 16)
    return length


def block_length(file: File, at: int, interfaces: int) -> int:
    """The length of any other block."""
    kind, length = file.number(at), file.number(at + 4)
    if length % 4 or length < LEAST_LENGTH.get(kind, 12):
        raise CaptureFault("length", at + 8)
    if kind == INTERFACE and interfaces == MOST_INTERFACES:
        raise CaptureFault("interface", at + 8)
    return length


def interface_of(file: File, at: int, end: int) -> Interface:
    """The interface that a block describes, whose options stand before this end."""
    link, most, ticks = file.number(at + 8, 2), file.number(at + 12), 10**6
    option = at + 16
    while option + 4 <= end:
        code, length = file.number(option, 2), file.number(option + 2, 2)
        value, option = option + 4, option + 4 + length + -length % 4
        if code == 0 or option > end:
            break
        if code == 9 and length == 1:
            unit = file.number(value, 1)
            power = unit & 0x7F
            if power > (63 if unit & 0x80 else 19):
                raise CaptureFault("format", value + 1)
            ticks = 2**power if unit & 0x80 else 10**power
    return Interface(link, most, ticks)


def enhanced(file: File, at: int, end: int, interfaces: List[Interface]) -> Packet:
    """The packet of an enhanced packet block."""
    number = file.number(at + 8)
    if number >= len(interfaces):
        raise CaptureFault("interface", at + 12)
    ticks = (file.number(at + 12) << 32) + file.number(at + 16)
    captured = file.number(at + 20)
    if captured > MOST_CAPTURED or captured > end - at - 32:
        raise CaptureFault("length", at + 24)
    file.reach(end)
    interface = interfaces[number]
    octets = file.octets[at + 28 : at + 28 + captured]
    return Packet(end, interface.link, timed(ticks * 10**9 // interface.ticks), octets)


def simple(file: File, at: int, end: int, interfaces: List[Interface]) -> Packet:
    """The packet of a simple packet block, which belongs to the first interface."""
    captured = file.number(at + 8)
    if not interfaces:
        raise CaptureFault("interface", at + 12)
    if interfaces[0].most:
        captured = min(captured, interfaces[0].most)
    if captured > MOST_CAPTURED or captured > end - at - 16:
        raise CaptureFault("length", at + 12)
    file.reach(end)
    return Packet(end, interfaces[0].link, None, file.octets[at + 12 : at + 12 + captured])


Endpoint = Tuple[bytes, int]


class Flow(NamedTuple):
    """From one endpoint to another."""

    source: Endpoint
    target: Endpoint

    def opposite(self) -> Flow:
        return Flow(self.target, self.source)

    def ports(self) -> Tuple[int, int]:
        return self.source[1], self.target[1]


@dataclass(frozen=True)
class Segment:
    """A TCP segment (RFC 9293)."""

    flow: Flow
    sequence: int
    acknowledged: Optional[int]
    is_syn: bool
    is_fin: bool
    is_reset: bool
    payload: bytes

    @property
    def number(self) -> int:
        """The number of its payload's first octet: a SYN has one of its own."""
        return (self.sequence + self.is_syn) % 2**32

    def end(self) -> int:
        """The number of what comes after its payload."""
        return (self.number + len(self.payload)) % 2**32


class NoSegment(Exception):
    """A packet has no segment."""


def wanted(holds: bool) -> None:
    if not holds:
        raise NoSegment


def big(octets: bytes) -> int:
    return int.from_bytes(octets, "big")


TAGS = (0x8100, 0x88A8, 0x9100)
VERSIONS = {0x0800: 4, 0x86DD: 6}
LOOPBACK = {2: 4, 10: 6, 24: 6, 28: 6, 30: 6}
# Where the type stands of a link type that has one, and how many octets stand in front of what follows.
TYPED = {1: (12, 14), 113: (14, 16), 276: (0, 20)}


def ip_of(link: int, octets: bytes) -> Tuple[int, bytes]:
    """The version of IP and what stands from its header on."""
    if link in TYPED:
        at, begin = TYPED[link]
        wanted(len(octets) >= begin)
        kind, octets = big(octets[at : at + 2]), octets[begin:]
        for _ in range(4):
            if kind in TAGS:
                wanted(len(octets) >= 4)
                kind, octets = big(octets[2:4]), octets[4:]
        wanted(kind in VERSIONS)
        return VERSIONS[kind], octets
    if link in (0, 108):
        families = [int.from_bytes(octets[:4], order) for order in ORDERS if len(octets) >= 4]
        wanted(any(family in LOOPBACK for family in families))
        return next(LOOPBACK[family] for family in families if family in LOOPBACK), octets[4:]
    wanted(link in (12, 14, 101, 228, 229) and len(octets) > 0)
    return {228: 4, 229: 6}.get(link, octets[0] >> 4), octets


def tcp_of(version: int, octets: bytes) -> Tuple[bytes, bytes, bytes]:
    """The addresses, and what the IP header leaves of the octets from the TCP header on (RFC 791, RFC 8200)."""
    wanted(version in (4, 6) and len(octets) > 0 and octets[0] >> 4 == version)
    if version == 4:
        wanted(len(octets) >= 20)
        size, total = octets[0] % 16 * 4, big(octets[2:4])
        octets = octets[:total] if total else octets
        wanted(size >= 20 and len(octets) >= size and octets[9] == 6 and big(octets[6:8]) & 0x3FFF == 0)
        return octets[12:16], octets[16:20], octets[size:]
    wanted(len(octets) >= 40)
    total, kind, source, target = big(octets[4:6]), octets[6], octets[8:24], octets[24:40]
    octets = octets[40 : 40 + total] if total else octets[40:]
    for _ in range(8):
        if kind not in (0, 43, 44, 51, 60):
            break
        wanted(len(octets) >= 8)
        size = {44: 8, 51: (octets[1] + 2) * 4}.get(kind, (octets[1] + 1) * 8)
        wanted(len(octets) >= size and (kind != 44 or big(octets[2:4]) & 0xFFF9 == 0))
        kind, octets = octets[0], octets[size:]
    wanted(kind == 6)
    return source, target, octets


def segment_of(packet: Packet) -> Optional[Segment]:
    """The TCP segment in a packet."""
    try:
        source, target, octets = tcp_of(*ip_of(packet.link, packet.octets))
        wanted(len(octets) >= 20)
        size, flags = octets[12] // 16 * 4, octets[13]
        wanted(size >= 20 and len(octets) >= size)
    except NoSegment:
        return None
    flow = Flow((source, big(octets[:2])), (target, big(octets[2:4])))
    if flow.source == flow.target:
        return None
    return Segment(
        flow,
        big(octets[4:8]),
        big(octets[8:12]) if flags & 16 else None,
        bool(flags & 2),
        bool(flags & 1),
        bool(flags & 4),
        octets[size:],
    )


def is_read(link: int) -> bool:
    """Whether packets of this link type are read."""
    return link in TYPED or link in (0, 12, 14, 101, 108, 228, 229)
