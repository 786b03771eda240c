"""Dumps a capture as giopcap does: python3 -m reference.captures [--signatures FILE] [--port N] [--connections N] [--open N]
[--calls N] [--pool KIB] [--first-stream N] CAPTURE (docs/FORMATS.md, Conversations of a capture). The files have to be
valid."""

from __future__ import annotations

import argparse
import sys
from dataclasses import dataclass, field
from datetime import datetime, timezone
from pathlib import Path
from typing import Dict, List, NamedTuple, Optional, Tuple

from .encoding import REPLY
from .flows import Capture, Delivery, Limits, Stream
from .packets import Endpoint, Flow, Packet, is_read, packets_of, segment_of
from .signatures import Asked, Table, table_of
from .stream import MOST_OPEN, STREAM, Dump, HeaderEnd, Known

MOST_CALLS = 128
MOST_LINKS = 16  # that aren't read and are told
# What is said of a file that begins like no capture, by its first octets.
HINTS = (
    ("1f8b", "compressed: zcat FILE | giopcap"),
    ("28b52ffd", "compressed: zstdcat FILE | giopcap"),
    ("fd377a58", "compressed: xzcat FILE | giopcap"),
    ("736e6f6f", "snoop: tshark -r FILE -w - | giopcap"),
    ("a1b2cd34", "modified pcap: tshark -r FILE -w - | giopcap"),
    ("34cdb2a1", "modified pcap: tshark -r FILE -w - | giopcap"),
    ("", "not a capture"),
)
# The lines of an octet that only a capture has stand after those of its stream, in this order.
TIME, ANSWERS, RAISES = range(STREAM + 1, STREAM + 4)


@dataclass
class Words:
    """The words of a run."""

    table: Table = field(default_factory=Table)
    limits: Limits = field(default_factory=Limits)
    most_open: int = MOST_OPEN
    most_calls: int = MOST_CALLS


class Call(NamedTuple):
    """A call that has no reply yet: what it asks for, its stream, message and time."""

    asked: Asked
    stream: int
    message: int
    time: Optional[int]


class Due(NamedTuple):
    """A line, and when it is due: the number of what happened in the capture, the place in the stream, the sort."""

    happened: int
    place: int
    sort: int
    line: str
    packet: int


@dataclass
class Dumped:
    """All that is said of a capture: each line with the octet of the capture with which it is due, None for its end; the
    notices on standard error, without the program's name; whether a fault was counted, or a stream closed with `gap` or
    `room`."""

    lines: List[Tuple[Optional[int], str]]
    notices: List[str]
    is_faulted: bool


def endpoint_text(endpoint: Endpoint) -> str:
    """An endpoint as text (RFC 5952)."""
    address, port = endpoint
    if len(address) == 4:
        return f"{'.'.join(map(str, address))}:{port}"
    if address[:12] == bytes(10) + b"\xff\xff":
        return f"[::ffff:{'.'.join(map(str, address[12:]))}]:{port}"
    groups = [f"{int.from_bytes(address[at : at + 2], 'big'):x}" for at in range(0, 16, 2)]
    begin, length = longest_zeros(groups)
    if length < 2:
        return f"[{':'.join(groups)}]:{port}"
    return f"[{':'.join(groups[:begin])}::{':'.join(groups[begin + length :])}]:{port}"


def longest_zeros(groups: List[str]) -> Tuple[int, int]:
    """Where the first longest run of zeros begins, and how long it is."""
    runs = [(0, 0)]
    for begin in range(len(groups)):
        length = next((at for at, group in enumerate(groups[begin:]) if group != "0"), len(groups) - begin)
        runs.append((begin, length))
    return max(runs, key=lambda run: run[1])


def time_text(time: Optional[int]) -> str:
    """A time as text."""
    if time is None:
        return "-"
    seconds, nanoseconds = divmod(time, 10**9)
    return f"{datetime.fromtimestamp(seconds, timezone.utc):%Y-%m-%dT%H:%M:%S}.{nanoseconds:09}Z"


def span_text(begin: Optional[int], end: Optional[int]) -> str:
    """The time between two as text."""
    if begin is None or end is None:
        return "-"
    seconds, nanoseconds = divmod(abs(end - begin), 10**9)
    return f"{'-' if end < begin else ''}{seconds}.{nanoseconds:09}"


class Reading:
    """The reading of a whole capture."""

    def __init__(self, capture: bytes, words: Words) -> None:
        self._words = words
        self._packets, self._fault = packets_of(capture)
        self._octets = self._fault.at if self._fault else len(capture)
        self._capture = Capture(words.limits)
        self._due: List[Due] = []
        self._answers: Dict[Tuple[int, int], Tuple[HeaderEnd, Call, int]] = {}

    def dumped(self) -> Dumped:
        """All that is said."""
        unread: List[int] = []
        notices: List[str] = []
        for self._capture.packet, packet in enumerate(self._packets):
            self._capture.time = packet.time
            if not is_read(packet.link) and packet.link not in unread and len(unread) < MOST_LINKS:
                unread.append(packet.link)
                notices.append(f"link type {packet.link} isn't read")
            segment = segment_of(packet)
            if segment:
                self._capture.take(segment)
            notices += [notice for notice in self._seen() if notice not in notices]
        end = self._capture.happened()
        self._capture.end()
        self._match_calls()
        dumps = [self._dump(stream) for stream in self._capture.streams]
        faults = sum(dump.faults for dump in dumps)
        if self._fault:
            self._due.append(Due(end, 0, 0, f"capture fault {self._fault.word} at {self._fault.at}", -1))
        lines = [self._placed(due, end) for due in sorted(self._due, key=lambda due: due[:3])]
        messages = sum(dump.messages for dump in dumps)
        total = f"total streams {len(dumps)} messages {messages} faults {faults}"
        rest = f"packets {len(self._packets)} octets {self._octets} other {self._capture.others}"
        lines.append((self._end(), f"{total} {rest}"))
        is_cut = any(stream.closed[0] in ("gap", "room") for stream in self._capture.streams)
        return Dumped(lines, notices, is_cut or faults > 0 or self._fault is not None)

    def _seen(self) -> List[str]:
        """The notices of what was seen so far."""
        room = [f"more than {self._words.limits.connections} connections: --connections"]
        fronts = [f"{name} isn't read" for name in sorted(self._capture.fronts)]
        return room * ("room" in self._capture.causes) + fronts

    def _end(self) -> Optional[int]:
        """The octet of a fault that isn't the end of the capture."""
        return self._fault.at if self._fault and self._fault.word != "truncated" else None

    def _placed(self, due: Due, end: int) -> Tuple[Optional[int], str]:
        return self._end() if due.happened >= end else self._packets[due.packet].end, due.line

    def _time(self, packet: int) -> Optional[int]:
        return self._packets[packet].time

    def _known(self, answers: Dict[int, Asked]) -> Known:
        return Known(self._words.table, {}, self._words.most_open, answers)

    def _match_calls(self) -> None:
        """Which call each Reply answers."""
        ends: List[Tuple[int, int, int, Stream, HeaderEnd]] = []
        for stream in self._capture.streams:
            for header in Dump(bytes(stream.octets), self._known({})).header_ends:
                came = when(stream, header.place)
                ends.append((came.happened, header.place, came.packet, stream, header))
        calls: Dict[Tuple[int, Flow], Dict[int, Call]] = {}
        for _, _, packet, stream, header in sorted(ends, key=lambda each: each[:2]):
            if header.kind == REPLY:
                outstanding = calls.get((stream.connection, stream.flow.opposite()), {})
                if header.request_id in outstanding:
                    call = outstanding.pop(header.request_id)
                    self._answers[stream.number, header.number] = (header, call, packet)
                continue
            own = calls.setdefault((stream.connection, stream.flow), {})
            own.pop(header.request_id, None)
            if header.asked.name and header.is_expecting:
                own[header.request_id] = Call(header.asked, stream.number, header.number, self._time(packet))
                if len(own) > self._words.most_calls:
                    del own[next(iter(own))]

    def _dump(self, stream: Stream) -> Dump:
        """Adds the lines of a stream."""
        answers = {number: call for (its, number), call in self._answers.items() if its == stream.number}
        dump = Dump(bytes(stream.octets), self._known({number: call.asked for number, (_, call, _) in answers.items()}))
        lines = list(dump.lines)
        for number, place in enumerate(dump.begun, 1):
            packet = when(stream, place).packet
            lines.append((place, TIME, f"m{number} time {time_text(self._time(packet))} packet {packet + 1}"))
        for number, (header, call, packet) in answers.items():
            seconds = span_text(call.time, self._time(packet))
            text = f"s{call.stream} m{call.message} {call.asked.name.decode()} after {seconds}"
            lines.append((header.place, ANSWERS, f"m{number} answers {text}"))
        for raised in dump.raised:
            lines.append((raised.place, RAISES, f"m{raised.number} raises {raised.name.decode()}"))
        self._say(stream, stream.deliveries[0], 0, 0, self._stream_line(stream))
        for place, sort, line in lines:
            self._say(stream, when(stream, place), place, sort, line)
        word, *closed = stream.closed
        for at, line in enumerate([f"closed {word}", *dump.closing]):
            self._due.append(Due(closed[0], 0, at, f"s{stream.number} {line}", closed[1]))
        return dump

    def _stream_line(self, stream: Stream) -> str:
        """The line with which a stream begins."""
        ends = " > ".join(endpoint_text(each) for each in stream.flow)
        start = stream.start
        partner = f" with s{start.partner}" if start.partner else ""
        passed = f" behind {start.passed}" if start.passed else ""
        found = " found" if start.is_found else ""
        return f"stream {ends} at {time_text(self._time(stream.packet))}{partner}{passed}{found}"

    def _say(self, stream: Stream, came: Delivery, place: int, sort: int, line: str) -> None:
        self._due.append(Due(came.happened, place, sort, f"s{stream.number} {line}", came.read))


def when(stream: Stream, place: int) -> Delivery:
    """How an octet of a stream came."""
    return next(came for came in stream.deliveries if came.end >= place)


def hint_of(octets: bytes) -> str:
    """What is said of a file that begins like no capture."""
    return next(hint for front, hint in HINTS if octets.hex().startswith(front))


def dump_capture(capture: bytes, words: Words) -> Dumped:
    """All that is said of a capture."""
    return Reading(capture, words).dumped()


def words_of(arguments: Optional[List[str]] = None) -> Tuple[Words, Path]:
    """The words of a command line, and the capture that it names."""
    parser = argparse.ArgumentParser(prog="reference.captures", description=__doc__)
    parser.add_argument("--signatures", type=Path)
    parser.add_argument("--port", type=int, action="append", default=[])
    parser.add_argument("--connections", type=int, default=Limits.connections)
    parser.add_argument("--open", type=int, default=MOST_OPEN)
    parser.add_argument("--calls", type=int, default=MOST_CALLS)
    parser.add_argument("--pool", type=int, default=Limits.blocks)
    parser.add_argument("--first-stream", type=int, default=Limits.first)
    parser.add_argument("capture", type=Path)
    given = parser.parse_args(arguments)
    table = table_of(given.signatures.read_bytes()) if given.signatures else Table()
    limits = Limits(frozenset(given.port), given.connections, given.pool, given.first_stream)
    return Words(table, limits, given.open, given.calls), given.capture


def main() -> int:
    words, capture = words_of()
    dumped = dump_capture(capture.read_bytes(), words)
    print("\n".join(line for _, line in dumped.lines))
    return 1 if dumped.is_faulted else 0


if __name__ == "__main__":
    sys.exit(main())
