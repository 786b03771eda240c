"""Captures made by seeds: conversations of examples/ and messages of every sort over wires that lose, repeat, reorder and cut
segments, where connections end and begin again and a stranger sends numbers of his own. Of each giopcap writes what the reference
reads in the whole capture, says the link types that aren't read, and ends with the status that is due.

    wires.py GIOPCAP SECONDS FIRST_SEED
"""

from __future__ import annotations

import os
import random
import struct
import subprocess
import sys
import time
from concurrent.futures import ThreadPoolExecutor
from dataclasses import dataclass, field
from pathlib import Path
from typing import List, Optional, Tuple

from failing import EXAMPLES, SECONDS
from generated import changed, messages
from keyed import Keyed, keyed
from rows import FOLDER

from reference.captures import dump_capture, hint_of, words_of  # on the path by failing

FIN, SYN, RESET, ACK = 1, 2, 4, 16
SERVER_PORT = 2809
WORDS: List[Words] = [
    (),
    ("--signatures", str(EXAMPLES / "naming.sig")),
    ("--signatures", str(EXAMPLES / "features.sig"), "--port", str(SERVER_PORT)),
    ("--signatures", str(EXAMPLES / "naming.sig"), "--connections", "2"),
    ("--signatures", str(EXAMPLES / "naming.sig"), "--pool", "1024", "--calls", "2"),
    ("--open", "1", "--connections", "1"),
]
KEYED = 16  # signature files with interfaces
Words = Tuple[str, ...]
Messages = List[bytes]


@dataclass
class End:
    """One end of a connection: its address and port, the number of the octet that it sends next, and what it still sends."""

    address: bytes
    port: int
    number: int
    left: bytes = b""
    sent: List[Tuple[int, bytes]] = field(default_factory=list)


class Wire:
    """The packets of a capture."""

    def __init__(self, draw: random.Random) -> None:
        self._draw = draw
        self._is_ng = draw.random() < 0.3
        self._link = draw.choice((1, 1, 1, 0, 101, 113, 276, 147))
        self._is_six = draw.random() < 0.2
        self._time = 1_700_000_000 * 10**6
        self.packets: List[bytes] = []

    def send(self, source: End, target: End, flags: int, number: int, payload: bytes = b"") -> None:
        """A packet, with the acknowledgement of what its target has sent."""
        acknowledged = target.number
        if self._draw.random() < 0.1:
            acknowledged -= self._draw.randrange(1, 200)
        head = struct.pack(
            ">HHIIBBHHH", source.port, target.port, number % 2**32, acknowledged % 2**32, 0x50, flags, 99, 0, 0
        )
        packet = self._linked(self._ip(source, target, head + payload))
        captured = len(packet)
        if payload and self._draw.random() < 0.03:
            captured -= self._draw.randrange(1, len(payload) + 1)
        self._time += self._draw.choice((1, 100, 100_000, 40_000_000, -5))
        self.packets.append(self._record(packet[:captured], len(packet)))

    def _ip(self, source: End, target: End, octets: bytes) -> bytes:
        if self._is_six:
            ends = (
                bytes.fromhex("20010db8") + bytes(8) + source.address,
                bytes.fromhex("20010db8") + bytes(8) + target.address,
            )
            return struct.pack(">IHBB", 6 << 28, len(octets), 6, 64) + b"".join(ends) + octets
        head = struct.pack(">BBHHHBBH", 0x45, 0, 20 + len(octets), 0, 0x4000, 64, 6, 0)
        return head + source.address + target.address + octets

    def _linked(self, octets: bytes) -> bytes:
        kind = struct.pack(">H", 0x86DD if self._is_six else 0x0800)
        fronts = {
            1: bytes(12) + self._draw.choice((b"", b"\x81\x00\x00\x07")) + kind,
            0: struct.pack("<I", 30 if self._is_six else 2),
            113: bytes(14) + kind,
            276: kind + bytes(18),
        }
        return fronts.get(self._link, b"") + octets

    def _record(self, octets: bytes, size: int) -> bytes:
        if self._is_ng:
            length = 32 + len(octets) + -len(octets) % 4
            head = struct.pack("<IIIIIII", 6, length, 0, self._time >> 32, self._time % 2**32, len(octets), size)
            return head + octets + bytes(-len(octets) % 4) + struct.pack("<I", length)
        seconds, micro = divmod(self._time, 10**6)
        return struct.pack("<IIII", seconds, micro, len(octets), size) + octets

    def capture(self) -> bytes:
        """The file."""
        if self._is_ng:
            head = struct.pack("<IIIHHqI", 0x0A0D0D0A, 28, 0x1A2B3C4D, 1, 0, -1, 28)
            head += struct.pack("<IIHHII", 1, 20, self._link, 0, 0, 20)
        else:
            head = struct.pack("<IHHIIII", 0xA1B2C3D4, 2, 4, 0, 0, 262_144, self._link)
        return head + b"".join(self.packets)


def streams_of(draw: random.Random, known: Messages, made: Optional[Keyed]) -> List[bytes]:
    """What both ends of a connection send."""
    if made and draw.random() < 0.9:
        count = draw.randrange(1, 8)
        told = [b"".join(draw.choices(each, k=count)) for each in (made.calls, made.replies)]
    elif draw.random() < 0.7:
        told = [(EXAMPLES / name).read_bytes() for name in ("naming.giop", "naming-replies.giop")]
    else:
        told = [b"".join(draw.choice(known) for _ in range(draw.randrange(1, 8))) for _ in range(2)]
    front = draw.choice((b"", b"", b"noise", b"GIOP\1\7"))
    return [front + (changed(draw, stream) if stream and draw.random() < 0.3 else stream)[:4000] for stream in told]


def converse(draw: random.Random, wire: Wire, ends: List[End], streams: List[bytes]) -> None:
    """A connection from its SYN up to its FINs, by turns of both ends."""
    for end, stream in zip(ends, streams):
        end.number, end.left, end.sent = (
            draw.choice((draw.randrange(2**32), 2**32 - draw.randrange(1, 500))),
            stream,
            [],
        )
    if draw.random() < 0.8:
        for source, target, flags in ((ends[0], ends[1], SYN), (ends[1], ends[0], SYN | ACK)):
            wire.send(source, target, flags, source.number)
            source.number += 1
    while any(end.left for end in ends):
        side = draw.randrange(2)
        source, target = ends[side], ends[1 - side]
        size = draw.choice((1, 5, 13, 60, 300, 1448))
        payload, source.left = source.left[:size], source.left[size:]
        if payload and draw.random() >= 0.04:  # else it is lost
            wire.send(source, target, ACK, source.number, payload)
        source.sent.append((source.number, payload))
        source.number += len(payload)
        disturb(draw, wire, source, target)
    for source, target in (ends, ends[::-1]):
        if draw.random() < 0.7:
            wire.send(source, target, FIN | ACK, source.number)
            source.number += 1


def disturb(draw: random.Random, wire: Wire, source: End, target: End) -> None:
    """What a bad wire or a stranger adds."""
    sort = draw.random()
    number, payload = draw.choice(source.sent)
    if sort < 0.08:  # once more, perhaps as a part, and longer than before
        begin = draw.randrange(len(payload) + 1)
        wire.send(source, target, ACK, number + begin, payload[begin:] + draw.choice((b"", source.left[:20])))
    elif sort < 0.12:
        wire.send(
            source, target, draw.choice((RESET, RESET | ACK)), source.number + draw.choice((0, 0, 1, -900_000, 2**30))
        )
    elif sort < 0.15:
        wire.send(source, target, SYN, draw.choice((source.number - 1, number - 1, draw.randrange(2**32))))
    elif sort < 0.17:
        wire.send(
            source, target, ACK, source.number + draw.choice((5, 70_000, 2**20, 2**21)), b"GIOP\1\2\1\0forged"
        )
    elif sort < 0.19:
        wire.send(source, target, FIN | ACK, draw.choice((source.number, source.number + 20, number)))


def capture_of(seed: int, known: Messages, made: Optional[Keyed]) -> bytes:
    """A capture of some connections, whose packets are mixed and out of order."""
    draw = random.Random(seed)
    wire = Wire(draw)
    wires: List[List[bytes]] = []
    for _ in range(draw.choice((1, 1, 2, 4))):
        wire.packets = []
        ends = [End(bytes((10, 0, 0, draw.randrange(1, 4))), draw.choice((33_000, 33_001)), 0)]
        ends.append(End(bytes((10, 0, 1, 1)), draw.choice((SERVER_PORT, SERVER_PORT, 80)), 0))
        for _ in range(draw.choice((1, 1, 2))):
            converse(draw, wire, ends, streams_of(draw, known, made))
        wires.append(wire.packets)
    mixed: List[bytes] = []
    while any(wires):
        mixed += [one.pop(0) for one in [draw.choice([one for one in wires if one])]]
    for at in range(len(mixed) - 1):
        if draw.random() < 0.06:
            mixed.insert(min(len(mixed), at + draw.randrange(1, 6)), mixed.pop(at))
    wire.packets = mixed
    capture = wire.capture()
    return changed(draw, capture) if draw.random() < 0.1 else capture


def keyed_sorts(first: int) -> List[Tuple[Words, Keyed]]:
    """Words with signature files that have interfaces, from this seed on, and what is said by these."""
    found: List[Tuple[Words, Keyed]] = []
    for seed in range(first, first + KEYED):
        file, made = Path(FOLDER.name, f"wires{seed}.sig"), keyed(seed, 20)
        file.write_text(made.signatures)
        found.append((("--signatures", str(file)), made))
    return found


def differs(program: str, seed: int, known: Messages, sorts: List[Tuple[Words, Keyed]]) -> List[str]:
    """Where the program and the reference differ, and what is said of both."""
    draw = random.Random(f"words of {seed}")
    words, made = draw.choice(sorts) if draw.random() < 0.4 else (draw.choice(WORDS), None)
    octets = capture_of(seed, known, made)
    dumped = dump_capture(octets, words_of([*words, "capture"])[0])
    ran = subprocess.run([program, *words], input=octets, capture_output=True, timeout=SECONDS)
    said = "".join(f"giopcap: {notice}\n" for notice in dumped.notices)
    if dumped.lines and dumped.lines[0][1].startswith("capture fault magic "):
        said += f"giopcap: standard input: {hint_of(octets)}\n"
    lines = ran.stdout.decode("latin-1").splitlines()
    wanted = [line for _, line in dumped.lines]
    if (lines, ran.stderr.decode(), ran.returncode) == (wanted, said, int(dumped.is_faulted)):
        return []
    apart = next((pair for pair in zip(lines, wanted) if pair[0] != pair[1]), ("", ""))
    return [
        f"seed {seed}, {' '.join(words)}: {apart[0]} where the reference has {apart[1]}",
        f"said: {ran.stderr.decode()}",
    ]


def main(program: str, seconds: float, first: int) -> int:
    known, sorts = messages(), keyed_sorts(first)
    end, seed, faults = time.monotonic() + seconds, first, 0
    with ThreadPoolExecutor(os.cpu_count() or 1) as pool:
        while time.monotonic() < end:
            for found in pool.map(lambda at: differs(program, at, known, sorts), range(seed, seed + 100)):
                faults += bool(found)
                print("\n".join(found), end="\n" if found else "")
            seed += 100
    print(f"wires: {seed - first} captures beside the reference, {faults} differ")
    return 1 if faults else 0


if __name__ == "__main__":
    sys.exit(main(sys.argv[1], float(sys.argv[2]), int(sys.argv[3])))
