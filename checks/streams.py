"""Compares the streams of giopcap with the octets of the same flows as two other programs put them together: tshark, by its
follow,tcp,raw, and tcpflow.

The captures are those of real connections (examples/, and checks/data: over a good wire, over one that loses and reorders packets,
each packet twice), and the messages of examples/ in segments that are made by seeds: cut anywhere, repeated, with parts of what
came before, out of order, cut by a snap length, and around the greatest sequence number. No octet is lost for good: of what
giopcap does then docs/FORMATS.md says more than the others do. Each direction of each connection is dumped by giopdump from the octets that tshark has, and from those
that tcpflow has, with the operations that giopcap says its replies answer; the lines have to be those of giopcap's stream.
"""

from __future__ import annotations

import re
import struct
import subprocess
import sys
import tempfile
from pathlib import Path
from random import Random
from typing import Counter, Dict, List, Optional, Tuple

from captures import rows_of
from failing import EXAMPLES, GIOPCAP, PROGRAM


HEADER = struct.pack("<IHHIIII", 0xA1B2C3D4, 2, 4, 0, 0, 262_144, 1)
SYN, ACK = 2, 16
SEEDS = 40
CUT_SEEDS = 20  # with packets that a snap length cuts
CLIENT, SERVER = (bytes((10, 0, 0, 1)), 33_000), (bytes((10, 0, 0, 2)), 2_809)

Flow = Tuple[str, str]  # who sends to whom
# Which end sends, its flags, the number of its first octet, its payload, and how much of that is captured.
Segment = Tuple[int, int, int, bytes, int]

# ---- captures


def segments_of(random: Random, is_cut: bool) -> List[Segment]:
    """The segments of a connection whose octets all come, if not in order; the first payload of each end comes first. Some are
    captured up to a snap length alone, and once more as a whole, where `is_cut`."""
    streams = [(EXAMPLES / name).read_bytes() * 4 for name in ("naming.giop", "naming-replies.giop")]
    first = [random.choice((random.randrange(2**32), 2**32 - random.randrange(1, 3000))) for _ in streams]
    sent = [0, 0]
    found: List[Segment] = []
    while any(sent[end] < len(streams[end]) for end in (0, 1)):
        end = next((end for end in (0, 1) if not sent[end]), random.randrange(2))
        size = random.choice((random.randrange(1, 40), random.randrange(1, 400)))
        size = (
            size if sent[end] else size + 12
        )  # a stream begins in a payload with all of the six octets by which it is known
        back = random.randrange(size) if random.random() < 0.2 else 0
        begin = max(0, sent[end] - back)
        payload = streams[end][begin : sent[end] + size]
        sent[end] = min(len(streams[end]), sent[end] + size)
        found.append((end, ACK, (first[end] + 1 + begin) % 2**32, payload, len(payload)))
    for at in range(len(found) - 1, 1, -1):
        if random.random() < 0.1:
            found.insert(min(len(found), at + random.randrange(1, 8)), found[at])
        if random.random() < 0.2:
            found.insert(min(len(found), at + random.randrange(1, 5)), found.pop(at))
        if is_cut and random.random() < 0.05 and len(found[at][3]) > 1:
            found.insert(at, (*found[at][:4], random.randrange(1, len(found[at][3]))))
    return [(0, SYN, first[0], b"", 0), (1, SYN | ACK, first[1], b"", 0), *found]


def capture_of(segments: List[Segment]) -> bytes:
    """A capture in which each end acknowledges what has come without a hole."""
    due = [(segments[end][2] + 1) % 2**32 for end in (0, 1)]
    waiting: List[Dict[int, bytes]] = [{}, {}]
    records = [HEADER]
    for number, (end, flags, sequence, payload, captured) in enumerate(segments):
        (source, port), (target, other) = (CLIENT, SERVER) if end == 0 else (SERVER, CLIENT)
        acknowledged = due[1 - end] if flags & ACK else 0
        head = struct.pack(">BBHHHBBH", 0x45, 0, 40 + len(payload), number % 65_536, 0x4000, 64, 6, 0) + source + target
        segment = struct.pack(">HHIIBBHHH", port, other, sequence, acknowledged, 0x50, flags, 65_535, 0, 0)
        octets = bytes(12) + b"\x08\x00" + head + segment + payload[:captured]
        size = len(octets) + len(payload) - captured
        records.append(struct.pack("<IIII", 1_700_000_000, number, len(octets), size) + octets)
        if captured >= len(waiting[end].get(sequence, b"")):
            waiting[end][sequence] = payload[:captured]
        for _ in segments:
            for begin, held in waiting[end].items():
                age = (due[end] - begin) % 2**32
                if age < len(held):
                    due[end] = (begin + len(held)) % 2**32
                    break
            else:
                break
    return b"".join(records)


# ---- the three readers


def dumped(capture: Path, types: str) -> Dict[Flow, Tuple[List[str], str]]:
    """What giopcap says of each flow that has one stream: its lines as giopdump writes them, and the operations by the ids
    that its replies answer."""
    words = ["--signatures", types] if types else []
    said = subprocess.run([GIOPCAP, *words, capture], stdout=subprocess.PIPE, encoding="latin-1", check=False).stdout
    flows: Dict[str, Flow] = {}
    lines: Dict[str, List[str]] = {}
    ids: Dict[Tuple[str, str], str] = {}
    operations: Dict[str, List[str]] = {}
    for line in said.splitlines():
        if not (found := re.fullmatch(r"(s\d+) (.*)", line)):
            continue
        stream, line = found.groups()
        if begun := re.match(r"stream (\S+) > (\S+) at ", line):
            flows[stream], lines[stream], operations[stream] = (begun[1], begun[2]), [], []
        elif answered := re.fullmatch(r"(m\d+) answers s\d+ m\d+ (\S+) after \S+", line):
            operations[stream].append(f"{ids[stream, answered[1]]} {answered[2]}\n")
        elif not re.fullmatch(r"m\d+ (time \S+ packet \d+|raises \S+)|closed \w+", line):
            lines[stream].append(line)
            if number := re.fullmatch(r"(m\d+) header\.request_id ulong (\d+)", line):
                ids[stream, number[1]] = number[2]
    once = [stream for stream in flows if list(flows.values()).count(flows[stream]) == 1]
    return {flows[stream]: (lines[stream], "".join(operations[stream])) for stream in once}


def followed(capture: Path) -> Dict[Flow, bytes]:
    """The octets of each flow by tshark."""
    flows: Dict[Flow, bytes] = {}
    number = 0
    while True:
        words = ["tshark", "-q", "-r", str(capture), "-z", f"follow,tcp,raw,{number}"]
        said = subprocess.run(
            words, stdout=subprocess.PIPE, stderr=subprocess.DEVNULL, encoding="ascii", check=True
        ).stdout
        ends = re.findall(r"(?m)^Node \d: (\S+)$", said)
        if len(ends) != 2 or ends[0].startswith(":0"):
            return flows
        parts: List[List[str]] = [[], []]
        for tab, digits in re.findall(r"(?m)^(\t?)([0-9a-f]+)$", said):
            parts[tab == "\t"].append(digits)
        for way, flow in enumerate(((ends[0], ends[1]), (ends[1], ends[0]))):
            flows[flow] = bytes.fromhex("".join(parts[way]))
        number += 1


def flowed(capture: Path) -> Optional[Dict[Flow, bytes]]:
    """The octets of each flow by tcpflow; None where it doesn't know the link type."""
    flows = {}
    with tempfile.TemporaryDirectory() as folder:
        words = ["tcpflow", "-r", str(capture), "-o", folder]
        ran = subprocess.run(words, stdout=subprocess.PIPE, stderr=subprocess.STDOUT, encoding="latin-1", check=False)
        if "unknown datalink type" in ran.stdout:
            return None
        ran.check_returncode()
        for file in Path(folder).iterdir():
            if found := re.fullmatch(r"([\d.]{15})\.(\d{5})-([\d.]{15})\.(\d{5})", file.name):
                host = [".".join(str(int(part)) for part in text.split(".")) for text in (found[1], found[3])]
                flows[f"{host[0]}:{int(found[2])}", f"{host[1]}:{int(found[4])}"] = file.read_bytes()
    return flows


def lines_of(octets: bytes, types: str, operations: str) -> List[str]:
    """The lines of octets by giopdump."""
    with tempfile.NamedTemporaryFile() as requests:
        requests.write(operations.encode())
        requests.flush()
        words = [*(["--signatures", types] if types else []), "--requests", requests.name]
        said = subprocess.run([PROGRAM, *words], input=octets, stdout=subprocess.PIPE, check=False).stdout
        return said.decode("latin-1").splitlines()


# ---- the comparison


def shown(lines: List[str]) -> List[str]:
    """The lines that are compared: all but bodies, where a reply has an id that another one has too. A request list gives
    both the same operation, where giopcap may know the call of the one alone."""
    replies = {line.split()[0] for line in lines if re.fullmatch(r"m\d+ start .* Reply size \d+", line)}
    ids = [line.split()[3] for line in lines if " header.request_id ulong " in line and line.split()[0] in replies]
    if len(set(ids)) == len(ids):
        return lines
    return [line for line in lines if not re.match(r"m\d+ (body|rest)\b", line)]


def compare(name: str, capture: Path, types: str, is_cut: bool, compared: Counter[str]) -> List[str]:
    """Where a reader has other octets. The streams that were compared with each are counted. Where packets are cut, tshark counts
    the octets that they had, and isn't asked."""
    faults = []
    readers = {"tshark": None if is_cut else followed(capture), "tcpflow": flowed(capture)}
    for flow, (lines, operations) in dumped(capture, types).items():
        for reader, flows in readers.items():
            if flows is None:
                continue
            compared[reader] += 1
            if shown(lines_of(flows.get(flow, b""), types, operations)) != shown(lines):
                faults.append(f"{name}: {flow[0]} > {flow[1]}: not as {reader} has it")
    return faults


def main() -> int:
    compared: Counter[str] = Counter()
    faults: List[str] = []
    with tempfile.TemporaryDirectory() as made:
        folder = Path(made)
        captures = [("session.pcap", EXAMPLES / "session.pcap", str(EXAMPLES / "naming.sig"), False)]
        for index, row in enumerate(rows_of("captures-real.json.xz")):
            capture, signatures = folder / f"real{index}.pcap", folder / f"real{index}.sig"
            capture.write_bytes(row.capture)
            signatures.write_text(row.signatures)
            captures.append((row.name, capture, str(signatures) if row.signatures else "", False))
        for seed in range(SEEDS + CUT_SEEDS):
            capture, is_cut = folder / f"seed{seed}.pcap", seed >= SEEDS
            capture.write_bytes(capture_of(segments_of(Random(seed), is_cut)))
            captures.append((f"seed {seed}", capture, str(EXAMPLES / "naming.sig"), is_cut))
        for name, capture, types, is_cut in captures:
            before = sum(compared.values())
            faults += compare(name, capture, types, is_cut, compared)
            if sum(compared.values()) == before:
                faults.append(f"{name}: no stream was compared")
    for fault in faults:
        print(fault)
    counts = ", ".join(f"{compared[reader]} with {reader}" for reader in ("tshark", "tcpflow"))
    print(f"streams: {counts} compared, {len(faults)} differ")
    return 1 if faults else 0


if __name__ == "__main__":
    sys.exit(main())
