"""Streams made by seeds from the examples, from messages with encapsulations, anys and numbers that have names, and from
requests to objects whose keys have interfaces, by signature files that are made by seeds too: messages are taken in any order,
those of 1.1 in fragments too, and octets of them changed, left out, put in and repeated. Of each the program writes the text that the reference reads in the
whole stream, and the same text however its reads are cut, and in parts, each gone on from where the one before it was saved;
and a front of it when the stream ends early. It ends with status 0 or 1, its total line is right, and it makes as many requests
for memory as ever. From a checkpoint that is changed so it goes on, or refuses it."""

from __future__ import annotations

import os
import random
import re
import subprocess
import sys
import tempfile
import time
from concurrent.futures import ThreadPoolExecutor
from dataclasses import dataclass
from functools import lru_cache
from pathlib import Path
from typing import Dict, List, Sequence, Tuple

import described
import encapsulated
import named
from failing import CHECKPOINT, EXAMPLES, PROGRAM, SECONDS, Case, Differences, Ended, checkpoint_of, run
from keyed import keyed
from rows import FOLDER, TOUR, TOUR_TYPES, TOUR_WORDS

from reference.encoding import FRAGMENT, HEADER, ORDERS, REPLY, REQUEST  # on the path by encapsulated
from reference.signatures import Table, requests_of, table_of
from reference.stream import MOST_OPEN, Known, dump

MOST = 20_000
KEYED = 24  # signature files with interfaces

# The features in a file of version 3, whose enums, structs and unions have repository ids.
THIRD = Path(FOLDER.name, "third.sig")
THIRD.write_text(
    re.sub(
        r"(?m)^((?:enum|struct|union) (\w+))",
        r'\1 "IDL:\2:1.0"',
        (EXAMPLES / "features.sig").read_text().replace("signatures 2;", "signatures 3;", 1),
    )
)
ANYS = Path(FOLDER.name, "anys.sig")
ANYS.write_text(described.DESCRIBED)
TYPES = [
    (),
    ("--signatures", str(EXAMPLES / "naming.sig"), "--requests", str(EXAMPLES / "naming.req")),
    TOUR_WORDS,
    ("--signatures", str(EXAMPLES / "features.sig")),
    ("--types", str(THIRD)),
    ("--types", str(ANYS)),
    ("--types", str(ANYS), "--open", "2"),
    (*TOUR_TYPES, "--open", "1"),
    ("--signatures", str(EXAMPLES / "naming.sig"), "--open", "4096"),
]
Requests = Dict[Tuple[str, ...], int]
CLOSING = (b"stream fault truncated ", b"total ")
REFUSALS = {
    f"giopdump: {CHECKPOINT}: checkpoint refused: {word}\n".encode()
    for word in ("magic", "version", "catalogue", "length", "state")
}


@dataclass(frozen=True)
class Sort:
    """The words of runs, and the messages of their streams."""

    words: Tuple[str, ...]
    messages: List[bytes]


def sorts(first: int) -> List[Sort]:
    """The sorts of streams: those with all messages, and from this seed on those with interfaces."""
    known, found = messages(), []
    for seed in range(first, first + KEYED):
        made = keyed(seed, 20)
        types, requests = (Path(FOLDER.name, f"keyed{seed}.{end}") for end in ("sig", "req"))
        types.write_text(made.signatures)
        requests.write_text(made.requests)
        words = ("--types", str(types), "--requests", str(requests))
        found.append(Sort(words, [*made.calls, *made.replies]))
    return [Sort(words, known) for words in TYPES] + found


def messages() -> List[bytes]:
    """The messages of any file, each with its header."""
    streams = [(EXAMPLES / name).read_bytes() for name in ("naming.giop", "naming-replies.giop")]
    streams.append(TOUR)
    found = encapsulated.messages() + described.messages(60) + named.messages(60)
    for stream in streams:
        while len(stream) >= 12 and stream.startswith(b"GIOP"):
            size = 12 + int.from_bytes(stream[8:12], ORDERS[stream[6] & 1])
            found.append(stream[:size])
            stream = stream[size:]
    return found


def changed(draw: random.Random, octets: bytes, sorts: Sequence[int] = range(6)) -> bytes:
    """With some octets changed, left out, put in or repeated; by the sorts 3 and 4 there are as many as before."""
    at = draw.randrange(len(octets) + 1)
    end = min(len(octets), at + draw.choice((1, 1, 1, 2, 4, 8, 40)))
    sort = draw.choice(sorts)
    if sort == 0:
        return octets[:at] + octets[end:]
    if sort == 1:
        return octets[:end] + octets[at:]
    if sort == 2:
        return octets[:at] + draw.randbytes(end - at) + octets[at:]
    if sort == 3:
        return octets[:at] + bytes([draw.choice((0, 1, 255))]) * (end - at) + octets[end:]
    if sort == 4:
        return octets[:at] + bytes(octet ^ 1 << draw.randrange(8) for octet in octets[at:end]) + octets[end:]
    return octets[:at]


def in_fragments(draw: random.Random, message: bytes) -> List[bytes]:
    """A Request or Reply of 1.1 and its Fragments, mostly cut where padding is as in the whole; another message as it is."""
    if len(message) < HEADER or message[5] != 1 or message[7] not in (REQUEST, REPLY):
        return [message]
    payload = message[HEADER:]
    cuts = sorted(
        draw.randrange(len(payload) + 1) & draw.choice((-8, -8, -1)) for _ in range(draw.choice((1, 1, 2, 3)))
    )
    ends, made = [0, *cuts, len(payload)], []
    for place, (start, end) in enumerate(zip(ends, ends[1:])):
        flags, kind = message[6] & 1 | 2 * (place < len(cuts)), FRAGMENT if place else message[7]
        size = (end - start).to_bytes(4, ORDERS[flags & 1])
        made.append(message[:6] + bytes((flags, kind)) + size + payload[start:end])
    return made[: len(made) - (draw.random() < 0.2)]  # the last one may be missing


def stream_of(seed: int, known: List[Sort]) -> Case:
    draw = random.Random(seed)
    sort = draw.choice(known[: len(TYPES)] if draw.random() < 0.6 else known)
    made = [draw.choice(sort.messages) for _ in range(draw.choice((1, 2, 5, 20)))]
    made = [part for message in made for part in (in_fragments(draw, message) if draw.random() < 0.5 else [message])]
    for _ in range(draw.choice((0, 1, 1, 2, 5))):
        place = draw.randrange(len(made))
        made[place] = changed(draw, made[place])
    return Case(f"seed {seed}", sort.words, b"".join(made)[:MOST])


def counts(text: bytes) -> Tuple[int, int]:
    """The start lines and the fault lines of a text."""
    words = [line.split(b" ", 2) for line in text.splitlines()]
    return sum(word[1:2] == [b"start"] for word in words), sum(word[1:2] == [b"fault"] for word in words)


def is_right(ended: Ended, octets: int) -> bool:
    """Whether the status and the total line are those of the lines above, and all was read up to a stream fault."""
    lines = ended.lines.splitlines()
    words = lines[-1].split() if lines else []
    if ended.said or ended.status not in (0, 1) or len(words) != 7:
        return False
    read = int(words[6])
    stopped = any(line.startswith(b"stream fault ") for line in lines)
    said = (int(words[2]), int(words[4]))
    if said != counts(ended.lines) or (ended.status == 1) != (said[1] > 0):
        return False
    return read <= octets if stopped else read == octets


@lru_cache(maxsize=None)
def known_of(words: Tuple[str, ...]) -> Known:
    """What the reference is told by these words."""
    told = dict(zip(words[::2], words[1::2]))
    types = told.get("--types", told.get("--signatures"))
    table = table_of(Path(types).read_bytes()) if types else Table()
    requests = requests_of(Path(told["--requests"]).read_bytes()) if "--requests" in told else {}
    return Known(table, requests, int(told.get("--open", MOST_OPEN)))


def before_the_closing(text: bytes) -> bytes:
    lines = text.splitlines(keepends=True)
    while lines and (lines[-1].startswith(CLOSING) or lines[-1].endswith(b" unfinished\n")):
        lines.pop()
    return b"".join(lines)


def in_parts(case: Case, cuts: List[int]) -> Tuple[bytes, int]:
    """The joined lines of the parts of a stream, and the status of the last."""
    ends = [0, *cuts, len(case.stream)]
    lines, status = b"", 0
    with tempfile.TemporaryDirectory() as folder:
        saved = os.path.join(folder, "checkpoint")
        for place, (start, end) in enumerate(zip(ends, ends[1:])):
            words = [str(PROGRAM), *case.words]
            words += ["--resume", saved] if place > 0 else []
            words += ["--save", saved] if place < len(cuts) else []
            part = subprocess.run(words, input=case.stream[start:end], capture_output=True, timeout=SECONDS)
            lines += part.stdout + part.stderr
            status = part.returncode
    return lines, status


def harmed(seed: int, case: Case) -> Case:
    """The rest of a stream, after a checkpoint that is changed as streams are, or keeps its length."""
    draw = random.Random(f"checkpoint of {seed}")
    at = draw.randrange(len(case.stream) + 1)
    checkpoint = checkpoint_of(case.words, case.stream[:at])
    for _ in range(draw.choice((1, 1, 2, 5))):
        checkpoint = changed(draw, checkpoint, draw.choice((range(6), (3, 4))))
    return Case(case.name, (*case.words, "--resume", CHECKPOINT), case.stream[at:], checkpoint=checkpoint or b"\0")


def is_safe(ended: Ended) -> bool:
    """Whether a checkpoint is refused by one of the words, or gone on from up to a total line."""
    if ended.status == 3:
        return ended.lines == b"" and ended.said in REFUSALS
    total = ended.lines.splitlines()[-1:]
    return ended.status in (0, 1) and ended.said == b"" and total != [] and total[0].startswith(b"total messages ")


def try_seed(library: str, seed: int, known: List[Sort], requests: Requests) -> List[Tuple[bool, str, Ended]]:
    """What came of the runs of a seed."""
    case = stream_of(seed, known)
    draw = random.Random(f"cuts of {seed}")
    usual = run(library, case)
    tried = [(is_right(usual, len(case.stream)), "whole", usual)]
    lines = "".join(f"{line}\n" for line in dump(case.stream, known_of(case.words)))
    tried.append((usual.lines == lines.encode(), "the lines of the reference", usual))
    cut = draw.choice((1, 3, 16, 64, 1000))
    ended = run(library, case, "read", cut=cut, seed=seed)
    tried.append((ended.usual() == usual.usual(), f"read by at most {cut} octets", ended))
    end = draw.randrange(len(case.stream) + 1)
    ended = run(library, Case(case.name, case.words, case.stream[:end]))
    is_front = usual.lines.startswith(before_the_closing(ended.lines)) and is_right(ended, end)
    tried.append((is_front, f"the first {end} octets", ended))
    cuts = sorted(draw.choices(range(len(case.stream) + 1), k=draw.choice((1, 1, 2, 5))))
    parts = in_parts(case, cuts)
    saved = (parts == (usual.lines, usual.status), f"saved at {', '.join(map(str, cuts))}", usual)
    usually = requests[case.words]
    told = [
        (as_wanted and ended.calls.get("memory") == usually, f"seed {seed}, {what}", ended)
        for as_wanted, what, ended in [*tried, saved]
    ]
    ended = run(library, harmed(seed, case))
    return [*told, (is_safe(ended) and ended.calls.get("late") == 0, f"seed {seed}, a changed checkpoint", ended)]


def usual_requests(library: str, words: Tuple[str, ...]) -> int:
    return run(library, Case("no octets", words)).calls.get("memory", -1)


def main(library: str, seconds: float, first: int) -> int:
    known, seen = sorts(first), Differences()
    requests = {sort.words: usual_requests(library, sort.words) for sort in known}
    end, seed, faulted, refused = time.monotonic() + seconds, first, 0, 0
    with ThreadPoolExecutor(os.cpu_count() or 1) as pool:
        while time.monotonic() < end:
            for tried in pool.map(lambda at: try_seed(library, at, known, requests), range(seed, seed + 200)):
                faulted += tried[0][2].status == 1
                refused += tried[-1][2].status == 3
                for as_wanted, what, ended in tried:
                    seen.note(as_wanted, what, ended)
            seed += 200
    for sort in known:
        long = Case("long", sort.words, b"".join(sort.messages) * 200)
        ended = run(library, long)
        seen.note(ended.calls.get("memory") == requests[sort.words], "the messages 200 times over", ended)
    print(f"seeds {first} to {seed - 1}, {faulted} of them with a fault: {seen.runs} runs, {seen.differ} differ")
    print(f"of their changed checkpoints {refused} are refused, {seed - first - refused} gone on from")
    print(f"requests for memory in each, by its files: {', '.join(map(str, requests.values()))}")
    return seen.status()


if __name__ == "__main__":
    sys.exit(main(sys.argv[1], float(sys.argv[2]), int(sys.argv[3])))
