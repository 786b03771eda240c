"""Saves the examples after each octet and goes on from there, and goes on from damaged checkpoints."""

from __future__ import annotations

import os
import subprocess
import sys
import tempfile
from concurrent.futures import ThreadPoolExecutor
from pathlib import Path
from typing import Iterator, List, Tuple

import encapsulated
from failing import EXAMPLES, PROGRAM, SECONDS, THIRD_LAYOUT
from keyed import keyed
from rows import FOLDER, TOUR, TOUR_WORDS

WORDS = ("magic", "version", "catalogue", "length", "state")
NAMING = ("--signatures", str(EXAMPLES / "naming.sig"))
LISTED = (*NAMING, "--requests", str(EXAMPLES / "naming.req"))
FEATURES = ("--signatures", str(EXAMPLES / "features.sig"))
Stream = Tuple[Tuple[str, ...], bytes]
SEED = 1  # of a signature file with interfaces


def streams() -> List[Stream]:
    """Requests, replies with their list, the front of a long stream with every sort of value, encapsulations, and calls with
    interfaces."""
    made, types = keyed(SEED, 20), Path(FOLDER.name, "keyed.sig")
    types.write_text(made.signatures)
    return [
        (NAMING, (EXAMPLES / "naming.giop").read_bytes()),
        (LISTED, (EXAMPLES / "naming-replies.giop").read_bytes()),
        (TOUR_WORDS, TOUR[:3000]),
        (FEATURES, b"".join(encapsulated.messages())[:1000]),
        (("--types", str(types)), b"".join(made.calls)[:1500]),
    ]


def dumped(words: Tuple[str, ...], octets: bytes) -> Tuple[bytes, bytes, int]:
    """The lines, what is told, and the status."""
    done = subprocess.run([str(PROGRAM), *words], input=octets, capture_output=True, timeout=SECONDS)
    return done.stdout, done.stderr, done.returncode


def saved(words: Tuple[str, ...], octets: bytes) -> Tuple[bytes, bytes]:
    """The lines of a part, and its checkpoint."""
    with tempfile.TemporaryDirectory() as folder:
        name = os.path.join(folder, "checkpoint")
        lines = dumped((*words, "--save", name), octets)[0]
        with open(name, "rb") as file:
            return lines, file.read()


def resumed(words: Tuple[str, ...], checkpoint: bytes, octets: bytes) -> Tuple[bytes, bytes, int]:
    with tempfile.TemporaryDirectory() as folder:
        name = os.path.join(folder, "checkpoint")
        with open(name, "wb") as file:
            file.write(checkpoint)
        lines, told, status = dumped((*words, "--resume", name), octets)
        return lines, told.replace(name.encode(), b"FILE"), status


def goes_on(stream: Stream, at: int, whole: Tuple[bytes, bytes, int]) -> bool:
    """Whether the stream in two parts is dumped as it is whole."""
    words, octets = stream
    lines, checkpoint = saved(words, octets[:at])
    rest, told, status = resumed(words, checkpoint, octets[at:])
    return (lines + rest, told, status) == whole


def refused(word: str) -> Tuple[bytes, bytes, int]:
    return b"", f"giopdump: FILE: checkpoint refused: {word}\n".encode(), 3


# Up to which octet a changed one is refused by these words.
FIRST_REFUSALS: List[Tuple[int, Tuple[str, ...]]] = [(8, ("magic",)), (12, ("version",)), (28, ("catalogue",))]


def damaged(checkpoint: bytes) -> Iterator[Tuple[str, bytes, Tuple[str, ...]]]:
    """Damaged checkpoints, and the words by which they may be refused; some may be gone on from."""
    for at in range(len(checkpoint)):
        wrong = checkpoint[:at] + bytes([checkpoint[at] ^ 255]) + checkpoint[at + 1 :]
        words = next((words for end, words in FIRST_REFUSALS if at < end), ("state", "length", ""))
        yield f"octet {at}", wrong, words
        yield f"the first {at} octets", checkpoint[:at], ("length",) if at < 96 else ("length", "state")
    for layout in sorted({*range(1, THIRD_LAYOUT + 2)} - {checkpoint[11]}):
        word = "state" if layout == 2 and checkpoint[11] != THIRD_LAYOUT else "version"
        yield f"layout {layout}", checkpoint[:11] + bytes([layout]) + checkpoint[12:], (word,)
    for most in (0, 4097):
        yield f"room for {most}", checkpoint[:80] + most.to_bytes(4, "big") + checkpoint[84:], ("state",)
    if len(checkpoint) > 142:
        # Of a message that is joined from Fragments of GIOP 1.1 the offset lacks something; none is joined.
        yield "an offset that lacks 4", checkpoint[:142] + b"\4" + checkpoint[143:], ("state",)
    yield "an octet more", checkpoint + b"\0", ("length",)
    yield "a longer file than any", checkpoint + bytes(3_410_000), ("length",)


def is_safe(stream: Stream, at: int, checkpoint: bytes, words: Tuple[str, ...]) -> bool:
    """Whether a damaged checkpoint is refused by one of the words, or gone on from where that may be."""
    ended = resumed(stream[0], checkpoint, stream[1][at:])
    if any(ended == refused(word) for word in words if word):
        return True
    return "" in words and ended[2] in (0, 1) and ended[1] == b""


def main() -> int:
    """Prints figures; 1 where something differs."""
    wrong = cuts = harmed = 0
    with ThreadPoolExecutor(os.cpu_count() or 1) as pool:
        for stream in streams():
            whole = dumped(*stream)
            places = range(len(stream[1]) + 1)
            for at, same in zip(places, pool.map(lambda at: goes_on(stream, at, whole), places)):
                cuts += 1
                wrong += not same
                if not same:
                    print(f"{' '.join(stream[0])}: cut at {at}")
            at = len(stream[1]) * 2 // 3
            tries = list(damaged(saved(stream[0], stream[1][:at])[1]))
            for (what, _, _), safe in zip(tries, pool.map(lambda each: is_safe(stream, at, *each[1:]), tries)):
                harmed += 1
                wrong += not safe
                if not safe:
                    print(f"{' '.join(stream[0])}: a checkpoint at {at}, {what}")
    other = resumed(NAMING, saved(TOUR_WORDS, b"")[1], b"") == refused("catalogue")
    unlisted = resumed(NAMING, saved(LISTED, b"")[1], b"") == refused("catalogue")
    if not (other and unlisted):
        print("a checkpoint of another signature file or another request list is not refused")
    print(f"{cuts} cuts, {harmed} damaged checkpoints, {wrong} differ")
    return 0 if other and unlisted and not wrong else 1


if __name__ == "__main__":
    sys.exit(main())
