"""Runs the built programs with the library of checks/failing.c in front of the C library."""

from __future__ import annotations

import os
import subprocess
import sys
import tempfile
from dataclasses import dataclass
from pathlib import Path
from typing import Dict, List, Tuple

import encapsulated
from rows import TOUR, TOUR_WORDS

TOP = Path(__file__).resolve().parent.parent
PROGRAM = TOP / "crates/giopdump/out/giopdump"
GIOPCAP = TOP / "crates/giopcap/out/giopcap"
EXAMPLES = TOP / "examples"

CALLS = ("memory", "open", "read", "write", "sync", "rename", "late")

CHECKPOINT = "checkpoint"
THIRD_LAYOUT = 9  # of checkpoints with a signature file of version 3; of the others 2 may be gone on from too
SECONDS = 10


@dataclass(frozen=True)
class Case:
    """A command line, the octets on its standard input, the status with which it ends when nothing fails, what the file
    `checkpoint` holds where it runs, no octets where there is none, and the program that runs."""

    name: str
    words: Tuple[str, ...] = ()
    stream: bytes = b""
    status: int = 0
    checkpoint: bytes = b""
    program: Path = PROGRAM


@dataclass(frozen=True)
class Ended:
    """What a run wrote, its status (below 0: the signal), how many calls of each sort it made (late: how many of its requests
    for memory came after its first read of standard input), how many of them were touched, and the files where it ran. A run
    that came to no end has no calls."""

    lines: bytes
    said: bytes
    status: int
    calls: Dict[str, int]
    touched: int
    files: Dict[str, bytes]

    def usual(self) -> Tuple[bytes, bytes, int, Dict[str, bytes]]:
        return self.lines, self.said, self.status, self.files

    def is_as_before(self, case: Case) -> bool:
        """Whether the files are those from before the run."""
        return self.files == files_of(case)


def files_of(case: Case) -> Dict[str, bytes]:
    return {CHECKPOINT: case.checkpoint} if case.checkpoint else {}


def cases() -> List[Case]:
    """No octets, typed requests, typed replies with their list, encapsulations, a long stream with every sort of value, one
    that ends early, parts of one that are saved and gone on from, and what is refused: a list that is none, a checkpoint that
    is none, an option that is none, a word that isn't UTF-8, a missing file."""
    naming, features = str(EXAMPLES / "naming.sig"), str(EXAMPLES / "features.sig")
    listed = ("--signatures", naming, "--requests", str(EXAMPLES / "naming.req"))
    tour, stream = TOUR_WORDS, TOUR
    first, second, last = stream[:1000], stream[1000:1500], stream[1500:]
    saved, kept = (checkpoint_of(tour, octets) for octets in (first, first + second))
    resume, save = ("--resume", CHECKPOINT), ("--save", CHECKPOINT)
    faulted = 1 if b" fault " in lines_of(tour, stream) else 0
    return [
        Case("no octets"),
        Case("built-in types", stream=(EXAMPLES / "naming.giop").read_bytes()),
        Case("a stream in a file", ("--signatures", naming, str(EXAMPLES / "naming.giop"))),
        Case("a request list", listed, (EXAMPLES / "naming-replies.giop").read_bytes()),
        Case("encapsulations", ("--signatures", features), b"".join(encapsulated.messages())),
        Case("a long stream", tour, stream),
        Case("a cut stream", stream=(EXAMPLES / "naming.giop").read_bytes()[:-5], status=1),
        Case("a first part", (*tour, *save), first),
        Case("a part that is saved anew", (*tour, *resume, *save), second, 0, saved),
        Case("a last part", (*tour, *resume), last, faulted, kept),
        Case("a refused checkpoint", (*resume, *save), second, 3, saved),
        Case("a refused list", ("--requests", naming), status=3),
        Case("an unknown option", ("--unknown",), status=2),
        Case("a word of other octets", ("\udcff",), status=2),
        Case("no file", (str(TOP / "none"),), status=4),
    ]


def lines_of(words: Tuple[str, ...], stream: bytes) -> bytes:
    """What the program writes, with no library in front."""
    return subprocess.run([str(PROGRAM), *words], input=stream, capture_output=True, timeout=SECONDS).stdout


def checkpoint_of(words: Tuple[str, ...], stream: bytes) -> bytes:
    """What the program saves."""
    with tempfile.TemporaryDirectory() as folder:
        saved = Path(folder) / CHECKPOINT
        lines_of((*words, "--save", str(saved)), stream)
        return saved.read_bytes()


def run(library: str, case: Case, call: str = "", **settings: int) -> Ended:
    """Runs a case, of whose calls of one sort some are touched. The settings are those of the library."""
    with tempfile.TemporaryDirectory() as folder:
        for name, octets in files_of(case).items():
            (Path(folder) / name).write_bytes(octets)
        return run_in(folder, library, case, call, settings)


def run_in(folder: str, library: str, case: Case, call: str, settings: Dict[str, int]) -> Ended:
    reading, writing = os.pipe()
    named = {f"FAILING_{name.upper()}": str(value) for name, value in settings.items()}
    environment = {"LD_PRELOAD": library, "FAILING_CALL": call, "FAILING_REPORT": str(writing), **named}
    try:
        # A file, and no pipe, so that the reads of one run are those of another, however busy the machine is.
        with tempfile.TemporaryFile() as stream:
            stream.write(case.stream)
            stream.seek(0)
            process = subprocess.run(
                [str(case.program), *case.words],
                stdin=stream,
                capture_output=True,
                env=environment,
                cwd=folder,
                pass_fds=[writing],
                timeout=SECONDS,
            )
        os.close(writing)
        report = os.read(reading, 4096).split()
    except subprocess.TimeoutExpired:
        os.close(writing)
        return Ended(b"", b"no end in time", -1, {}, 0, {})
    finally:
        os.close(reading)
    calls = dict(zip(CALLS, map(int, report)))
    touched = int(report[-1]) if report else 0
    files = {path.name: path.read_bytes() for path in Path(folder).iterdir()}
    return Ended(process.stdout, process.stderr, process.returncode, calls, touched, files)


class Differences:
    """The runs so far, and those that ended otherwise than they may."""

    def __init__(self) -> None:
        self.runs = 0
        self.differ = 0

    def note(self, is_as_wanted: bool, what: str, ended: Ended) -> None:
        self.runs += 1
        if is_as_wanted:
            return
        self.differ += 1
        if self.differ <= 20:
            print(f"{what}: status {ended.status}, {len(ended.lines)} octets written, {ended.said!r}", file=sys.stderr)

    def note_usual(self, case: Case, ended: Ended) -> None:
        self.note(ended.status == case.status and bool(ended.calls), f"{case.name}: as ever", ended)

    def status(self) -> int:
        if self.differ:
            print(f"{self.differ} of {self.runs} runs differ", file=sys.stderr)
        return 1 if self.differ else 0
