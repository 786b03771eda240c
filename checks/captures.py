"""Runs giopcap on captures whose lines are known: what it writes and says, its status, and when it writes.

The rows are in checks/data: worked ones, a rule of docs/FORMATS.md each; generated ones; and what was captured of real
connections. Each has the lines by the number of octets of the capture with which they are due, those of its end apart, as
another reading of docs/FORMATS.md has them. A row runs with the capture as a file, with the capture as standard input, and with
the capture in pieces on a pipe that stays open, where the lines have to come as soon as they are due, and none before.

What is said of words and of steps that fail is tried by a list. Then some captures are dumped with each call of the program
failing, as checks/calls.py does it for giopdump, and with each of its requests for memory refused, as checks/memory.py does.
"""

from __future__ import annotations

import os
import re
import resource
import select
import shutil
import subprocess
import sys
import tempfile
import time
from dataclasses import dataclass
from fcntl import ioctl
from pathlib import Path
from random import Random
from struct import pack, unpack
from termios import FIONREAD
from typing import Any, Dict, Iterator, List, Optional, Tuple

from calls import fail_all
from failing import EXAMPLES, GIOPCAP, SECONDS, TOP, Case, Differences, Ended
from memory import refuse_each

from reference.captures import hint_of  # on the path by failing
from reference.rows import REFUSED, octets_of, told_rows

DATA = TOP / "checks/data"
ROWS = ("captures-worked.json", "captures-generated.json.xz", "captures-real.json.xz")

MOST_PIECES = 400  # of a capture


@dataclass(frozen=True)
class Row:
    """A capture with its words and signatures. `due` has the numbers of its octets with which lines are due, each with all that
    is due up to there; `lines` is all that is written, `notices` are told beside them."""

    name: str
    words: Tuple[str, ...]
    signatures: str
    capture: bytes
    due: Tuple[Tuple[int, bytes], ...]
    lines: bytes
    notices: Tuple[str, ...]
    status: int

    def due_after(self, octets: int) -> bytes:
        """What is due once so many octets were read."""
        return next((lines for at, lines in reversed(self.due) if at <= octets), b"")

    def is_refused(self) -> bool:
        """Whether no capture is read."""
        return self.status in REFUSED

    def is_said(self, said: bytes, signatures: Path, capture: Optional[Path]) -> bool:
        """Whether this is what standard error has."""
        if self.status == 2:
            return said.startswith(b"error: ")
        if self.status == 3:
            return bool(re.fullmatch(rf"giopcap: {re.escape(str(signatures))}:\d+: [a-z-]+\n".encode(), said))
        texts = [f"giopcap: {notice}\n" for notice in self.notices]
        if self.lines.startswith(b"capture fault magic "):
            texts.append(f"giopcap: {capture or 'standard input'}: {hint_of(self.capture)}\n")
        return said == "".join(texts).encode()


def row_of(told: Dict[str, Any]) -> Row:
    """A row of a file."""
    text, due = b"", []
    for at, lines in told["lines"].items():
        text += "".join(f"{line}\n" for line in lines).encode()
        if at != "end":
            due.append((int(at), text))
    words, notices = tuple(told["words"]), tuple(told["notices"])
    octets = octets_of(told["capture"])
    return Row(told["name"], words, told["signatures"], octets, tuple(due), text, notices, told["status"])


def rows_of(name: str) -> List[Row]:
    """The rows of a file."""
    return [row_of(told) for told in told_rows(DATA / name)]


class Rows:
    """Runs rows, each with its files in one folder."""

    def __init__(self, folder: Path, seen: Differences) -> None:
        self._signatures = folder / "row.sig"
        self._capture = folder / "row.pcap"
        self._seen = seen

    def run(self, row: Row) -> None:
        """Runs a row in each way."""
        self._signatures.write_text(row.signatures)
        self._capture.write_bytes(row.capture)
        words = [str(GIOPCAP), "--signatures", str(self._signatures), *row.words]
        done = subprocess.run(
            [*words, str(self._capture)], stdin=subprocess.DEVNULL, capture_output=True, timeout=SECONDS
        )
        self._note(row, "as a file", ended(done.stdout, done.stderr, done.returncode), self._capture)
        with open(self._capture, "rb") as file:
            done = subprocess.run(words, stdin=file, capture_output=True, timeout=SECONDS)
        self._note(row, "as standard input", ended(done.stdout, done.stderr, done.returncode), None)
        if not row.is_refused():
            self._feed(row, words)

    def _note(self, row: Row, way: str, run: Ended, capture: Optional[Path]) -> None:
        as_wanted = (run.lines, run.status) == (row.lines, row.status) and row.is_said(
            run.said, self._signatures, capture
        )
        self._seen.note(as_wanted, f"{row.name}, {way}", run)

    def _feed(self, row: Row, words: List[str]) -> None:
        """Gives the capture in pieces, and looks after each for what is due."""
        fed = Fed(words)
        at = 0
        for piece in pieces(row):
            if not fed.give(piece):
                break
            at += len(piece)
            if not fed.await_lines(row.due_after(at)):
                self._seen.note(False, f"{row.name}, behind {at} octets on a pipe", fed.end())
                return
        self._note(row, "in pieces on a pipe", fed.end(), None)


class Fed:
    """A run of the program that is given its capture on a pipe."""

    def __init__(self, words: List[str]) -> None:
        self._process = subprocess.Popen(
            words, stdin=subprocess.PIPE, stdout=subprocess.PIPE, stderr=subprocess.PIPE, bufsize=0
        )
        assert self._process.stdin and self._process.stdout
        self._to, self._out = self._process.stdin.fileno(), self._process.stdout.fileno()
        self._lines = b""

    def give(self, piece: bytes) -> bool:
        """Gives octets; whether the program still reads."""
        try:
            os.write(self._to, piece)
        except BrokenPipeError:
            return False
        return True

    def await_lines(self, due: bytes) -> bool:
        """Whether what is due comes, and no more of it stands there."""
        end = time.monotonic() + SECONDS
        while len(self._lines) < len(due) and self._has_more(end - time.monotonic()):
            octets = os.read(self._out, 1 << 16)
            self._lines += octets
            if not octets:
                break
        while waiting(self._to) and self._process.poll() is None and time.monotonic() < end:
            time.sleep(0)
        while self._has_more(0):
            octets = os.read(self._out, 1 << 16)
            self._lines += octets
            if not octets:
                break
        return self._lines == due

    def _has_more(self, seconds: float) -> bool:
        return bool(select.select([self._out], [], [], max(0, seconds))[0])

    def end(self) -> Ended:
        """What all of the run was, once its input is closed."""
        lines, said = self._process.communicate(timeout=SECONDS)
        return ended(self._lines + lines, said, self._process.returncode)


def waiting(pipe: int) -> int:
    """How many octets in a pipe wait to be read."""
    return int(unpack("i", ioctl(pipe, FIONREAD, b"\0" * 4))[0])


def ended(lines: bytes, said: bytes, status: int) -> Ended:
    return Ended(lines, said, status, {}, 0, {})


def pieces(row: Row) -> Iterator[bytes]:
    """The capture in pieces of different sizes, always the same."""
    most = max(64, 2 * len(row.capture) // MOST_PIECES)
    sizes, at = Random(row.name), 0
    while at < len(row.capture):
        size = sizes.randint(1, most)
        yield row.capture[at : at + size]
        at += size


def run_rows(folder: Path, seen: Differences) -> Dict[str, Row]:
    """Runs all rows; gives them by their names."""
    runner = Rows(folder, seen)
    known: Dict[str, Row] = {}
    for name in ROWS:
        rows = rows_of(name)
        for row in rows:
            runner.run(row)
            known[row.name] = row
        print(f"{name}: {len(rows)} rows, {sum(row.lines.count(10) for row in rows)} lines")
    return known


def cases(folder: Path, known: Dict[str, Row]) -> List[Case]:
    """No octets, a capture with its types, as a file too, one with held packets, what is no capture, a link type that isn't
    read, and what is refused."""
    naming, few = ("--signatures", str(EXAMPLES / "naming.sig")), ("--connections", "2")
    session = TOP / "examples/session.pcap"
    bad, link = known["real: a wire that loses and reorders packets"], known["link type 147"]
    types = folder / "bad.sig"
    types.write_text(bad.signatures)
    given = [
        ("no octets", few, b"", 1),
        ("a capture", (*naming, "--connections", "16"), session.read_bytes(), 0),
        ("a capture in a file", (*naming, "--connections", "16", str(session)), b"", 0),
        ("packets in another order", ("--signatures", str(types), *few), bad.capture, bad.status),
        ("no capture", few, (EXAMPLES / "naming.giop").read_bytes(), 1),
        ("a link type that isn't read", few, link.capture, link.status),
        ("refused signatures", ("--signatures", str(EXAMPLES / "naming.req")), b"", 3),
        ("an unknown option", ("--unknown",), b"", 2),
        ("a word of other octets", ("\udcff",), b"", 2),
        ("no file", (str(folder / "none"),), b"", 4),
        ("help", ("--help",), b"", 0),
    ]
    return [Case(name, words, stream, status, b"", GIOPCAP) for name, words, stream, status in given]


EMPTY = "total streams 0 messages 0 faults 0 packets 0 octets 24 other 0\n"
IDL = ": IDL: omniidl -bgiopdump_signatures\n"

# Words, the status, and what is written and said; what is wrong with the words is told in the words of clap, and begins so.
# Of steps that fail, the first in the order of the steps decides. The files are those of `files_of_words`.
WORDS: List[Tuple[Tuple[str, ...], int, str, str]] = [
    (("--version",), 0, "giopcap 1.0.0\n", ""),
    (("--unknown", "--signatures", "wrong.sig"), 2, "", "error: "),
    (("a", "b"), 2, "", "error: "),
    (("--port",), 2, "", "error: "),
    (("--open", "016x"), 2, "", "error: "),
    (("\udcff",), 2, "", "giopcap: a word of the command line is not UTF-8\n"),
    (("--signatures", "none.sig", "none.pcap"), 4, "", "giopcap: none.sig: cannot read: no such file\n"),
    (("--signatures", ".", "empty.pcap"), 4, "", "giopcap: .: cannot read: a folder\n"),
    (("--signatures", "wrong.sig/none", "empty.pcap"), 4, "", "giopcap: wrong.sig/none: cannot read\n"),
    (("--signatures", "-", "empty.pcap"), 3, "", "giopcap: -:1: syntax\n"),
    (("--signatures", "macro.idl", "none.pcap"), 3, "", "giopcap: macro.idl:2: token" + IDL),
    (("--signatures", "comment.idl", "none.pcap"), 3, "", "giopcap: comment.idl:1: token" + IDL),
    (("--signatures", "module.idl", "none.pcap"), 3, "", "giopcap: module.idl:3: syntax" + IDL),
    (("--signatures", "empty.pcap"), 3, "", "giopcap: empty.pcap:1: token: a capture\n"),
    (("--signatures", "empty.pcapng"), 3, "", "giopcap: empty.pcapng:3: token: a capture\n"),
    (("--signatures", "wrong.sig", "none.pcap"), 3, "", "giopcap: wrong.sig:2: unknown-type\n"),
    (("--signatures", "one.sig", "--signatures", "two.sig", "--signatures", "two.sig", "empty.pcap"), 0, EMPTY, ""),
    (("--signatures", "two.sig", "--signatures", "one.sig", "none.pcap"), 3, "", "giopcap: two.sig:3: unknown-type\n"),
    (
        ("--signatures", "one.sig", "--signatures", "two.sig", "--signatures", "other.sig", "none.pcap"),
        3,
        "",
        "giopcap: other.sig:4: duplicate: two.sig:3\n",
    ),
    (("--signatures", "one.sig", "--signatures", "second.sig", "none.pcap"), 3, "", "giopcap: second.sig:1: syntax\n"),
    (("--signatures", "one.sig", "--signatures", "macro.idl", "none.pcap"), 3, "", "giopcap: macro.idl:2: token" + IDL),
    (("--signatures", "one.sig", "--signatures", "none.sig"), 4, "", "giopcap: none.sig: cannot read: no such file\n"),
    (("--signatures", "one.sig") * 17, 2, "", "error: more than 16 signature files"),
    (("none.pcap",), 4, "", "giopcap: none.pcap: cannot read: no such file\n"),
    (("no\nne\xe9",), 4, "", "giopcap: no\\x0ane\\xc3\\xa9: cannot read: no such file\n"),
    ((".",), 4, "", "giopcap: .: cannot read: a folder\n"),
    (
        ("--port", "0", "--port", "65535", "empty.pcap"),
        0,
        EMPTY,
        "",
    ),
    (
        ("-",),
        1,
        "capture fault magic at 4\n" + "total streams 0 messages 0 faults 0 packets 0 octets 4 other 0\n",
        "giopcap: standard input: not a capture\n",
    ),
    (
        ("./-",),
        1,
        "capture fault magic at 4\n" + "total streams 0 messages 0 faults 0 packets 0 octets 4 other 0\n",
        "giopcap: ./-: not a capture\n",
    ),
    (
        ("no\nname",),
        1,
        "capture fault magic at 4\n" + "total streams 0 messages 0 faults 0 packets 0 octets 4 other 0\n",
        "giopcap: no\\x0aname: not a capture\n",
    ),
]


# Files that are no captures, by the octets that they begin with and are named for, and what is said of them.
OTHERS = (
    ("1f8b0800", "compressed: zcat FILE | giopcap"),
    ("1f8c0800", "not a capture"),
    ("28b52ffd", "compressed: zstdcat FILE | giopcap"),
    ("fd377a58", "compressed: xzcat FILE | giopcap"),
    ("736e6f6f", "snoop: tshark -r FILE -w - | giopcap"),
    ("a1b2cd34", "modified pcap: tshark -r FILE -w - | giopcap"),
    ("34cdb2a1", "modified pcap: tshark -r FILE -w - | giopcap"),
    ("cd34a1b2", "not a capture"),
)
WORDS += [
    (
        (octets,),
        1,
        "capture fault magic at 4\n" + "total streams 0 messages 0 faults 0 packets 0 octets 4 other 0\n",
        f"giopcap: {octets}: {hint}\n",
    )
    for octets, hint in OTHERS
]


def files_of_words(folder: Path) -> None:
    """Makes the files that the words name."""
    for octets, _ in OTHERS:
        (folder / octets).write_bytes(bytes.fromhex(octets) + b"more")
    (folder / "wrong.sig").write_text("signatures 1;\nstruct A { B b; };\n")
    (folder / "one.sig").write_text(
        "signatures 1;\nstruct A {\n  long x;\n};\noperation boolean _is_a(in string id);\n"
    )
    (folder / "two.sig").write_text("signatures 1;\noperation boolean _is_a(in string id);\noperation A get();")
    (folder / "other.sig").write_text("// Others.\nsignatures 1;\n\noperation long get();\n")
    (folder / "second.sig").write_text("signatures 2;\noperation long other();\n")
    (folder / "empty.pcap").write_bytes(octets_of("a1b2c3d4 00020004 00*8 00040000 00000065"))
    (folder / "empty.pcapng").write_bytes(octets_of("0a0d0d0a 1c000000 4d3c2b1a 01000000 ff*8 1c000000"))
    (folder / "macro.idl").write_text('// Orders.\n#pragma prefix "shop"\n')
    (folder / "comment.idl").write_text("/* Orders. */\nmodule Shop { };\n")
    (folder / "module.idl").write_text("// Orders.\n\n  module Shop { };\n")
    for name in ("-", "no\nname"):
        (folder / name).write_bytes(b"GIOP\x01\x00")


def run_words(folder: Path, seen: Differences) -> None:
    """Runs the list, and the program where it may map less than it takes."""
    files_of_words(folder)
    for words, status, lines, said in WORDS:
        run = run_in(folder, words)
        is_said = run.said.startswith(said.encode()) if said.startswith("error: ") else run.said == said.encode()
        as_wanted = (run.status, run.lines) == (status, lines.encode()) and is_said
        seen.note(as_wanted, f"words {words}", run)
    run = run_in(folder, ("empty.pcap",), limit=40_000_000)
    as_wanted = (run.status, run.lines, run.said) == (5, b"", b"giopcap: out of memory\n")
    seen.note(as_wanted, "without enough memory", run)
    run_unread(folder, seen)
    run_many(seen)
    run_as_nobody(folder, seen)


def run_unread(folder: Path, seen: Differences) -> None:
    """Runs the program where nobody reads its lines any more, of which nothing is said, and where they can't be written."""
    unread, lines = os.pipe()
    os.close(unread)
    for out, said in ((os.fdopen(lines, "wb"), b""), (open("/dev/full", "wb"), b"giopcap: write failed\n")):
        with out:
            words = [str(GIOPCAP), "empty.pcap"]
            done = subprocess.run(words, cwd=folder, stdout=out, stderr=subprocess.PIPE, timeout=SECONDS)
        as_wanted = (done.returncode, done.stderr) == (4, said)
        seen.note(as_wanted, f"lines to {out.name}", ended(b"", done.stderr, done.returncode))


def many(count: int) -> bytes:
    """A capture of so many connections, each with a stream of one message."""
    capture, message = octets_of("a1b2c3d4 00020004 00*8 00040000 00000065"), b"GIOP" + bytes((1, 0, 0, 5, 0, 0, 0, 0))
    for number in range(count):
        segment = pack(">HHIIBBHHH", 10_000 + number, 2809, 1, 1, 0x50, 0x18, 1024, 0, 0) + message
        packet = pack(">BBHHHBBHII", 0x45, 0, 20 + len(segment), 0, 0, 64, 6, 0, 0x0A000001, 0x0A000002) + segment
        capture += pack(">IIII", number, 0, len(packet), len(packet)) + packet
    return capture


def run_many(seen: Differences) -> None:
    """Runs the program over as many connections as are known without a word, and over more."""
    for count, said in ((1024, b""), (1030, b"giopcap: more than 1024 connections: --connections\n")):
        done = subprocess.run([str(GIOPCAP)], input=many(count), capture_output=True, timeout=SECONDS)
        told = (done.returncode, done.stderr, done.stdout.count(b" closed room\n"))
        as_wanted = told == (int(count > 1024), said, count - 1024)
        seen.note(as_wanted, f"{count} connections", ended(b"", done.stderr, done.returncode))


def run_as_nobody(folder: Path, seen: Differences) -> None:
    """Runs the program where it may not read a file; only root can, as another user."""
    if os.geteuid() != 0:
        return
    program = folder / "program"
    shutil.copy2(GIOPCAP, program)
    secret = folder / "secret"
    secret.write_bytes(b"")
    secret.chmod(0o600)
    folder.chmod(0o711)
    for words in (("secret",), ("--signatures", "secret", "empty.pcap")):
        command = ["setpriv", "--reuid=65534", "--regid=65534", "--clear-groups", str(program), *words]
        done = subprocess.run(command, cwd=folder, capture_output=True, timeout=SECONDS)
        run = ended(done.stdout, done.stderr, done.returncode)
        as_wanted = (run.status, run.lines, run.said) == (4, b"", b"giopcap: secret: cannot read: no permission\n")
        seen.note(as_wanted, f"words {words} as nobody", run)


def run_in(folder: Path, words: Tuple[str, ...], limit: int = resource.RLIM_INFINITY) -> Ended:
    """Runs the program with octets on standard input that nothing may read."""

    def limited() -> None:
        resource.setrlimit(resource.RLIMIT_AS, (limit, limit))

    done = subprocess.run(
        [str(GIOPCAP), *words], cwd=folder, input=b"GIOP", capture_output=True, preexec_fn=limited, timeout=SECONDS
    )
    return ended(done.stdout, done.stderr, done.returncode)


def main(library: str) -> int:
    """Prints figures; 1 where something differs."""
    seen = Differences()
    with tempfile.TemporaryDirectory() as name:
        folder = Path(name)
        run_words(folder, seen)
        print(f"words: {seen.runs} runs")
        known = run_rows(folder, seen)
        tried = cases(folder, known)
        calls = [fail_all(library, case, seen) for case in tried]
        told = ", ".join(f"{case.name} {made}" for case, made in zip(tried, calls))
        print(f"opens/reads/writes/syncs/renames: {told}")
        roomy = Case("256 connections", ("--connections", "256"), known["real: a good wire"].capture, 0, b"", GIOPCAP)
        requests = [refuse_each(library, case, seen) for case in [*tried, roomy]]
        told = ", ".join(f"{case.name} {made}" for case, made in zip([*tried, roomy], requests))
        print(f"requests for memory: {told}")
    print(f"{seen.runs} runs, {seen.differ} differ")
    return seen.status()


if __name__ == "__main__":
    sys.exit(main(sys.argv[1]))
