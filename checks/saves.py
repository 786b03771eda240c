"""Saves of the built dumper over files of other modes, owners and links, and over files that its run has open.

Each row runs in a folder of its own, which belongs to who runs the program: the user of this script, and nobody too if this
script may run programs as another user, as root may. What is expected is what docs/FORMATS.md says.
"""

from __future__ import annotations

import os
import shutil
import stat
import subprocess
import sys
import tempfile
from dataclasses import dataclass
from pathlib import Path
from typing import Any, Dict, List, Tuple

from failing import PROGRAM, SECONDS

NOBODY = 65534
ANOTHER = 12345  # a user and a group of nobody's
PRIVATE = 0o600

STREAM = b"GIOQ"
LINES = b"stream fault magic at 4\n"
FRONT = b"GIOPDUMP"  # of a checkpoint
OLD = b"what stood here before"


@dataclass(frozen=True)
class Row:
    """A file that a checkpoint replaces: its mode, whether another user or group has it, the link that leads to it, and the
    mode that the checkpoint gets."""

    mode: int
    wanted: int
    user: bool = False
    group: bool = False
    link: str = ""


# fmt: off
ROWS = [
    Row(0o600, 0o600), Row(0o644, 0o644), Row(0o640, 0o640), Row(0o666, 0o666), Row(0o400, 0o400), Row(0o755, 0o755),
    Row(0o4755, 0o755), Row(0o2755, 0o755), Row(0o1644, 0o644), Row(0o7777, 0o777), Row(0o6660, 0o660),
    Row(0o644, PRIVATE, link="symbolic"), Row(0o4755, PRIVATE, link="symbolic"),
    Row(0o644, PRIVATE, link="hard"), Row(0o666, PRIVATE, link="hard"), Row(0o4755, PRIVATE, link="hard"),
    Row(0o644, PRIVATE, user=True), Row(0o666, PRIVATE, user=True), Row(0o4777, PRIVATE, user=True),
    Row(0o2777, PRIVATE, user=True), Row(0o1777, PRIVATE, user=True),
    Row(0o4755, PRIVATE, user=True, link="symbolic"), Row(0o666, PRIVATE, user=True, link="symbolic"),
    Row(0o666, PRIVATE, user=True, link="hard"),
    Row(0o660, PRIVATE, group=True), Row(0o2770, PRIVATE, group=True), Row(0o644, PRIVATE, user=True, group=True),
]
# fmt: on


@dataclass(frozen=True)
class Open:
    """A run that has the file `c` open, and is to save its checkpoint there: its words, which standard streams lead to `c`, and
    whether `c` has the octets of its stream."""

    words: str
    streams: str = ""
    is_stream: bool = False


# What each of these is asked to save is refused, under each of these names of `c`.
OPEN = [
    Open("stream", ">"),
    Open("stream", ">>"),
    Open("stream", "2>"),
    Open("stream", "> 2>"),
    Open("stream", "<"),
    Open("", "<", is_stream=True),
    Open("c", is_stream=True),
    Open("--signatures c stream"),
    Open("--requests c stream"),
]
NAMES = ("c", "./c", "symbolic", "hard")


@dataclass(frozen=True)
class Runner:
    """Who runs the program, in which folder, by which copy of it, and whether that takes another user than this script's."""

    user: int
    group: int
    folder: Path
    program: Path
    is_another: bool

    def run(self, *words: str, **streams: Any) -> subprocess.CompletedProcess[bytes]:
        """Runs the program, with a pipe where no file is given for one of its standard streams."""
        given: Dict[str, Any] = {**dict.fromkeys(("stdin", "stdout", "stderr"), subprocess.PIPE), **streams}
        if self.is_another:
            given.update(user=self.user, group=self.group, extra_groups=[])
        done: subprocess.CompletedProcess[bytes]
        done = subprocess.run([str(self.program), *words], cwd=self.folder, timeout=SECONDS, **given)
        return done


def put(path: Path, octets: bytes, user: int, group: int, mode: int = 0o644) -> None:
    """Makes a file. The owner comes first, since a new one takes bits of the mode away."""
    path.write_bytes(octets)
    os.chown(path, user, group)
    path.chmod(mode)


def told(path: Path) -> Tuple[int, int, int, bytes]:
    """The mode of a file with its kind, its user and group, and its octets."""
    found = path.lstat()
    return found.st_mode, found.st_uid, found.st_gid, path.read_bytes()


def replaced(row: Row, by: Runner) -> str:
    """What differs where a checkpoint replaces the file of a row."""
    folder = by.folder
    old = folder / ("target" if row.link else "c")
    put(old, OLD, ANOTHER if row.user else by.user, ANOTHER if row.group else by.group, row.mode)
    if row.link == "symbolic":
        (folder / "c").symlink_to("target")
    elif row.link == "hard":
        os.link(old, folder / "c")
    before = told(old)
    put(folder / "stream", STREAM, by.user, by.group)
    done = by.run("--save", "c", "stream")
    if (done.returncode, done.stdout, done.stderr) != (1, LINES, b""):
        return f"status {done.returncode}, says {done.stderr!r}"
    mode, user, group, octets = told(folder / "c")
    if (mode, user, group) != (stat.S_IFREG | row.wanted, by.user, by.group) or not octets.startswith(FRONT):
        return f"mode {mode:o} of {user}:{group}, {octets[:8]!r}"
    if row.link and told(old) != before:
        return f"the file behind the link is another: {told(old)}"
    left = {path.name for path in folder.iterdir()} - {"c", "stream", "target"}
    return f"leaves {', '.join(left)}" if left else ""


def kept(row: Open, name: str, by: Runner) -> str:
    """What differs where the file that a run has open is to be replaced by its checkpoint, under one of its names."""
    folder, octets = by.folder, STREAM if row.is_stream else b""
    put(folder / "stream", STREAM, by.user, by.group)
    if "signatures" in row.words:
        octets = b"signatures 1;\n"
    put(folder / "c", octets, by.user, by.group)
    (folder / "symbolic").symlink_to("c")
    os.link(folder / "c", folder / "hard")
    files = sorted(path.name for path in folder.iterdir())
    inode = (folder / "c").stat().st_ino
    kinds = {"<": ("stdin", "rb"), ">": ("stdout", "wb"), ">>": ("stdout", "ab"), "2>": ("stderr", "ab")}
    opened = {stream: (folder / "c").open(how) for stream, how in map(kinds.__getitem__, row.streams.split())}
    done = by.run(*row.words.split(), "--save", name, **opened)
    for file in opened.values():
        file.close()
    said = f"giopdump: {name}: cannot write\n".encode()
    wanted = {"stdout": LINES, "stderr": said}
    octets += b"".join(wanted[stream] for stream in ("stdout", "stderr") if stream in opened)
    if done.returncode != 4:
        return f"status {done.returncode}"
    if any(stream not in opened and getattr(done, stream) != text for stream, text in wanted.items()):
        return f"writes {done.stdout!r}, says {done.stderr!r}"
    if (folder / "c").read_bytes() != octets or (folder / "c").stat().st_ino != inode:
        return f"leaves {(folder / 'c').read_bytes()!r}"
    if sorted(path.name for path in folder.iterdir()) != files:
        return "leaves other files"
    return ""


def in_place(by: Runner) -> str:
    """What differs where a checkpoint goes to a pipe: that of the lines, which is this user's, or one that has a name."""
    put(by.folder / "stream", STREAM, by.user, by.group)
    os.mkfifo(by.folder / "pipe")
    os.chown(by.folder / "pipe", by.user, by.group)
    reading = os.open(by.folder / "pipe", os.O_RDONLY | os.O_NONBLOCK)
    for name in ("pipe", "symbolic", *["/proc/self/fd/1"] * (not by.is_another)):
        if name == "symbolic":
            (by.folder / name).symlink_to("pipe")
        done = by.run("--save", name, "stream")
        octets = done.stdout.removeprefix(LINES) or os.read(reading, 4096)
        is_pipe = stat.S_ISFIFO((by.folder / "pipe").stat().st_mode)
        if done.returncode != 1 or not octets.startswith(FRONT) or not is_pipe:
            return f"{name}: status {done.returncode}, {octets!r}"
    os.close(reading)
    return ""


def has_others(top: Path) -> bool:
    """Whether this script may give files to other users, and run programs as them."""
    (top / "given").touch()
    try:
        os.chown(top / "given", ANOTHER, ANOTHER)
        subprocess.run(["true"], user=NOBODY, group=NOBODY, extra_groups=[], check=True)
    except (OSError, subprocess.SubprocessError):
        return False
    return True


def in_a_folder(top: Path, user: int, group: int) -> Runner:
    """Makes a folder for a run."""
    folder = Path(tempfile.mkdtemp(dir=top))
    os.chown(folder, user, group)
    return Runner(user, group, folder, top / "giopdump", user != os.geteuid())


def main() -> int:
    """Prints figures; 1 where something differs."""
    runs = wrong = left_out = 0

    def count(what: str, by: Runner, difference: str) -> None:
        nonlocal runs, wrong
        runs += 1
        if difference:
            wrong += 1
            print(f"as {by.user}: {what}: {difference}", file=sys.stderr)

    with tempfile.TemporaryDirectory() as made:
        top = Path(made)
        top.chmod(0o755)
        shutil.copy(PROGRAM, top / "giopdump")
        (top / "giopdump").chmod(0o755)
        others = has_others(top)
        for user, group in [(os.geteuid(), os.getegid()), *[(NOBODY, NOBODY)] * others]:
            for row in ROWS:
                if (row.user or row.group) and not others:
                    left_out += 1
                    continue
                by = in_a_folder(top, user, group)
                count(str(row), by, replaced(row, by))
            for each in OPEN:
                for name in NAMES:
                    by = in_a_folder(top, user, group)
                    count(f"{each} --save {name}", by, kept(each, name, by))
            by = in_a_folder(top, user, group)
            count("a pipe", by, in_place(by))
    without = f", {left_out} over files of others not run, as this isn't root" if left_out else ""
    print(f"{runs} saves over files of {len(ROWS)} kinds and over open ones{without}, {wrong} differ")
    return 1 if wrong else 0


if __name__ == "__main__":
    sys.exit(main())
