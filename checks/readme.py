"""Runs the commands in the blocks of README.md and docs/USE.md, in their order and in a copy of the repository: those after a
`$` print what stands beside them, the others end well, and a synopsis has the words of the program's help. Looks for the files
that the pages link to, and for the code of docs/LIBRARY.md and docs/READING.md in the source that is proved."""

from __future__ import annotations

import difflib
import os
import re
import shutil
import subprocess
import sys
import tempfile
from pathlib import Path
from typing import Dict, Iterator, List, Tuple

TOP = Path(__file__).resolve().parent.parent
WALKS = [TOP / "README.md", TOP / "docs/USE.md"]
PROGRAMS = ["crates/giopdump/out", "crates/giopcap/out", "scripts"]
MOST_WORDS = 2000  # of README.md
LIBRARY = (TOP / "docs/LIBRARY.md", ["crates/giop_stream_tests/src/own_out.rt"])
READING = (
    TOP / "docs/READING.md",
    ["crates/*/src/**/*.rt", "crates/*/specs/*.antt", "crates/*/proofs/**/*.antt", "crates/*/wrong/*"],
)
NOT_RUN = {".ci/run"}  # which runs this

# What stands in for what can't be had in a check: an interface is a file, rt runs the program that was built, in another
# folder, and apt installs nothing.
STAND_INS = {
    "tcpdump": """
words=()
for word; do
    case $word in -i) words+=(-r) ;; any) words+=("$TRAFFIC") ;; *) words+=("$word") ;; esac
done
exec "$TCPDUMP" "${words[@]}"
""",
    "rt": """
built=$PWD/out/$(basename "$PWD")
shift 2
cd /
exec "$built" "$@"
""",
    "apt": """
exec apt-get --simulate "$@"
""",
}
ORDERS = "interface Orders { long get(in string shop, in long id); };\n"


def copy_of_top(folder: Path) -> Dict[str, str]:
    """Puts the repository's files, the built programs and what the commands read into a folder; gives the environment."""
    listed = subprocess.run(["git", "ls-files", "-z"], cwd=TOP, check=True, capture_output=True, text=True).stdout
    names = [name for name in listed.split("\0") if name and (TOP / name).is_file()]
    built = [str(path.relative_to(TOP)) for path in TOP.glob("crates/giop*/out/giop*") if path.is_file()]
    for name in names + built:
        (folder / name).parent.mkdir(parents=True, exist_ok=True)
        shutil.copy2(TOP / name, folder / name)
    # The example's conversations at the port of the naming service, and one of its hosts as the pages have it.
    session = (TOP / "examples/session.pcap").read_bytes()
    traffic = session.replace(b"\x32\x09", b"\x0a\xf9").replace(b"\xc0\0\2\2", b"\xc0\0\2\7")
    for name in ("traffic", "orders.pcap1", "big.pcap"):
        (folder / name).write_bytes(traffic)
    (folder / "FILE").write_bytes(b"behind" + (TOP / "examples/naming.giop").read_bytes())
    (folder / "orders.idl").write_text(ORDERS)
    programs = folder / "stand-ins"
    programs.mkdir()
    for name, text in STAND_INS.items():
        (programs / name).write_text(f"#!/usr/bin/env bash{text}")
        (programs / name).chmod(0o755)
    path = os.pathsep.join([*(str(folder / name) for name in ["stand-ins", *PROGRAMS]), os.environ["PATH"]])
    git = subprocess.run(
        ["git", "rev-parse", "--absolute-git-dir"], cwd=TOP, check=True, capture_output=True, text=True
    )
    return dict(
        os.environ,
        PATH=path,
        GIT_DIR=git.stdout.strip(),
        TRAFFIC=str(folder / "traffic"),
        TCPDUMP=shutil.which("tcpdump") or "tcpdump",
        PYTHONPATH=str(folder / "idl"),
    )


def blocks(text: str) -> Iterator[List[str]]:
    """The lines of each indented block."""
    for block in re.findall(r"(?m)(?:^    .*\n)+", text):
        yield [line[4:] for line in block.splitlines()]


def commands(lines: List[str]) -> Iterator[Tuple[str, List[str]]]:
    """Each command after a `$` in a block, with the lines up to the next one."""
    starts = [place for place, line in enumerate(lines) if line.startswith("$ ")] + [len(lines)]
    for start, end in zip(starts, starts[1:]):
        yield lines[start][2:], lines[start + 1 : end]


class Walk:
    """The commands of the pages, one after the other in one folder."""

    def __init__(self, folder: Path) -> None:
        self._folder = folder
        self._environment = copy_of_top(folder)
        self.compared = self.run = self.lines = self.wrong = 0

    def _done(self, command: str) -> subprocess.CompletedProcess[str]:
        words = ["bash", "-o", "pipefail", "-c", command]
        return subprocess.run(
            words, cwd=self._folder, env=self._environment, capture_output=True, text=True, timeout=300
        )

    def take(self, page: Path, lines: List[str]) -> None:
        """Runs the commands of a block, and shows what is wrong with them."""
        if lines[0].startswith("$ "):
            for command, wanted in commands(lines):
                self._compare(page, command, wanted)
        elif " [--" in lines[0]:
            self._synopsis(page, lines[0])
        else:
            for command in lines:
                if command not in NOT_RUN:
                    self._run(page, command)

    def _compare(self, page: Path, command: str, wanted: List[str]) -> None:
        """A command prints what stands beside it."""
        done = self._done(command)
        printed = done.stdout.splitlines() + done.stderr.splitlines()
        for line in difflib.unified_diff(wanted, printed, page.name, command, lineterm=""):
            print(line)
        self.compared += 1
        self.lines += len(wanted)
        self.wrong += printed != wanted

    def _run(self, page: Path, command: str) -> None:
        """A command ends well, and a dump in what it prints or writes has streams."""
        before = {path: path.stat().st_mtime_ns for path in self._folder.iterdir()}
        done = self._done(command)
        written = [path for path in self._folder.iterdir() if before.get(path) != path.stat().st_mtime_ns]
        texts = [done.stdout, *(path.read_text(errors="replace") for path in written if path.is_file())]
        well = done.returncode == 0 and not any("total streams 0" in text for text in texts)
        if re.search(r"giop(cap|dump) ", command) and " -o " not in command:
            well = well and any(texts)
        if not well:
            print(f"{page.name}: {command}: status {done.returncode}\n{done.stdout[-500:]}{done.stderr[-500:]}")
        self.run += 1
        self.wrong += not well

    def _synopsis(self, page: Path, line: str) -> None:
        """A synopsis has the words of the program's help."""
        helped = re.findall(r"(?m)^ +(?:-., )?(--[a-z]+(?:-[a-z]+)*)", self._done(f"{line.split()[0]} --help").stdout)
        named = re.findall(r"--[a-z]+(?:-[a-z]+)*", line)
        if sorted([*named, "--help", "--version"]) != sorted(helped):
            print(f"{page.name}: {line}: the help has {' '.join(helped)}")
            self.wrong += 1


def anchors(page: Path) -> List[str]:
    """The anchors of a page's headings."""
    heads = re.findall(r"(?m)^#+ (.*)$", page.read_text())
    return [re.sub(r"[^\w -]", "", head.lower()).replace(" ", "-") for head in heads]


def broken_links(page: Path) -> List[str]:
    """The files and headings that a page links to and that aren't there, and the lines that a page links to by a function's name
    and that don't begin it."""
    text = page.read_text()
    targets = re.findall(r"\]\(([^)#:]+)[^)]*\)", text)
    broken = [target for target in targets if not (page.parent / target).exists()]
    for target, anchor in re.findall(r"\]\(([^)#:]*)#([a-z][^)]*)\)", text):
        other = page.parent / target if target else page
        if other.exists() and anchor not in anchors(other):
            broken.append(f"{target}#{anchor}")
    for name, target, line in re.findall(r"`(?:\w+::)?(\w+)`\]\(([^)#:]+)#L(\d+)\)", text):
        lines = (page.parent / target).read_text().splitlines()
        if f"fn {name}<" not in "".join(lines[int(line) - 1 : int(line)]):
            broken.append(f"{target}#L{line}")
    return [f"{page.relative_to(TOP)}: {each}" for each in broken]


def is_shown_as_written(page: Path, sources: List[str]) -> bool:
    """Whether a page has code, each block of which stands in one of the sources."""
    blocks = re.findall(r"(?s)```(?:rust)?\n(.*?)```", page.read_text())
    texts = [path.read_text() for pattern in sources for path in TOP.glob(pattern)]
    return bool(blocks) and all(any(block in text for text in texts) for block in blocks)


def main() -> int:
    """Prints figures; 1 where something differs."""
    wrong = 0
    with tempfile.TemporaryDirectory() as folder:
        walk = Walk(Path(folder))
        for page in WALKS:
            for lines in blocks(page.read_text()):
                walk.take(page, lines)
        print(f"{walk.compared} commands print {walk.lines} lines, {walk.run} others are run, {walk.wrong} are wrong")
        wrong = walk.wrong + (not walk.compared) + (not walk.run)
    broken = [each for page in [TOP / "README.md", *TOP.glob("docs/*.md")] for each in broken_links(page)]
    for each in broken:
        print(f"broken link in {each}")
    unlike = [page for page, sources in (LIBRARY, READING) if not is_shown_as_written(page, sources)]
    for page in unlike:
        print(f"{page.relative_to(TOP)}: its code isn't that of the source")
    words = len((TOP / "README.md").read_text().split())
    if words > MOST_WORDS:
        print(f"README.md: {words} words")
    return 1 if wrong or broken or unlike or words > MOST_WORDS else 0


if __name__ == "__main__":
    sys.exit(main())
