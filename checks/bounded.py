"""How much memory giopcap maps: as much after a long capture as after a short one, 130 MB without options, and
with options what the manual page says. It is looked at while the program, which has read all that it was given, waits for
more."""

from __future__ import annotations

import re
import subprocess
import sys
import time
from typing import List, Sequence, Tuple

from captures import waiting
from failing import EXAMPLES, GIOPCAP, SECONDS, TOP

MOST = 130_500_000
STACK = 65_536
WITHOUT = (1024, 16, 128, 16_384)  # connections, open messages, calls and blocks without options
TRIED = (
    WITHOUT,
    (1, 1, 1, 1024),
    (4096, 16, 128, 1024),
    (16, 4096, 128, 1024),
    (16, 16, 65_536, 1024),
    (1, 16, 128, 1_048_576),
)
CAPTURES = (("short", 10), ("short", 5000), ("long", 10_000), ("long", 20_000_000), ("late", 20_000_000))
# The sentence of the manual page.
SAID = re.compile(
    r"memory is ([\d,]+) KB, ([\d,]+) octets for each block of the pool, and for each connection (\d+) KB, ([\d,]+) octets for "
    r"each message that may be open and (\d+) for each call[a-z ]*, with (\d+) more for each of either if there may be more "
    r"than (\d+) of them: (\d+) MB"
)


def mapped(words: Sequence[str], capture: bytes) -> Tuple[int, int]:
    """The greatest numbers of octets that were mapped and touched up to where it waits after these octets."""
    process = subprocess.Popen([str(GIOPCAP), *words], stdin=subprocess.PIPE, stdout=subprocess.DEVNULL)
    assert process.stdin
    process.stdin.write(capture)
    process.stdin.flush()
    end = time.monotonic() + SECONDS
    while (waiting(process.stdin.fileno()) or state_of(process.pid)[0] != "S") and time.monotonic() < end:
        time.sleep(0.001)
    _, peak, touched = state_of(process.pid)
    process.stdin.close()
    if process.wait(timeout=SECONDS) > 1:
        raise RuntimeError(f"{words}: status {process.returncode}")
    return peak, touched


def state_of(process: int) -> Tuple[str, int, int]:
    """Whether a process sleeps, and the octets that it has mapped and touched at most."""
    with open(f"/proc/{process}/status", encoding="ascii") as file:
        told = dict(line.split(":", 1) for line in file)
    return told["State"].split()[0], 1024 * int(told["VmPeak"].split()[0]), 1024 * int(told["VmHWM"].split()[0])


def made(sort: str, number: int) -> bytes:
    """A capture of real calls."""
    words = [sys.executable, str(TOP / "bench/exchanges.py"), sort, str(number)]
    return subprocess.run(words, check=True, capture_output=True).stdout


def over_captures() -> bool:
    """Whether as much is mapped over each capture, but for a stack of some pages, and less than the most that may be."""
    found = []
    for sort, number in CAPTURES:
        capture = made(sort, number)
        peak, touched = mapped(("--signatures", str(EXAMPLES / "naming.sig")), capture)
        print(f"{sort} {number}: capture of {len(capture)} octets, {peak} mapped, {touched} touched")
        found.append(peak)
    return max(found) - min(found) <= STACK and max(found) < MOST


def numbers_said() -> List[int]:
    """The numbers of the sentence."""
    text = re.sub(r"\s+", " ", (TOP / "man/giopcap.1").read_text())
    match = SAID.search(text)
    if not match:
        raise RuntimeError("man/giopcap.1 doesn't say how much memory is taken")
    return [int(number.replace(",", "")) for number in match.groups()]


def by_options() -> bool:
    """Whether as much is mapped as the manual page says, but for a twentieth."""
    right = True
    base, block, connection, message, call, more, few, whole = numbers_said()
    for connections, opened, calls, pool in TRIED:
        words = ("--connections", connections, "--open", opened, "--calls", calls, "--pool", pool)
        peak, _ = mapped([str(word) for word in words], made("short", 1))
        for_each = 1000 * connection + message * opened + call * calls
        for_each += sum(more * most for most in (opened, calls) if most > few)
        wanted = 1000 * base + block * pool + connections * for_each
        print(f"{' '.join(map(str, words))}: {peak} octets mapped, {wanted} said")
        right = right and abs(peak - wanted) <= wanted / 20
        if (connections, opened, calls, pool) == WITHOUT:
            right = right and abs(1_000_000 * whole - peak) <= peak / 20
    return right


def main() -> int:
    """Prints figures; 1 where something differs."""
    if not over_captures():
        print("the memory grows, or is too much", file=sys.stderr)
        return 1
    if not by_options():
        print("the memory isn't what the manual page says", file=sys.stderr)
        return 1
    return 0


if __name__ == "__main__":
    sys.exit(main())
