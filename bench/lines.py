"""Octets of lines a second of processor time, and peak memory, of giopcap, which writes them, of the programs that read them,
and of `wc -l`; then the seconds in which a capture becomes a report.

    python3 bench/lines.py [OCTETS]

The capture has 100 MB, or OCTETS, of calls over one connection; giop-chart reads the lines of a tenth. It looks through all of
them for a time that none has, over a giop-json of its own.
"""

from __future__ import annotations

import os
import subprocess
import sys
import tempfile
import time
from pathlib import Path
from typing import List

TOP = Path(__file__).resolve().parent.parent
CAP, JSON, STAT = (str(TOP / f"crates/{name}/out/{name}") for name in ("giopcap", "giop_json", "giop_stat"))
TYPES = str(TOP / "examples/naming.sig")
MOST = 100_000_000


def measure(words: List[str], into: str, lines: str) -> None:
    """Runs a program, and prints its figures, by the octets of a file of lines."""
    process = os.spawnv(os.P_NOWAIT, "/bin/sh", ["sh", "-c", f'exec "$@" > {into}', "sh", *words])
    _, status, used = os.wait4(process, 0)
    assert status == 0, words
    spent = used.ru_utime + used.ru_stime
    name = " ".join([Path(words[0]).name, *words[1:-1]])
    print(f"{name}: {os.stat(lines).st_size / spent / 1e6:.1f} MB/s, {used.ru_maxrss / 1024:.0f} MB of memory")


def main() -> int:
    octets = int(sys.argv[1]) if sys.argv[1:] else MOST
    with tempfile.TemporaryDirectory() as folder:
        capture, lines, fewer = (f"{folder}/{name}" for name in ("capture", "lines", "fewer"))
        for size, into in ((octets // 10, fewer), (octets, lines)):
            with open(capture, "wb") as file:
                subprocess.run([sys.executable, TOP / "bench/exchanges.py", "long", str(size)], stdout=file, check=True)
            measure([CAP, "--signatures", TYPES, capture], into, into)
        for words in (["wc", "-l"], [JSON], [JSON, "--calls"], [STAT]):
            measure([*words, lines], os.devnull, lines)
        measure([str(TOP / "scripts/giop-chart"), "--from", "23:59:59", fewer], os.devnull, fewer)
        begun = time.monotonic()
        report = f"{CAP} --signatures {TYPES} {capture} | {TOP}/scripts/giop-report > {os.devnull}"
        subprocess.run(["bash", "-o", "pipefail", "-c", report], check=True)
        print(f"a report of {octets:,} octets of capture: {time.monotonic() - begun:.1f} s")
    return 0


if __name__ == "__main__":
    sys.exit(main())
