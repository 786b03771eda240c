#!/usr/bin/env python3
"""Runs the merge gate and prints the minutes of each crate: of its proof, its tests and its edits.

    bench/gate.py [COMMAND ..]     (without words: .ci/run)
    bench/gate.py --pid PID        (of a gate that runs already)

Each second it reads of /proc what every process named rattle below the command has taken, by the words after
--crate-name, by whether it is a check of tests, and by whether it runs in a folder that is made for edits. What a process
takes in its last second before it ends is missed, a percent or less. Standard output passes through.

It prints the minutes of a processor, and those of the clock while a check of the crate ran: of several checks that ran at
once each counts. The row `else` has what the command took beside the checks, as the runs of the programs and tests: of a
gate that runs already, also the checks that had ended before.
"""

from __future__ import annotations

import argparse
import os
import subprocess
import sys
import time
from collections import defaultdict
from collections.abc import Callable

TICK = os.sysconf("SC_CLK_TCK")
KINDS = ("proof", "tests", "edits")


def now() -> float:
    """The seconds since the machine began."""
    with open("/proc/uptime", encoding="utf-8") as file:
        return float(file.read().split()[0])


def stat_of(pid: int) -> tuple[int, float, str] | None:
    """The parent, the seconds with those of ended children, and the start of a process."""
    try:
        with open(f"/proc/{pid}/stat", encoding="utf-8", errors="replace") as file:
            words = file.read().rpartition(")")[2].split()
        return int(words[1]), sum(map(int, words[11:15])) / TICK, words[19]
    except (OSError, IndexError, ValueError):
        return None


def check_of(pid: int) -> tuple[str, str] | None:
    """The crate and the kind of a check, from its words and its folder."""
    try:
        with open(f"/proc/{pid}/cmdline", "rb") as file:
            words = file.read().decode(errors="replace").split("\0")
        room = os.readlink(f"/proc/{pid}/cwd")
    except OSError:
        return None
    if not words[0].endswith("rattle") or "--crate-name" not in words:
        return None
    name = words[words.index("--crate-name") + 1]
    if "rt-edit-" in room or "/edits-" in room:
        return name, "edits"
    return name, "tests" if "--test" in words else "proof"


class Checks:
    """The checks below a process, and the seconds that each has taken so far."""

    def __init__(self, top: int) -> None:
        self.top = top
        self.known: dict[tuple[int, str], tuple[str, str]] = {}
        self.taken: dict[tuple[int, str], float] = defaultdict(float)
        self.lasted: dict[tuple[int, str], float] = defaultdict(float)
        self.total = 0.0

    def sample(self) -> None:
        """Reads what each has taken by now."""
        stats = {int(word): stat for word in os.listdir("/proc") if word.isdigit() and (stat := stat_of(int(word)))}
        below = {self.top}
        while more := {pid for pid, (above, _, _) in stats.items() if above in below} - below:
            below |= more
        self.total = max(self.total, sum(stats[pid][1] for pid in below & stats.keys()))
        for pid in below & stats.keys():
            above, seconds, start = stats[pid]
            if (pid, start) not in self.known:
                found = check_of(pid)
                if not found or check_of(above):  # a copy of a check counts in the check that made it
                    continue
                self.known[pid, start] = found
            self.taken[pid, start] = max(self.taken[pid, start], seconds)
            self.lasted[pid, start] = now() - int(start) / TICK

    def minutes(self, of: dict[tuple[int, str], float]) -> dict[str, dict[str, float]]:
        """The minutes by crate and by kind: of what was taken, or of how long it lasted."""
        found: dict[str, dict[str, float]] = defaultdict(lambda: dict.fromkeys(KINDS, 0.0))
        for check, seconds in of.items():
            name, kind = self.known[check]
            found[name][kind] += seconds / 60
        return found


def watched(checks: Checks, is_over: Callable[[], bool]) -> None:
    """Samples the checks each second until the command is over."""
    while not is_over():
        checks.sample()
        time.sleep(1)


def row(name: str, taken: dict[str, float], lasted: dict[str, float]) -> str:
    """A row of the table: the minutes of a processor by kind and in all, and those of the clock."""
    figures = [it for of in (taken, lasted) for it in (*(of[kind] for kind in KINDS), sum(of.values()))]
    return f"{name:24}" + "".join(f"{it:8.1f}" for it in figures)


def table(checks: Checks) -> list[str]:
    """The rows of all crates, the dearest first, and of all together."""
    taken, lasted = checks.minutes(checks.taken), checks.minutes(checks.lasted)
    names = sorted(taken, key=lambda it: -sum(taken[it].values()))
    rows = [row(name, taken[name], lasted[name]) for name in names]
    taken_by_all, lasted_by_all = (
        {kind: sum(it[kind] for it in of.values()) for kind in KINDS} for of in (taken, lasted)
    )
    rows.append(row("all checks", taken_by_all, lasted_by_all))
    return [*rows, f"{'else':48}{(checks.total - sum(checks.taken.values())) / 60:8.1f}"]


def main() -> int:
    words = argparse.ArgumentParser(description=__doc__, formatter_class=argparse.RawDescriptionHelpFormatter)
    words.add_argument("--pid", type=int, help="the process of a gate that runs already")
    words.add_argument("command", nargs=argparse.REMAINDER)
    asked = words.parse_args()
    status = 0
    if asked.pid:
        top = stat_of(asked.pid)
        if not top:
            words.error(f"there is no process {asked.pid}")
        checks, began = Checks(asked.pid), int(top[2]) / TICK
        watched(checks, lambda: stat_of(asked.pid) is None)
    else:
        began = now()
        with subprocess.Popen(asked.command or [".ci/run"]) as ran:
            checks = Checks(ran.pid)
            watched(checks, lambda: ran.poll() is not None)
            status = ran.returncode
    head = "".join(f"{kind:>8}" for kind in (*KINDS, "all"))
    print(f"{'':24}{'minutes of a processor':>32}{'of the clock':>32}\n{'crate':24}{head}{head}")
    print("\n".join(table(checks)))
    print(f"from its begin to its end {(now() - began) / 60:.1f} minutes of the clock")
    return status


if __name__ == "__main__":
    sys.exit(main())
