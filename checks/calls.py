"""Fails each open, read, write, sync and rename of the program in turn, and all from it on, and cuts reads and writes
short: what is written is a front of what it always is, and the status and the text on standard error say what failed. A
file that isn't saved is what it was, and none stands beside it. A call that is interrupted is made again, and a read or
write that always is has failed."""

from __future__ import annotations

import errno
import sys
from typing import Tuple

from failing import Case, Differences, Ended, cases, run

ERRORS = (errno.EIO, errno.ENOSPC, errno.EAGAIN)
ON = 2**63
# How often a call is interrupted that is to go on: less often than any reader or writer of the program gives up after.
INTERRUPTIONS = 50
# Opens and syncs the kit tries again without an end, so they are not interrupted more often.
OFTEN = 2**17
FAILED = {
    "open": (b"cannot read\n", b"cannot write\n"),
    "read": (b"cannot read\n", b"PROGRAM: read failed\n"),
    "write": (b"PROGRAM: write failed\n", b"cannot write\n", b""),
    "sync": (b"cannot write\n",),
    "rename": (b"cannot write\n",),
}


def is_told(case: Case, call: str, ended: Ended, usual: Ended) -> bool:
    """Whether what was written is a front of the usual lines, and the failure is told, unless it was of telling."""
    if not usual.lines.startswith(ended.lines):
        return False
    failures = [said.replace(b"PROGRAM", case.program.name.encode()) for said in FAILED[call]]
    is_failed = ended.is_as_before(case) and ended.status == 4 and any(map(ended.said.endswith, failures))
    if ended.status == usual.status and ended.lines == usual.lines and ended.files == usual.files:
        # Where a file can't be read anyway, the reason may be another.
        is_front = call == "write" and usual.said.startswith(ended.said)
        return ended.said == usual.said or is_front or call == "open" and is_failed
    return is_failed


def fail_each(library: str, case: Case, call: str, usual: Ended, seen: Differences) -> None:
    for at in range(1, usual.calls.get(call, 0) + 1):
        for error in ERRORS:
            for last, which in ((at, "alone"), (ON, "and all behind it")):
                ended = run(library, case, call, at=at, last=last, how=error)
                as_wanted = is_told(case, call, ended, usual) and ended.touched > 0
                seen.note(as_wanted, f"{case.name}: {call} {at} {which}, {errno.errorcode[error]}", ended)


def interrupt_each(library: str, case: Case, call: str, usual: Ended, seen: Differences) -> None:
    for at in range(1, usual.calls.get(call, 0) + 1):
        for times in (1, INTERRUPTIONS):
            ended = run(library, case, call, at=at, last=at + times - 1, how=errno.EINTR)
            as_wanted = ended.usual() == usual.usual() and ended.touched == times
            seen.note(as_wanted, f"{case.name}: {call} {at} interrupted {times} times", ended)
        last = ON if call in ("read", "write") else at + OFTEN - 1
        ended = run(library, case, call, at=at, last=last, how=errno.EINTR)
        seen.note(is_told(case, call, ended, usual), f"{case.name}: {call} {at} and all behind it interrupted", ended)


def cut_each(library: str, case: Case, call: str, usual: Ended, seen: Differences) -> None:
    for at, last, cut in [(at, at, 1) for at in range(1, usual.calls.get(call, 0) + 1)] + cuts():
        ended = run(library, case, call, at=at, last=last, cut=cut, seed=cut)
        seen.note(ended.usual() == usual.usual(), f"{case.name}: {call} {at}, at most {cut} octets", ended)


def cuts() -> "list[Tuple[int, int, int]]":
    """All calls, each cut to at most so many octets."""
    return [(1, ON, cut) for cut in (1, 2, 3, 7, 64, 1000)]


def fail_all(library: str, case: Case, seen: Differences) -> str:
    """How many calls of each sort the case makes."""
    usual = run(library, case)
    seen.note_usual(case, usual)
    for call in FAILED:
        fail_each(library, case, call, usual, seen)
    for call in ("open", "read", "write", "sync"):
        interrupt_each(library, case, call, usual, seen)
    for call in ("read", "write"):
        cut_each(library, case, call, usual, seen)
    return "/".join(str(usual.calls.get(call, 0)) for call in FAILED)


def main(library: str) -> int:
    seen = Differences()
    counted = [fail_all(library, case, seen) for case in cases()]
    print(
        f"opens/reads/writes/syncs/renames: {', '.join(f'{case.name} {made}' for case, made in zip(cases(), counted))}"
    )
    print(f"{seen.runs} runs, {seen.differ} differ")
    return seen.status()


if __name__ == "__main__":
    sys.exit(main(sys.argv[1]))
