"""Refuses each of the program's requests for memory in turn, and all from it on: it writes what it always does, or says
that there is no memory and writes no line. None is made once the first octets of standard input are read."""

from __future__ import annotations

import sys
import tempfile
from pathlib import Path
from typing import List

from failing import CHECKPOINT, Case, Differences, Ended, cases, checkpoint_of, run
from rows import row

# Rows of giop_stream_rows: one of a union in its own types, one of a reply by a request list, and two Requests in fragments.
ROWS = (
    "a union, a struct with an array, and a bounded sequence",
    "results of the operation that the list has",
    "two fragmented Requests, one inside the other",
)


def worked(folder: Path) -> List[Case]:
    """The rows, whole and in two parts, with their files in this folder."""
    made = []
    many = ("--open", "4096")
    front, rest = (row(ROWS[-1])[2][at:end] for at, end in ((0, 30), (30, None)))
    made.append(Case("room for 4,096 open messages", many, front + rest))
    made.append(Case("their front", (*many, "--save", CHECKPOINT), front))
    made.append(Case("their rest", ("--resume", CHECKPOINT), rest, 0, checkpoint_of(many, front)))
    for number, name in enumerate(ROWS):
        signatures, requests, octets = row(name)
        files = (folder / f"{number}.sig", folder / f"{number}.req")
        for file, text in zip(files, (signatures, requests)):
            file.write_text(text)
        words = ("--signatures", str(files[0]), "--requests", str(files[1]))
        front = octets[: 2 * len(octets) // 3]
        kept = checkpoint_of(words, front)
        made.append(Case(name, words, octets))
        made.append(Case(f"{name}, its front", (*words, "--save", CHECKPOINT), front))
        made.append(Case(f"{name}, its rest", (*words, "--resume", CHECKPOINT), octets[len(front) :], 0, kept))
    return made


def has_no_memory(case: Case, ended: Ended) -> bool:
    """Whether it is told that there is no memory, and nothing is written or saved."""
    said = f"{case.program.name}: out of memory\n".encode()
    return (ended.lines, ended.said, ended.status) == (b"", said, 5) and ended.is_as_before(case)


def refuse_each(library: str, case: Case, seen: Differences) -> int:
    """How many requests the case makes."""
    usual = run(library, case)
    seen.note_usual(case, usual)
    seen.note(usual.calls.get("late") == 0, f"{case.name}: a request behind the first read of standard input", usual)
    requests = usual.calls.get("memory", 0)
    for at in range(1, requests + 1):
        for last, which in ((at, "alone"), (2**63, "and all behind it")):
            ended = run(library, case, "memory", at=at, last=last)
            may_be = (ended.usual() == usual.usual() or has_no_memory(case, ended)) and ended.touched > 0
            seen.note(may_be, f"{case.name}: request {at} {which}", ended)
    return requests


def main(library: str) -> int:
    seen = Differences()
    with tempfile.TemporaryDirectory() as folder:
        tried = cases() + worked(Path(folder)) + [Case("help", ("--help",))]
        requests = [refuse_each(library, case, seen) for case in tried]
    made = ", ".join(f"{case.name} {made}" for case, made in zip(tried, requests))
    print(f"requests for memory: {made}")
    print(f"{2 * sum(requests)} runs in which they were refused, {seen.differ} differ")
    return seen.status()


if __name__ == "__main__":
    sys.exit(main(sys.argv[1]))
