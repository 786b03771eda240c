"""Tests of the reference: python3 -m reference.tests. Its lines are those of the rows of crates/giop_stream_rows, whose signature
files have each form of a type; also where their streams end early. And those of the captures in checks/data, each with the
octet of the capture with which it is due."""

from __future__ import annotations

import re
import unittest
from pathlib import Path
from typing import Iterator, List, NamedTuple

from .rows import REFUSED, said_of, told_rows
from .signatures import requests_of, table_of
from .stream import Known, dump

TOP = Path(__file__).resolve().parent.parent
ROWS = TOP / "crates/giop_stream_rows/stdin"
CAPTURES = [TOP / "checks/data" / f"captures-{name}" for name in ("worked.json", "generated.json.xz", "real.json.xz")]


class Row(NamedTuple):
    """A stream with its lines, what is known of it, and how it ends after 0, 1, 2, .. octets, in words of crates/giop_stream_rows."""

    name: str
    known: Known
    stream: bytes
    lines: List[str]
    early: List[str]


def rows() -> Iterator[Row]:
    """The rows of streams."""
    for part in ROWS.read_text().split("\n=\n"):
        files, *others = part.strip("\n").split("\n\n")
        signatures, _, requests = ("\n" + files + "\n").partition("\nrequests\n")
        listed = re.sub(r"(?m)^(\d+)\.\.(\d+) (.*)$", spread, requests)
        table = table_of(signatures.encode()) if signatures.strip() else Known().table
        for other in others:
            if "\nlines\n" in other + "\n" and "\ncheckpoint\n" not in other:
                yield row(other, Known(table, requests_of(listed.encode())))


def spread(ids: re.Match[str]) -> str:
    """A line for each of the request ids."""
    return "\n".join(f"{each} {ids[3]}" for each in range(int(ids[1]), int(ids[2]) + 1))


def row(text: str, known: Known) -> Row:
    head, _, lines = (text + "\n").partition("\nlines\n")
    name, _, *others = head.split("\n")
    told = dict(line.split(" ", 1) for line in others if line.startswith(("open ", "early ", "checkpoints ")))
    digits = "".join(line for line in others if line.split(" ", 1)[0] not in told)
    known = Known(known.table, known.requests, int(told.get("open", known.most)))
    return Row(name, known, bytes.fromhex(digits), lines.splitlines(), told.get("early", "").split())


def endings(row: Row) -> Iterator[List[str]]:
    """The lines of the fronts of a stream, by the words of its row."""
    place = 0
    for word in row.early:
        found = re.fullmatch(r"(\d+):(\d+)\.(\d+)(t?)(?:u([\d,]+))?(?:@(\d+))?(?:\*(\d+))?", word)
        assert found, word
        for _ in range(int(found[7] or 1)):
            lines = row.lines[: int(found[1])] + ([f"stream fault truncated at {place}"] if found[4] else [])
            lines += [f"m{number} unfinished" for number in found[5].split(",")] if found[5] else []
            yield lines + [f"total messages {found[2]} faults {found[3]} octets {found[6] or place}"]
            place += 1


class Rows(unittest.TestCase):
    """The rows of crates/giop_stream_rows."""

    def test_lines(self) -> None:
        count = 0
        for count, row in enumerate(rows(), 1):
            with self.subTest(row.name):
                self.assertEqual(dump(row.stream, row.known), row.lines)
        self.assertGreater(count, 2000)
        print(f"{count} streams of {ROWS.relative_to(TOP)}")

    def test_fronts(self) -> None:
        count = 0
        for row in list(rows())[::20]:
            for at, lines in enumerate(endings(row)):
                count += 1
                with self.subTest(f"{row.name}, {at} octets"):
                    self.assertEqual(dump(row.stream[:at], row.known), lines)
        print(f"{count} fronts of them")


class Captures(unittest.TestCase):
    """The rows of checks/data."""

    def test_lines(self) -> None:
        told = [row for file in CAPTURES for row in told_rows(file) if row["status"] not in REFUSED]
        for row in told:
            with self.subTest(row["name"]):
                self.assertEqual(said_of(row), (row["lines"], row["notices"], row["status"]))
        self.assertGreater(len(told), 500)
        print(f"{len(told)} captures")


if __name__ == "__main__":
    unittest.main()
