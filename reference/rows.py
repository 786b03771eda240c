"""The rows of captures in checks/data: what they hold, and their lines by the reading of this folder. Written anew, with the
captures, words and signatures that they have, by

    python3 -m reference.rows FILE ..
"""

from __future__ import annotations

import json
import lzma
import sys
from pathlib import Path
from typing import Any, Dict, List, Tuple

from .captures import Dumped, dump_capture, words_of
from .signatures import Table, table_of

REFUSED = (2, 3)  # the statuses of rows in which no capture is read: of their words, and of their signatures


def octets_of(capture: str) -> bytes:
    """The octets of hexadecimal words, each of which may have how often it stands after it."""
    parts = (word.partition("*") for word in capture.split())
    return b"".join(bytes.fromhex(digits) * int(times or 1) for digits, _, times in parts)


def told_rows(file: Path) -> List[Dict[str, Any]]:
    """The rows of a file."""
    octets = file.read_bytes()
    found: List[Dict[str, Any]] = json.loads(lzma.decompress(octets) if file.suffix == ".xz" else octets)
    return found


def dumped_row(row: Dict[str, Any]) -> Dumped:
    """What is said of a row's capture."""
    words, _ = words_of([*row["words"], "capture"])
    words.table = table_of(row["signatures"].encode()) if row["signatures"] else Table()
    return dump_capture(octets_of(row["capture"]), words)


def said_of(row: Dict[str, Any]) -> Tuple[Dict[str, List[str]], List[str], int]:
    """The lines of a row by the octet with which they are due, the notices on standard error, and the status."""
    dumped = dumped_row(row)
    lines: Dict[str, List[str]] = {}
    for at, line in dumped.lines:
        lines.setdefault("end" if at is None else str(at), []).append(line)
    return lines, dumped.notices, int(dumped.is_faulted)


def made_anew(file: Path) -> None:
    """Writes a file's rows with the lines of this reading."""
    rows = told_rows(file)
    for row in rows:
        if row["status"] not in REFUSED:
            row["lines"], row["notices"], row["status"] = said_of(row)
    if file.suffix == ".xz":
        file.write_bytes(lzma.compress(json.dumps(rows).encode()))
    else:
        file.write_text(json.dumps(rows, indent=0) + "\n")


if __name__ == "__main__":
    for name in sys.argv[1:]:
        made_anew(Path(name))
