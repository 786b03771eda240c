"""Rows of giop_stream_rows as inputs of the program, and the two real connections among them."""

from __future__ import annotations

import tempfile
from pathlib import Path
from typing import Tuple

TOP = Path(__file__).resolve().parent.parent


def row(name: str) -> Tuple[str, str, bytes]:
    """The signature file, the request list and the octets of a row of giop_stream_rows."""
    for rows in (TOP / "crates/giop_stream_rows/stdin").read_text().split("\n=\n"):
        files, *others = rows.split("\n\n")
        for other in others:
            if other.startswith(f"{name}\n"):
                signatures, requests = files.split("requests\n") if "requests\n" in files else (files[:-8], "")
                lines = other.partition("\nlines\n")[0].splitlines()[2:]
                digits = "".join(line for line in lines if not line.startswith(("open ", "early ", "checkpoints ")))
                return signatures, requests, bytes.fromhex(digits)
    raise LookupError(name)


# What an omniORB client and server sent each other over two connections, of GIOP 1.0 and of GIOP 1.2.
SIDES = ("requests of an omniORB client", "replies of an omniORB server")
CONNECTIONS = [
    row(f"{side}, GIOP {version}, {part} part")
    for version in ("1.0", "1.2")
    for side in SIDES
    for part in ("first", "second")
]

# Their octets one after the other, and the words that name their signature file, and that and their request list.
TOUR = b"".join(octets for _, _, octets in CONNECTIONS)
FOLDER = tempfile.TemporaryDirectory()
FILES = [Path(FOLDER.name, name) for name in ("tour.sig", "tour.requests")]
for file, text in zip(FILES, CONNECTIONS[0][:2]):
    file.write_text(text)
TOUR_TYPES = ("--signatures", str(FILES[0]))
TOUR_WORDS = (*TOUR_TYPES, "--requests", str(FILES[1]))
