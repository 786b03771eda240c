"""Dumps a stream as giopdump does: python3 -m reference [--signatures FILE] [--requests FILE] [--open N] STREAM. The files
have to be valid, and the status is 1 where a fault was counted."""

from __future__ import annotations

import argparse
import sys
from pathlib import Path

from .signatures import Table, requests_of, table_of
from .stream import MOST_OPEN, Known, dump


def main() -> int:
    parser = argparse.ArgumentParser(prog="reference", description=__doc__)
    parser.add_argument("--signatures", type=Path)
    parser.add_argument("--requests", type=Path)
    parser.add_argument("--open", type=int, default=MOST_OPEN)
    parser.add_argument("stream", type=Path)
    words = parser.parse_args()
    table = table_of(words.signatures.read_bytes()) if words.signatures else Table()
    requests = requests_of(words.requests.read_bytes()) if words.requests else {}
    lines = dump(words.stream.read_bytes(), Known(table, requests, words.open))
    print("\n".join(lines))
    return 1 if lines[-1].split()[4] != "0" else 0


if __name__ == "__main__":
    sys.exit(main())
