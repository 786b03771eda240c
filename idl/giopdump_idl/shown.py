"""How words of the command line and names are printed."""

from __future__ import annotations

import os


def shown(text: str) -> str:
    """A text in octets that any terminal shows: one outside 20 to 7e is \\xHH."""
    return "".join(chr(octet) if 0x20 <= octet <= 0x7E else f"\\x{octet:02x}" for octet in os.fsencode(text))
