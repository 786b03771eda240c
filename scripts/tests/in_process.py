"""Runs giop-stat, giop-chart and giop-keys within the tests."""

from __future__ import annotations

import re
import subprocess
from pathlib import Path

HERE = Path(__file__).resolve().parent
SCRIPTS = HERE.parent
SESSION = HERE / "session.lines"  # the lines of session.pcap, as giopcap writes them
PROGRAMS = ("giop-stat", "giop-chart")


class Refused(Exception):
    """A line that no dump has."""

    def __init__(self, number: int) -> None:
        super().__init__(number)
        self.number = number


def printed(program: str, lines: str, *words: str) -> str:
    """What a program prints of lines: ASCII that can be printed; raises Refused."""
    command = [str(SCRIPTS / program), *words]
    done = subprocess.run(command, input=lines.encode(), capture_output=True, timeout=60)
    said, text = done.stderr.decode(), done.stdout.decode("ascii")
    assert text.replace("\n", " ").isprintable(), text
    if done.returncode == 3:
        found = re.fullmatch(rf"{program}: standard input:(\d+): no dump has this line\n", said)
        assert found, said
        raise Refused(int(found[1]))
    assert (done.returncode, said) == (0, ""), done
    return text
