"""The rows of giop-stat in checks/data/stat-rows.txt: each is run, and what its JSON object has is compared; and the words,
times, files and outputs of the program."""

from __future__ import annotations

import json
import os
import shlex
import subprocess
from typing import Any, Iterator, List, Tuple

from failing import TOP

GIOP_STAT = TOP / "crates/giop_stat/out/giop_stat"
ROWS = TOP / "checks/data/stat-rows.txt"
CAPTURE = TOP / "examples/session.pcap"

Row = Tuple[str, List[str], List[str], List[str]]


def rows() -> Iterator[Row]:
    """The rows in their order: name, words, lines, and what is wanted."""
    for block in ROWS.read_text().split("\n\n")[1:]:
        name, *lines = block.strip("\n").split("\n")
        words = [word for line in lines if line.startswith("words: ") for word in shlex.split(line[7:])]
        wanted = [line for line in lines if not line.startswith(("words: ", "< "))]
        yield name[2:], words, [line[2:] for line in lines if line.startswith("< ")], wanted


def counted(lines: str, *words: str) -> subprocess.CompletedProcess[str]:
    """What giop-stat prints of lines: ASCII that can be printed."""
    done = subprocess.run([GIOP_STAT, *words], input=lines.encode("latin-1"), capture_output=True, timeout=60)
    text, said = done.stdout.decode("ascii"), done.stderr.decode("ascii")
    assert text.replace("\n", " ").isprintable(), text
    return subprocess.CompletedProcess(done.args, done.returncode, text, said)


def found_at(told: Any, path: str) -> Any:
    """What stands at a path, whose parts may have points themselves."""
    keys = path.split(".")
    while keys:
        for count in range(len(keys), 0, -1):
            key = ".".join(keys[:count])
            if isinstance(told, list) and count == 1:
                told = told[int(key)]
            elif isinstance(told, dict) and key in told:
                told = told[key]
            else:
                continue
            keys = keys[count:]
            break
        else:
            raise AssertionError(path)
    return told


def check_stat_rows() -> int:
    """Runs the rows; gives how many there are."""
    number = 0
    for name, words, lines, wanted in rows():
        done = counted("".join(f"{line}\n" for line in lines), "--json", *words)
        assert (done.returncode, done.stderr) == (0, ""), (name, done)
        told = json.loads(done.stdout)
        for each in wanted:
            path, _, value = each.partition(" = ")
            assert found_at(told, path) == json.loads(value), (name, each, found_at(told, path))
        number += 1
    return number


# Words, and the status and the text on standard error.
CASES: List[Tuple[List[str], int, str]] = [
    (["no/such\x1b\nfile"], 4, "giop-stat: no/such\\x1b\\x0afile: cannot read\n"),
    (["/"], 4, "giop-stat: read failed\n"),
    ([str(ROWS)], 3, f"giop-stat: {ROWS}:1: no dump has this line\n"),
    ([str(CAPTURE)], 3, f"giop-stat: {CAPTURE}:1: no dump has this line: a capture\n"),
]
KEYS = ("", "body", "exception.a", "header.", "body.a b", "body[", "body[x]", "footer.a", "body\n.a", "Client")
TIMES = (
    "",
    "8",
    "08:1",
    "24-11-23",
    "08:13:25.",
    "08:13:25.1234567890",
    "2026-11-23",
    "2026-11-23T",
    "yesterday",
    "\x1b",
)
TAKEN = ("08", "08:13", "08:13:25", "08:13:25.5", "08:13:25.123456789Z", "2026-11-23T08", "2026-11-23T08:13:25.58Z")
WRONG_WORDS = [["--jso"], ["a", "b"], ["--by"], ["--\x1b\n"], ["--most", "1"]]


def check_stat_program() -> int:
    """Runs the program with words, files and outputs; gives how often."""
    for words, status, said in CASES:
        done = counted("", *words)
        assert (done.returncode, done.stderr) == (status, said), done
    wrong = [*WRONG_WORDS, *(["--by", key] for key in KEYS)]
    wrong += [[option, time] for option in ("--from", "--to") for time in TIMES]
    for words in wrong:
        done = counted("", *words)
        assert done.returncode == 2 and done.stderr.replace("\n", " ").isprintable() and not done.stdout, done
    taken = [["--by", key] for key in ("client", "server", "object", "body.command", "header.a[0].b", "body[7]")]
    taken += [[option, time] for option in ("--from", "--to") for time in TAKEN]
    for words in taken:
        done = counted("", *words)
        assert (done.returncode, done.stderr, done.stdout) == (0, "", ""), done
    for word, begins in (("--help", "Counts the calls"), ("--version", "giop-stat ")):
        done = counted("", word)
        assert done.returncode == 0 and done.stdout.startswith(begins) and not done.stderr, done
    done = counted('m1 end\nm2 body.a string @0 "' + 200_000 * "a")
    assert (done.returncode, done.stderr) == (3, "giop-stat: standard input:2: no dump has this line\n"), done
    with open("/dev/full", "wb") as full:
        full_done = subprocess.run([GIOP_STAT, "--json"], input=b"", stdout=full, stderr=subprocess.PIPE, timeout=60)
    assert (full_done.returncode, full_done.stderr) == (4, b"giop-stat: write failed\n"), full_done
    reader, writer = os.pipe()
    os.close(reader)
    gone = subprocess.run([GIOP_STAT, "--json"], input=b"", stdout=writer, stderr=subprocess.PIPE, timeout=60)
    os.close(writer)
    assert (gone.returncode, gone.stderr) == (4, b""), gone
    return len(CASES) + len(wrong) + len(taken) + 5
