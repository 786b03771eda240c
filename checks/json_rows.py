"""The rows of giop-json in checks/data/json-rows.txt: each is run, and what is written, the status and what is said are
compared; and the words, files and outputs of the program."""

from __future__ import annotations

import json
import re
import shlex
import subprocess
from dataclasses import dataclass, field
from typing import Any, Iterator, List, Sequence, Tuple

from failing import TOP

GIOP_JSON = TOP / "crates/giop_json/out/giop_json"
ROWS = TOP / "checks/data/json-rows.txt"
CAPTURE = TOP / "examples/session.pcap"
START = "m1 start 1.2 big Reply size 9"
MEMBERS = '{"message":1,"version":"1.2","order":"big","type":"Reply","size":9'

# The members of a call, in their order (docs/FORMATS.md, Calls).
CALL = """
request_time seconds client client_port server server_port object interface operation outcome exception
arguments result raised forward request_rest reply_rest request_fault reply_fault request_id version connection
request_stream request_message request_packet request_octets reply_stream reply_message reply_packet reply_octets
reply_time cut
""".split()


@dataclass
class Row:
    """A row: lines, and what giop-json does with them."""

    name: str
    words: List[str] = field(default_factory=list)
    lines: List[str] = field(default_factory=list)
    objects: List[str] = field(default_factory=list)
    status: int = 0
    said: List[str] = field(default_factory=list)

    def take(self, line: str) -> bool:
        """Takes a line of the row; tells whether it is one of values."""
        if line.startswith("words: "):
            self.words = shlex.split(line[7:])
        elif line.startswith("status "):
            self.status = int(line[7:])
        elif line.startswith("said "):
            self.said.append(line[5:])
        elif line.startswith("< "):
            self.lines.append(line[2:])
        elif line.startswith("> "):
            self.objects.append(line[2:])
        elif line.startswith("=>"):
            members = line[3:]
            self.objects.append(MEMBERS + ("," if members else "") + members + "}")
        else:
            self.lines.append(f"m1 {line}")
            return True
        return False


def rows() -> Iterator[Row]:
    """The rows, in their order."""
    for block in ROWS.read_text().split("\n\n")[1:]:
        name, *lines = block.strip("\n").split("\n")
        row = Row(name[2:])
        if any([row.take(line) for line in lines]):
            is_faulty = any(" fault " in line for line in row.lines)
            row.lines = [START, *row.lines, *([] if is_faulty else ["m1 end"])]
        yield row


def written(lines: str, *words: str) -> subprocess.CompletedProcess[str]:
    """What giop-json writes of lines: ASCII that can be printed."""
    done = subprocess.run([GIOP_JSON, *words], input=lines.encode("latin-1"), capture_output=True, timeout=60)
    text, said = done.stdout.decode("ascii"), done.stderr.decode("ascii")
    assert text.replace("\n", " ").isprintable(), text
    return subprocess.CompletedProcess(done.args, done.returncode, text, said)


def value_of(text: str) -> Any:
    """What a text of JSON is, its members in their order."""
    return json.loads(text, object_pairs_hook=lambda members: ("object", members))


def differs(row: Row) -> List[str]:
    """What is otherwise than the row says."""
    done = written("".join(f"{line}\n" for line in row.lines), *row.words)
    said = [re.sub(r"^giop-json: (standard input:)?", "", line) for line in done.stderr.splitlines()]
    wrong = []
    if (done.returncode, said) != (row.status, row.said):
        wrong.append(f"  status {done.returncode}, said {said}")
    found = done.stdout.splitlines()
    wanted = [called(line) if "--calls" in row.words else line for line in row.objects]
    if list(map(value_of, found)) != list(map(value_of, wanted)):
        wrong += [f"  is     {line}" for line in found] + [f"  wanted {line}" for line in wanted]
    return wrong


def called(line: str) -> str:
    """The object of a call, with the members that its row doesn't give, in their order."""
    given = json.loads(line)
    assert set(given) <= set(CALL), line
    return json.dumps({name: given.get(name, False if name == "cut" else None) for name in CALL})


def check_rows() -> int:
    """Runs the rows; gives how many there are."""
    count = 0
    for row in rows():
        wrong = differs(row)
        assert not wrong, "\n".join([row.name, *wrong])
        count += 1
    return count


def objects(lines: Sequence[str], *words: str) -> List[Any]:
    """The objects of lines that are those of a dump."""
    done = written("".join(f"{line}\n" for line in lines), *words)
    assert done.returncode == 0, done.stderr
    return [json.loads(line) for line in done.stdout.splitlines()]


# Words, and the status and the text on standard error.
CASES: List[Tuple[List[str], int, str]] = [
    (["no/such\x1b\nfile"], 4, "giop-json: no/such\\x1b\\x0afile: cannot read\n"),
    (["/"], 4, "giop-json: read failed\n"),
    (["-"], 4, "giop-json: -: cannot read\n"),
    ([str(ROWS)], 3, f"giop-json: {ROWS}:1: no dump has this line\n"),
    ([str(CAPTURE)], 3, f"giop-json: {CAPTURE}:1: no dump has this line: a capture\n"),
]
WRONG_WORDS = [["--jso"], ["a", "b"], ["--text", "ascii"], ["--hold", "0"], ["--hold", "16777217"], ["--\x1b\n"]]


def check_program() -> int:
    """Runs the program with words, files and outputs; gives how often."""
    for words, status, said in CASES:
        done = written("", *words)
        assert (done.returncode, done.stderr, done.stdout) == (status, said, ""), done
    for words in WRONG_WORDS:
        done = written("", *words)
        assert done.returncode == 2 and done.stderr.replace("\n", " ").isprintable() and not done.stdout, done
    for word, begins in (("--help", "Writes the lines"), ("--version", "giop-json ")):
        done = written("", word)
        assert done.returncode == 0 and done.stdout.startswith(begins) and not done.stderr, done
    done = written('m1 end\nm2 body.a string @0 "' + 200_000 * "a")
    assert (done.returncode, done.stderr) == (3, "giop-json: standard input:2: no dump has this line\n"), done
    lines = "m1 start 1.0 big Request size 4\nm1 end\n"
    with open("/dev/full", "wb") as full:
        full_done = subprocess.run([GIOP_JSON], input=lines.encode(), stdout=full, stderr=subprocess.PIPE, timeout=60)
    assert (full_done.returncode, full_done.stderr) == (4, b"giop-json: write failed\n"), full_done
    command = f"yes '{lines.splitlines()[0]}' | {{ {GIOP_JSON}; echo $? >&2; }} | head -n 1"
    piped = subprocess.run(["bash", "-c", command], capture_output=True, timeout=60)
    assert (piped.stdout.count(b"\n"), piped.stderr.split(b"\n")[0]) == (1, b"4"), piped
    return len(CASES) + len(WRONG_WORDS) + 5
