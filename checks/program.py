"""Runs the built dumper on files: what it writes and says, its status, and the files that it leaves.

What is expected is what docs/FORMATS.md and the manual page say; what is wrong with the words is told in the words of clap.
The cases of a list run in order in one folder, so that later ones go on from what earlier ones saved. A list runs twice: with
each stream as a file, while standard input has octets that nothing may read, and on standard input, where it can be opened.
"""

from __future__ import annotations

import os
import re
import subprocess
import sys
import tempfile
from dataclasses import dataclass
from pathlib import Path
from typing import Dict, List, Optional, Tuple

from failing import EXAMPLES, GIOPCAP, PROGRAM, SECONDS, THIRD_LAYOUT

LAB = "signatures 1;\noperation void set(in long v);\noperation long ask(in long a, out octet b);\n"

# The greatest number of octets of a signature file, and of entries of a request list.
SIGNATURES = 2**20
ENTRIES = 2**16

TEXTS = {
    **{name: (EXAMPLES / name).read_text() for name in ("naming.sig", "event.sig", "notification.sig")},
    "lab.sig": LAB,
    "third.sig": LAB.replace("1;", "3;", 1),
    "most.sig": LAB.ljust(SIGNATURES, "\n"),
    "long.sig": LAB.ljust(SIGNATURES + 1, "\n"),
    "twice.sig": "signatures 1;\n" + "".join(f"operation void {name}();\n" for name in "abcdea"),
    "most.req": "".join(f"{number} ask\n" for number in range(ENTRIES)),
    "many.req": "".join(f"{number} ask\n" for number in range(ENTRIES + 1)),
    "lab.req": "1 ask\n",
    "of.req": "1 ask IDL:A:1.0\n",
    "wrong.sig": "signatures 1;\nstruct A {\n  B b;\n};\n",
    "wrong.req": "1 ask\n01 ask\n",
    "empty.txt": "",
    "-": "signatures 1;\noperation void set(in long v);\n",
}


def fixed(
    text: str = "GIOPDUMP",
    version: int = 3,
    counts: Tuple[int, int, int, int] = (0, 0, 0, 0),
    octets: int = 0,
    messages: int = 0,
    faults: int = 0,
    place: str = "00000000",
    most: str = "00000010 ffffffff",
) -> bytes:
    """The fixed part of a checkpoint without records. `counts` are the types, operations, exceptions and ids. `place` is the
    octets from 56 on: the place, its fault, how many octets of a header were read, a zero, and from 60 on that header; `most`
    is 80 to 87, how many messages may be open, and the record in use."""
    numbers = b"".join(number.to_bytes(4, "big") for number in (version, *counts, 0))
    totals = b"".join(number.to_bytes(8, "big") for number in (octets, messages, faults))
    front = text.encode() + numbers + totals + bytes.fromhex(place)
    return front.ljust(80, b"\0") + bytes.fromhex(most).ljust(16, b"\0")


def second(octets: int = 0) -> bytes:
    """A fixed part of layout 2."""
    return fixed(version=2, octets=octets, place="000000ff", most="")


LIMIT = 2**48

OCTETS = {
    "half.giop": b"GIOP\x01",
    "close.giop": bytes.fromhex("47494f50 0100 00 05 00000000"),
    "set.giop": bytes.fromhex(
        "47494f50 0100 00 00 00000024 00000000 00000007 01 000000 00000002 6b31 0000"
        "00000004 73657400 00000000 fffffffb"
    ),
    "ask.giop": bytes.fromhex("47494f50 0100 00 01 00000011 00000000 00000001 00000000 0000002a 09"),
    "locate.giop": bytes.fromhex("47494f50 0102 00 04 00000014 00000001 00000002 00000001 00 000000 00000000"),
    "wrong.giop": b"GIOQ",
    "--help": b"GIOQ",
    "set1.giop": bytes.fromhex("47494f50 0100 00 00 00000024 00000000 00000007"),
    "set2.giop": bytes.fromhex("01 000000 00000002 6b31 0000 00000004 73657400 00000000"),
    "set3.giop": bytes.fromhex("fffffffb"),
    "long.check": second() + b"\0",
    "magic.check": fixed(text="GIOPDUMQ", version=9),
    "version.check": fixed(version=9, counts=(1, 0, 0, 0)),
    "state.check": second(octets=LIMIT + 2),
    "limit.check": second(octets=LIMIT),
}

# What stands on standard input where nothing may read it: it would be dumped as a stream fault at 2.
UNREAD = b"GX"

CLOSE = """\
m1 start 1.0 big CloseConnection size 0
m1 end
total messages 1 faults 0 octets 12
"""

SET_1 = """\
m1 start 1.0 big Request size 36
m1 header.service_contexts count 0
m1 header.request_id ulong 7
"""

SET_2 = """\
m1 header.response_expected boolean true
m1 header.object_key octets @0 6b31
m1 header.operation string @0 "set"
m1 call 7 set
m1 header.requesting_principal octets @0
"""

SET_3 = """\
m1 body.v long -5
m1 end
total messages 1 faults 0 octets 48
"""

# The third part without types, after a CloseConnection.
REST_3 = """\
m2 rest @0 fffffffb
m2 end
total messages 2 faults 0 octets 60
"""

ASK = """\
m1 start 1.0 big Reply size 17
m1 header.service_contexts count 0
m1 header.request_id ulong 1
m1 header.reply_status enum NO_EXCEPTION
"""

ANSWERED = """\
m1 body.return long 42
m1 body.b octet 9
m1 end
total messages 1 faults 0 octets 29
"""

UNANSWERED = """\
m1 rest @0 0000002a09
m1 end
total messages 1 faults 0 octets 29
"""

LOCATED = """\
m1 start 1.2 big LocateReply size 20
m1 header.request_id ulong 1
m1 header.locate_status enum OBJECT_FORWARD
"""

PLACE = """\
m1 body.type_id string @0 ""
m1 body.profiles count 0
m1 end
total messages 1 faults 0 octets 32
"""

NO_PLACE = """\
m1 rest @0 000000010000000000000000
m1 end
total messages 1 faults 0 octets 32
"""

NOTHING = "total messages 0 faults 0 octets 0\n"
STOPPED = "stream fault magic at 4\n"
STOPPED_TOTAL = "total messages 0 faults 1 octets 4\n"
CUT = "stream fault truncated at 5\ntotal messages 0 faults 1 octets 5\n"


@dataclass(frozen=True)
class Case:
    """Words, and the stream after them, without one where the words name it or nothing is to be read; the status, what is
    said after the program's name, and the lines; what is saved under which name."""

    words: str
    stream: Optional[str] = None
    status: int = 0
    says: str = ""
    lines: str = ""
    saved: str = ""
    octets: Optional[bytes] = None


# The steps: the words, the types, the requests, the checkpoint, the stream, the run, the save. The first that fails decides.
# fmt: off
STEPS = [
    Case("--signatures lab.sig", "set.giop", lines=SET_1 + SET_2 + SET_3),
    Case("--signatures lab.sig --requests lab.req", "ask.giop", lines=ASK + ANSWERED),
    Case("--signatures lab.sig", "ask.giop", lines=ASK + UNANSWERED),
    Case("--requests empty.txt", "empty.txt", lines=NOTHING),
    Case("", "wrong.giop", 1, lines=STOPPED + STOPPED_TOTAL),
    Case("--signatures wrong.sig --requests lab.req", "set.giop", 3, "wrong.sig:3: unknown-type"),
    Case("--signatures empty.txt --requests lab.req", "set.giop", 3, "empty.txt:1: syntax"),
    Case("--signatures lab.sig --requests wrong.req", "set.giop", 3, "wrong.req:2: syntax"),
    Case("--types third.sig --requests of.req", "ask.giop", lines=ASK + ANSWERED),
    Case("--signatures third.sig --requests of.req", "ask.giop", 3, "third.sig:1: syntax"),
    Case("--signatures lab.sig --requests of.req", "ask.giop", 3, "of.req:1: syntax"),
    Case("--requests of.req", "ask.giop", 3, "of.req:1: syntax"),
    Case("--signatures twice.sig", "set.giop", 3, "twice.sig:7: duplicate"),
    Case("--signatures most.sig --requests lab.req", "ask.giop", lines=ASK + ANSWERED),
    Case("--signatures long.sig --requests lab.req", "ask.giop", 3, "long.sig:1: limit"),
    Case("--signatures /dev/zero --requests lab.req", "ask.giop", 3, "/dev/zero:1: limit"),
    Case("--signatures lab.sig --requests most.req", "ask.giop", lines=ASK + ANSWERED),
    Case("--signatures lab.sig --requests many.req", "ask.giop", 3, "many.req:65537: limit"),
    Case("--signatures lab.sig --requests /dev/zero", "ask.giop", 3, "/dev/zero:1: limit"),
    Case("--signatures missing.sig --requests lab.req", "set.giop", 4, "missing.sig: cannot read"),
    Case("--signatures lab.sig --requests missing.req", "set.giop", 4, "missing.req: cannot read"),
    Case("--signatures lab.sig --requests lab.req", "missing.giop", 4, "missing.giop: cannot read"),
    Case("--signatures . --requests lab.req", "set.giop", 4, ".: cannot read"),
    Case("--signatures lab.sig --requests lab.req", ".", 4, "read failed"),
    Case("--signatures wrong.sig --requests wrong.req", "missing.giop", 3, "wrong.sig:3: unknown-type"),
    Case("--signatures missing.sig --requests wrong.req", "missing.giop", 4, "missing.sig: cannot read"),
    Case("--signatures lab.sig --requests wrong.req", "missing.giop", 3, "wrong.req:2: syntax"),
    Case("--signatures lab.sig --save part.check", "set1.giop", lines=SET_1, saved="part.check"),
    Case("--signatures lab.sig --resume part.check --save part.check", "set2.giop", lines=SET_2, saved="part.check"),
    Case("--signatures lab.sig --save part.check", ".", 4, "read failed"),
    Case("--signatures wrong.sig --save part.check", "set.giop", 3, "wrong.sig:3: unknown-type"),
    Case("--signatures lab.sig --resume part.check", "set3.giop", lines=SET_3),
    Case("--resume part.check", "set3.giop", 3, "part.check: checkpoint refused: catalogue"),
    Case("--signatures lab.sig --requests lab.req --resume part.check", "set3.giop", 3,
         "part.check: checkpoint refused: catalogue"),
    Case("--types third.sig", "locate.giop", lines=LOCATED + PLACE),
    Case("--types third.sig", "set.giop", lines=SET_1 + SET_2 + SET_3),
    Case("--types lab.sig", "set.giop", lines=SET_1 + SET_2 + SET_3),
    Case("--types lab.sig", "locate.giop", lines=LOCATED + NO_PLACE),
    Case("--signatures third.sig", "locate.giop", 3, "third.sig:1: syntax"),
    Case("--types missing.sig", "locate.giop", 4, "missing.sig: cannot read"),
    Case("--types wrong.sig", "locate.giop", 3, "wrong.sig:3: unknown-type"),
    Case("--types third.sig --save third.check", "set1.giop", lines=SET_1, saved="third.check"),
    Case("--types third.sig --resume third.check --save third.check", "set2.giop", lines=SET_2, saved="third.check"),
    Case("--types third.sig --resume third.check", "set3.giop", lines=SET_3),
    Case("--types lab.sig --resume third.check", "set3.giop", 3, "third.check: checkpoint refused: version"),
    Case("--types third.sig --resume part.check", "set3.giop", 3, "part.check: checkpoint refused: version"),
    Case("--types third.sig --save types.check", "empty.txt", saved="types.check", octets=fixed(version=THIRD_LAYOUT, counts=(0, 2, 0, 0))),
    Case("--resume empty.txt", "empty.txt", 3, "empty.txt: checkpoint refused: length"),
    Case("--resume long.check", "empty.txt", 3, "long.check: checkpoint refused: length"),
    Case("--resume magic.check", "empty.txt", 3, "magic.check: checkpoint refused: magic"),
    Case("--resume version.check", "empty.txt", 3, "version.check: checkpoint refused: version"),
    Case("--resume state.check", "empty.txt", 3, "state.check: checkpoint refused: state"),
    Case("--resume state.check --save part.check", "missing.giop", 3, "state.check: checkpoint refused: state"),
    Case("--resume limit.check", "empty.txt", lines=f"total messages 0 faults 0 octets {LIMIT}\n"),
    Case("--resume limit.check", "set.giop", 1,
         lines=f"stream fault stream-limit at {LIMIT + 1}\ntotal messages 0 faults 1 octets {LIMIT + 1}\n"),
    Case("--save none.check", "empty.txt", saved="none.check", octets=fixed()),
    Case("--save half.check", "half.giop", saved="half.check", octets=fixed(octets=5, place="00000500 47494f5001")),
    Case("--resume half.check", "empty.txt", 1, lines=CUT),
    Case("--save stop.check", "wrong.giop", 1, lines=STOPPED, saved="stop.check",
         octets=fixed(octets=4, faults=1, place="02010000")),
    Case("--resume stop.check", "set.giop", 1, lines=STOPPED_TOTAL),
    Case("--resume missing.check", "missing.giop", 4, "missing.check: cannot read"),
    Case("--requests wrong.req --resume missing.check", "missing.giop", 3, "wrong.req:2: syntax"),
    Case("--resume .", "set.giop", 4, ".: cannot read"),
    Case("--save .", "wrong.giop", 4, ".: cannot write", STOPPED),
    Case("--save none/part.check", "empty.txt", 4, "none/part.check: cannot write"),
    Case("--signatures lab.sig --save set1.giop", "set1.giop", 4, "set1.giop: cannot write", SET_1),
    Case("--signatures lab.sig --save ./set1.giop", "set1.giop", 4, "./set1.giop: cannot write", SET_1),
    Case("--signatures lab.sig --save symbolic.giop", "set1.giop", 4, "symbolic.giop: cannot write", SET_1),
    Case("--signatures lab.sig --save set1.giop", "symbolic.giop", 4, "set1.giop: cannot write", SET_1),
    Case("--signatures lab.sig --save hard.giop", "set1.giop", 4, "hard.giop: cannot write", SET_1),
    Case("--signatures lab.sig --save lab.sig", "set1.giop", 4, "lab.sig: cannot write", SET_1),
    Case("--signatures lab.sig --requests lab.req --save lab.req", "set1.giop", 4, "lab.req: cannot write", SET_1),
    Case("--save wrong.giop", "wrong.giop", 4, "wrong.giop: cannot write", STOPPED),
    Case("--signatures \x1b[2J", "set.giop", 4, r"\x1b[2J: cannot read"),
    Case("--signatures \u00e9", "set.giop", 4, r"\xc3\xa9: cannot read"),
    Case("--requests \x7f", "set.giop", 4, r"\x7f: cannot read"),
    Case("--save none/\a", "empty.txt", 4, r"none/\x07: cannot write"),
]
# fmt: on

# The words, in any order and both spellings. No file name has a special meaning.
# fmt: off
WORDS = [
    Case("", "close.giop", lines=CLOSE),
    Case("-", None, 1, lines="stream fault magic at 1\ntotal messages 0 faults 1 octets 1\n"),
    Case("-- --help", None, 1, lines=STOPPED + STOPPED_TOTAL),
    Case("--signatures=lab.sig", "set.giop", lines=SET_1 + SET_2 + SET_3),
    Case("--signatures -", "set.giop", lines=SET_1 + SET_2 + SET_3),
    Case("--requests lab.req", "ask.giop", lines=ASK + UNANSWERED),
    Case("ask.giop --requests=lab.req --signatures lab.sig", lines=ASK + ANSWERED),
    Case("--save=new.check", "close.giop", lines="m1 start 1.0 big CloseConnection size 0\nm1 end\n", saved="new.check",
         octets=fixed(octets=12, messages=1)),
    Case("--resume new.check", "empty.txt", lines="total messages 1 faults 0 octets 12\n"),
    Case("--resume new.check --save new.check", "set1.giop", lines=SET_1.replace("m1", "m2"), saved="new.check"),
    Case("--resume new.check --save new.check", "set2.giop", lines=SET_2.replace("m1", "m2"), saved="new.check"),
    Case("--resume=new.check set3.giop", lines=REST_3),
    Case("--save counted.check --signatures lab.sig --requests lab.req", "empty.txt", saved="counted.check",
         octets=fixed(counts=(0, 2, 0, 1))),
    Case("--signatures naming.sig --save naming.check", "empty.txt", saved="naming.check", octets=fixed(counts=(4, 18, 6, 0))),
    Case("--types event.sig --save event.check", "empty.txt", saved="event.check", octets=fixed(version=THIRD_LAYOUT, counts=(2, 9, 1, 0))),
    Case("--types notification.sig --save notification.check", "empty.txt", saved="notification.check",
         octets=fixed(version=THIRD_LAYOUT, counts=(18, 122, 21, 0))),
    Case("--open 1 --save one.check", "empty.txt", saved="one.check", octets=fixed(most="00000001 ffffffff")),
    Case("empty.txt --open=4096 --save many.check", saved="many.check", octets=fixed(most="00001000 ffffffff")),
    Case("--resume one.check --open 2 --save one.check", "empty.txt", saved="one.check", octets=fixed(most="00000001 ffffffff")),
    Case("set.giop ask.giop", None, 2, "unexpected argument 'ask.giop' found"),
    Case("--load lab.sig", None, 2, "unexpected argument '--load' found"),
    Case("--types lab.sig --signatures lab.sig", None, 2,
         "the argument '--types <FILE>' cannot be used with '--signatures <FILE>'"),
    Case("--open -1", None, 2, "unexpected argument '-1' found"),
    Case("--signatures", None, 2, "a value is required for '--signatures <FILE>' but none was supplied"),
    Case("--requests", None, 2, "a value is required for '--requests <FILE>' but none was supplied"),
    Case("--requests --signatures lab.sig", None, 2, "a value is required for '--requests <FILE>' but none was supplied"),
    Case("--save", None, 2, "a value is required for '--save <FILE>' but none was supplied"),
    Case("--resume --save kept.check", None, 2, "a value is required for '--resume <FILE>' but none was supplied"),
    Case("--open", None, 2, "a value is required for '--open <N>' but none was supplied"),
    Case("--signatures lab.sig --signatures -", None, 2, "the argument '--signatures <FILE>' cannot be used multiple times"),
    Case("--save a.check --save b.check", None, 2, "the argument '--save <FILE>' cannot be used multiple times"),
    Case("--requests=lab.req --requests=lab.req", None, 2, "the argument '--requests <FILE>' cannot be used multiple times"),
    Case("--open 1 --open 2", None, 2, "the argument '--open <N>' cannot be used multiple times"),
    Case("--open 0", None, 2, "invalid value '0' for '--open <N>'"),
    Case("--open 4097", None, 2, "invalid value '4097' for '--open <N>'"),
    Case("--open 4294967312", None, 2, "invalid value '4294967312' for '--open <N>'"),
    Case("--open x", None, 2, "invalid value 'x' for '--open <N>'"),
    Case("--open 1x", None, 2, "invalid value '1x' for '--open <N>'"),
]
# fmt: on

# What is printed in place of lines: the help, which has each option, and the version.
OPTIONS = (
    "--signatures <FILE>",
    "--types <FILE>",
    "--requests <FILE>",
    "--resume <FILE>",
    "--save <FILE>",
    "--open <N>",
    "--help",
    "--version",
)
HELP = "(?s).*STREAM.*" + ".*".join((*OPTIONS, ""))
VERSION = r"giopdump [0-9]+\.[0-9]+\.[0-9]+\n"
PRINTED = [("--help", HELP), ("-h", HELP), ("--version", VERSION), ("-V", VERSION)]

# Words that aren't understood, and how they are shown. The last is a program's own name.
SHOWN = [
    ("--\x1b[31m", r"--\x1b[31m"),
    ("--a' found\n\nerror: b", r"--a' found\x0a\x0aerror: b"),
    ("-\n", r"-\x0a"),
    ("-\u00e9", r"-\xc3\xa9"),
    ("--\x7f=\\", "--\\x7f"),
    ("--open=\u0660\r", r"\xd9\xa0\x0d"),
    ("\t\x1b]0;\a", r"\x09\x1b]0;\x07"),
]


def held(folder: Path) -> Dict[str, bytes]:
    return {path.name: path.read_bytes() for path in folder.iterdir()}


def run(folder: Path, words: List[str], stream: Optional[str] = None) -> Tuple[int, str, str]:
    """The status, what is said, and the lines, with a file or a folder as standard input, or what nothing may read."""
    command = [str(PROGRAM), *words]
    if stream is None:
        done = subprocess.run(command, cwd=folder, input=UNREAD, capture_output=True, timeout=SECONDS)
    else:
        reading = os.open(folder / stream, os.O_RDONLY)
        done = subprocess.run(command, cwd=folder, stdin=reading, capture_output=True, timeout=SECONDS)
        os.close(reading)
    return done.returncode, done.stderr.decode(), done.stdout.decode()


def is_said(case: Case, said: str) -> bool:
    """Whether standard error has what is to be said, and nothing else; of wrong words, what clap says beside it too."""
    if case.status == 2:
        return said.startswith(f"error: {case.says}") and said.endswith("try '--help'.\n")
    return said == (f"giopdump: {case.says}\n" if case.says else "")


def differs(case: Case, folder: Path, is_file: bool) -> str:
    """What of a case is not as expected."""
    words, before = case.words.split(), held(folder)
    if is_file:
        status, said, lines = run(folder, words + [case.stream] if case.stream else words)
    else:
        status, said, lines = run(folder, words, case.stream)
    if status != case.status:
        return f"status {status}"
    if not is_said(case, said):
        return f"says {said!r}"
    if lines != case.lines:
        return f"writes {lines!r}"
    behind = held(folder)
    old, saved = before.pop(case.saved, None), behind.pop(case.saved, None)
    if behind != before:
        return f"leaves other files: {', '.join(sorted(behind))}"
    if case.saved and (saved is None or saved == old if case.octets is None else saved != case.octets):
        return f"saves {saved!r}"
    return ""


def tried(cases: List[Case], is_file: bool) -> Tuple[int, int]:
    """Runs cases in a folder of their own: how many there are, and how many of them differ."""
    wrong = 0
    with tempfile.TemporaryDirectory() as name:
        folder = Path(name)
        for file, text in TEXTS.items():
            (folder / file).write_text(text)
        for file, octets in OCTETS.items():
            (folder / file).write_bytes(octets)
        (folder / "symbolic.giop").symlink_to("set1.giop")
        os.link(folder / "set1.giop", folder / "hard.giop")
        runs = [case for case in cases if is_file or case.stream not in (None, "missing.giop")]
        for case in runs:
            if difference := differs(case, folder, is_file):
                wrong += 1
                how = case.stream or "no stream" if is_file else f"< {case.stream}"
                print(f"{case.words} {how}: {difference}", file=sys.stderr)
    return len(runs), wrong


def printed() -> int:
    """How many of the words for help and version, and of a word that isn't UTF-8, print something else."""
    wrong = 0
    wanted = [(word, 0, "", pattern) for word, pattern in PRINTED]
    wanted.append(("\udcff", 2, "giopdump: a word of the command line is not UTF-8\n", ""))
    with tempfile.TemporaryDirectory() as name:
        for word, *told, pattern in wanted:
            status, said, lines = run(Path(name), [word])
            if [status, said] != told or not re.fullmatch(pattern, lines):
                wrong += 1
                print(f"{word!r}: status {status}, says {said!r}, prints {lines!r}", file=sys.stderr)
    return wrong


def shown() -> int:
    """How many words that aren't understood are told otherwise than they are shown, by both programs."""
    wrong = 0
    for program in (PROGRAM, GIOPCAP):
        for number, (word, wanted) in enumerate(SHOWN):
            is_name = number == len(SHOWN) - 1
            words = [word, "--help"] if is_name else [program.name, word]
            done = subprocess.run(words, executable=program, capture_output=True, timeout=SECONDS)
            said = (done.stdout if is_name else done.stderr).decode("latin-1")
            told = f"Usage: {wanted} [" if is_name else f" '{wanted}' "
            printable = all(" " <= each <= "~" for each in said.replace("\n", ""))
            if done.returncode != (0 if is_name else 2) or not printable or told not in said or "\nerror:" in said:
                wrong += 1
                print(f"{program.name} {word!r}: status {done.returncode}, says {said!r}", file=sys.stderr)
    return wrong


def main() -> int:
    """Prints figures; 1 where something differs."""
    wrong = printed() + shown()
    counts = [len(PRINTED) + 1]
    for is_file in (True, False):
        for cases in (STEPS, WORDS):
            count, differ = tried(cases, is_file)
            counts.append(count)
            wrong += differ
    print(
        f"{len(STEPS)} cases of steps and {len(WORDS) + len(PRINTED) + 1} of words, {sum(counts)} runs of them by files and by"
        f" standard input, and {len(SHOWN)} words of each program that are shown, {wrong} differ"
    )
    return 1 if wrong else 0


if __name__ == "__main__":
    sys.exit(main())
