"""Tests of giop-keys: run by checks/views.sh, or as python3 scripts/tests/test_keys.py."""

from __future__ import annotations

import signal
import subprocess
import tempfile
import unittest
from typing import List, NamedTuple

from in_process import HERE, SCRIPTS, printed

PROGRAM = "giop-keys"
# References: one as genior writes it; one in the other byte order, with two internet profiles and another between them.
ORDERS = (
    "IOR:010000001400000049444c3a53686f702f4f72646572733a312e3000010000000000000058000000010102000a0000003139322e302e"
    "322e3100f90a060000006f726465727300000200000000000000080000000100000000545441010000001c00000001000000010001000100"
    "000001000105090101000100000009010100"
)
STOCK = (
    "IOR:000000000000001449444c3a53746f72652f53746f636b3a312e30000000000300000000000000160001000000000002680000010000"
    "0006616263646566000000000001000000080000000000000000000000000000001900010000000000043a3a310000020000000000056667"
    "67670a"
)


class Row(NamedTuple):
    """A text, and what is printed of it."""

    name: str
    lines: str
    printed: List[str]


def called(key: str, interface: str, answer: str = "true", request: int = 4) -> str:
    """The lines of a call of _is_a and of its reply."""
    return f"""\
s1 m{request} start 1.2 little Request size 85
s1 m{request} header.target.switch short 0
s1 m{request} header.target.object_key octets @0 {key}
s1 m{request} header.operation string @0 "_is_a"
s1 m{request} call 7 _is_a
s1 m{request} body.logical_type_id string @0 "{interface}"
s1 m{request} end
s2 m{request} start 1.2 little Reply size 13
s2 m{request} answers s1 m{request} _is_a after 0.000011000
s2 m{request} body.return boolean {answer}
s2 m{request} end
"""


def told(key: str, interface: str, path: str = "body.return", message: str = "s2 m9") -> str:
    """The lines of a reference with one profile."""
    return f"""\
{message} {path}.type_id string @0 "{interface}"
{message} {path}.profiles count 1
{message} {path}.profiles[0].tag ulong 0
{message} {path}.profiles[0].profile_data encapsulation 44
{message} {path}.profiles[0].profile_data.object_key octets @0 {key}
"""


A, B = 'key "6f61" of "IDL:A:1.0";', 'key "6f61" of "IDL:B:1.0";'
LONG = "61" * 32  # a piece
ROWS = [
    Row("nothing", "", []),
    Row("a reference", told("6f61", "IDL:A:1.0"), [A]),
    Row("of giopdump, after a LocateReply's header", told("6f61", "IDL:A:1.0", "body", "m1"), [A]),
    Row("in a target", told("6f61", "IDL:A:1.0", "header.target.ior.ior", "m1"), [A]),
    Row("in an any in a sequence", told("6f61", "IDL:A:1.0", "body.a[3].value.x"), [A]),
    Row("one that is nil", 'm1 body.a.type_id string @0 ""\nm1 body.a.profiles count 0\n', []),
    Row("without a type id", told("6f61", ""), []),
    Row("of every object", told("6f61", "IDL:omg.org/CORBA/Object:1.0"), []),
    Row("twice", told("6f61", "IDL:A:1.0") * 2, [A]),
    Row("of two keys", told("6f61", "IDL:A:1.0") + told("6f62", "IDL:A:1.0"), [A, 'key "6f62" of "IDL:A:1.0";']),
    Row(
        "of two interfaces",
        told("6f61", "IDL:B:1.0") + told("6f61", "IDL:A:1.0"),
        [f"// one of 2: {B}", f"// one of 2: {A}"],
    ),
    Row(
        "in pieces, with another message's between them",
        f"""\
m1 body.x.type_id string @0 "IDL:omg.org/CosNaming/NamingCont" more
m2 body.x.type_id string @0 "IDL:B:1.0"
m1 body.x.type_id string @32 "extExt:1.0"
m1 body.x.profiles[0].profile_data.object_key octets @0 {LONG} more
m2 body.x.profiles[10].profile_data.object_key octets @0 6f61
m1 body.x.profiles[0].profile_data.object_key octets @32 62
""",
        [B, f'key "{LONG}62" of "IDL:omg.org/CosNaming/NamingContextExt:1.0";'],
    ),
    Row(
        "a key of 64 octets",
        told(f"{LONG} more", "A") + f"s2 m9 body.return.profiles[0].profile_data.object_key octets @32 {LONG}",
        [f'key "{LONG * 2}" of "A";'],
    ),
    Row(
        "a key of 65 octets",
        told(f"{LONG} more", "A") + f"s2 m9 body.return.profiles[0].profile_data.object_key octets @32 {LONG} more\n"
        "s2 m9 body.return.profiles[0].profile_data.object_key octets @64 62\n",
        [f'// 65 octets, 1 to 64 may be: key "{LONG * 2}62" of "A";'],
    ),
    Row(
        "a key without octets", told("", "A").replace("@0 \n", "@0\n"), ['// 0 octets, 1 to 64 may be: key "" of "A";']
    ),
    Row("an id with a quote", told("61", "a\\x22;\\x0ab"), ['// no repository id: key "61" of "a\\x22;\\x0ab";']),
    Row("a line that is cut", told("6f61", "IDL:A:1.0")[:-2], []),
    Row("another part's type id", told("6f61", "IDL:A:1.0").replace("return.type_id", "other.type_id"), []),
    Row("another message's type id", told("6f61", "IDL:A:1.0").replace("s2 m9", "s2 m8", 1), []),
    Row(
        "a message that was over",
        told("6f61", "IDL:A:1.0").replace("s2 m9 body.return.profiles count 1", "s2 m9 end"),
        [],
    ),
    Row("an answer", called("6f61", "IDL:A:1.0"), [A]),
    Row(
        "an answer in 1.0, to a call of a known interface",
        called("6f61", "IDL:A:1.0")
        .replace("header.target.object_key", "header.object_key")
        .replace("call 7 _is_a", "call 7 _is_a IDL:B:1.0"),
        [A],
    ),
    Row("an answer that is false", called("6f61", "IDL:A:1.0", "false"), []),
    Row("no answer", called("6f61", "IDL:A:1.0").split("s2 ")[0], []),
    Row("the answer to another call", called("6f61", "IDL:A:1.0").replace("answers s1 m4", "answers s1 m5"), []),
    Row("an answer of another operation", called("6f61", "IDL:A:1.0").replace("call 7 _is_a", "call 7 is_a"), []),
    Row(
        "two answers",
        called("6f61", "IDL:A:1.0") + called("6f61", "IDL:B:1.0", request=5),
        [f"// one of 2: {A}", f"// one of 2: {B}"],
    ),
    Row("a reference after an answer", called("6f61", "IDL:A:1.0") + told("6f61", "IDL:B:1.0"), [B]),
    Row("an answer after a reference", told("6f61", "IDL:B:1.0") + called("6f61", "IDL:A:1.0"), [B]),
    Row(
        "a reference as text",
        f"a list of them:\n  one={ORDERS}, two={STOCK}.\n",
        [
            'key "6f7264657273" of "IDL:Shop/Orders:1.0";',
            'key "616263646566" of "IDL:Store/Stock:1.0";',
            'key "666767670a" of "IDL:Store/Stock:1.0";',
        ],
    ),
    Row(
        "a reference as text in a dump, in pieces",
        "".join(
            f's1 m1 body.v.value[7] string @{at} "{ORDERS[at : at + 32]}"{" more" * (at + 32 < len(ORDERS))}\n'
            for at in range(0, len(ORDERS), 32)
        ),
        ['key "6f7264657273" of "IDL:Shop/Orders:1.0";'],
    ),
    Row("a reference as text that is cut", ORDERS[:100] + "\n", []),
    Row(
        "catior",
        'Type ID: "IDL:A:1.0"\nProfiles:\n1. IIOP 1.2 192.0.2.1 2809 "\\xfea\\x41"b"\n      TAG_ORB_TYPE omniORB (ATT\\x00)\n\n'
        "2. Multiple Component Profile \n3. IIOP 1.0 ::1 2 0x6f61  (2 bytes)\n",
        ['key "fe615c7834312262" of "IDL:A:1.0";', A],
    ),
]


class Texts(unittest.TestCase):
    """What is printed of texts."""

    maxDiff = None

    def test_rows(self) -> None:
        for row in ROWS:
            with self.subTest(row.name):
                self.assertEqual(printed(PROGRAM, row.lines).splitlines(), row.printed)

    def test_a_session(self) -> None:
        self.assertEqual(
            printed(PROGRAM, (HERE / "session.lines").read_text()).splitlines(),
            [
                'key "4e616d6553657276696365" of "IDL:omg.org/CosNaming/NamingContextExt:1.0";',
                'key "ff007cf5036b0100053f00000002" of "IDL:omg.org/CosNaming/BindingIterator:1.0";',
            ],
        )

    def test_declared_keys_are_left_out(self) -> None:
        lines = told("6f61", "IDL:A:1.0") + told("6f62", "IDL:A:1.0") + told("6f63", "IDL:A:1.0")
        with tempfile.NamedTemporaryFile() as file:
            file.write(b'signatures 3;\nkey "6f61" of "IDL:B:1.0"; key  "6f62*" of "A";\n// key "6f63" of "A";\n')
            file.flush()
            told_anew = printed(PROGRAM, lines, "--signatures", file.name).splitlines()
        self.assertEqual(told_anew, ['key "6f62" of "IDL:A:1.0";', 'key "6f63" of "IDL:A:1.0";'])

    def test_hostile_lines(self) -> None:
        printed(PROGRAM, (HERE / "hostile.lines").read_text())

    def test_as_many_keys_as_a_signature_file_has(self) -> None:
        lines = printed(PROGRAM, "".join(told(f"{n:08x}", "A", f"body.a[{n}]") for n in range(16385))).splitlines()
        self.assertEqual(lines[-2:], ['key "00003fff" of "A";', "// more than 16384 keys"])


class Ends(unittest.TestCase):
    """How it ends."""

    def test_statuses(self) -> None:
        rows = [
            (["/no/such\x1b"], 4, "giop-keys: /no/such\\x1b: cannot read\n"),
            (["/"], 4, "giop-keys: /: cannot read\n"),
            ([str(SCRIPTS.parent / "examples/session.pcap")], 3, ": a capture: giopcap "),
            (["--signatures", "/no/such"], 4, "giop-keys: /no/such: cannot read\n"),
            (["--keys"], 2, "unrecognized arguments: --keys"),
        ]
        for words, status, said in rows:
            with self.subTest(words):
                done = subprocess.run([SCRIPTS / PROGRAM, *words], capture_output=True, text=True, timeout=60)
                self.assertEqual((done.returncode, done.stdout), (status, ""))
                self.assertIn(said, done.stderr)

    def test_a_full_disk(self) -> None:
        with open("/dev/full", "wb") as full:
            done = subprocess.run(
                [SCRIPTS / PROGRAM], input=told("61", "A").encode(), stdout=full, stderr=subprocess.PIPE, timeout=60
            )
        self.assertEqual((done.returncode, done.stderr), (4, b"giop-keys: write failed\n"))

    def test_an_interrupt(self) -> None:
        pipe = subprocess.PIPE
        with subprocess.Popen([SCRIPTS / PROGRAM], stdin=pipe, stdout=pipe, stderr=pipe) as program:
            assert program.stdin and program.stdout and program.stderr
            # More than it reads at once, so that it has begun when all is written.
            program.stdin.write(told("6f61", "IDL:A:1.0").encode() + b"m1 end\n" * 100_000)
            program.stdin.flush()
            program.send_signal(signal.SIGINT)
            self.assertEqual(program.stdout.read().decode().splitlines(), [A])
            program.stdin.close()
            self.assertEqual((program.wait(60), program.stderr.read()), (0, b""))


if __name__ == "__main__":
    unittest.main(verbosity=1)
