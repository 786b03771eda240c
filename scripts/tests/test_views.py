"""Tests of giop-stat and giop-chart: run by checks/views.sh, or as python3 scripts/tests/test_views.py."""

from __future__ import annotations

import json
import re
import signal
import subprocess
import time
import unittest
from fcntl import ioctl
from termios import FIONREAD
from typing import Any, Dict, List, Tuple

from in_process import PROGRAMS, SCRIPTS, SESSION, Refused, printed

# Lines that a dump has, each by itself.
LINES = """\
m1 start 1.2 little Request size 85
m1 start 1.0 big 255 size 4294967295 more
m1 header.target.switch short -32768
m1 body.n[4294967295].id string @0 "shop"
m1 body string @0 ""
m1 body string @32 "\\x22\\x5c and more of the 32 octe" more
m1 body octets @0
m1 body octets @0 00ff more
m1 body.a octet 255
m1 body.a ulonglong 18446744073709551615
m1 body.a longlong -9223372036854775808
m1 body.a boolean false
m1 body.a char "\\xe9"
m1 body.a char " "
m1 body.a float 7fc00000
m1 body.a double 3ff0000000000000
m1 body.a enum missing_node
m1 body.a count 0
m1 body.a encapsulation 36
m1 body.a order big
m1 body.a rest @0 00
m1 rest @281474976710656 00
m1 call 0 _is_a
m2 continues m1
m1 cancelled by m2
m1 fault fragment-1.1 at 12
m1 end
m1 unfinished
stream fault magic at 1
total messages 1 faults 0 octets 281474976710657
s1 m1 end
s1 m1 time 2026-11-23T08:13:25.580272000Z
s1 m1 time -
s12 m3 answers s11 m4 x<y> after -0.000000001
s12 m3 answers s11 m4 bind after -
s1 m1 raises IDL:omg.org/CORBA/INTERNAL:1.0
s1 stream 192.0.2.1:1 > [::ffff:192.0.2.2]:65535 at -
s1 closed gap
s1 stream fault truncated at 7
s1 total messages 1 faults 0 octets 3
capture fault truncated at 0
total streams 8 messages 25 faults 0 packets 57 octets 6693
m1 seen by m2
s1 drained 3
m1 body.w wstring @0 0041
m1 header.x value-type 7
m1 body.a.b.c.d.e.f.g.h.i.j.k.l.m.n.o.p.q.r.s.t.u.v.w.x octet 1
"""

# Lines that no dump has.
REFUSED = [
    "",
    " ",
    "m1",
    "m1 ",
    "m0 end",
    "m01 end",
    "M1 end",
    "m1  end",
    "m1 end ",
    " m1 end",
    "m1 END",
    "s0 m1 end",
    "s1 m1",
    "s1",
    "s1 ",
    "end",
    "x",
    "total",
    "total messages 1",
    "total messages 01 faults 0 octets 0",
    "zap 3",
    "stream",
    "m1 start 2.0 little Request size 0",
    "m1 start 1.2 middle Request size 0",
    "m1 start 1.2 little Request size -1",
    "m1 start 1.2 little Request size 4294967296",
    "m1 start 1.2 little 256 size 0",
    "m1 start",
    "m1 header.a octet 256",
    "m1 header.a octet -1",
    "m1 header.a octet 007",
    "m1 header.a ushort 65536",
    "m1 header.a short 32768",
    "m1 header.a short -32769",
    "m1 header.a short -0",
    "m1 header.a ulong 4294967296",
    "m1 header.a longlong 9223372036854775808",
    "m1 header.a ulonglong 18446744073709551616",
    "m1 header.a count -1",
    "m1 header.a boolean True",
    "m1 header.a boolean 1",
    "m1 header.a float 7FC00000",
    "m1 header.a float 7fc000",
    "m1 header.a double 7fc00000",
    "m1 header.a enum 7",
    "m1 header.a enum a b",
    "m1 header.a char a",
    'm1 header.a char "ab"',
    'm1 header.a char """',
    'm1 header.a char "\\xE9"',
    'm1 header.a char "\\"',
    "m1 header.a string @0 a",
    'm1 header.a string @0 "a',
    'm1 header.a string @0 "a"b"',
    'm1 header.a string "a"',
    'm1 header.a string @0 "\\n"',
    'm1 header.a string @0 "a" less',
    'm1 header.a string @0 "' + 33 * "a" + '"',
    'm1 header.a string @0 "' + 33 * "\\x00" + '"',
    "m1 header.a octets @0 ",
    "m1 header.a octets @0 0",
    "m1 header.a octets @0 FF",
    "m1 header.a octets @0 " + 33 * "00",
    "m1 header.a rest @0",
    "m1 rest @0",
    "m1 rest 00",
    "m1 header.a order middle",
    "m1 header. octet 1",
    "m1 header.1 octet 1",
    "m1 header[a] octet 1",
    "m1 header[1 octet 1",
    "m1 footer.a octet 1",
    "m1 header.a",
    "m1 header.a octet",
    "m1 call 1 a b c",
    "m1 call 1 ",
    "m1 call x a",
    "m1 call 1 " + 129 * "a",
    "m1 continues 2",
    "m1 continues s1 m2",
    "m1 cancelled by 2",
    "m1 fault short",
    "m1 fault short at",
    "m1 fault Short at 7",
    "m1 unfinished 7",
    "m1 time -",
    "m1 raises a",
    "m1 answers s1 m1 a after 0.000000000",
    "s1 m1 time 2026",
    "s1 m1 time 2026-11-23T08:13:25Z",
    "s1 m1 answers s1 m1 a after 1",
    "s1 m1 answers m1 a after -",
    "s1 m1 raises a b",
    "stream fault magic",
    "stream 1.2.3.4:1 > 1.2.3.5:1 at -",
    "s1 stream 1.2.3.4 > 1.2.3.5:1 at -",
    "s1 stream a:1 > b:1 at -",
    "closed fin",
    "s1 closed",
    "s1 closed FIN",
    "s1 capture fault magic at 4",
    "capture fault magic",
    "capture",
    "s1 total streams 1 messages 1 faults 0 packets 1 octets 1",
    "== a",
    "== a > b at 2026-11-23 08:13:25.580228 UTC",
    "m1 seen\x1b[2J",
    "m1 call 1 caf\u00e9",
    'm1 header.a string @0 "\u00e9"',
    "m1 end\r",
    "\ufeffm1 end",
    "m1 end\0",
    "m1 body" + 25 * ".a" + " octet 1",
    "m1 body" + 20_000 * "[0]" + " octet 1",
    "m1 body." + 65 * "a" + " octet 1",
    "m1 body[4294967296] octet 1",
    "m1 body[00] octet 1",
    "m1 body.w[ wstring 7",
    "m1 seen " + 9000 * "a",
    "s1 drained " + 9000 * "a",
    "m1 body wide",
    "GIOP\x01\x02",
]


def run(program: str, lines: str, *words: str) -> subprocess.CompletedProcess[str]:
    """Runs a program over lines."""
    command = [str(SCRIPTS / program), *words]
    return subprocess.run(command, input=lines, capture_output=True, text=True, encoding="utf-8", timeout=60)


class Lines(unittest.TestCase):
    """Which lines are taken, and which are refused."""

    def test_each_form_of_a_line_is_taken(self) -> None:
        for line in LINES.splitlines(True):
            printed("giop-stat", line)
        printed("giop-chart", LINES)

    def test_a_line_that_no_dump_writes_is_refused_with_its_number(self) -> None:
        for line in REFUSED:
            with self.assertRaises(Refused, msg=line) as caught:
                printed("giop-stat", f"m1 end\n{line}\n")
            self.assertEqual(caught.exception.number, 2, line)

    def test_what_stands_behind_the_last_line_feed_is_no_line(self) -> None:
        for left in ("m1 body ulong 1", "zap", "\x1b"):
            self.assertEqual(printed("giop-stat", "m1 end\n" + left), printed("giop-stat", "m1 end\n"))

    def test_a_line_that_never_ends_is_refused(self) -> None:
        with self.assertRaises(Refused) as caught:
            printed("giop-stat", 'm1 end\nm2 body string @0 "' + 200_000 * "a")
        self.assertEqual(caught.exception.number, 2)


def unindented(lines: str) -> str:
    """Lines without the blanks in front of them."""
    return "".join(f"{line.strip()}\n" for line in lines.splitlines() if line.strip())


class Stat(unittest.TestCase):
    """What giop-stat counts."""

    maxDiff = None

    def test_the_rows_of_the_session(self) -> None:
        self.assertEqual(
            printed("giop-stat", SESSION.read_text()),
            """\
operation     calls  replies  user       min    median       p95       p99       max     total  octets
_is_a             3        3     0  0.000095  0.000252  0.000430  0.000430  0.000430  0.000778     375
resolve           2        2     1  0.000024  0.000024  0.000260  0.000260  0.000260  0.000284     491
    1 IDL:omg.org/CosNaming/NamingContext/NotFound:1.0
bind              1        1     1  0.000110  0.000110  0.000110  0.000110  0.000110  0.000110     349
    1 IDL:omg.org/CosNaming/NamingContext/AlreadyBound:1.0
list              1        1     0  0.000048  0.000048  0.000048  0.000048  0.000048  0.000048     284
next_one          2        2     0  0.000011  0.000011  0.000020  0.000020  0.000020  0.000031     220
destroy           1        1     0  0.000010  0.000010  0.000010  0.000010  0.000010  0.000010      84
no operation      0        0     0         -         -         -         -         -         -     128

client     server           calls  replies  user       min    median       p95       p99       max     total  octets
127.0.0.1  127.0.0.1:12809      6        6     2  0.000024  0.000110  0.000430  0.000430  0.000430  0.001172    1215
    1 IDL:omg.org/CosNaming/NamingContext/AlreadyBound:1.0
    1 IDL:omg.org/CosNaming/NamingContext/NotFound:1.0
192.0.2.2  192.0.2.2:12809      4        4     0  0.000010  0.000011  0.000048  0.000048  0.000048  0.000089     716

total streams 8 messages 25 faults 0 packets 57 octets 6693 other 0
""",
        )

    def test_what_is_counted(self) -> None:
        lines = """\
            s1 stream 10.0.0.1:7 > [2001:db8::1]:9 at -
            s1 m1 start 1.2 big Request size 40 more
            s1 m1 header.response_flags octet 3
            s1 m1 call 1 ask
            s1 m2 start 1.2 big Fragment size 10
            s1 m2 continues m1
            s1 m1 end
            s1 m3 start 1.0 big Request size 8
            s1 m3 header.response_expected boolean false
            s1 m3 call 2 tell
            s1 m3 end
            s1 m4 start 1.0 big Request size 8
            s1 m4 header.response_expected boolean true
            s1 m4 call 3 ask
            s1 m4 fault short at 100
            s1 m5 start 1.2 big Request size 8
            s1 m5 header.response_flags octet 3
            s1 m5 call 4 ask
            s1 m5 end
            s2 stream [2001:db8::1]:9 > 10.0.0.1:7 at -
            s2 m1 start 1.2 big Reply size 0
            s2 m1 header.reply_status enum SYSTEM_EXCEPTION
            s2 m1 end
            s2 m1 answers s1 m1 ask after 1.500000000
            s2 m1 raises IDL:omg.org/CORBA/INTERNAL:1.0
            s2 m2 start 1.2 big Reply size 0
            s2 m2 header.reply_status enum USER_EXCEPTION
            s2 m2 answers s1 m5 ask after -0.500000000
            s2 m2 raises IDL:A:1.0
            s2 m2 end
            s2 m3 start 1.2 big Reply size 0
            s2 m3 header.reply_status enum NO_EXCEPTION
            s2 m3 end
            s2 m4 start 1.2 big CloseConnection size 0
            s2 m4 end
            s2 closed gap
            s2 stream fault truncated at 50
            s2 total messages 4 faults 1 octets 50
            """
        found = json.loads(printed("giop-stat", unindented(lines), "--json"))
        seconds = {"min": -0.5, "median": -0.5, "p95": 1.5, "p99": 1.5, "max": 1.5, "total": 1.0}
        raised = {"IDL:omg.org/CORBA/INTERNAL:1.0": 1, "IDL:A:1.0": 1}
        nothing: Dict[str, Any] = {
            "calls": 0,
            "oneways": 0,
            "replies": 0,
            "user": 0,
            "system": 0,
            "faults": 0,
            "unanswered": 0,
            "gaps": 0,
            "seconds": None,
            "raised": {},
        }
        self.assertEqual(
            found,
            {
                "operations": [
                    {
                        **nothing,
                        "interface": "",
                        "operation": "ask",
                        "calls": 3,
                        "replies": 2,
                        "user": 1,
                        "system": 1,
                        "faults": 1,
                        "unanswered": 1,
                        "seconds": seconds,
                        "octets": 52 + 22 + 20 + 20 + 12 + 12,
                        "raised": raised,
                    },
                    {**nothing, "interface": "", "operation": "tell", "calls": 1, "oneways": 1, "octets": 20},
                    {
                        **nothing,
                        "interface": "",
                        "operation": "no operation",
                        "replies": 1,
                        "faults": 1,
                        "gaps": 1,
                        "octets": 24,
                    },
                ],
                "pairs": [
                    {
                        **nothing,
                        "client": "10.0.0.1",
                        "server": "[2001:db8::1]:9",
                        "calls": 4,
                        "oneways": 1,
                        "replies": 3,
                        "user": 1,
                        "system": 1,
                        "faults": 2,
                        "unanswered": 1,
                        "gaps": 1,
                        "seconds": seconds,
                        "octets": 52 + 22 + 20 + 20 + 20 + 4 * 12,
                        "raised": raised,
                    },
                ],
                "connections": [
                    {
                        **nothing,
                        "connection": 1,
                        "client": "10.0.0.1",
                        "client_port": 7,
                        "server": "2001:db8::1",
                        "server_port": 9,
                        "opened": None,
                        "last": None,
                        "client_closed": None,
                        "server_closed": "gap",
                        "streams": 2,
                        "calls": 4,
                        "oneways": 1,
                        "replies": 3,
                        "user": 1,
                        "system": 1,
                        "faults": 2,
                        "unanswered": 1,
                        "gaps": 1,
                        "seconds": {name: seconds[name] for name in ("min", "max", "total")},
                        "octets": 52 + 22 + 20 + 20 + 20 + 4 * 12,
                        "raised": raised,
                    },
                ],
                "others": {"operations": None, "pairs": None, "connections": None},
                "capture": None,
            },
        )

    def test_times_are_at_most_16_of_1000_off(self) -> None:
        for times in (
            [1, 2, 3, 1000],
            [7 * 3**power for power in range(26)],
            list(range(1, 1001)),
            [10**9, 1],
            [0, 0, 5],
        ):
            lines = "".join(
                f"s1 m{number} start 1.0 big Reply size 0\ns1 m{number} answers s2 m1 a after "
                f"{time // 10**9}.{time % 10**9:09}\ns1 m{number} end\n"
                for number, time in enumerate(times, 1)
            )
            found = json.loads(printed("giop-stat", lines, "--json"))["operations"][0]["seconds"]
            times.sort()
            for name, percent in (("min", 0), ("median", 50), ("p95", 95), ("p99", 99), ("max", 100)):
                exact = times[max(0, -(-len(times) * percent // 100) - 1)] / 10**9
                self.assertTrue(abs(found[name] - exact) <= 0.016 * exact, (times, name, found, exact))
            self.assertAlmostEqual(found["total"], sum(times) / 10**9, places=9)

    def test_its_rows_are_limited(self) -> None:
        lines = "".join(
            f"m{number} start 1.0 big Request size 0\nm{number} call 1 a{number}\nm{number} end\n"
            for number in range(1, 6001)
        )
        found = json.loads(printed("giop-stat", lines, "--json"))
        self.assertEqual((len(found["operations"]), found["others"]["operations"]["calls"]), (4096, 6000 - 4096))
        self.assertIn("\nall others ", printed("giop-stat", lines))


class Chart(unittest.TestCase):
    """What giop-chart draws."""

    maxDiff = None

    def test_a_conversation(self) -> None:
        lines = "".join(line for line in SESSION.read_text().splitlines(True) if line.startswith(("s1 ", "s2 ")))
        a, b = '"127.0.0.1"', '"127.0.0.1:12809"'
        self.assertEqual(
            printed("giop-chart", lines),
            f"""\
msc {{
  width="924";
  {a}, {b};
  {a} => {b} [label="_is_a('IDL:omg.org/CosNaming/NamingContext:1.0')\\n08:13:25.580272"];
  {b} >> {a} [label="_is_a = true\\n0.000095 s"];
  {a} => {b} [label="bind('shop', '', 'orders', '', 'IDL:omg.org/CosNami..)\\n08:13:25.580401"];
  {b} >> {a} [label="bind raises AlreadyBound\\n0.000110 s"];
}}
""",
        )

    def test_each_sort_of_message_and_what_is_red(self) -> None:
        lines = """\
            m1 start 1.2 big Request size 9
            m1 header.request_id ulong 1
            m1 header.response_flags octet 0
            m1 call 1 tell
            m1 end
            m2 start 1.0 big Request size 9
            m2 header.request_id ulong 2
            m2 header.response_expected boolean true
            m2 call 2 ask
            m2 fault short at 60
            m3 start 1.2 big Reply size 9
            m3 header.request_id ulong 2
            m3 header.reply_status enum LOCATION_FORWARD
            m3 end
            m4 start 1.2 big Reply size 9
            m4 header.request_id ulong 2
            m4 header.reply_status enum USER_EXCEPTION
            m4 exception string @0 "IDL:a.org/Some/VeryLongModuleNam" more
            m4 exception string @32 "e/Late:1.0"
            m4 end
            m5 start 1.2 big Reply size 9
            m5 header.reply_status enum SYSTEM_EXCEPTION
            m5 body.exception_id string @0 "IDL:omg.org/CORBA/INTERNAL:1.0"
            m5 end
            m15 start 1.2 big Request size 9
            m15 call 15 put
            m15 body.a count 3
            m15 body.a[0] long -1
            m15 body.a[1] long 0
            m15 body.a[2] long 1
            m15 body.b string @0 "x\\x22y"
            m15 body.c boolean true
            m15 end
            m16 start 1.2 big Reply size 9
            m16 header.reply_status enum USER_EXCEPTION
            m16 exception string @0 "IDL:a.org/Some/:1.0"
            m16 end
            m6 start 1.2 big LocateRequest size 9 more
            m7 start 1.2 big Fragment size 9
            m7 continues m6
            m6 end
            m8 start 1.2 big LocateReply size 9
            m8 header.locate_status enum OBJECT_HERE
            m8 end
            m9 start 1.2 big CancelRequest size 4
            m9 end
            m10 start 1.2 big 200 size 4
            m10 fault message-type at 200
            m11 start 1.2 big MessageError size 0
            m11 end
            m12 start 1.2 big Request size 9 more
            m12 cancelled by m13
            m13 start 1.2 big CancelRequest size 4
            m13 end
            m14 start 1.2 big Request size 9
            stream fault truncated at 300
            m14 unfinished
            total messages 14 faults 3 octets 300
            """
        red = ', linecolour="red", textcolour="red"'
        self.assertEqual(
            drawn(lines),
            [
                'client -> server [label="tell"];',
                f'client => server [label="ask: fault short"{red}];',
                'server >> client [label="ask LOCATION_FORWARD"];',
                'server >> client [label="Reply raises Late"];',
                'server >> client [label="Reply raises INTERNAL"];',
                'client => server [label="LocateRequest"];',
                'client -> server [label="Fragment of m6"];',
                'server >> client [label="LocateReply OBJECT_HERE"];',
                'client -> server [label="CancelRequest"];',
                f'client -> server [label="type 200: fault message-type"{red}];',
                'server -> client [label="MessageError"];',
                'client => server [label="Request: cancelled"];',
                'client -> server [label="CancelRequest"];',
                f'client -x server [label="Request: unfinished"{red}];',
                "client => server [label=\"put(-1, 0, 1, 'x\\x22y', true)\"];",
                'server >> client [label="Reply raises IDL:a.org/Some/:1.0"];',
                f'client box server [label="stream fault truncated"{red}];',
            ],
        )

    def test_where_octets_are_missing(self) -> None:
        lines = """\
            s1 stream 10.0.0.1:7 > 10.0.0.2:9 at -
            s1 m1 start 1.2 big CloseConnection size 0
            s1 m1 end
            s1 m1 time -
            s1 closed gap
            s1 total messages 1 faults 0 octets 12
            s2 m1 start 1.2 big CloseConnection size 0
            s2 m1 end
            """
        self.assertEqual(
            drawn(lines),
            [
                '10.0.0.1 -> 10.0.0.2:9 [label="CloseConnection"];',
                '10.0.0.1 box 10.0.0.2:9 [label="octets are missing", linecolour="red", textcolour="red"];',
                'server of s2 -> client of s2 [label="CloseConnection"];',
            ],
        )

    def test_which_messages_are_drawn(self) -> None:
        lines = SESSION.read_text()
        self.assertEqual(len(drawn(lines)), 25)
        self.assertEqual(len(drawn(lines, "--stream", "3", "--stream", "4")), 4)
        self.assertEqual(drawn(lines, "--connection", "3"), drawn(lines, "--stream", "3", "--stream", "4"))
        self.assertIn('"127.0.0.1:33490"', printed("giop-chart", lines, "--ports"))
        self.assertEqual(len(drawn(lines, "--from", "08:13:25.6")), 17)
        self.assertEqual(
            len(drawn(lines, "--from", "2026-11-23T08:13:25.594263Z", "--to", "2026-11-23T08:13:25.608")), 6
        )
        self.assertEqual(len(drawn(lines, "--to", "08:13:25.5803")), 2)
        self.assertEqual(drawn(lines, "--to", "08:12"), ['--- [label="no message"];'])
        self.assertEqual(drawn(""), ['--- [label="no message"];'])
        self.assertEqual(
            drawn(lines, "--most", "2"),
            [
                "127.0.0.1 => 127.0.0.1:12809 "
                "[label=\"_is_a('IDL:omg.org/CosNaming/NamingContext:1.0')\\n08:13:25.580272\"];",
                '127.0.0.1:12809 >> 127.0.0.1 [label="_is_a = true\\n0.000095 s"];',
                "...;",
                '--- [label="only 2 messages are drawn"];',
            ],
        )

    def test_names_from_a_peer_stay_text(self) -> None:
        name = '</text><script>"\\n&lt;\\'
        lines = f"m1 start 1.0 big Request size 9\nm1 call 1 {name}\nm1 end\n"
        self.assertEqual(drawn(lines), ['client => server [label="</text><script>\\x22\\x5cn\\x26lt;\\x5c"];'])
        self.assertIn(f"\n{name} ", printed("giop-stat", lines))
        self.assertIn("a" * 46 + '.."', drawn(lines.replace(name, 128 * "a"))[0])


def drawn(lines: str, *words: str) -> List[str]:
    """The lines of a chart after those of its ends, without the quotes around these."""
    found = printed("giop-chart", unindented(lines), *words).splitlines()
    return [re.sub(r'^  "([^"]*)" (\S+) "([^"]*)"', r"\1 \2 \3", line).strip() for line in found[3:-1]]


class Program(unittest.TestCase):
    """The two as a user runs them."""

    def test_the_lines_of_a_file_and_of_standard_input(self) -> None:
        lines = SESSION.read_text()
        for program in PROGRAMS:
            done, named = run(program, lines), run(program, "", str(SESSION))
            self.assertEqual((done.returncode, done.stderr, done.stdout), (0, "", printed(program, lines)))
            self.assertEqual((named.returncode, named.stderr, named.stdout), (0, "", done.stdout))

    def test_each_says_which_line_it_refuses_and_prints_what_stood_in_front(self) -> None:
        for program in PROGRAMS:
            done = run(program, "m1 start 1.2 big Request size 9\nm1 end\nm2 start 1.2 big Reply size 9\nzap\nm2 end\n")
            said = f"{program}: standard input:4: no dump has this line\n"
            self.assertEqual((done.returncode, done.stderr), (3, said))
            self.assertIn("no operation" if program == "giop-stat" else "Reply", done.stdout)

    def test_a_line_is_refused_in_front_of_many(self) -> None:
        session = SESSION.read_text()
        for program in (*PROGRAMS, "giop-report"):
            done = run(program, session + "zap\n" + session * 100)
            said = f"{program}: standard input:{session.count(chr(10)) + 1}: no dump has this line\n"
            self.assertEqual((done.returncode, done.stderr), (3, said))

    def test_what_cannot_be_read(self) -> None:
        for program in PROGRAMS:
            for path, said in (("no/such\x1b\nfile", "no/such\\x1b\\x0afile: cannot read"), ("/", "read failed")):
                done = run(program, "", path)
                self.assertEqual((done.returncode, done.stderr), (4, f"{program}: {said}\n"))
            done = subprocess.run(
                ["bash", "-c", f"{SCRIPTS / program} <&-"], capture_output=True, text=True, timeout=60
            )
            self.assertEqual((done.returncode, done.stderr), (4, f"{program}: read failed\n"))
            with open("/dev/full", "w") as full:
                done = subprocess.run([SCRIPTS / program, SESSION], stdout=full, stderr=subprocess.PIPE, text=True)
            self.assertEqual((done.returncode, done.stderr), (4, f"{program}: write failed\n"))

    def test_words_that_are_not_understood(self) -> None:
        for words in (
            ["giop-stat", "--js"],
            ["giop-stat", "a", "b"],
            ["giop-chart", "--most", "0"],
            ["giop-chart", "--stream", "x"],
            ["giop-chart", "--from", "yesterday"],
            ["giop-chart", "--fro", "08:13"],
        ):
            self.assertEqual(run(words[0], "", *words[1:]).returncode, 2, words)
        for program in PROGRAMS:
            done = run(program, "", "--help")
            begins = "Counts" if program == "giop-stat" else "usage:"
            self.assertEqual((done.returncode, done.stdout[:6], done.stderr), (0, begins, ""))

    def test_wrong_words_are_told_in_octets_that_can_be_printed(self) -> None:
        for program, *words, said in (
            ("giop-chart", "--most", "\n", r"argument --most: '\x0a' is no number from 1 to 9999999999999999999"),
            ("giop-chart", "--to", "\x1b", r"argument --to: '\x1b' is no time as 2026-11-23T08:13:25.58 or 08:13:25"),
        ):
            done = run(program, "", *words)
            self.assertEqual((done.returncode, done.stderr.splitlines()[-1]), (2, f"{program}: error: {said}"))

    def test_head_ends_them_quietly(self) -> None:
        for program in PROGRAMS:
            command = f"cat {SESSION} {SESSION} | {SCRIPTS / program} | head -n 1"
            done = subprocess.run(["bash", "-c", command], capture_output=True, text=True, timeout=60)
            self.assertEqual((done.returncode, done.stderr, done.stdout.count("\n")), (0, "", 1))

    def test_an_interrupt_ends_the_reading(self) -> None:
        for program in PROGRAMS:
            with subprocess.Popen([SCRIPTS / program], stdin=subprocess.PIPE, stdout=subprocess.PIPE) as process:
                assert process.stdin and process.stdout
                process.stdin.write(SESSION.read_bytes())
                process.stdin.flush()
                while any(ioctl(process.stdin, FIONREAD, b"\0\0\0\0")):
                    time.sleep(0.01)
                process.send_signal(signal.SIGINT)
                if program == "giop-stat":  # which ignores it, and goes on to the end of its input
                    process.stdin.close()
                self.assertEqual(process.stdout.read().decode(), printed(program, SESSION.read_text()))
                process.wait()
            self.assertEqual(process.returncode, 0)


if __name__ == "__main__":
    unittest.main()
