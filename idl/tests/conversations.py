"""Conversations encoded by hand over seven of the IDL texts, with the lines of their bodies."""

from __future__ import annotations

import sys
from pathlib import Path
from typing import List, NamedTuple

sys.path.insert(0, str(Path(__file__).resolve().parent.parent.parent))

from reference.encoding import reply, request


class Conversation(NamedTuple):
    """Messages of both directions over the operations of one IDL text; the request list of the replies; the lines after the
    headers; and what is added to the signature file."""

    idl: str
    messages: List[bytes]
    requests: str
    lines: str
    keys: str = ""


# fmt: off

UNIONS = Conversation(
    "unions",
    [
        request(
            1, "take",
            ("ulong", 0), ("long", -5),
            ("char", '"'), ("short", 1), ("short", -2),
            ("boolean", True), ("double", 1.5),
            ("short", 32767), ("boolean", False),
            ("ushort", 7), ("octet", 9),
            ("long", 5), ("string", "five"),
            ("ulong", 4294967295), ("ushort", 65535),
            ("longlong", -9223372036854775807), ("boolean", False), ("long", 3),
            ("ulonglong", 18446744073709551615), ("ulong", 1), ("ulong", 2),
            ("ulong", 0), ("octet", 1),
            ("ulong", 2), ("long", 8),
        ),
        request(2, "give", ("boolean", False), ("long", -1), order="little"),
        reply(2, ("char", "q"), ("string", "zz"), ("boolean", True), ("double", -2.0), order="little"),
    ],
    "2 give\n",
    """\
m1 call 1 take
m1 body.a.switch enum red
m1 body.a.a long -5
m1 body.b.switch char "\\x22"
m1 body.b.y[0] short 1
m1 body.b.y[1] short -2
m1 body.c.switch boolean true
m1 body.c.yes double 3ff8000000000000
m1 body.d.switch short 32767
m1 body.d.high boolean false
m1 body.e.switch ushort 7
m1 body.e.o octet 9
m1 body.f.switch long 5
m1 body.f.s string @0 "five"
m1 body.g.switch ulong 4294967295
m1 body.g.u ushort 65535
m1 body.h.switch longlong -9223372036854775807
m1 body.h.inner.switch boolean false
m1 body.h.inner.no long 3
m1 body.i.switch ulonglong 18446744073709551615
m1 body.i.few count 1
m1 body.i.few[0] enum blue
m1 body.j.switch enum plain
m1 body.j.rest octet 1
m1 body.k.switch enum blue
m1 body.k.other long 8
m1 end
m2 call 2 give
m2 body.flag.switch boolean false
m2 body.flag.no long -1
m2 end
m3 body.return.switch char "q"
m3 body.return.z string @0 "zz"
m3 body.flag.switch boolean true
m3 body.flag.yes double c000000000000000
m3 end
""",
)

ARRAYS = Conversation(
    "arrays",
    [
        request(7, "all", *[("long", n) for n in (1, 2, 3, 11, 12, 13, 21, 22, 23)]),
        reply(7, *[("long", n) for n in (-1, -2, -3, -4, -5, -6, 31, 32, 33, 41, 42, 43)]),
        request(8, "flat", ("ulong", 1), *[("long", n) for n in (1, 2, 3, 4, 5, 6)]),
        reply(8, ("ulong", 2), *[("long", n) for n in (1, 2, 3, 4, 5, 6)]),
        reply(9, ("string", "IDL:A/Off:1.0"), *[("long", n) for n in (6, 5, 4, 3, 2, 1)], status=1),
        reply(10, *[("octet", n) for n in range(16)]),
    ],
    "7 all\n8 flat\n10 _get_check\n",
    """\
m1 call 7 all
m1 body.one[0] long 1
m1 body.one[1] long 2
m1 body.one[2] long 3
m1 body.two[0][0] long 11
m1 body.two[0][1] long 12
m1 body.two[0][2] long 13
m1 body.two[1][0] long 21
m1 body.two[1][1] long 22
m1 body.two[1][2] long 23
m1 end
m2 body.return.v[0][0] long -1
m2 body.return.v[0][1] long -2
m2 body.return.v[0][2] long -3
m2 body.return.v[1][0] long -4
m2 body.return.v[1][1] long -5
m2 body.return.v[1][2] long -6
m2 body.two[0][0] long 31
m2 body.two[0][1] long 32
m2 body.two[0][2] long 33
m2 body.two[1][0] long 41
m2 body.two[1][1] long 42
m2 body.two[1][2] long 43
m2 end
m3 call 8 flat
m3 body.many count 1
m3 body.many[0].v[0][0] long 1
m3 body.many[0].v[0][1] long 2
m3 body.many[0].v[0][2] long 3
m3 body.many[0].v[1][0] long 4
m3 body.many[0].v[1][1] long 5
m3 body.many[0].v[1][2] long 6
m3 end
m4 body.return count 2
m4 body.return[0].v[0] long 1
m4 body.return[0].v[1] long 2
m4 body.return[0].v[2] long 3
m4 body.return[1].v[0] long 4
m4 body.return[1].v[1] long 5
m4 body.return[1].v[2] long 6
m4 end
m5 exception string @0 "IDL:A/Off:1.0"
m5 body.by[0][0] long 6
m5 body.by[0][1] long 5
m5 body.by[0][2] long 4
m5 body.by[1][0] long 3
m5 body.by[1][1] long 2
m5 body.by[1][2] long 1
m5 end
"""
    + "".join(f"m6 body.return.v[{n}] octet {n}\n" for n in range(16))
    + "m6 end\n",
)

RECURSIVE = Conversation(
    "recursive",
    [
        request(1, "all", ("boolean", False), ("ulong", 2), ("boolean", True), ("octet", 7), ("boolean", False), ("ulong", 0)),
        reply(1, ("ulong", 1), ("long", 5), ("ulong", 1), ("long", 6), ("ulong", 0), ("boolean", True), ("octet", 9)),
        request(3, "calls", ("string", "f"), ("ulong", 1), ("string", "g"), ("ulong", 0), ("short", 0), *[("ulong", 0)] * 7),
    ],
    "1 all\n",
    """\
m1 call 1 all
m1 body.t.switch boolean false
m1 body.t.two count 2
m1 body.t.two[0].switch boolean true
m1 body.t.two[0].leaf octet 7
m1 body.t.two[1].switch boolean false
m1 body.t.two[1].two count 0
m1 end
m2 body.return count 1
m2 body.return[0].v long 5
m2 body.return[0].kids count 1
m2 body.return[0].kids[0].v long 6
m2 body.return[0].kids[0].kids count 0
m2 body.t.switch boolean true
m2 body.t.leaf octet 9
m2 end
m3 call 3 calls
m3 body.c.fn string @0 "f"
m3 body.c.args count 1
m3 body.c.args[0].made.fn string @0 "g"
m3 body.c.args[0].made.args count 0
m3 body.c.args[0].t.switch short 0
m3 body.c.args[0].t.more count 0
m3 body.c.args[0].grid[0][0] count 0
m3 body.c.args[0].grid[0][1] count 0
m3 body.c.args[0].grid[0][2] count 0
m3 body.c.args[0].grid[1][0] count 0
m3 body.c.args[0].grid[1][1] count 0
m3 body.c.args[0].grid[1][2] count 0
m3 end
""",
)

ATTRIBUTES = Conversation(
    "attributes",
    [
        request(1, "_set_name", ("string", "bench")),
        request(2, "_get_key"),
        reply(1),
        reply(2, ("octets", bytes([1, 2, 255]))),
        request(3, "where", ("char", "x"), ("ulong", 2), ("string", "USER"), ("string", "ada"), order="little"),
        reply(3, ("string", "here"), order="little"),
        request(4, "scale", ("float", 1.0), ("short", -7)),
        reply(4, ("double", 3.0), ("short", 7), ("ulonglong", 49)),
    ],
    "1 _set_name\n2 _get_key\n3 where\n4 scale\n",
    """\
m1 call 1 _set_name
m1 body.value string @0 "bench"
m1 end
m2 call 2 _get_key
m2 end
m3 end
m4 body.return octets @0 0102ff
m4 end
m5 call 3 where
m5 body.mark char "x"
m5 body.context count 2
m5 body.context[0] string @0 "USER"
m5 body.context[1] string @0 "ada"
m5 end
m6 body.return string @0 "here"
m6 end
m7 call 4 scale
m7 body.by float 3f800000
m7 body.step short -7
m7 end
m8 body.return double 4008000000000000
m8 body.step short 7
m8 body.squares ulonglong 49
m8 end
""",
)

# What stands here for a long double are any octets: they have no form, and are rest, padding and all.
HALF = Conversation(
    "half",
    [
        request(1, "query", ("string", "cd")),
        reply(1, ("ulong", 5), ("ulong", 9)),
        request(2, "put", ("string", "k"), ("ulong", 3), ("long", -2), ("long", 7)),
        reply(2, ("long", 42)),
        reply(2, ("string", "IDL:H/Odd:1.0"), ("string", "no"), status=1),
        request(3, "store", ("string", "n"), ("ulong", 0), ("long", 5)),
        reply(3, ("long", 3), ("string", "w")),
        request(4, "list", ("ulong", 0), order="little"),
        reply(
            4,
            ("string", "x"), ("long", 1), ("boolean", True),
            ("ulong", 1), ("string", "y"), ("ulong", 2), ("short", 4), ("long", 8),
            order="little",
        ),
        request(5, "swap", ("short", -3), ("ulong", 3), ("long", 1), ("long", 4)),
        reply(5, ("ulong", 3), ("long", 2), ("long", 5)),
        request(6, "carry", ("long", 6), ("ulong", 10), ("octet", 255), ("string", "s")),
        reply(6, ("long", 1), ("long", 6), ("string", "t")),
        request(7, "fill", ("string", "a"), ("long", 2)),
        reply(7, ("string", "b"), ("string", "c"), ("ulong", 8), ("boolean", True), ("long", 3)),
    ],
    "1 query\n2 put\n3 store\n4 list\n5 swap\n6 carry\n7 fill\n",
    """\
m1 call 1 query
m1 body.what string @0 "cd"
m1 end
m2 rest @0 0000000500000009
m2 end
m3 call 2 put
m3 body.key string @0 "k"
m3 rest @0 000000000003fffffffe00000007
m3 end
m4 body.return long 42
m4 end
m5 exception string @0 "IDL:H/Odd:1.0"
m5 body.why string @0 "no"
m5 end
m6 call 3 store
m6 rest @0 000000026e0000000000000000000005
m6 end
m7 body.return long 3
m7 body.where string @0 "w"
m7 end
m8 call 4 list
m8 rest @0 00000000
m8 end
m9 body.return.what string @0 "x"
m9 body.return.most long 1
m9 body.more boolean true
m9 rest @0 000000010000000200000079000000020000000400000008000000
m9 end
m10 call 5 swap
m10 body.n short -3
m10 rest @0 0000000000030000000100000004
m10 end
m11 rest @0 000000030000000200000005
m11 end
m12 call 6 carry
m12 body.n long 6
m12 rest @0 0000000aff000000000000027300
m12 end
m13 body.return long 1
m13 body.n long 6
m13 body.s string @0 "t"
m13 end
m14 call 7 fill
m14 body.s string @0 "a"
m14 body.last long 2
m14 end
m15 body.return string @0 "b"
m15 body.s string @0 "c"
m15 rest @0 0000000000080100000000000003
m15 end
""",
)

HALF_EQUAL = Conversation(
    "half_equal",
    [
        request(1, "upto", ("long", 1), ("long", 2), ("short", 3)),
        request(2, "upto", ("long", 1), ("long", 2), ("string", "z")),
        reply(2, ("long", 9)),
        request(3, "longer", ("long", 1)),
        request(4, "longer", ("long", 1), ("long", 2)),
        reply(4),
        request(5, "empty"),
        request(6, "empty", ("long", 7)),
        reply(6, ("long", 8)),
        request(7, "reply_only", ("ulong", 8), ("boolean", True)),
        reply(7, ("long", -1)),
        reply(8, ("long", 5)),
        request(9, "bare", ("string", "a")),
        reply(10, ("long", 1), ("short", 2)),
    ],
    "2 upto\n4 longer\n6 empty\n7 reply_only\n8 other_left_out\n10 both_typed\n",
    """\
m1 call 1 upto
m1 body.k.n long 1
m1 body.a long 2
m1 rest @0 0003
m1 end
m2 call 2 upto
m2 body.k.n long 1
m2 body.a long 2
m2 rest @0 000000027a00
m2 end
m3 body.return long 9
m3 end
m4 call 3 longer
m4 body.a long 1
m4 end
m5 call 4 longer
m5 body.a long 1
m5 rest @0 00000002
m5 end
m6 end
m7 call 5 empty
m7 end
m8 call 6 empty
m8 rest @0 00000007
m8 end
m9 body.return long 8
m9 end
m10 call 7 reply_only
m10 rest @0 0000000801
m10 end
m11 body.return long -1
m11 end
m12 rest @0 00000005
m12 end
m13 call 9 bare
m13 rest @0 000000026100
m13 end
m14 body.return long 1
m14 rest @0 0002
m14 end
""",
)

INTERFACES = Conversation(
    "interfaces",
    [
        request(1, "get", ("ulonglong", 5), key=b"orders"),
        request(2, "get", ("string", "a"), key=b"stock/1", order="little"),
        request(3, "get", ("string", "a"), key=b"stock", order="little"),
        request(4, "get", ("string", "a")),
        request(5, "ping", key=b"archive"),
        request(6, "ping", ("string", "x"), key=b"stock/"),
        request(7, "_get_level", key=b"stock/1"),
        reply(7, ("string", "high")),
        request(8, "_get_level", key=b"archive"),
        reply(8, ("long", -1)),
        request(9, "_get_level"),
        reply(9, ("long", -1)),
        request(10, "cancel", ("string", "r"), ("boolean", True), key=b"stock/2"),
        request(11, "ping_all", key=b"stock/2"),
    ],
    "7 _get_level IDL:warehouse.example/Stock:2.1\n8 _get_level IDL:Store/Archive:1.0\n9 _get_level\n",
    """\
m1 call 1 get IDL:Shop/Orders:1.0
m1 body.id ulonglong 5
m1 end
m2 call 2 get IDL:warehouse.example/Stock:2.1
m2 body.article string @0 "a"
m2 end
m3 call 3 get
m3 rest @0 020000006100
m3 end
m4 call 4 get
m4 rest @0 000000026100
m4 end
m5 call 5 ping IDL:Store/Archive:1.0
m5 end
m6 call 6 ping IDL:warehouse.example/Stock:2.1
m6 body.text string @0 "x"
m6 end
m7 call 7 _get_level IDL:warehouse.example/Stock:2.1
m7 end
m8 body.return string @0 "high"
m8 end
m9 call 8 _get_level IDL:Store/Archive:1.0
m9 end
m10 body.return long -1
m10 end
m11 call 9 _get_level
m11 end
m12 rest @0 ffffffff
m12 end
m13 call 10 cancel IDL:warehouse.example/Stock:2.1
m13 body.reservation string @0 "r"
m13 body.all boolean true
m13 end
m14 call 11 ping_all IDL:warehouse.example/Stock:2.1
m14 end
""",
    """\
key "6f7264657273" of "IDL:Shop/Orders:1.0";
key "61726368697665" of "IDL:Store/Archive:1.0";
key "73746f636b2f*" of "IDL:warehouse.example/Stock:2.1";
""",
)

WIDE = Conversation(
    "wide",
    [
        request(1, "greet", ("octet", 1), ("wstring", b"\0A\0d\0a"), ("wchar", b"\xfe\xff\0G"), ("short", -2)),
        reply(1, ("wstring", b"")),
        reply(1, ("string", "IDL:W/Odd:1.0"), ("wstring", b"no"), status=1),
        request(
            2, "fill", ("wstring", b"a"), ("wstring", b"b" * 33), ("wstring", b""), ("wchar", b"c"), order="little"
        ),
        reply(2, ("wstring", b"d"), *[("wstring", b"e")] * 3, ("wchar", b""), ("ulong", 1), ("wchar", b"fgh")),
        request(3, "choose", ("short", 1), ("wchar", b"i")),
        request(4, "_set_title", ("wstring", b"longer than three")),
    ],
    "1 greet\n2 fill\n",
    """\
m1 call 1 greet
m1 body.n octet 1
m1 body.who wstring @0 004100640061
m1 body.mark wchar @0 feff0047
m1 body.m short -2
m1 end
m2 body.return wstring @0
m2 end
m3 exception string @0 "IDL:W/Odd:1.0"
m3 body.why wstring @0 6e6f
m3 end
m4 call 2 fill
m4 body.one.first wstring @0 61
m4 body.one.others[0] wstring @0 6262626262626262626262626262626262626262626262626262626262626262 more
m4 body.one.others[0] wstring @32 62
m4 body.one.others[1] wstring @0
m4 body.one.last wchar @0 63
m4 end
m5 body.return wstring @0 64
m5 body.one.first wstring @0 65
m5 body.one.others[0] wstring @0 65
m5 body.one.others[1] wstring @0 65
m5 body.one.last wchar @0
m5 body.some count 1
m5 body.some[0] wchar @0 666768
m5 end
m6 call 3 choose
m6 body.one.switch short 1
m6 body.one.mark wchar @0 69
m6 end
m7 call 4 _set_title
m7 body.value wstring @0 6c6f6e676572207468616e207468726565
m7 end
""",
)

CONVERSATIONS = [UNIONS, ARRAYS, RECURSIVE, ATTRIBUTES, HALF, HALF_EQUAL, INTERFACES, WIDE]
