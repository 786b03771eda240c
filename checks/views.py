"""The rows of giop-json and giop-stat; and dumps of streams that are made by seeds, as the program writes them and with what a capture
adds to them: the JSON has every value of their lines and no other, in parts too, the counts of the table are those of `grep -c`,
the chart has an arrow for each message, and the keys of giop-keys are those of the references in the JSON. Cut after any line, a dump gives what is there. A line that was changed is refused or read, and
nothing else happens. The picture of docs/USE.md is that of its command."""

from __future__ import annotations

import json
import os
import random
import re
import struct
import subprocess
import sys
from collections import Counter
from typing import Any, Callable, Dict, Iterator, List, Sequence, Tuple
from xml.etree import ElementTree

import generated
from failing import GIOPCAP, PROGRAM, TOP
from json_rows import check_program, check_rows, objects, written
from stat_rows import check_stat_program, check_stat_rows

sys.path.insert(0, str(TOP / "scripts/tests"))

from in_process import PROGRAMS, SCRIPTS, SESSION, Refused, printed  # noqa: E402

SEEDS = 150
WOVEN = 3  # streams of one capture
CHANGED = 300
IDS = ("IDL:omg.org/CORBA/INTERNAL:1.0", "IDL:a/Late:1.0", '"</text><script>\\n&lt;')
ENDS = ("10.0.0.1:7", "[2001:db8::1]:2809")
EVERY_OBJECT = "IDL:omg.org/CORBA/Object:1.0"  # of which giop-keys tells nothing
MESSAGE = re.compile(r"(?:s(\d+) )?m(\d+) (.*)")


def dump_of(seed: int, known: List[generated.Sort]) -> List[str]:
    """The lines of a stream."""
    case = generated.stream_of(seed, known)
    done = subprocess.run([PROGRAM, *case.words], input=case.stream, stdout=subprocess.PIPE, timeout=60)
    assert done.returncode in (0, 1), case
    return done.stdout.decode().splitlines()


def added_to(draw: random.Random, line: str, after: str, kinds: Dict[str, str], calls: List[str]) -> List[str]:
    """What a capture adds after a line of a stream, in front of the next one."""
    number, word = line.split(" ")[:2]
    if word == "start":
        kinds[number] = line.split(" ")[4]
    is_at_once = after.startswith((f"{number} end", f"{number} fault"))
    added = []
    if word == "start" and not is_at_once:
        packet = draw.choice(("", f" packet {draw.randrange(1, 2**40)}"))
        added.append(f"{number} time 2026-11-23T08:13:25.{draw.randrange(10**9):09}Z{packet}")
    if word == "call":
        calls.append(line.split(" ")[3])
    if kinds.get(number) == "Reply" and "header.reply_status" in line and draw.randrange(3):
        seconds = draw.choice(("-", "0.000000250", "-0.100000000", "1.500000000"))
        added.append(f"{number} answers s9 m9 {draw.choice(calls or ['ask'])} after {seconds}")
    if re.search(r"header\.reply_status enum (USER|SYSTEM)_EXCEPTION", line):
        kinds[number] = "raising Reply"
    if kinds.get(number) == "raising Reply" and (word == "end" or " exception " in line and not line.endswith(" more")):
        if draw.randrange(2):
            kinds[number] = "raised"
            added.append(f"{number} raises {draw.choice(IDS)}")
    return added


def capture_of(draw: random.Random, dumps: Sequence[List[str]]) -> List[str]:
    """Dumps of streams as those of one capture, whose lines come by turns; which call is answered is drawn."""
    calls: List[str] = []
    groups = []
    for number, lines in enumerate(dumps, 1):
        kinds: Dict[str, str] = {}
        of_stream = [[f"s{number} stream {ENDS[number % 2]} > {ENDS[1 - number % 2]} at -"]]
        for line, after in zip(lines, [*lines[1:], ""]):
            group = [line, *(added_to(draw, line, after, kinds, calls) if line.startswith("m") else [])]
            of_stream.append([f"s{number} {each}" for each in group])
        of_stream.insert(-1, [f"s{number} closed {draw.choice(('fin', 'gap'))}"])
        groups.append(of_stream)
    woven = []
    while any(groups):
        woven += draw.choice([of_stream for of_stream in groups if of_stream]).pop(0)
    return woven + ["total streams 3 messages 9 faults 9 packets 9 octets 9"]


def number_of(text: str) -> Any:
    """The number of its bits in hexadecimal; a float as one of single precision."""
    number = struct.unpack(">f" if len(text) == 8 else ">d", bytes.fromhex(text))[0]
    return number if abs(number) < float("inf") else None


def is_number(found: Any, bits: str) -> bool:
    """Whether a number of JSON reads back as these bits."""
    wanted = number_of(bits)
    if wanted is None or found is None:
        return found is wanted
    form = ">f" if len(bits) == 8 else ">d"
    return type(found) is float and struct.pack(form, found) == bytes.fromhex(bits)


def value_of(kind: str, text: str) -> Any:
    """A value by its kind."""
    if kind == "char":
        return text[1:-1]
    return {"boolean": text == "true", "enum": text}[kind] if kind in ("boolean", "enum") else int(text)


Leaf = Tuple[str, Any]


def leaves(made: Any, path: str = "") -> Iterator[Leaf]:
    """The values in an object with their paths; lists and objects that are empty are none."""
    if isinstance(made, dict):
        for name, each in made.items():
            if name == "@rest":
                yield path + "@rest", each
            else:
                yield from leaves(each, path if name[0] == "@" else f"{path}.{name}" if path else name)
    elif isinstance(made, list):
        for place, each in enumerate(made):
            yield from leaves(each, f"{path}[{place}]")
    else:
        yield path, made


def values_of(lines: Sequence[str]) -> List[Leaf]:
    """The values that lines of one message tell, with their paths: of floating-point numbers the bits as octets, and of a number
    that has a name both."""
    told: List[Leaf] = []
    for line in lines:
        path, kind, text = [*(line if not line.startswith("rest ") else "rest " + line).split(" ", 2), ""][:3]
        if kind in ("count", "encapsulation", "order"):
            continue
        if kind in ("string", "octets", "wstring", "wchar", "rest"):
            offset, _, piece = text.partition(" ")
            piece = piece[:-5] if piece.endswith(" more") else "" if piece == "more" else piece
            piece = piece[1:-1] if kind == "string" else piece
            if offset != "@0":
                told[-1] = (told[-1][0], told[-1][1] + piece)
            else:
                told.append((path + "@rest" if kind == "rest" and path != "rest" else path, piece))
        elif kind == "ulong" and " " in text:
            number, _, name = text.partition(" ")
            told += [(path, int(number)), (f"{path}_name", name)]
        else:
            told.append((path, text.encode() if kind in ("float", "double") else value_of(kind, text)))
    return told


def kept_of(lines: Sequence[str]) -> List[str]:
    """The lines of one message's values without those that are left out of TypeCodes (docs/FORMATS.md, JSON)."""
    kept: List[str] = []
    parameters = ""
    for line in lines:
        path, kind, text = [*line.split(" ", 2), "", ""][:3]
        below = path[len(parameters) :] if parameters and path.startswith(parameters) else "no"
        is_head = not below and kind in ("encapsulation", "order")
        if below[:1] in ("", ".", "[") and not is_head and below not in (".id", ".name"):
            continue
        if kind == "enum" and path.endswith(".kind") and text.startswith("tk_"):
            parameters = path[:-5] + ".parameters"
        kept.append(line)
    return kept


def is_told(found: List[Leaf], wanted: List[Leaf]) -> bool:
    """Whether an object has the values that lines tell, at their paths and in their order, and no other."""
    return len(found) == len(wanted) and all(
        path == at
        and (is_number(value, told.decode()) if isinstance(told, bytes) else (type(value), value) == (type(told), told))
        for (path, value), (at, told) in zip(found, wanted)
    )


VALUES = ("header", "exception", "body", "rest")

EVENTS: Dict[str, Callable[[List[str]], Dict[str, Any]]] = {
    "start": lambda words: dict(
        zip(("version", "order", "type", "size", "more"), (*words[:3], int(words[4]), *([True] if words[5:] else [])))
    ),
    "call": lambda words: {"call": int(words[0]), **dict(zip(("operation", "interface"), words[1:]))},
    "time": lambda words: {
        **({} if words[0] == "-" else {"time": words[0]}),
        **({"packet": int(words[2])} if len(words) > 1 else {}),
    },
    "answers": lambda words: {
        "answers": {"stream": int(words[0][1:]), "message": int(words[1][1:])},
        "operation": words[2],
        **({} if words[4] == "-" else {"seconds": float(words[4])}),
    },
    "continues": lambda words: {"continues": int(words[0][1:])},
    "cancelled": lambda words: {"cancelled_by": int(words[1][1:])},
    "raises": lambda words: {"raises": words[0]},
    "fault": lambda words: {"fault": {"word": words[0], "at": int(words[2])}},
    "unfinished": lambda words: {"unfinished": True},
    "end": lambda words: {},
}


def check_json(lines: Sequence[str], *asked: str) -> int:
    """The JSON of a dump has what its lines have, of TypeCodes without --types a part, and nothing else; gives how many values
    there are."""
    found = objects(lines, *asked)
    left = {(made.get("stream", 0), made["message"]): made for made in found if "message" in made}
    assert len(left) == sum("message" in made for made in found) == sum(" start " in line for line in lines)
    told: Dict[Tuple[int, int], Dict[str, Any]] = {key: {} for key in left}
    values: Dict[Tuple[int, int], List[str]] = {key: [] for key in left}
    ends = {
        int(match[1]): (match[2], match[3])
        for match in re.finditer(r"(?m)^s(\d+) stream (\S+) > (\S+) at", text_of(lines))
    }
    over = set()
    octets: Counter[Tuple[int, int]] = Counter()
    for line in lines:
        match = MESSAGE.fullmatch(line)
        if not match:
            continue
        key = int(match[1] or 0), int(match[2])
        word, *words = match[3].split(" ")
        if word not in EVENTS:
            values[key].append(match[3])
            continue
        told[key].update(EVENTS[word](words))
        octets[key] += 12 + int(words[4]) if word == "start" else 0
        if word == "continues" and (key[0], int(words[0][1:])) not in over:
            initial = key[0], int(words[0][1:])
            told[initial]["fragments"] = told[initial].get("fragments", 0) + 1
            octets[initial] += octets.pop(key)
        over.update([key] if word in ("end", "fault", "cancelled") else [])
    if "--types" not in asked:
        values = {key: kept_of(told) for key, told in values.items()}
    for key, made in left.items():
        has = [leaf for name in VALUES if name in made for leaf in leaves({name: made.pop(name)})]
        assert is_told(has, values_of(values[key])), (key, has, values[key])
        if "fragments" in told[key]:
            told[key]["octets"] = octets[key]
        for name, value in [*told[key].items(), ("message", key[1]), *([("stream", key[0])] if key[0] else [])]:
            assert made.pop(name) == value, (key, name)
        if told[key]["type"] == "Fragment" and not {"continues", "fault"} & set(told[key]):
            assert made.pop("cut")  # the stream ended in front of its request id
        assert (made.pop("from", None), made.pop("to", None)) == ends.get(key[0], (None, None)), key
        assert ("connection" in made) == (key[0] in ends)
        made.pop("connection", None)
        assert not made, (key, made)
    totals = [list(map(int, re.findall(r" (\d+)", line))) for line in lines if " total messages " in f" {line}"]
    streams = [made for made in found if "messages" in made and "streams" not in made]
    assert [[made[name] for name in ("messages", "faults", "octets")] for made in streams] == totals
    return sum(map(len, map(values_of, values.values())))


def check_parts(lines: Sequence[str]) -> int:
    """In parts the messages of a dump have the same values in the same order, each once; gives how many parts there are."""
    parts: Dict[Tuple[int, int], List[Leaf]] = {}
    wholes: Dict[Tuple[int, int], List[Leaf]] = {}
    count = 0
    for hold, told in (("4", parts), ("65536", wholes)):
        for made in objects(lines, "--hold", hold):
            if "message" not in made:
                continue
            count += "part" in made
            has = [leaf for name in VALUES if name in made for leaf in leaves({name: made[name]})]
            kept = told.setdefault((made.get("stream", 0), made["message"]), [])
            if "offset" in made and has:
                kept[-1] = (kept[-1][0], kept[-1][1] + has.pop(0)[1])
            kept += [(re.sub(r"\d+", "", path), value) for path, value in has]
    joined = {key: [(re.sub(r"\d+", "", path), value) for path, value in told] for key, told in wholes.items()}
    assert parts == joined
    return count


def text_of(lines: Sequence[str]) -> str:
    """Lines as a text."""
    return "".join(f"{line}\n" for line in lines)


def count(text: str, pattern: str) -> int:
    """What grep -c prints."""
    return len(re.findall(rf"(?m)^(?:s\d+ )?(?:m\d+ )?{pattern}$", text))


def check_counts(lines: Sequence[str]) -> int:
    """The counts of giop-stat are those of grep -c; gives how many messages there are."""
    text = text_of(lines)
    told = json.loads(printed("giop-stat", text, "--json"))
    sums = {
        name: sum(row[name] for row in told["operations"])
        for name in ("calls", "replies", "user", "system", "faults", "gaps", "octets")
    }
    pairs = told["pairs"]
    assert sums == {name: sum(row[name] for row in pairs) for name in sums}, (sums, pairs)
    assert sums == {
        "calls": count(text, r"call .*"),
        "replies": count(text, r"start \S+ \S+ Reply .*"),
        "user": count(text, "header.reply_status enum USER_EXCEPTION"),
        "system": count(text, "header.reply_status enum SYSTEM_EXCEPTION"),
        "faults": count(text, "fault .*") + count(text, "stream fault .*"),
        "gaps": count(text, "closed gap"),
        "octets": sum(12 + int(size) for size in re.findall(r"(?m) size (\d+)(?: more)?$", text)),
    }, sums
    for row in told["operations"]:
        name = re.escape(row["operation"])
        called = re.escape(" ".join(filter(None, (row["operation"], row["interface"]))))
        if row["operation"] != "no operation":
            assert row["calls"] == count(text, rf"call \d+ {called}")
        if row["operation"] != "no operation" and not row["interface"]:
            times = [float(time) for time in re.findall(rf" answers \S+ \S+ {name} after (-?\d\S*)\n", text)]
            assert (row["seconds"] or {}).get("max", 0) == max(times, default=0)
            assert abs((row["seconds"] or {}).get("total", 0) - sum(times)) < 1e-9
    raised = Counter(re.findall(r"(?m)^s\d+ m\d+ raises (\S+)$", text))
    assert sum((Counter(row["raised"]) for row in told["operations"]), Counter()) == raised
    return text.count(" start ")


def check_chart(lines: Sequence[str], picture: bool) -> int:
    """The chart has an arrow for each message, and a name from a peer is text in its picture; gives how many arrows."""
    text = text_of(lines)
    chart = printed("giop-chart", text, "--most", "100000")
    arrows = len(re.findall(r'(?m)^  "[^"]*" (?:=>|->|>>|-x) "[^"]*" \[', chart))
    boxes = len(re.findall(r'(?m)^  "[^"]*" box "[^"]*" \[', chart))
    assert arrows == text.count(" start "), chart
    assert boxes == count(text, "closed gap") + count(text, "stream fault .*"), chart
    if picture:
        command = ["mscgen", "-T", "svg", "-o", "-"]
        drawn = subprocess.run(command, input=chart.encode(), stdout=subprocess.PIPE, timeout=60, check=True).stdout
        names = {element.tag.split("}")[-1] for element in ElementTree.fromstring(drawn).iter()}
        assert names <= {"svg", "text", "line", "polygon", "path"}, names
    return arrows


def references_in(value: Any) -> Iterator[Tuple[str, str]]:
    """The keys of the references in a value, each with the interface that it has, as giop-keys shows that."""
    if isinstance(value, dict):
        name = re.sub(r"\\x([0-9a-f]{2})", lambda found: chr(int(found[1], 16)), str(value.get("type_id", "")))
        shown = "".join(each if "!" <= each <= "~" and each != '"' else f"\\x{ord(each):02x}" for each in name)
        for profile in value.get("profiles", []) if shown not in ("", EVERY_OBJECT) else []:
            data = profile.get("profile_data")
            if isinstance(data, dict) and "object_key" in data:
                yield data["object_key"], shown
    for each in value.values() if isinstance(value, dict) else value if isinstance(value, list) else []:
        yield from references_in(each)


def check_keys(lines: Sequence[str]) -> int:
    """The keys that giop-keys finds are those of the references in the objects of giop-json; gives how many there are."""
    told = set(re.findall(r'(?m)key "(.*)" of "(.*)";$', printed("giop-keys", text_of(lines))))
    found = [(set(references_in(made)), bool({"fault", "unfinished", "cut"} & set(made))) for made in objects(lines)]
    assert told <= set().union(*(each for each, _ in found)), told
    assert told >= set().union(*(each for each, is_broken in found if not is_broken)), told
    return len(told)


def check_cuts(lines: Sequence[str]) -> int:
    """A dump that is cut after a line gives what is there; gives how many cuts there are."""
    whole = written(text_of(lines)).stdout.splitlines()
    for end in range(len(lines)):
        text = text_of(lines[:end])
        found = written(text + lines[end][: len(lines[end]) // 2]).stdout.splitlines()
        assert found == written(text).stdout.splitlines()
        objects = [json.loads(line) for line in found]
        sure = [line for line, made in zip(found, objects) if "message" in made and "cut" not in made][:-1]
        assert sure == [line for line in whole if line in set(sure)], end
        assert sum("message" in made for made in objects) == text.count(" start ")
    return len(lines)


def check_changed(draw: random.Random, lines: List[str]) -> bool:
    """A dump with a line that is changed, left out or repeated is read, or refused at a line; tells whether it's read."""
    place = draw.randrange(len(lines))
    line = lines[place]
    at = draw.randrange(len(line) + 1)
    other = line[:at] + draw.choice('0aA .[]@\\"\x1b\xe9') + line[at + 1 :]
    changes: List[List[str]] = [[], [line, line], [line[:at]], [line[at:]], [other], [other]]
    made = draw.choice(changes)
    text = text_of([*lines[:place], *made, *lines[place + 1 :]])
    done = written(text)
    assert done.returncode in (0, 3), done
    is_read = done.returncode == 0
    for program in PROGRAMS:
        try:
            printed(program, text)
        except Refused as refused:
            assert place < refused.number <= len(lines) + 1, (refused.number, place, made)
            is_read = False
    return is_read


def check_picture() -> None:
    """The picture of docs/USE.md is that of the command in front of it."""
    command = re.search(r"(?m)^    (.* -o) \S*resolve\.svg$", (TOP / "docs/USE.md").read_text())
    assert command
    path = os.pathsep.join([str(GIOPCAP.parent), str(SCRIPTS), os.environ["PATH"]])
    words = ["bash", "-o", "pipefail", "-c", f"{command[1]} -"]
    environment = dict(os.environ, PATH=path)
    done = subprocess.run(words, cwd=TOP, env=environment, capture_output=True, timeout=60)
    assert done.returncode == 0, done
    assert done.stdout == (TOP / "docs/resolve.svg").read_bytes(), "docs/resolve.svg"


def main() -> int:
    """Prints figures."""
    check_picture()
    known = generated.sorts(0)
    rows = check_rows() + check_program()
    stat_rows = check_stat_rows() + check_stat_program()
    values = parts = messages = arrows = keys = lines = 0
    for seed in range(SEEDS):
        draw = random.Random(seed)
        dumps = [dump_of(seed * WOVEN + number, known) for number in range(WOVEN)]
        for place, dump in enumerate([dumps[0], capture_of(draw, dumps)]):
            lines += len(dump)
            values += check_json(dump) + check_json(dump, "--types")
            parts += check_parts(dump)
            messages += check_counts(dump)
            arrows += check_chart(dump, picture=seed < 10) if seed < 40 else 0
            keys += check_keys(dump)
    session = SESSION.read_text().splitlines()
    values += check_json(session)
    cuts = check_cuts(session)
    read = sum(check_changed(random.Random(seed), session) for seed in range(CHANGED))
    print(
        f"views: {rows} rows and runs of giop-json, {stat_rows} of giop-stat; {lines} lines of {2 * SEEDS} dumps: {values} values in JSON, {parts} parts, {messages} counted, "
        f"{arrows} arrows, {keys} keys; {cuts} cuts; {CHANGED} changed dumps, {CHANGED - read} refused"
    )
    return 0


if __name__ == "__main__":
    sys.exit(main())
